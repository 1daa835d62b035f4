#!/usr/bin/env bash
# Runs each C test of this folder against the archive: that of the argument, or one that is built first (tests/build.sh).
set -euo pipefail

archive=${1:-}
if [ -n "$archive" ]; then archive=$(realpath -- "$archive"); fi
cd "$(dirname "$0")/../.."

if [ -z "$archive" ]; then
    bash tests/build.sh archive
    archive=build/libpakzid.a
fi
mkdir -p build/c
for source in tests/c/*.c; do
    name=$(basename "$source" .c)
    gcc -std=c11 -O2 -Wall -Wextra -I include -o "build/c/$name" "$source" "$archive"
    "build/c/$name"
done
