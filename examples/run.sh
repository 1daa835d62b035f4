#!/usr/bin/env bash
# Builds each example with the archive, runs it and compares what it prints with the file NAME.expected. The archive is that of the
# argument, or one that is built first (tests/build.sh).
set -euo pipefail

archive=${1:-}
if [ -n "$archive" ]; then archive=$(realpath -- "$archive"); fi
cd "$(dirname "$0")/.."

if [ -z "$archive" ]; then
    bash tests/build.sh archive
    archive=build/libpakzid.a
fi
mkdir -p build/examples
for source in examples/*.c; do
    name=$(basename "$source" .c)
    gcc -std=c11 -O2 -Wall -Wextra -I include -o "build/examples/$name" "$source" "$archive"
    "build/examples/$name" | diff "examples/$name.expected" -
    printf 'example %s: ok\n' "$name"
done
