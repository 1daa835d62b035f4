#!/usr/bin/env bash
# Proves and builds the archive build/libpakzid.a and the program build/bin/replay.
#
#   tests/build.sh [archive|replay]
#
# rt begins with what an earlier check kept in out/, so that only what changed is proved again.
set -euo pipefail
cd "$(dirname "$0")/.."
what=${1:-archive replay}
mkdir -p build/bin

if [[ " $what " == *' archive '* ]]; then
    (cd crates/pakzid && rt lib) >build/lib.txt 2>&1 || { tail -n 40 build/lib.txt >&2; exit 1; }
    cp crates/pakzid/out/libpakzid.a build/libpakzid.a
fi
if [[ " $what " == *' replay '* ]]; then
    (cd crates/replay && rt run -- --help) >build/run.txt 2>&1 || { tail -n 40 build/run.txt >&2; exit 1; }
    cp crates/replay/out/replay build/bin/replay
fi
