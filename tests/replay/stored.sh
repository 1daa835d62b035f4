#!/usr/bin/env bash
# The stored reports on the example levels are those of the program replay, and those of expected.c, which runs the calls by the C
# reference and the plain heap. That on trials.calls is stored beside the program, and rt compares it with what the program prints.
#
#   tests/replay/stored.sh PROGRAM
set -euo pipefail
replay=$(realpath -- "$1")
cd "$(dirname "$0")/../.."
out=build/replay
mkdir -p "$out"

die() {
    printf 'stored reports: %s\n' "$*" >&2
    exit 1
}

flags=(-std=c11 -O2 -Wall -Wextra -I include -I tests/reference)
gcc "${flags[@]}" -o "$out/expected" tests/replay/expected.c tests/reference/reference.c tests/reference/plain.c
gcc "${flags[@]}" -o "$out/level" tests/replay/level.c

cmp crates/replay/data/trials.calls examples/trials.calls || die "the program reads another list than examples/trials.calls"
"$out/level" | cmp - examples/large.calls || die "level.c writes another list than examples/large.calls"

# stored REPORT LIST [LIST]: expected.c and replay both print this report.
stored() {
    local report=$1
    shift
    "$out/expected" "$@" | cmp - "$report" || die "expected.c on $*"
    "$replay" "$@" | cmp - "$report" || die "replay on $*"
}

stored crates/replay/stdout examples/trials.calls
stored tests/replay/stored/switch.txt examples/switch-412.calls examples/switch-415.calls
stored tests/replay/stored/large.txt examples/large.calls
stored tests/replay/stored/save.txt examples/save.calls
stored tests/replay/stored/tuned.txt examples/tuned.calls
echo "stored reports: ok"
