#!/usr/bin/env bash
# Runs replay on the examples, on random lists, on large ones and on wrong ones. Its reports must be those of expected.c, which runs
# the calls by the C reference and the plain heap.
#
#   tests/replay/run.sh [PROGRAM]
#
# Without PROGRAM the program is proved and built first (tests/build.sh). Half of the random lists have fixed seeds and half have fresh ones, from a first that is
# printed. COUNT, from the environment or 200, is how many seeds there are: each gives a list alone and a pair of lists.
set -euo pipefail

program=${1:-}
if [ -n "$program" ]; then program=$(realpath -- "$program"); fi
cd "$(dirname "$0")/../.."
if [ -z "$program" ]; then bash tests/build.sh replay; fi
replay=${program:-$PWD/build/bin/replay}
count=${COUNT:-200}
out=build/replay
mkdir -p "$out"

die() {
    printf 'replay: %s\n' "$*" >&2
    exit 1
}

[ -x "$replay" ] || die "there is no program $replay"

# build NAME SOURCE...: a C program of this folder, with what it needs.
build() {
    local name=$1
    shift
    gcc -std=c11 -O2 -Wall -Wextra -I include -I tests/reference -o "$out/$name" "tests/replay/$name.c" "$@"
}

build expected tests/reference/reference.c tests/reference/plain.c
build lists tests/reference/plain.c
build large

# same WHAT LIST [LIST]: replay and expected.c print the same report, which stays in expected.txt.
same() {
    local what=$1
    shift
    timeout 60 "$replay" "$@" >"$out/replay.txt" 2>"$out/replay.err" || die "$what: replay failed"
    [ ! -s "$out/replay.err" ] || die "$what: $(cat "$out/replay.err")"
    "$out/expected" "$@" >"$out/expected.txt" || die "$what: expected.c cannot read $*"
    cmp "$out/replay.txt" "$out/expected.txt" || die "$what: the reports on $* differ"
}

# The examples.
same "trials.calls" examples/trials.calls
same "switch" examples/switch-412.calls examples/switch-415.calls
same "large.calls" examples/large.calls
same "save.calls" examples/save.calls
same "tuned.calls" examples/tuned.calls

# A list of 100,000 calls.
"$out/large" >"$out/large.calls"
same "100,000 calls" "$out/large.calls"
[ "$(tail -n 1 "$out/expected.txt")" = "The columns agree." ] || die "100,000 calls"

# The largest heap, filled, with 64 sinks and one refused, and the longest image: the left list frees all objects and is given them again; on the right each one is
# named until the end.
{
    printf 'create 4095 64\n'
    printf 'allocate 8%.0s\n' {1..4096}
    printf 'sink %d\n' {1..65}
    printf 'save\nload\n'
    printf 'read %d 0\n' {1..4094}
    printf 'root 63 nil\ncollect clusters\n'
    printf 'allocate 0%.0s\n' {1..4095}
} >"$out/full-left.calls"
{
    printf 'create 4095 64\n'
    printf 'allocate 8%.0s\n' {1..4096}
    printf 'sink %d\n' {1..65}
    printf 'save\nload\n'
    for ((i = 1; i < 4095; i++)); do printf 'write %d 7 %d\n' "$i" $((i + 1)); done
    printf 'root 63 1\ncollect plain\n'
    printf 'show %d\n' {1..4095}
} >"$out/full-right.calls"
same "4,095 objects" "$out/full-left.calls"
same "4,095 objects, right" "$out/full-right.calls"
grep -q 'save *| bytes 147836 *| bytes 147836$' "$out/expected.txt" || die "the longest image"
[ "$(grep -c 'sink 65 *| refused 29: 64 sinks are *| refused 29: 64 sinks are$' "$out/expected.txt")" = 1 ] || die "64 sinks"
same "4,095 objects, both" "$out/full-left.calls" "$out/full-right.calls"
[ "$(grep -c 'given again' "$out/expected.txt")" = 4095 ] || die "4,095 objects do not all change hands"

# A show answers words, not the object that has them: these two agree.
printf 'create 2 1\nallocate 1\nallocate 1\nshow 1\n' >"$out/left.calls"
printf 'create 2 1\nallocate 1\nallocate 1\nshow 2\n' >"$out/right.calls"
same "show" "$out/left.calls" "$out/right.calls"
[ "$(tail -n 1 "$out/expected.txt")" = "The columns agree." ] || die "show"

# A save of as many bytes as another is the same answer, whatever they hold: these two differ where the heap that is loaded does.
printf 'create 2 1\nallocate 1\nwrite 1 0 nil\nsave\nload\nread 1 0\n' >"$out/left.calls"
printf 'create 2 1\nallocate 1\nwrite 1 0 1\nsave\nload\nread 1 0\n' >"$out/right.calls"
same "save" "$out/left.calls" "$out/right.calls"
[ "$(tail -n 1 "$out/expected.txt")" = "The columns differ first at line 6 (build that wrote) and line 6 (build that loaded)." ] || die "save"

# The numbers of the analysis change no answer: tuned.calls agrees with itself run with the usual ones, and only on the right there are clusters.
sed 's/^create .*/create 16 2/' examples/tuned.calls >"$out/usual.calls"
same "usual numbers" "$out/usual.calls" examples/tuned.calls
[ "$(tail -n 1 "$out/expected.txt")" = "The columns agree." ] || die "usual numbers"
[ "$(grep -c 'analyse  *|.* | clusters 2, members 6$' "$out/expected.txt")" = 1 ] || die "clusters of three"

# The first and the last number of each range are accepted, and the next ones are refused, with every call after them; sizes come first.
for numbers in '1 0 1' '4095 80 4095'; do
    printf 'create 2 1 %s\nallocate 1\nanalyse\nsave\nload\ncollect clusters\n' "$numbers" >"$out/left.calls"
    same "create 2 1 $numbers" "$out/left.calls"
    if grep -q 'refused' "$out/expected.txt"; then die "create 2 1 $numbers is refused"; fi
done
for numbers in '0 25 8' '4096 25 8' '4 81 8' '4 25 0' '4 25 4096' '0 81 4294967295'; do
    printf 'create 2 1 %s\nallocate 1\nsave\nload\n' "$numbers" >"$out/left.calls"
    same "create 2 1 $numbers" "$out/left.calls"
    [ "$(grep -c 'refused 30: an analysis number | refused 30: an analysis number$' "$out/expected.txt")" = 2 ] || die "create 2 1 $numbers"
done
printf 'create 2 65 0 25 8\n' >"$out/left.calls"
same "sizes first" "$out/left.calls"
grep -q 'refused 1: sizes out of range' "$out/expected.txt" || die "sizes first"

# A create with the usual numbers and one that names zeros are two calls, not one.
printf 'create 2 1\n' >"$out/left.calls"
printf 'create 2 1 0 0 0\n' >"$out/right.calls"
same "zeros named" "$out/left.calls" "$out/right.calls"
[ "$(tail -n 1 "$out/expected.txt")" = "The columns differ first at line 1 (build that wrote) and line 1 (build that loaded)." ] || die "zeros named"

# Random lists. Each ending that a report may have, objects that changed hands, saves, loads before and after them, a
# sink too many and a number of the analysis that is refused must occur.
fresh=$(od -An -N4 -tu4 /dev/urandom | tr -d ' ')
printf 'replay: random lists, seeds 1 to %d and from %d on\n' $((count / 2)) "$fresh"
: >"$out/ends.txt"
alone=0
pairs=0
for ((i = 1; i <= count; i++)); do
    seed=$((i <= count / 2 ? i : fresh + i))
    change=$("$out/lists" "$seed" "$out/left.calls" "$out/right.calls")
    same "seed $seed" "$out/left.calls"
    alone=$((alone + 1))
    same "seed $seed, $change" "$out/left.calls" "$out/right.calls"
    pairs=$((pairs + 1))
    grep -E '^The columns|given again|, (save|load) |refused (29|30)' "$out/expected.txt" >>"$out/ends.txt"
done
[ "$alone" -gt 0 ] && [ "$pairs" -gt 0 ] || die "no random list was compared"
for end in 'agree\.' 'differ first at' 'differ in what survives' 'wrote has more calls' 'loaded has more calls' 'while slot' 'while root' \
    ', save  *| bytes' ', load  *| objects' ', load  *| refused 26' 'refused 29: 64 sinks are' 'refused 30: an analysis number'; do
    grep -q -- "$end" "$out/ends.txt" || die "no report on random lists has: $end"
done
printf 'replay: %d random lists and %d random pairs compared, %d objects changed hands\n' \
    "$alone" "$pairs" "$(grep -c 'given again' "$out/ends.txt")"

# refused TEXT LIST [LIST]: replay prints this text on standard error, and nothing else.
refused() {
    local text=$1
    shift
    timeout 60 "$replay" "$@" >"$out/wrong.out" 2>"$out/wrong.err" || true
    if [ -s "$out/wrong.out" ]; then die "a report on wrong lists: $*"; fi
    printf '%s\n' "$text" | cmp - "$out/wrong.err" || die "$* (expected: $text)"
}

# refuses TEXT LIST: the list, given with \n for a new line, is refused with this text, alone and beside a list that is right.
refuses() {
    printf "$2" >"$out/wrong.calls"
    refused "$out/wrong.calls$1" "$out/wrong.calls"
    refused "$out/wrong.calls$1" examples/trials.calls "$out/wrong.calls"
    if "$out/expected" "$out/wrong.calls" >"$out/wrong.out" 2>&1; then die "expected.c reads a wrong list: $2"; fi
}

refuses ': expected create, and the list has no call' ''
refuses ': expected create, and the list has no call' '# nothing\n\nwrote 412\n'
refuses ', line 1: expected create, which is the first call of a list' 'allocate 1\ncreate 1 1\n'
refuses ', line 2: a second create, and a list has one' 'create 1 1\ncreate 1 1\n'
refuses ', line 3: expected the name of a call' 'create 1 1\n\nalocate 1\n'
refuses ', line 2: expected a number' 'create 1 1\nallocate\n'
refuses ', line 2: expected a number' 'create 1 1\nallocate -1\n'
refuses ', line 2: expected a number below 4294967296' 'create 1 1\nroot 0 0x100000000\n'
refuses ', line 2: expected the end of the line' 'create 1 1\nsink 1 1\n'
refuses ', line 2: expected the end of the line' 'create 1 1\nsave 1\n'
refuses ', line 3: expected the end of the line' 'create 1 1\nsave\nload heap.img\n'
refuses ', line 1: expected create, which is the first call of a list' 'load\ncreate 1 1\n'
refuses ', line 1: expected a number' 'create 16\n'
refuses ', line 1: expected a number' 'create 16 2 3\n'
refuses ', line 1: expected a number' 'create 16 2 3 25 # 8\n'
refuses ', line 1: expected a number' 'create 16 2 x\n'
refuses ', line 1: expected a number below 4294967296' 'create 16 2 3 4294967296 8\n'
refuses ', line 1: expected the end of the line' 'create 16 2 3 4 5 6\n'
refuses ', line 2: expected the end of the line' 'create 1 1\nwrite 1 0 0 0 0\n'
refuses ', line 2: a second create, and a list has one' 'create 1 1\ncreate 1 1 3 25 8\n'
refuses ', line 2: expected plain or clusters' 'create 1 1\ncollect all\n'
refuses ', line 1: expected a name' 'wrote # nobody\n'
refuses ', line 2: the line is longer than 4096 bytes' "create 1 1\n$(printf '%4097s' '')\n"

# Lists that cannot be read: none there, a folder, a pipe.
refused "$out/missing.calls: No such file or directory" "$out/missing.calls"
refused "$out/missing.calls: No such file or directory" examples/trials.calls "$out/missing.calls"
refused "$out: Is a directory" "$out"
rm -f "$out/pipe"
mkfifo "$out/pipe"
cat examples/trials.calls >"$out/pipe" &
writer=$!
refused "$out/pipe: Illegal seek" "$out/pipe"
kill "$writer" 2>/dev/null || true
wait "$writer" || true

# How it is used: for no list and for three on standard error, for --help on standard output.
usage='usage: replay LIST [LIST]
Runs one call list plainly and as it is listed, or two call lists, and reports in two columns what was answered and what survives.'
refused "$usage"
refused "$usage" examples/trials.calls examples/trials.calls examples/trials.calls
printf '%s\n' "$usage" | cmp - <("$replay" --help) || die "--help"

echo "replay: ok"
