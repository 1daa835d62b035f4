#!/usr/bin/env bash
# Compares the library with the C reference and with the plain heap: every answer and every word of every buffer. Then levels under
# several tunings are compared with each other.
#
#   tests/reference/run.sh [ARCHIVE]
#
# Without ARCHIVE the library is built first (tests/build.sh). Every call that include/pakzid.h declares must come
# from the archive. One run has a fixed seed and one a fresh seed, which is printed: build/reference/compare SEED COUNT
# repeats it. (COUNT, from the environment or 2000, is the number of short call lists.)
set -euo pipefail

archive=${1:-}
if [ -n "$archive" ]; then archive=$(realpath -- "$archive"); fi
cd "$(dirname "$0")/../.."

here=tests/reference
out=build/reference
count=${COUNT:-2000}
flags=(-std=c11 -O2 -Wall -Wextra -I include -I "$here")

die() {
    printf 'reference: %s\n' "$*" >&2
    exit 1
}

if [ -z "$archive" ]; then
    bash tests/build.sh archive
    archive=build/libpakzid.a
fi
[ -f "$archive" ] || die "there is no archive $archive"

# Each call of the header is a function of the archive. The archive is taken whole below, so that a second definition of
# one of its names, in the reference or the harness, is an error of the linker.
mapfile -t declared < <(grep -oE '\bpakzid_[a-z_]+\(' include/pakzid.h | tr -d '(' | sort -u)
[ "${#declared[@]}" -ge 14 ] || die "only ${#declared[@]} calls found in include/pakzid.h"
functions=$(nm --defined-only --extern-only -- "$archive") || die "nm cannot read $archive"
for name in "${declared[@]}"; do
    grep -qE " T $name\$" <<<"$functions" || die "the archive does not define $name"
done
printf 'from the archive (%d): %s\n' "${#declared[@]}" "${declared[*]}"

rm -rf "$out"
mkdir -p "$out"
gcc "${flags[@]}" -o "$out/compare" "$here/compare.c" "$here/reference.c" "$here/plain.c" \
    -Wl,--whole-archive "$archive" -Wl,--no-whole-archive

fresh=$(od -An -N8 -tu8 /dev/urandom | tr -d ' ')
for seed in 1 "$fresh"; do
    printf '\ncompare, seed %s, count %s\n' "$seed" "$count"
    if ! "$out/compare" "$seed" "$count" >"$out/compare.$seed.txt" 2>&1; then
        cat "$out/compare.$seed.txt"
        die "differences with seed $seed, count $count"
    fi
    grep -E ' cases ' "$out/compare.$seed.txt"
    checks=$(sed -nE 's/^([1-9][0-9]*) passed, 0 failed$/\1/p' "$out/compare.$seed.txt")
    [ -n "$checks" ] || die "no check passed with seed $seed"
    printf '%s checks passed\n' "$checks"
done

# The program that times tunings, for one round: it ends with another status than 0 if one of them changes what is freed, kept or left.
gcc "${flags[@]}" -o "$out/tuning" "$here/tuning.c" "$archive"
"$out/tuning" 1 >"$out/tuning.txt" || die "a tuning changes what a game sees, or a call was refused"
rows=$(grep -cE '^\| +[0-9]* \| +[0-9]* \| +[0-9]* \| +[0-9]+ \|' "$out/tuning.txt") || die "no tuning was tried"
printf '\n%d levels and tunings: the same objects freed and kept\n' "$rows"
