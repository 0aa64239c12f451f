#!/bin/sh
# calls.sh PROGRAM [N] [FIRSTSEED]
# Runs the random calls of CALLS.md through the reference and through the program PROGRAM, on N seeds
# (200, from the clock on), 5000 calls of each layer for each seed. Stops at the first difference.
#
# calls.sh --recorded
# Says whether crates/test_calls/stdout is what the reference prints for crates/test_calls/args, and
# every refusal is among it.
set -eu

if [ $# -lt 1 ] || [ $# -gt 3 ]; then
    echo "usage: calls.sh PROGRAM [N] [FIRSTSEED]" >&2
    echo "       calls.sh --recorded" >&2
    exit 2
fi
here=$(cd "$(dirname "$0")" && pwd)
recorded=$(dirname "$here")/crates/test_calls
room=$(mktemp -d)
trap 'rm -r "$room"' EXIT

failed() {
    echo "calls.sh: $1"
    exit 1
}

# agree WHAT EXPECTED GOT: where the two files differ, says at which line first, and fails.
agree() {
    if cmp -s "$2" "$3"; then
        return
    fi
    last=$(cat "$2" "$3" | wc -l)
    line=1
    while [ "$line" -lt "$last" ] && [ "$(sed -n "${line}p" "$2")" = "$(sed -n "${line}p" "$3")" ]; do
        line=$((line + 1))
    done
    echo "reference: $(sed -n "${line}p" "$2")"
    echo "found:     $(sed -n "${line}p" "$3")"
    failed "$1 differs at line $line"
}

check_recorded() {
    # The arguments are words, one to a line.
    words=$(cat "$recorded/args")
    # shellcheck disable=SC2086
    "$reference" calls $words >"$room/expected" || failed "the reference failed"
    agree "the recorded run" "$room/expected" "$recorded/stdout"
    # The counts of the refusals are the third to the eleventh word.
    awk '$2 == "replies" { for (k = 1; k <= 9; k++) given[k] += $(k + 2) }
        END { for (k = 1; k <= 9; k++) if (given[k] == 0) exit 1 }' "$recorded/stdout" ||
        failed "the recorded run does not meet every refusal"
    echo "the recorded run is what the reference prints"
}

# check_seed SEED
check_seed() {
    "$reference" calls "$1" 5000 >"$room/expected" || failed "seed $1: the reference failed"
    "$program" "$1" 5000 >"$room/got" || failed "seed $1: the program failed"
    agree "seed $1" "$room/expected" "$room/got"
}

reference=$("$here/build.sh")
if [ "$1" = --recorded ]; then
    check_recorded
    exit
fi
if [ ! -f "$1" ]; then
    echo "calls.sh: no program $1" >&2
    exit 2
fi
program=$(readlink -f "$1")
count=${2:-200}
first=${3:-$(date +%s)}
[ "$count" -ge 1 ] || failed "no runs are asked for"
seed=$first
while [ "$seed" -lt $((first + count)) ]; do
    check_seed "$seed"
    seed=$((seed + 1))
done
echo "$count runs of random calls agree, seeds from $first"
