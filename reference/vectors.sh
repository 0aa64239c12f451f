#!/bin/sh
# vectors.sh DIR
# Writes recorded vectors into DIR: NAME.in, and NAME.out with what the reference's replay prints.
set -eu

if [ $# -ne 1 ]; then
    echo "usage: vectors.sh DIR" >&2
    exit 2
fi
here=$(cd "$(dirname "$0")" && pwd)
directory=$1
reference=$("$here/build.sh")

# Records only what agrees with the outputs worked out by hand.
if ! "$reference" rows >/dev/null; then
    echo "vectors.sh: the reference fails its own rows" >&2
    exit 1
fi
mkdir -p "$directory"

# record NAME COMMAND..: the command prints the input.
record() {
    name=$directory/$1
    shift
    "$@" >"$name.in"
    "$reference" replay <"$name.in" >"$name.out"
}

cases=$("$reference" cases)
for case in $cases; do
    record "$case" "$reference" case "$case"
done

for kind in steady bursts onoff extremes refusals mixed; do
    for seed in 1 2 3 4 5; do
        record "trace-$kind-$seed" "$reference" trace "$kind" "$seed"
    done
done
for kind in damaged scraps; do
    for seed in 1 2 3 4 5 6 7 8 9; do
        record "trace-$kind-$seed" "$reference" trace "$kind" "$seed"
    done
done
# Just below the longest input, exactly it, exactly it but cut, and one byte more.
for seed in 5 11 1 2; do
    record "trace-long-$seed" "$reference" trace long "$seed"
done
