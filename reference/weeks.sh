#!/bin/sh
# weeks.sh PROGRAM [N] [FIRSTSEED]
# Makes N random weeks of sites (40, from a fresh seed) and prints their share sheets by the reference
# and by the program PROGRAM. Stops at the first difference and leaves its files behind.
set -eu

if [ $# -lt 1 ] || [ $# -gt 3 ]; then
    echo "usage: weeks.sh PROGRAM [N] [FIRSTSEED]" >&2
    exit 2
fi
if [ ! -f "$1" ]; then
    echo "weeks.sh: no program $1" >&2
    exit 2
fi
here=$(cd "$(dirname "$0")" && pwd)
program=$(readlink -f "$1")
count=${2:-40}
first=${3:-$(od -An -N4 -tu4 /dev/urandom | tr -d ' ')}

reference=$("$here/build.sh")
keep=$(mktemp -d)
status=0
"$reference" weeks "$first" "$count" "$keep" "$program" || status=$?
# Removed unless a difference was left in it.
rmdir "$keep" 2>/dev/null || true
exit "$status"
