#!/bin/sh
# compare.sh REPLAY [N] [FIRSTSEED]
# Runs N random traces of all kinds (4000, from a fresh seed) through the reference's replay and
# through the program REPLAY. Stops at the first difference and leaves its files behind.
set -eu

if [ $# -lt 1 ] || [ $# -gt 3 ]; then
    echo "usage: compare.sh REPLAY [N] [FIRSTSEED]" >&2
    exit 2
fi
if [ ! -f "$1" ]; then
    echo "compare.sh: no program $1" >&2
    exit 2
fi
here=$(cd "$(dirname "$0")" && pwd)
replay=$(readlink -f "$1")
count=${2:-4000}
first=${3:-$(od -An -N4 -tu4 /dev/urandom | tr -d ' ')}

reference=$("$here/build.sh")
keep=$(mktemp -d)
status=0
"$reference" against "$first" "$count" "$keep" "$replay" || status=$?
# Removed unless a difference was left in it.
rmdir "$keep" 2>/dev/null || true
exit "$status"
