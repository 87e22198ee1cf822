#!/usr/bin/env bash
# Proves and builds the program moments, and runs it on a log: the bench log, or the file named.
# Exit codes: 0 the program has run, also where it refuses the log; 1 something is not proved, or a read or a write failed; 2 no file to
# read, or wrong use.
set -euo pipefail

wrong() {
    echo "answer.sh: $1" >&2
    exit 2
}

[ $# -le 1 ] || wrong "usage: answer.sh [LOG]"
log=${1-$(dirname "$0")/crates/moments/stdin}
[ -e "$log" ] || wrong "$log: no such file"
[ ! -d "$log" ] || wrong "$log: a directory, not a log"
[ -r "$log" ] || wrong "$log: cannot be read"
exec 3<"$log" || wrong "$log: cannot be opened"
cd "$(dirname "$0")"

mkdir -p target
if [ ! -e target/bin/moments ] || [ -n "$(find crates crates.txt -name out -prune -o -type f -newer target/bin/moments -print -quit)" ]; then
    echo "answer.sh: proving moments and every crate below it: some minutes the first time, nothing while no crate changes" >&2
fi
if ! tools/build.sh moments </dev/null 2>&1 3<&- | tee target/moments.log | sed -un 's/^checked \([a-z_]*\)::.*, \([0-9]*\) of \2$/answer.sh: \1 is checked/p' >&2; then
    tail -n 20 target/moments.log >&2
    exit 1
fi
exec target/bin/moments <&3 3<&-
