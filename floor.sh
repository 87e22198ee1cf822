#!/usr/bin/env bash
# Proves the static library, builds the command floor over it, and runs it with the words given.
# Exit codes: those of floor (0 answered, 1 refused, 2 the words, 3 input or output); 4 something is not proved, or not built.
set -euo pipefail
here=$(cd "$(dirname "$0")" && pwd)
library=$here/target/staticlib/libexports.a

mkdir -p "$here/target"
if [ ! -e "$library" ] || [ -n "$(find "$here/crates" "$here/crates.txt" -name out -prune -o -type f -newer "$library" -print -quit)" ]; then
    echo "floor.sh: proving the library and every crate below it: some minutes the first time, nothing while no crate changes" >&2
    if ! (cd "$here" && tools/build.sh exports) </dev/null 2>&1 | tee "$here/target/floor.log" | sed -un 's/^checked \([a-z_]*\)::.*, \([0-9]*\) of \2$/floor.sh: \1 is checked/p' >&2; then
        tail -n 20 "$here/target/floor.log" >&2
        exit 4
    fi
fi
(cd "$here" && cargo build --release --locked --quiet -p floor) </dev/null >&2 || exit 4
exec "$here/target/cargo/release/floor" "$@"
