#!/usr/bin/env bash
# Proves and builds what is named: moments, the program, as target/bin/moments; exports, the static library, as
# target/staticlib/libexports.a. What rt says goes to standard output. Exit code 1 where something is not proved or not built.
set -euo pipefail
cd "$(dirname "$0")/.."

built() { # FROM TO: puts a file in its place, where it is another than the one there
    mkdir -p "$(dirname "$2")"
    cmp -s "$1" "$2" || cp "$1" "$2"
    touch "$2"
}

for name in "$@"; do
    case $name in
        moments)
            # rt builds a program where it runs it: on a file with no byte, which is refused.
            (cd crates/moments && rt run </dev/null) || exit 1
            built crates/moments/out/moments target/bin/moments
            ;;
        exports)
            (cd crates/exports && rt lib </dev/null) || exit 1
            built crates/exports/out/libexports.a target/staticlib/libexports.a
            ;;
        *)
            echo "usage: build.sh [moments] [exports]" >&2
            exit 2
            ;;
    esac
done
