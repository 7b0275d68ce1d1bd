#!/bin/sh
# Joins the scripts of a group in this folder, each below a head `--- NAME`, and what they print, each with its head and a line
# `status N`: they are the stored run of crates/vicos_examples. Writes the files stdin and stdout of that crate, or of the folder
# that is named: examples/join.sh [FOLDER]. Status 0: both are written.
here=$(dirname -- "$(readlink -f -- "$0")")
to=${1:-$here/../crates/vicos_examples}
LC_ALL=C # the order of names is the same everywhere

# Each file ends with a line's end, and none of its lines looks like a head.
fits() {
    [ -r "$1" ] && [ -z "$(tail -c 1 "$1")" ] && ! grep -q '^--- ' "$1"
}

for script in "$here"/*.vicos; do
    for file in "$script" "${script%.vicos}.out"; do
        fits "$file" || { echo "$file: missing, no line's end at its end, or a line as a head" >&2; exit 1; }
    done
done

: >"$to/stdin" && : >"$to/stdout" || exit 1
for script in "$here"/*.vicos; do
    name=$(basename -- "$script" .vicos)
    status=$(cat "$here/$name.status" 2>/dev/null || echo 0)
    { echo "--- $name"; cat "$script"; } >>"$to/stdin"
    { echo "--- $name"; cat "$here/$name.out"; echo "status $status"; } >>"$to/stdout"
done
