#!/bin/sh
# Runs each script of a group in this folder, and compares what it prints with the file beside it; and the joined files of
# crates/vicos_examples with what join.sh makes. Status 0: all are as written.
here=$(dirname -- "$(readlink -f -- "$0")")
run=$here/../vicos
result=0
work=$(mktemp -d) || exit 1
trap 'rm -rf "$work"' EXIT

# The stored run has these scripts and these prints.
"$here/join.sh" "$work" || exit 1
for it in stdin stdout; do
    stored=crates/vicos_examples/$it
    diff "$here/../$stored" "$work/$it" || { echo "$stored isn't what examples/join.sh makes"; result=1; }
done

# Builds the program, where it isn't built: an empty script ends with status 5.
"$run" group </dev/null >/dev/null
[ $? -eq 5 ] || exit 1

for script in "$here"/*.vicos; do
    name=$(basename -- "$script" .vicos)
    wanted=$(cat "$here/$name.status" 2>/dev/null || echo 0)
    printed=$("$run" group <"$script")
    status=$?
    if [ "$status" -ne "$wanted" ] || [ "$printed" != "$(cat "$here/$name.out")" ]; then
        echo "$name: status $status, and printed:"
        echo "$printed"
        result=1
    fi
done
exit $result
