#!/bin/sh
# Runs the kettle on some lists of signals, and judges the journals: test.sh [ENGINE]
# The status is 0 where all of them are accepted.

here=$(CDPATH='' cd -- "$(dirname -- "$0")" && pwd) || exit
engine=${1:-$here/kettle.py}
folder=$(mktemp -d) || exit
trap 'rm -rf "$folder"' EXIT

run() {
    name=$1
    shift
    python3 "$engine" "$@" >"$folder/$name.journal" || exit
}
run start
run tea Press Boiled Press
run tea-twice Press Boiled Press Press Boiled
run changed-my-mind Press Press
run dry Boiled Press Boiled
run impatient Press Boiled Boiled Press

cd "$folder" && "$here/../../bin/zawhiroke" judge-all "$here/kettle.flat" ./*.journal
