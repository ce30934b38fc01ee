#!/bin/sh
# Judges the journals of a batch on a machine that has the program, the model, and nothing else of this repository:
#
#   judge-batch.sh PROGRAM MODEL BATCH.tar
#
# It prints a line PATH<tab>ANSWER for each. A journal that is refused has its answer, so the status is 0. Where a journal has
# none (the program is not there, a file cannot be read, memory is short) it ends there with the status of that fault, so that
# another machine may try the batch.

program=$(realpath "$1") && model=$(realpath "$2") && batch=$(realpath "$3") || exit
folder=$(mktemp -d) || exit
trap 'rm -rf "$folder"' EXIT
cd "$folder" && tar -xf "$batch" || exit
tar -tf "$batch" | while read -r journal; do
    answer=$("$program" judge "$model" "$journal")
    status=$?
    case $status in
        0 | 1 | 3 | 4 | 8 | 9) printf '%s\t%s\n' "$journal" "$answer" ;;
        *) exit "$status" ;;
    esac
done
