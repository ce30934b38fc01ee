#!/bin/sh
# Judges the journals that expected.tsv names, and compares the answers with it. Differences are shown, `<` what is
# owed and `>` what came; the status is 0 where there are none.

cd -- "$(dirname -- "$0")" || exit
answers=$(mktemp) || exit
trap 'rm -f "$answers"' EXIT

# The highest status of the answers is 1, since some journals are refused. A higher one is a fault.
cut -f 1 expected.tsv | ../../bin/zawhiroke --quiet judge-all lift.flat >"$answers"
status=$?
[ "$status" -le 1 ] || exit "$status"
cut -f 1,2 expected.tsv | diff - "$answers" || exit 1
echo "$(wc -l <"$answers") answers, all as in expected.tsv"
