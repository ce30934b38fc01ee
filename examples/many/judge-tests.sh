#!/bin/sh
# Runs the tests of the lift in the current folder, and judges their journals. All answers stand in answers.tsv; those that do
# not accept are shown. The status is 0 where all are accepted. With --mistakes the tests are those of a lift with mistakes.

root=$(dirname -- "$0")/../..
rm -rf test-journals
python3 "$root/examples/many/lift.py" "$@" test-journals || exit
"$root/bin/zawhiroke" judge-all "$root/examples/many/lift.flat" test-journals/*.journal >answers.tsv
status=$?
awk -F '\t' '$2 !~ /^accept /' answers.tsv
exit "$status"
