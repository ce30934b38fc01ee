#!/bin/sh
# Runs the washing machine on Qt SCXML, and turns its logs into journals.
#
#   examples/engines/washer/washer.sh FOLDER
#
# It writes FOLDER/wash.log and FOLDER/wash.journal, a load that is washed while someone tries the door; FOLDER/unload.log and FOLDER/unload.journal have
# the same, and then the door is opened. Judge them:
#
#   bin/zawhiroke judge examples/engines/washer/washer.flat FOLDER/wash.journal
#   bin/zawhiroke judge examples/engines/washer/washer.flat FOLDER/unload.journal
#
# It needs g++ and Debian's qt6-scxml-dev.
set -e
here=$(CDPATH='' cd -- "$(dirname -- "$0")" && pwd)
mkdir -p "$1"
# shellcheck disable=SC2046
g++ -O1 -fPIC "$here/../qt_scxml.cpp" -o "$1/qt_scxml" $(pkg-config --cflags --libs Qt6Scxml)
run() {
    name=$1
    shift
    "$folder/qt_scxml" "$here/washer.scxml" "$@" >"$folder/$name.log"
    python3 "$here/../convert.py" "$here/washer.flat" "$folder/$name.log" >"$folder/$name.journal"
}
folder=$1
run wash Power Start Timer Open Timer Timer
run unload Power Start Timer Open Timer Timer Open
