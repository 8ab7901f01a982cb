#!/bin/sh
# Runs the golden tests against a program.
#
#   sh run.sh PROGRAM [FOLDER..]
#
# FOLDER is the name of a folder beside this script, or a path of one. Without a folder all of them run, and the examples. The last line
# says how many passed and failed. The status is 0 if some passed and none failed, 1 if some failed, and 2 if nothing could be run.
if [ $# -lt 1 ]; then
    echo "usage: run.sh PROGRAM [FOLDER..]" >&2
    exit 2
fi
exec python3 "$(dirname "$0")/golden.py" run "$@"
