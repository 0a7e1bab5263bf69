#!/bin/sh
# Runs the program on the examples, and once for each way in which a run can end: checks/check.sh does it, and says more.
#
#     examples/check.sh [PROGRAM]       without PROGRAM: the one that ./gmus runs, which it builds where that is due
exec "$(dirname -- "$0")/../checks/check.sh" "$@"
