#!/usr/bin/env bash
# How far a hundred thousand workers, planned in parts, are from the best plan of the whole: bench/scale.sh [PROGRAM]
# bench/scale/measure.py says what it prints. Without a PROGRAM it takes the one that `rt run` left in crates/poolman/out, and if there is
# none it prints what the plain program finds.
set -eu
cd "$(dirname "$0")/.."
program=${1:-crates/poolman/out/poolman}
[ $# -gt 0 ] || [ -x "$program" ] || program=
exec python3 bench/scale/measure.py ${program:+"$program"}
