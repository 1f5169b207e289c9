#!/usr/bin/env bash
# Time and memory of an assignment that comes in pieces: bench/packets.sh [PIECE]
# Builds bench/packets in a scratch copy of the repository, and runs it over bodies of 1 to 16 MiB. The time is that of
# one body, from a run over 32 of them; the memory is the peak of that run.
set -eu
cd "$(dirname "$0")/.."
piece=${1:-4096}
source bench/scratch.sh
begin packets 'gear_packets'
build 16 16 1
printf '%12s %8s %14s %10s\n' 'body bytes' piece 'milliseconds' 'peak KiB'
for mebibytes in 1 2 4 8 16; do
    body=$((mebibytes * 1048576))
    figures=$(/usr/bin/time -f '%e %M' "$bench" $((body - 4)) "$piece" 32 2>&1 > /dev/null)
    awk -v body=$body -v piece="$piece" -v figures="$figures" \
        'BEGIN { split(figures, f, " "); printf "%12d %8d %14.2f %10d\n", body, piece, f[1] * 1000 / 32, f[2] }'
done
