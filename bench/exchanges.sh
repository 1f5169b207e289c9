#!/usr/bin/env bash
# The time of an exchange with a service, beside libcurl: bench/exchanges.sh [TURNS]
# Builds bench/exchanges in a scratch copy of the repository, and a client in C on libcurl (Debian's libcurl4-openssl-dev). Both have one
# connection that is kept to the same service in C, and take turns. Prints the medians in microseconds, and the median of them all.
set -eu
cd "$(dirname "$0")/.."
turns=${1:-7}
source bench/scratch.sh
begin exchanges 'http_jobs job_runner gear_packets devices'
gcc -O2 -D_GNU_SOURCE -o "$scratch/service" bench/exchanges/service.c
gcc -O2 -o "$scratch/client" bench/exchanges/client.c -lcurl
"$scratch/service" > "$scratch/told" &
service=$!
trap 'kill "$service"; rm -rf "$scratch"' EXIT
until [ -s "$scratch/told" ]; do sleep 0.05; done
host="127.0.0.1:$(cat "$scratch/told")"
build "$host" 1 1
printf '%8s %12s %12s %6s\n' body exchanges libcurl ratio
for body in 0 64 4096 65536 1048576 16000000; do
    count=$((body < 65536 ? 5000 : body < 1048576 ? 1000 : body < 16000000 ? 100 : 9))
    for _ in $(seq "$turns"); do
        echo "$("$bench" "$host" "$count" "$body") $("$scratch/client" "$host" "$count" "$body")"
    done > "$scratch/turns"
    ours=$(cut -d' ' -f1 "$scratch/turns" | sort -n | sed -n "$((turns / 2 + 1))p")
    theirs=$(cut -d' ' -f2 "$scratch/turns" | sort -n | sed -n "$((turns / 2 + 1))p")
    awk -v body="$body" -v ours="$ours" -v theirs="$theirs" 'BEGIN { printf "%8d %12.1f %12.1f %6.2f\n", body, ours, theirs, ours / theirs }'
done
