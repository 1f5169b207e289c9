#!/usr/bin/env bash
# Jobs per second of one session: bench/sessions.sh [JOBS]
# Builds bench/sessions in a scratch copy of the repository. Over memory the link gives each job as soon as it is read, and the figures
# are those of the session and of its pool alone; over a socket a small server in C gives a job at each request and waits for its answer.
set -eu
cd "$(dirname "$0")/.."
jobs=${1:-200000}
source bench/scratch.sh
begin sessions 'tests_job_runner job_runner pool_core pool_settings worker_state gear_status byte_io devices gear_packets plan_model'
build memory 1 1
gcc -O2 -o "$scratch/server" bench/sessions/server.c
# Over memory: jobs and bytes of a body.
memory() {
    figures=$(/usr/bin/time -f '%e %M' "$bench" memory "$1" "$2" 2>&1)
    awk -v jobs="$1" -v body="$2" -v figures="$figures" 'BEGIN {
        split(figures, f, /[ \n]/)
        printf "%-8s %8d %10d %12.0f %14.1f %10d\n", "memory", body, f[1], f[1] / f[3], f[2] / f[1], f[4]
    }'
}
# Over a socket: the same.
socket() {
    rm -f "$scratch/told"
    "$scratch/server" "$1" "$2" > "$scratch/told" &
    server=$!
    until [ -s "$scratch/told" ]; do sleep 0.05; done
    peak=$(/usr/bin/time -f '%M' "$bench" socket "127.0.0.1:$(head -1 "$scratch/told")" 2>&1 > /dev/null)
    wait "$server"
    awk -v body="$2" -v told="$(tail -1 "$scratch/told")" -v peak="$peak" 'BEGIN {
        split(told, t, " ")
        printf "%-8s %8d %10d %12.0f %14s %10d\n", "socket", body, t[1], t[1] / t[2], "", peak
    }'
}
printf '%-8s %8s %10s %12s %14s %10s\n' link body jobs 'jobs/s' 'bytes written' 'peak KiB'
for body in 64 65536 16000000; do
    count=$((body == 64 ? jobs : body == 65536 ? jobs / 50 : 20))
    memory "$count" "$body"
    socket "$count" "$body"
done
