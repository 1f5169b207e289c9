#!/usr/bin/env bash
# Memory and processor time of idle sessions: bench/farm.sh [SECONDS]
# Builds the program in a scratch copy of the repository, and runs it with 1, 1,024 and 4,096 workers over a server that has no job. When all
# workers sleep it waits for so many seconds, 20 where none are given, and prints what the program holds of memory and what processor time it
# took meanwhile. With PROGRAM in the environment it runs that one.
set -eu
cd "$(dirname "$0")/.."
seconds=${1:-20}
scratch=$(mktemp -d)
trap 'rm -rf "$scratch"' EXIT
if [ -z "${PROGRAM:-}" ]; then
    git -C "$scratch" init -q
    cp -r HANDLES crates.txt crates "$scratch/"
    (cd "$scratch/crates/poolman" && rt run -- --version > "$scratch/build.log" 2>&1) || true
    PROGRAM="$scratch/crates/poolman/out/poolman"
    [ -x "$PROGRAM" ] || { tail -20 "$scratch/build.log"; exit 1; }
fi

# So many workers, a lull of so many milliseconds, and a plan each so many.
settings() {
    printf 'version = 1\nserver = "127.0.0.1:%d"\nlull_ms = %d\nround_ms = %d\n[functions.echo]\n' "$1" "$3" "$4"
    printf '[machines.a]\nworkers = %d\nfunctions = ["echo"]\n' "$2"
}
# The field of the program's status, in KiB.
held() { awk -v field="$1:" '$1 == field { print $2 }' "/proc/$child/status"; }
# The clock ticks that the program used.
used() { awk '{ print $14 + $15 }' "/proc/$child/stat"; }
# So many workers, a lull, a pause between plans.
idle() {
    mkfifo "$scratch/end"
    python3 bench/farm/server.py "$1" < "$scratch/end" > "$scratch/told" &
    server=$!
    exec 3> "$scratch/end"
    until [ -s "$scratch/told" ]; do sleep 0.1; done
    settings "$(head -1 "$scratch/told")" "$1" "$2" "$3" > "$scratch/settings.toml"
    "$PROGRAM" run "$scratch/settings.toml" 65536 > /dev/null &
    child=$!
    until grep -q ready "$scratch/told"; do sleep 0.1; done
    sleep 2
    before=$(used)
    sleep "$seconds"
    after=$(used)
    awk -v workers="$1" -v lull="$2" -v round="$3" -v hwm="$(held VmHWM)" -v rss="$(held VmRSS)" -v data="$(held RssAnon)" -v ticks="$((after - before))" \
        -v seconds="$seconds" -v hertz="$(getconf CLK_TCK)" 'BEGIN {
        printf "%8d %8d %8d %12d %12d %12d %14.2f\n", workers, lull, round, hwm, rss, data, 100 * ticks / hertz / seconds
    }'
    kill "$child"
    wait "$child" 2> "$scratch/end.log" || true
    exec 3>&-
    wait "$server"
    rm "$scratch/end" "$scratch/told"
}
printf '%8s %8s %8s %12s %12s %12s %14s\n' workers lull_ms round_ms 'peak KiB' 'held KiB' 'own KiB' 'processor %'
for workers in 1 1024 4096; do
    idle "$workers" 100 1000
    idle "$workers" 1000 1000
    idle "$workers" 1000 60000
done
