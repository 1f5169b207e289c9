#!/usr/bin/env bash
# Time, looks and memory of one round at the limits, and of the size of that farm: bench/planning.sh
# Builds bench/planning in a scratch copy of the repository and runs it on each kind of input: `solve`, whose time is a hundredth of that of
# 100 more rounds in one run, and `find_size` at the backlog, where nobody is missing, and at half of it. Where the program is built
# (crates/poolman/out/poolman), `poolman plan` is timed on the same inputs as files, and `poolman size` at half of the backlog, if the
# program has that command.
set -eu
cd "$(dirname "$0")/.."
program="$PWD/crates/poolman/out/poolman"
source bench/scratch.sh
begin planning 'level_search plan_sizing plan_model bumpalo'
build all

# figures WORDS: what the program prints, and after it seconds and peak KiB. A command that is not there gives none.
figures() {
    local status=0
    /usr/bin/time -q -o "$scratch/time" -f '%U %S %M' "$@" > "$scratch/output" || status=$?
    if [ "$status" -gt 1 ]; then
        echo '- - -'
        return
    fi
    awk -v output="$(head -n 1 "$scratch/output")" '{ printf "%s %.2f %s\n", output, $1 + $2, $3 }' "$scratch/time"
}

# seconds WORDS: the processor time of the program.
seconds() {
    figures "$bench" "$@" | awk '{ print $(NF - 1) }'
}

printf '%-10s %8s %10s %8s %8s %8s %8s %8s %8s %8s %8s\n' input backlog looks ms KiB 'size' 'half' \
    'plan' 'plan KiB' 'size' 'size KiB'
for kind in all half sparse chains triangle detour steps; do
    read -r backlog looks _ peak <<< "$(figures "$bench" "$kind")"
    solve=$(echo "$(seconds "$kind" rounds 101) $(seconds "$kind" rounds 1)" | awk '{ printf "%.1f", ($1 - $2) * 10 }')
    half=$(((backlog + 1) / 2))
    size=$(seconds "$kind" "$backlog")
    size_half=$(seconds "$kind" "$half")
    whole='- -'
    sized='- -'
    if [ -x "$program" ]; then
        python3 bench/planning/generate.py "$kind" "$scratch/$kind"
        files="$scratch/$kind"
        whole=$(figures "$program" plan "$files/settings.toml" < "$files/status.txt" | awk '{ print $(NF - 1), $NF }')
        sized=$(figures "$program" size "$files/settings.toml" "$half" < "$files/status.txt" | awk '{ print $(NF - 1), $NF }')
    fi
    read -r plan_seconds plan_peak size_seconds size_peak <<< "$whole $sized"
    printf '%-10s %8s %10s %8s %8s %8s %8s %8s %8s %8s %8s\n' "$kind" "$backlog" "$looks" "$solve" "$peak" "$size" "$size_half" \
        "$plan_seconds" "$plan_peak" "$size_seconds" "$size_peak"
done
