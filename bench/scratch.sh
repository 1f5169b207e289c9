# What the scripts beside it share. It is read by `source`, and works at the top of the repository.

# The crates of the repository that these rest on, and these, each after those that it uses.
crates_below() {
    awk -v roots="$*" -F: '
        function visit(name, list, count, at) {
            if (!(name in uses) || name in seen) return
            seen[name] = 1
            count = split(uses[name], list, /[ ,]+/)
            for (at = 1; at <= count; at++) visit(list[at])
            print name
        }
        { split($1, head, " "); uses[head[1]] = $2 }
        END { count = split(roots, root, /[ ,]+/); for (at = 1; at <= count; at++) visit(root[at]) }' crates.txt
}

# begin NAME LIBRARIES: a scratch copy of the repository in $scratch, with the crate NAME_bench of the program bench/NAME/main.rt.txt over
# these libraries and all that they rest on. It is removed at the end.
begin() {
    scratch=$(mktemp -d)
    trap 'rm -rf "$scratch"' EXIT
    git -C "$scratch" init -q
    cp HANDLES "$scratch/"
    crate="$scratch/crates/$1_bench"
    bench="$crate/out/$1_bench"
    mkdir -p "$crate/src"
    for below in $(crates_below "$2"); do
        cp -r "crates/$below" "$scratch/crates/"
        grep "^$below[ :]" crates.txt >> "$scratch/crates.txt"
    done
    cp "bench/$1/main.rt.txt" "$crate/src/main.rt"
    echo "$1_bench: $2 anyhow" >> "$scratch/crates.txt"
}

# build WORDS: the program, proved and built and run once with these words. It is at $bench then.
build() {
    (cd "$crate" && rt run -- "$@" > "$scratch/build.log" 2>&1) || { tail -20 "$scratch/build.log"; exit 1; }
}
