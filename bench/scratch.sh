# Sourced by the scripts beside it, behind `top=..`: a scratch folder, `$work`, which is removed at their end, and crates in it.
work=$(mktemp -d)
trap 'rm -rf "$work"' EXIT

# Copies the crates that are named, and those that they stand on, without what a check left in them.
copy_crates() {
    for crate in $("$top/bench/below.sh" "$@"); do
        mkdir -p "$work/crates/$crate"
        for part in src specs proofs data; do
            [ ! -e "$top/crates/$crate/$part" ] || cp -r "$top/crates/$crate/$part" "$work/crates/$crate"
        done
        grep "^$crate:" "$top/crates.txt" >>"$work/crates.txt"
    done
}

# Makes the crate bench_NAME of bench/NAME.rattle, which uses the crates that are named behind it, and goes to its folder.
make_program() {
    name=$1
    shift
    copy_crates "$@"
    echo "bench_$name: $* anyhow" >>"$work/crates.txt"
    mkdir -p "$work/crates/bench_$name/src"
    cp "$top/bench/$name.rattle" "$work/crates/bench_$name/src/main.rt"
    cd "$work/crates/bench_$name"
}

# Proves and builds the program of this folder, and runs it once with these words. What that says is shown where it fails.
run_once() {
    rt run "$@" >"$work/log" 2>&1 || { cat "$work/log"; exit 1; }
}
