# Programs over the sources of the crates that `rt try` runs (bash): tests and examples, which are not proved, so they stand in no crate of the
# product. It compiles them with checks of each sum, cast and access; its interpreter, which it asks first, has not steps enough for the tables
# of eight houses.

# set_up TRIAL MAIN CRATES: in the folder, a copy of the sources with the program as a crate, `trial`, that uses these.
set_up() {
    mkdir -p "$1/crates/trial/src"
    cp -r --parents crates/*/src "$1"
    cp "$2" "$1/crates/trial/src/main.rt"
    { cat crates.txt; echo "trial: $3"; } > "$1/crates.txt"
}

# writes TRIAL EXPECTED: runs the program with nothing on standard input, and compares what it writes.
writes() {
    (cd "$1/crates/trial" && rt try --steps 1 < /dev/null) > "$1/out" 2> "$1/log" && grep -q '^run=ended status=0 ' "$1/log" && cmp "$1/out" "$2" && return
    cat "$1/log"
    return 1
}
