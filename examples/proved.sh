# Proved programs and archives for the commands of the folder above (bash). `root` is that folder. rt makes them in the folder out/ of their
# crate, by `rt ci` or by `rt run` and `rt lib`.

# program_of NAME: where the program is, if it is built.
program_of() { echo "$root/crates/$1/out/$1"; }

# crates_of NAME: the crate and those that it stands on, each after those that it uses (crates.txt).
crates_of() {
    awk -F: -v crate="$1" '
    function visit(name,   names, n, i) {
        if (!(name in uses) || seen[name]++) return
        n = split(uses[name], names, " ")
        for (i = 1; i <= n; i++) visit(names[i])
        print name
    }
    { sub(/#.*/, "") }
    NF > 1 { sub(/ .*/, "", $1); uses[$1] = $2 }
    END { visit(crate) }' "$root/crates.txt"
}

# is_newest FILE [CRATE]: whether nothing that the crate, or any, is made from has changed since (a file that is moved or copied here keeps its
# old time, so what counts is when it was put there).
is_newest() {
    local changed
    changed=$(find "$root/crates.txt" -newercm "$1" && find "$root/crates"/${2:-*} -mindepth 1 -name out -prune -o -newercm "$1" -print -quit) && [ -z "$changed" ]
}

# is_proved PROGRAM: it is used only if nothing that it could be made from has changed since.
is_proved() { [ -x "$(program_of "$1")" ] && is_newest "$(program_of "$1")"; }

# told NAME LOG WORDS..: runs a command of rt in the folder of the crate, and keeps what it says in LOG. Each crate that is proved anew has
# a line on standard error.
told() {
    local name=$1 log=$2
    shift 2
    mkdir -p "$(dirname "$log")"
    (cd "$root/crates/$name" && "$@" < /dev/null 2>&1) | tee "$log" | awk -v crates="$(crates_of "$name" | paste -sd' ')" '
    BEGIN { count = split(crates, names, " "); for (i = 1; i <= count; i++) at[names[i]] = i }
    /^rt: chose --jobs [0-9]+ for / && $NF in at { printf "proving %d of %d: %s ..\n", at[$NF], count, $NF; fflush() }
    /^rt: .*(NOT PROVED|FAILED|did not build)/ { print; fflush() }' >&2
}

# prove PROGRAM WHAT LOG: proves and builds it, WHAT in words; status 1 if it is not proved, and then LOG says why.
prove() {
    local program=$1 what=$2 log=$3 begun proved=1
    if [ -x "$(program_of "$program")" ]; then
        echo "something under crates/ has changed: proving $what again .." >&2
    else
        echo "building $what: this proves it first, some minutes .." >&2
    fi
    mkdir -p "$root/target"
    begun=$(mktemp "$root/target/begun.XXXXXX")
    # rt runs what it has built, here on nothing; the status is then the program's own.
    told "$program" "$log" bash -c 'rt run 2>&1 > /dev/null 3< /dev/null' || true
    if grep -q '^rt: running ' "$log"; then
        # What is changed while it is proved is newer than its beginning.
        touch -c -r "$begun" "$(program_of "$program")" && proved=0
    fi
    rm -f "$begun"
    return $proved
}

# is_of_ci NAME: whether the libraries below stand as `rt ci` left them, and nothing that they are made from has changed since. It gives them no
# stamp, so `rt lib` would prove them all again.
is_of_ci() {
    local crate
    for crate in $(crates_of "$1"); do
        [ "$crate" != "$1" ] || continue
        [ -d "$root/crates/$crate/out/rlib/$crate.rlib" ] && [ ! -e "$root/crates/$crate/out/rlib/stamp" ] && is_newest "$root/crates/$crate/out/rlib/$crate.rlib" $crate || return
    done
}

# archive NAME LOG: proves a static library and writes its archive, crates/NAME/out/libNAME.a; status 1 if it is not proved, and then LOG says why.
archive() {
    local name=$1 log=$2 kit crate words=()
    if ! is_of_ci "$name"; then
        told "$name" "$log" rt lib
        return
    fi
    # Over what `rt ci` proved: as `rt lib` calls the compiler, which proves the crate itself.
    kit=$(dirname "$(rt doc)")
    for crate in std $(sed -n "s/#.*//; s/^$name .*: *//p" "$root/crates.txt"); do
        if [ -d "$root/crates/$crate" ]; then
            words+=(--extern "$crate=../$crate/out/rlib/$crate.rlib")
        else
            words+=(--extern "$crate=$kit/rlibs/$crate.rlib")
        fi
    done
    for crate in $(crates_of "$name"); do
        words+=(-L "dependency=../$crate/out/rlib")
    done
    mkdir -p "$root/crates/$name/out"
    told "$name" "$log" "$kit/bin/rattle" build --crate-name "$name" src/lib.rt "${words[@]}" -L "dependency=$kit/rlibs" --antt-project "$kit/rattle/logic/antt-project.json" \
        --logic-built "$kit/logic_built" --links "$name=" --crate-type staticlib --jobs 2 --toolchain "$kit/toolchain" --backend llvm -o "out/lib$name.a"
}
