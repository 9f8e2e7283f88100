# A house as text where a list is expected, for the commands of the folder above (bash). `root` is that folder.
pnltext=$root/texts/target/release/pnltext

# Whether a name is that of a house as text.
is_text() { [[ ${1,,} == *.txt ]]; }

# make_list TEXT LIST: writes the list of a text, with a reader of texts that is as new as its sources.
make_list() {
    command -v cargo > /dev/null || { echo "a house as text needs cargo on the path (README.md)" >&2; return 2; }
    [ -x "$pnltext" ] || echo "building the reader of texts .." >&2
    (cd "$root/texts" && cargo build --quiet --release --offline) >&2 || return
    "$pnltext" "$1" > "$2"
}

# explain_stop FILE < SHEET: where the sheet ends with a stop, says on standard error at which line of a text that is; and of a list without
# its mark, whether it looks like a text under another name.
explain_stop() {
    local last record refusal line first=$'^(\xEF\xBB\xBF)?[[:space:]]*(fittings?|pipe)([[:space:]]|$)'
    last=$(tail -n 1)
    [[ $last =~ ^stopped\ ([0-9]+)\ ([0-9]+)$ ]] || return 0
    record=${BASH_REMATCH[1]} refusal=${BASH_REMATCH[2]}
    if is_text "$1"; then
        "$pnltext" --stop "$record" "$refusal" "$1" >&2
    elif [ "$record $refusal" = "0 1" ]; then
        line=$(LC_ALL=C grep -a -n -i -m 1 -E "$first" "$1" | LC_ALL=C tr -cd '[:print:]') || return 0
        echo "$1 looks like a house as text (line ${line:0:60}): the name of a text has to end in .txt" >&2
    fi
}
