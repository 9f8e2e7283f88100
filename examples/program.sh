# A program of this folder over the library for C, for the commands of the folder above (bash). `root` is that folder, `fail` ends a command.

# compile NAME: makes target/NAME of examples/NAME.c, with the library, where it is not as new as these. It builds what is not built.
compile() {
    local program=$root/target/$1 source=$root/examples/$1.c archive=$root/target/staticlib/libpnl.a file
    "$root/build" --if-needed >&2 || fail "the library is not built"
    for file in "$archive" "$source" "$root/examples/lines.h" "$root/include/pnl.h"; do
        [ "$program" -nt "$file" ] && continue
        command -v cc > /dev/null || fail "needs cc, a C compiler, on the path (README.md)"
        # in a file of its own first: another command may be running the old one
        cc -O2 -I"$root/include" "$source" "$archive" -o "$program.$$" || fail "examples/$1.c is not compiled"
        mv "$program.$$" "$program"
        break
    done
}
