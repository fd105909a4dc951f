# A tree of crates that use each other, two programs among them, with ./prove and what starts the programs, and a fake `rt`.
# It is read by the tests that need it.
programs='pdregress pdrecord'
build=$work/build
kit=$work/kit
export NOTES="$work/notes" XDG_CACHE_HOME="$work/cache"

make_crates() {
    rm -rf "$build" "$kit" "$NOTES" "$XDG_CACHE_HOME"
    mkdir -p "$build/packaging" "$kit/bin" "$NOTES"
    cp "$top/tests/shell/fake_rt" "$kit/bin/rt"
    echo 'a kit' >"$kit/KIT-ID"
    cp -R "$top/tools" "$top/HANDLES" "$top/prove" "$top/pdregress" "$build"
    cp "$top/packaging/programs.txt" "$build/packaging"
    printf '%s\n' '# NAME: DEP DEP ..' low: 'left: low' 'right may_wait=1: low toml' 'high: left right' >"$build/crates.txt"
    for program in $programs; do
        [ "$program" = pdregress ] || ln -s pdregress "$build/$program"
        echo "$program: high" >>"$build/crates.txt"
    done
    for crate in low left right high $programs; do
        mkdir -p "$build/crates/$crate/src" "$build/crates/$crate/proofs"
        echo 'fn f() {}' >"$build/crates/$crate/src/lib.rt"
        echo '-- a lemma' >"$build/crates/$crate/proofs/Lib.antt"
    done
    for program in $programs; do : >"$build/crates/$program/src/main.rt"; done
}

anew() {
    rm -rf "$build"/crates/*/out "$NOTES" "$XDG_CACHE_HOME"
    mkdir "$NOTES"
}

with_rt() { # COMMAND.. with the fake `rt`
    env PATH="$kit/bin:$PATH" "$@"
}

prove() { # WORD..
    with_rt "$build/prove" "$@"
}
