# Tests that every crate is in the kit's layout. `rt ci` proves no crate that isn't, nor those above it, and `rt check` doesn't
# look. So this is tried where nothing is proved; the gate needs it no second time.
formatted_anew() { # says which files `rt fmt` would change
    mkdir "$work/layout"
    tar -C "$top" --exclude=out -cf - crates crates.txt HANDLES | tar -C "$work/layout" -xf -
    for crate in "$work"/layout/crates/*/; do
        (cd "$crate" && rt fmt) >/dev/null 2>&1 || echo "rt fmt fails in ${crate#"$work/layout/"}"
    done
    diff -rq --exclude=out "$top/crates" "$work/layout/crates"
}

if command -v rt >/dev/null; then
    expect layout-of-crates "status 0" formatted_anew
else
    echo 'not tested, needs the kit: the layout of crates'
fi
