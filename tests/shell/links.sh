# Tests of the programs called through links, in a copy whose programs say their names.
# A copy of the two names, whose programs count as proved and say which they are.
make_tree() {
    mkdir -p "$work/tree" "$work/bin" "$work/far/tree"
    copy_proof_tools "$work/tree"
    cp "$top/pdregress" "$work/tree/pdregress"
    printf '%s:\n' pdregress pdrecord >"$work/tree/crates.txt"
    for program in pdregress pdrecord; do
        [ "$program" = pdregress ] || ln -s pdregress "$work/tree/$program"
        mkdir -p "$work/tree/crates/$program/src" "$work/tree/crates/$program/out"
        echo 'fn main() {}' >"$work/tree/crates/$program/src/main.rt"
        printf '#!/bin/sh\necho "%s $*"\n' "$program" >"$work/tree/crates/$program/out/$program"
        chmod +x "$work/tree/crates/$program/out/$program"
    done
    vouch "$work/tree" pdregress pdrecord
}

test_links() {
    expect both-launchers-are-one-text "status 0" cmp "$top/pdregress" "$top/pdrecord"
    make_tree
    for program in pdregress pdrecord; do
        ln -s "$work/tree/$program" "$work/bin/$program"
    done
    ln -s ../tree/pdrecord "$work/bin/relative"
    ln -s relative "$work/bin/twice"
    ln -s ../tree/pdregress "$work/bin/runner"
    mkdir "$work/other"
    ln -s ../bin/pdrecord "$work/other/pdregress"
    ln -s "$work/bin" "$work/far/away"
    for folder in /tmp "$work/bin" "$work/far"; do
        for program in pdregress pdrecord; do
            expect "$program-by-link-from-${folder##*/}" "$(printf '%s a b\nstatus 0' "$program")" in_folder "$folder" env PATH="$work/bin:$PATH" "$program" a b
        done
    done
    expect own-names "$(printf 'pdregress \nstatus 0')" in_folder "$work/tree" ./pdregress
    expect own-link "$(printf 'pdrecord \nstatus 0')" in_folder "$work/tree" ./pdrecord
    expect relative-link "$(printf 'pdrecord \nstatus 0')" in_folder "$work/bin" ./relative
    expect link-to-a-link "$(printf 'pdrecord \nstatus 0')" in_folder "$work" bin/twice
    expect last-name-on-the-way "$(printf 'pdrecord \nstatus 0')" in_folder "$work" other/pdregress
    expect link-of-another-name "$(printf 'pdregress \nstatus 0')" in_folder "$work/far" ../bin/runner
    expect folder-that-is-a-link "$(printf 'pdrecord \nstatus 0')" in_folder "$work/far" away/relative
    expect relative-path "$(printf 'pdrecord \nstatus 0')" in_folder "$work" env PATH="far/away:$PATH" pdrecord
    expect folders-to-search "$(printf 'pdregress \nstatus 0')" in_folder "$work" env CDPATH="$work/far:/" tree/pdregress
}

test_links
