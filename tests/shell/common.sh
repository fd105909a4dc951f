# The functions that the tests of the shell programs share. tests/shell.sh reads this file before the others.
# Each test gives its command after its name and the wanted output: what the command writes, after `! ` what it writes on
# standard error, and its status.
expect() { # NAME WANTED COMMAND..
    name=$1
    # Where SHELL_TEST names one test, all others are left out.
    [ "${SHELL_TEST:-$name}" = "$name" ] || return 0
    printf '%s\n' "$2" >"$work/want"
    shift 2
    status=0
    "$@" >"$work/got" 2>"$work/errors" || status=$?
    sed 's/^/! /' "$work/errors" >>"$work/got"
    echo "status $status" >>"$work/got"
    if diff "$work/want" "$work/got" >"$work/diff"; then
        echo "ok shell $name"
        passed=$((passed + 1))
    else
        echo "FAILED shell $name:"
        cat "$work/diff"
        failed=$((failed + 1))
    fi
}

# The files of tools/ that decide which programs are proved.
proof_tools='proved_program.sh proved_program.py crate_graph.py proof_sums.py kit.py source_sums.py stamps.py'

copy_proof_tools() { # TREE
    mkdir -p "$1/tools"
    for tool in $proof_tools; do cp "$top/tools/$tool" "$1/tools"; done
}

vouch() { # TREE PROGRAM..: keeps the checksums of programs as they stand, as ./prove does
    tree=$1
    shift
    for program in "$@"; do
        file=crates/$program/out/$program
        (cd "$tree" && sha256sum "$file" && tools/proved_program.sh --sums "$program") >"$work/sums"
        command -v rt >/dev/null || echo 'kit: a kit' >>"$work/sums"
        mv "$work/sums" "$tree/$file.sums"
    done
}

in_folder() ( # FOLDER COMMAND..
    cd "$1"
    shift
    "$@"
)

