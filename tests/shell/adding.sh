# Tests of tools/add_scripts.sh, on files that can be added and on files that can't.
add() { # FILE.. in the folder of scripts
    in_folder "$work/scripts" "$top/tools/add_scripts.sh" "$@"
}

adds_of() { # FILE.. the commands alone
    add "$@" | grep '^add'
}

count_of() { # how many `add`s there are of so many files
    count=$1
    set --
    while [ $# -lt "$count" ]; do
        set -- "$@" "many_$(($# + 1)).pkt"
        : >"$work/scripts/many_$#.pkt"
    done
    add "$@" | awk '/^add / { adds++; next } { print } END { print adds + 0, "adds" }'
}

refused() { # why
    printf 'add_scripts: refused\n! add_scripts: %s\nstatus 2' "$1"
}

lines() { # how many lines of an octet
    awk -v count="$1" 'BEGIN { for (i = 0; i < count; i++) print "x" }'
}

octets() { # how many octets in one line, its end counted
    awk -v count="$1" 'BEGIN { for (i = 1; i < count; i++) printf "x"; print "" }'
}

test_adding() {
    mkdir "$work/scripts" "$work/scripts/folder.pkt"
    printf 'one\ntwo' >"$work/scripts/good.pkt"
    : >"$work/scripts/empty.pkt"
    printf '\r\n' >"$work/scripts/-a=b c.pkt"
    broken=$(printf 'a\nb.pkt')
    printf 'one\n' >"$work/scripts/$broken"
    cp "$work/scripts/good.pkt" "$work/scripts/a_b.pkt"
    long=$(octets 66 | tr -d '\n').pkt
    printf 'one\n' >"$work/scripts/$long"
    ln -s nowhere "$work/scripts/dangling.pkt"
    octets 65536 >"$work/scripts/widest.pkt"
    octets 65537 >"$work/scripts/too_wide.pkt"
    octets 65536 | sed 's/$/\r/' >"$work/scripts/widest_with_return.pkt"
    lines 4096 >"$work/scripts/longest.pkt"
    lines 4097 >"$work/scripts/too_long.pkt"

    expect adds "$(printf 'add good 2\none\ntwo\nadd empty 0\nadd -a_b_c 1\n\r\nstatus 0')" add good.pkt empty.pkt '-a=b c.pkt'
    printf 'one\n' >"$work/scripts/.pkt"
    expect name-that-is-an-ending "$(printf 'add .pkt 1\none\nstatus 0')" add .pkt
    expect newline-in-a-name "$(printf 'add a_b 1\none\nstatus 0')" add "$broken"
    expect a-name-is-cut "$(printf 'add %s 1\none\nstatus 0' "$(octets 65 | tr -d '\n')")" add "$long"
    expect no-file "$(refused 'no file is named: tools/add_scripts.sh FILE..')" add
    expect missing-file "$(refused 'missing.pkt: no file that can be read')" add good.pkt missing.pkt
    expect glob-without-files "$(refused 'none*.pkt: no file that can be read')" add 'none*.pkt'
    expect folder "$(refused 'folder.pkt: no file that can be read')" add good.pkt folder.pkt
    expect dangling-link "$(refused 'dangling.pkt: no file that can be read')" add good.pkt dangling.pkt
    expect equal-names "$(refused 'a?b.pkt: its name a_b is that of another file')" add a_b.pkt good.pkt "$broken"
    expect same-file-twice "$(refused './good.pkt: its name good is that of another file')" add good.pkt ./good.pkt
    expect too-many-lines "$(refused 'too_long.pkt: more than 4,096 lines')" add good.pkt too_long.pkt
    expect too-many-octets "$(refused 'too_wide.pkt: more than 65,536 octets')" add good.pkt too_wide.pkt
    expect largest "$(printf 'add longest 4096\nadd widest 1\nadd widest_with_return 1\nstatus 0')" adds_of longest.pkt widest.pkt widest_with_return.pkt
    expect most "$(printf '1024 adds\nstatus 0')" count_of 1024
    expect too-many-files "$(printf 'add_scripts: refused\n0 adds\n! add_scripts: many_1025.pkt: more than 1,024 files\nstatus 0')" count_of 1025
}

test_adding
