# Tests of tools/fail_alloc.sh, which refuses memory to programs: a fake that does nothing takes the place of each.
memory() { # COMMAND: what is counted with this fake, and the status
    code=0
    BOOK=$1 DESK=$1 PROGRAM=$1 RECORD=$1 "$top/tools/fail_alloc.sh" --part /dev/null >"$work/counted" 2>&1 || code=$?
    tail -n 1 "$work/counted"
    return "$code"
}

# No table of calls has met a refusal, which is a fault of each. The other rows are well: one of test_book, 19 of pdregress
# (four inputs, one of them named, and two settings, beside none, one and two workers; and `--rules`) and six of pdrecord.
tables=$(cat "$top/crates/test_book/memory.txt" "$top/crates/test_desk/memory.txt" | grep -c '^== ')
expect memory-that-no-call-lacks "$(printf '26 passed, %s failed\nstatus 1' "$tables")" memory "$(command -v true)"
