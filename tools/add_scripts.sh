#!/bin/sh
# Prints the commands that add these scripts, each under the name of its file, without its folder and `.pkt`. An octet
# that no name may have becomes `_`, and a name is cut to 64.
#
#   tools/add_scripts.sh FILE.. | ./pdregress
#
# It looks at all files before it prints a command. Where one can't be added, it says why in a line on standard error,
# prints the line `add_scripts: refused`, which is no command, and ends with status 2. The program that reads this line
# stops with `15 BadCommand` and status 2, so that no report comes without these scripts.
set -eu

refuse() { # why, and of which file
    printf 'add_scripts: %s\n' "$(printf '%s' "$*" | tr '\n' '?')" >&2
    echo 'add_scripts: refused'
    exit 2
}

[ $# -gt 0 ] || refuse 'no file is named: tools/add_scripts.sh FILE..'
count=0
for file in "$@"; do
    [ -f "$file" ] && [ -r "$file" ] || refuse "$file: no file that can be read"
    count=$((count + 1))
    [ "$count" -le 1024 ] || refuse "$file: more than 1,024 files"
done

# A text has at most 4,096 lines and 65,536 octets, each line counted with one more for its end, and without a carriage
# return there, which the program drops.
LC_ALL=C awk '
    function name_of(path) {
        sub(/^.*\//, "", path)
        if (path != ".pkt") sub(/\.pkt$/, "", path)
        gsub(/[^A-Za-z0-9_.-]/, "_", path)
        return substr(path, 1, 64)
    }
    function refuse(path, why) {
        gsub(/\n/, "?", path)
        print "add_scripts: " path ": " why | "cat >&2"
        exit 2
    }
    function look_at(number, path,    file, name, octets, answer) {
        name = name_of(path)
        if (name in taken) refuse(path, "its name " name " is that of another file")
        taken[name]
        file = path ~ /^\// ? path : "./" path
        while ((answer = (getline line < file)) > 0) {
            lines[number, ++count[number]] = line
            octets += length(line) + (line !~ /\r$/)
            if (count[number] > 4096) refuse(path, "more than 4,096 lines")
            if (octets > 65536) refuse(path, "more than 65,536 octets")
        }
        if (answer < 0) refuse(path, "reading it failed")
        close(file)
    }
    BEGIN {
        for (number = 1; number < ARGC; number++) look_at(number, ARGV[number])
        for (number = 1; number < ARGC; number++) {
            print "add " name_of(ARGV[number]) " " count[number] + 0
            for (i = 1; i <= count[number]; i++) print lines[number, i]
        }
    }' "$@" || { echo 'add_scripts: refused'; exit 2; }
