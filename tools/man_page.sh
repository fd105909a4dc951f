#!/bin/sh
# Prints the man page of a command: what its --help says, by help2man, and what packaging/man adds. The last words are how
# the command is called. The proved programs say their --help on standard error, with status 2.
#
#   tools/man_page.sh VERSION NAME COMMAND..
set -eu
[ $# -ge 3 ] || { sed -n '5p' "$0" >&2; exit 2; }
top=$(CDPATH='' cd -P -- "$(dirname -- "$0")/.." && pwd -P)
version=$1
name=$2
shift 2
work=$(mktemp -d)
trap 'rm -rf "$work"' EXIT
"$@" --help >"$work/help" 2>&1 || [ $? -eq 2 ]

# In an example, a command gets its prompt, and each line of output stands by itself.
sed '/^Example:/,$ { s/^  printf/  $ printf/; s/^  [^$]/\n&/; }' "$work/help" >"$work/text"
printf '#!/bin/sh\nexec cat "%s"\n' "$work/text" >"$work/$name"
chmod +x "$work/$name"
help2man --no-info --version-string="$version" --source="pdregress $version" \
    --opt-include="$top/packaging/man/$name.h2m" --include="$top/packaging/man/all.h2m" "$work/$name"
