#!/bin/sh
# Makes a Debian package of the proved programs, pdsuite, their man pages, their completion for bash and the documents. It
# has each program proved and built first where that is needed, and packs no other. It prints the package's path, which is
# in FOLDER, or in the present one. A tree whose commit has the tag vX.Y.Z of the changelog's last release is that release.
#
#   tools/package.sh [FOLDER]
#   tools/package.sh --version     prints the version alone
set -eu
top=$(CDPATH='' cd -P -- "$(dirname -- "$0")/.." && pwd -P)
name=pdregress

die() {
    echo "package: $*" >&2
    exit 2
}

from_git() {
    git -C "$top" "$@" 2>/dev/null
}

version_of_tree() {
    release=$(sed -n 's/^## \([0-9][0-9.]*\).*/\1/p' "$top/CHANGELOG.md" | head -n 1)
    [ -n "$release" ] || die "CHANGELOG.md has no release"
    commit=$(from_git describe --always --dirty --abbrev=40 --exclude='*') || commit=unknown
    case $commit in
        unknown) echo "$release+unknown" ;;
        *-dirty) echo "$release+git$(date_of_commit).$(from_git rev-parse --short=10 HEAD).dirty" ;;
        *) from_git describe --exact-match --tags --match "v$release" >/dev/null && echo "$release" ||
            echo "$release+git$(date_of_commit).$(from_git rev-parse --short=10 HEAD)" ;;
    esac
}

date_of_commit() {
    from_git show -s --format=%cd --date=format:%Y%m%d
}

# Where the tools that make a package are.
needed() {
    for tool in dpkg-deb dpkg-shlibdeps help2man gzip; do
        command -v "$tool" >/dev/null || die "$tool isn't installed: apt-get install --no-install-recommends dpkg-dev help2man"
    done
}

put() { # MODE FILE.. FOLDER, below the root of what is packed
    mode=$1
    shift
    for last in "$@"; do :; done
    mkdir -p "$root/$last"
    while [ $# -gt 1 ]; do
        install -m "$mode" "$1" "$root/$last"
        shift
    done
}

# The files in a folder of the tree, by their paths from it: those that git tracks, or all where it doesn't track this tool.
files_in() { # FOLDER
    (
        cd "$top/$1"
        if git ls-files --error-unmatch "$top/tools/package.sh" >/dev/null 2>&1; then
            git -c core.quotePath=off ls-files
        else
            find . -type f ! -path '*/__pycache__/*' | sed 's,^\./,,'
        fi
    ) | while IFS= read -r file; do
        [ ! -f "$top/$1/$file" ] || printf '%s\n' "$file"
    done
}

put_files_of() { # FOLDER-OF-THE-TREE FOLDER
    files_in "$1" | while IFS= read -r file; do
        put 644 "$top/$1/$file" "$2/$(dirname "$file")"
    done
}

programs() {
    "$top/prove" || true
    for program in $(cat "$top/packaging/programs.txt"); do
        built=$("$top/tools/proved_program.sh" "$program") || die "$program isn't proved and built"
        put 755 "$built" usr/bin
        page "$program" "$built"
        completion "$program" "$built"
    done
}

# The client stands as it does in the repository, so that what starts it finds its modules.
client() {
    share=usr/share/$name
    put 755 "$top/pdsuite" "$share"
    put 644 "$top/client/packages.txt" "$top/client/packages-more.txt" "$share/client"
    put_files_of client/pdsuite "$share/client/pdsuite"
    echo "$version $commit" >"$root/$share/version"
    ln -s "../share/$name/pdsuite" "$root/usr/bin/pdsuite"
    page pdsuite "$top/pdsuite"
    for command in run watch lsp list import expect diff compare search measure record rules; do
        page "pdsuite-$command" "$top/pdsuite" "$command"
    done
    mkdir -p "$root/$completions"
    _PDSUITE_COMPLETE=bash_source "$top/pdsuite" >"$root/$completions/pdsuite"
}

# The files for editors, and what makes these find them: Neovim and Vim by :packadd, Emacs at its start.
editors() {
    share=usr/share/$name/editors
    put_files_of client/editors/vim "$share/vim"
    for pack in nvim/site vim/vimfiles; do
        mkdir -p "$root/usr/share/$pack/pack/dist-bundle/opt"
        ln -s "../../../../../$name/editors/vim" "$root/usr/share/$pack/pack/dist-bundle/opt/$name"
    done
    put 644 "$top/client/editors/emacs/packetdrill-mode.el" "usr/share/emacs/site-lisp/$name"
    put 644 "$top/packaging/emacs/50pdregress.el" etc/emacs/site-start.d
}

page() { # NAME COMMAND..
    mkdir -p "$root/usr/share/man/man1"
    "$top/tools/man_page.sh" "$version" "$@" | gzip -9n >"$root/usr/share/man/man1/$1.1.gz"
}

completions=usr/share/bash-completion/completions
completion() { # NAME PROGRAM
    words=$("$2" --help 2>&1 | grep -oE '^ +(-[a-z], )?--[a-z-]+' | tr -d ' ' | tr ',\n' '  ') || die "$1 has no words"
    mkdir -p "$root/$completions"
    echo "complete -o default -W '$words' $1" >"$root/$completions/$1"
}

documents() {
    doc=usr/share/doc/$name
    put 644 "$top/README.md" "$top/CHANGELOG.md" "$top/packaging/copyright" "$doc"
    files_in docs | grep -E '^[^/]*\.(md|png|json)$' | while IFS= read -r file; do
        put 644 "$top/docs/$file" "$doc/docs"
    done
    put_files_of examples "$doc/examples"
    printf '%s (%s) unstable; urgency=medium\n\n  * CHANGELOG.md tells what changed.\n\n -- %s  %s\n' \
        "$name" "$version" "$(sed -n 's/^Maintainer: //p' "$top/packaging/control")" "$(date -u -R -d "@$SOURCE_DATE_EPOCH")" |
        gzip -9n >"$root/$doc/changelog.gz"
    mkdir -p "$root/usr/share/lintian/overrides"
    install -m 644 "$top/packaging/lintian-overrides" "$root/usr/share/lintian/overrides/$name"
}

listed() { # the packages of the input, as a field of a control file has them
    paste -s -d , | sed 's/,/, /g'
}

libraries() { # what the programs need of the C library
    printf 'Source: %s\n\nPackage: %s\nArchitecture: amd64\n' "$name" "$name" >"$work/debian/control"
    (cd "$work" && find "debian/$name/usr/bin" -type f -exec dpkg-shlibdeps -O {} + 2>"$work/errors") | sed -n 's/^shlibs:Depends=//p'
}

control() {
    mkdir "$root/DEBIAN"
    install -m 755 "$top/packaging/postinst" "$top/packaging/prerm" "$root/DEBIAN"
    (cd "$root" && find etc -type f) | sed 's,^,/,' >"$root/DEBIAN/conffiles"
    (cd "$root" && find usr -type f -exec md5sum {} + | LC_ALL=C sort -k 2) >"$root/DEBIAN/md5sums"
    libraries=$(libraries)
    [ -n "$libraries" ] || die "$(tail -n 1 "$work/errors")"
    depends="python3 (>= 3.11), $(listed <"$top/client/packages.txt"), $libraries"
    # Only few commands need the large ones.
    recommends=$(grep -vxF -f "$top/packaging/suggests.txt" "$top/client/packages-more.txt" | listed)
    sed -e "s/@VERSION@/$version/" -e "s/@DEPENDS@/$depends/" -e "s/@SIZE@/$(du -sk "$root/usr" | cut -f 1)/" \
        -e "s/@RECOMMENDS@/$recommends/" -e "s/@SUGGESTS@/$(listed <"$top/packaging/suggests.txt")/" \
        "$top/packaging/control" >"$root/DEBIAN/control"
}

version=$(version_of_tree)
case ${1:-} in
    --version) echo "$version" && exit ;;
    -*) sed -n '6,7p' "$0" >&2 && exit 2 ;;
esac
folder=$(CDPATH='' cd -P -- "${1:-.}" && pwd -P) || die "${1:-.} is no folder"
needed
commit=$(from_git describe --always --dirty --abbrev=40 --exclude='*') || commit=unknown
SOURCE_DATE_EPOCH=$(from_git show -s --format=%ct) || SOURCE_DATE_EPOCH=0
export SOURCE_DATE_EPOCH
umask 022
work=$(mktemp -d)
trap 'rm -rf "$work"' EXIT
root=$work/debian/$name
mkdir -p "$root"
programs
client
editors
documents
control
package=$folder/${name}_${version}_amd64.deb
dpkg-deb --root-owner-group --build "$root" "$package" >/dev/null
echo "$package"
