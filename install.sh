#!/bin/sh
# Copies the program, the scripts round it, the Ed25519 helper where it is built, the manual pages, three pages of the
# documents, the samples, and the completions for bash and zsh into a folder, or removes them from there. It builds
# nothing.
set -u
umask 022

usage() {
    cat <<'TEXT'
usage: ./install.sh [--prefix DIR] [--uninstall]
       ./install.sh --version

Copies keri to DIR/bin, DIR/lib/keri and DIR/share, where DIR is /usr/local if none is named; --uninstall removes just these
files again. Where the variable DESTDIR is set, that folder stands before DIR, as those who make packages want it.
The status is 0, or 1 where something couldn't be done, which is said on standard error, or 2 for other words, as a DIR
that begins with ~ because the shell has left it so, as some do in --prefix=~/DIR. It is 71, and nothing is copied, where
release/SHA256SUMS isn't there or has another checksum than that of the program.

example: ./install.sh --prefix ~/.local
TEXT
}

refuse() {
    printf 'install.sh: %s\n' "$*" >&2
    exit "${status:-1}"
}

# A word as it is told.
told() (
    LC_ALL=C
    shown "$1"
    printf '%s\n' "$text"
)

top=$(dirname "$(readlink -f "$0")") || exit 1
# shellcheck source=packaging/shown
. "$top/packaging/shown" || exit 1
prefix=/usr/local
uninstall=''
[ $# -ne 1 ] || [ "$1" != help ] || set -- --help
while [ $# -gt 0 ]; do
    case $1 in
        -h | --help) usage; exit ;;
        -V | --version)
            of=$("$top/keri" --version) && printf 'install.sh, of %s\n' "$of"
            exit
            ;;
        --prefix=?*) prefix=${1#*=} ;;
        --prefix)
            [ -n "${2-}" ] || { usage >&2; exit 2; }
            prefix=$2
            shift
            ;;
        --uninstall) uninstall=yes ;;
        *) usage >&2; exit 2 ;;
    esac
    shift
done
case $prefix in
    /*) ;;
    '~'*)
        printf 'install.sh: %s: the shell has left the ~ as it is; write --prefix DIR in two words\n' "$(told "$prefix")" >&2
        exit 2
        ;;
    *) prefix=$PWD/$prefix ;;
esac
into=${DESTDIR-}$prefix
program=lib/keri/keri-x86_64-linux
helper=helpers/ed25519/out/keri-ed25519

# What is installed: the mode, the file's place under the prefix, and where it comes from; `-` is made here.
files() {
    cat <<TEXT
755 $program release/keri-x86_64-linux
644 lib/keri/SHA256SUMS release/SHA256SUMS
644 lib/keri/SOURCES release/SOURCES
644 lib/keri/VERSION VERSION
644 lib/keri/judge packaging/judge
644 lib/keri/shown packaging/shown
644 lib/keri/look packaging/look
644 lib/keri/answers packaging/answers
644 lib/keri/door packaging/door
644 lib/keri/plan packaging/plan
644 lib/keri/state packaging/state
644 lib/keri/words packaging/words
644 lib/keri/reports.py packaging/reports.py
755 bin/keri keri
755 bin/keri-accepts keri-accepts
755 bin/keri-keys keri-keys
755 bin/keri-receipt keri-receipt
755 bin/keri-picture keri-picture
644 share/man/man1/keri.1 docs/keri.1
644 share/man/man1/keri-accepts.1 -
644 share/man/man1/keri-keys.1 -
644 share/man/man1/keri-receipt.1 -
644 share/man/man1/keri-picture.1 -
644 share/man/man1/keri-ed25519.1 docs/keri-ed25519.1
644 share/doc/keri/GUIDE.md docs/GUIDE.md
644 share/doc/keri/FORMATS.md docs/FORMATS.md
644 share/doc/keri/WITNESS.md docs/WITNESS.md
644 share/doc/keri/copyright LICENSE
755 bin/keri-ed25519 $helper
TEXT
    for name in keri keri-accepts keri-keys keri-receipt keri-picture keri-ed25519; do
        echo "644 share/bash-completion/completions/$name -"
        echo "644 share/zsh/site-functions/_$name -"
    done
    # What a sample left that was run in its folder is none.
    (cd "$top" && find samples -type f ! -path samples/shelf ! -path '*/__pycache__/*') | LC_ALL=C sort |
        while read -r sample; do
            mode=644
            [ "${sample##*/}" != send.py ] || mode=755
            echo "$mode share/doc/keri/examples/${sample#samples/} $sample"
        done
}

# Writes a file that is made here.
made() {
    case $1 in
        *.1) echo '.so man1/keri.1' ;;
        */bash-completion/*) "$top/packaging/completions" bash "${1##*/}" ;;
        */zsh/*) "$top/packaging/completions" zsh "${1##*/_}" ;;
    esac
}

# Puts a file there whole, or leaves what was there. `new` is removed by whoever calls it.
put() {
    to=$into/$2
    new=$to.new
    if ! mkdir -p "${to%/*}" 2>/dev/null || [ ! -w "${to%/*}" ]; then
        refuse "can't write in $(told "${to%/*}"): take another folder, as --prefix ~/.local, or run this as root"
    fi
    { : >"$new"; } 2>/dev/null || refuse "$(told "$to") couldn't be written" # of this the shell says no name
    case $3 in
        -) made "$2" ;;
        *) cat "$top/$3" ;;
    esac >"$new" && chmod "$1" "$new" && mv -f "$new" "$to" && return
    refuse "$(told "$to") couldn't be written"
}

if [ -n "$uninstall" ]; then
    [ -d "$into/lib/keri" ] || { echo "keri isn't installed in $(told "$into")"; exit 0; }
    files | {
        while read -r _ place _; do
            rm -f "$into/$place" || refuse "$(told "$into/$place") couldn't be removed"
        done
        find "$into/lib/keri" "$into/share/doc/keri" -depth -type d -exec rmdir {} + 2>/dev/null
        exit 0
    } || exit 1
    echo "keri is removed from $(told "$into")"
    exit 0
fi

status=71
[ -r "$top/release/SHA256SUMS" ] ||
    refuse "release/SHA256SUMS isn't there, so nothing says whether the program is unchanged: get the clone or the package again"
[ "$("$top/release/program" sums)" = "$(cat "$top/release/SHA256SUMS")" ] ||
    refuse "the program isn't the one whose checksum is in release/SHA256SUMS, so it isn't installed: get the clone or the package again"
status=1
[ "$(uname -sm)" = "Linux x86_64" ] || refuse "the program is for Linux on x86-64, and this is $(uname -sm)"
"$top/release/keri-x86_64-linux" check /dev/null ||
    refuse "the program doesn't run here: it needs glibc 2.34 or newer, and this is $(getconf GNU_LIBC_VERSION 2>/dev/null || echo 'none or another C library')"
files | {
    new=''
    trap 'rm -f "$new"' EXIT
    trap 'exit 1' HUP INT TERM
    while read -r mode place source; do
        [ "$source" != "$helper" ] || [ -x "$top/$helper" ] || continue
        put "$mode" "$place" "$source"
    done
} || exit 1
echo "keri is installed in $(told "$into"); the checksum of the program is"
(cd "$into" && sha256sum "$program")
[ -x "$top/$helper" ] || echo "the Ed25519 helper isn't built: for real keys, make -C helpers/ed25519 and run this again"
case :$PATH: in *":$prefix/bin:"*) ;; *) echo "$(told "$prefix/bin") isn't in your PATH" ;; esac
