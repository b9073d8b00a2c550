#!/bin/bash
# Runs `govisd check` on folders in which lie what a repository cannot hold: links to files and to folders, links that lead back to themselves, what
# may not be read, a pipe, texts that are too long or no text; and compares its standard output, its standard error and its status with folders.txt,
# which was worked out by hand from docs/RULES.md (sections 11 and 34).
#
#     bench/conformance/folders.sh               the program crates/govisd/out/govisd
#     GOVISD=FILE bench/conformance/folders.sh   another program
#
# Nothing but a folder for the time of the run is written. Run as root, it runs the program as nobody, who may not read all. Status 0 where all is as
# it stands there, 1 where not, 2 where nothing could be compared.
set -euo pipefail

bench=$(dirname -- "$(dirname -- "$(readlink -f -- "$0")")")
. "$bench/shared/program.sh"
wanted=$bench/conformance/folders.txt

room=$(mktemp -d)
trap 'chmod -R u+rwX "$room" && rm -rf "$room"' EXIT
chmod 711 "$room"
mkdir "$room/bin" "$room/at"
cp "$govisd" "$room/bin/govisd"
chmod 755 "$room/bin" "$room/bin/govisd"
as_nobody=
if [ "$(id -u)" -eq 0 ]; then
    as_nobody='setpriv --reuid=65534 --regid=65534 --clear-groups --'
    $as_nobody true || { echo "folders.sh: setpriv cannot make a run nobody's" >&2; exit 2; }
fi
cd "$room/at"

# A file $1 of a package $2, with a name that is declared nowhere.
put() {
    mkdir -p "$(dirname -- "$1")"
    printf 'package %s\n\nvar x none\n' "$2" >"$1"
}

# A text of $2 bytes in the file $1.
put_long() {
    put "$1" long
    head -c "$(($2 - $(wc -c <"$1")))" < <(yes '// filled up') >>"$1"
}

# Files that are read and files that are passed over, by their names.
make_names() {
    put mine/a.go names
    put mine/a_test.go names
    put mine/_b.go names
    put mine/.c.go names
    put mine/d.txt names
    put mine/e.Go names
    put 'mine/f g.go' names
    put "mine/$(printf 'h%.0s' {1..62}).go" names
    put mine/testdata/a.go testdata
    put mine/vendor/a.go vendor
    put mine/_old/a.go old
    put mine/.git/a.go git
    put 'mine/no path/a.go' path
    put mine/dot./a.go dot
    mkdir mine/empty
}

# Links: to a file, to a folder, to nothing, to themselves, and to a file that is passed over by the link's name.
make_links() {
    put real/far.go links
    put real/below/a.go below
    mkdir mine/links
    ln -s ../../real/far.go mine/links/near.go
    ln -s ../../real/far.go mine/links/near_test.go
    ln -s ../../real mine/links/folder
    ln -s ../../real mine/links/folder.go
    ln -s ../../real mine/links/vendor
    ln -s . mine/links/itself
    ln -s nothing mine/links/gone.go
    ln -s nothing mine/links/gone.txt
    ln -s ring_b.go mine/links/ring_a.go
    ln -s ring_a.go mine/links/ring_b.go
    ln -s mine link
}

# What may not be read, and what is no regular file.
make_unread() {
    put mine/unread/a.go unread
    put mine/unread/b.go unread
    put mine/unread/c_test.go unread
    put mine/shut/a.go shut
    put shut/a.go shut
    mkfifo mine/unread/pipe.go mine/unread/pipe.txt
    ln -s pipe.go mine/unread/to_pipe.go
    chmod 0 mine/unread/b.go mine/unread/c_test.go mine/shut shut
}

# What is no text, what is too long, and more files than a package may have.
make_long() {
    mkdir -p mine/bytes mine/many
    printf 'package bytes\n\n// \xff\n' >mine/bytes/latin.go
    printf 'package bytes\n\nvar x none // \xc3\xa9\n' >mine/bytes/utf8.go
    printf '\xef\xbb\xbfpackage bytes\n\nvar y none\n' >mine/bytes/mark.go
    : >mine/bytes/void.txt
    put_long mine/long/most.go 1048576
    put_long mine/long/over.go 1048577
    for number in $(seq 0 257); do
        printf 'package many\n' >"mine/many/f$(printf %03d "$number").go"
    done
    put mine/many/f254.go many
    put mine/many/f255.go many
    put mine/many/f256.go many
}

# Folders in one another: 16 of them with the module's own are the most that a path has elements.
make_deep() {
    local folder=mine
    for _ in {1..16}; do
        folder=$folder/d
        put "$folder/a.go" deep
    done
}

# Runs the program with the words, and shows what it says.
run() {
    local status=0
    $as_nobody "$room/bin/govisd" "$@" >"$room/out" 2>"$room/err" </dev/null || status=$?
    echo "== govisd $*"
    echo "status $status"
    echo '-- output'
    cat "$room/out"
    echo '-- error'
    cat "$room/err"
}

make_names
make_links
make_unread
make_long
make_deep
put 'only/f g.go' only
put only/a_test.go only
put hidden/a_test.go hidden
put hidden/_a.go hidden
put hidden/testdata/a.go hidden
put hidden/_old/a.go hidden
put hidden/.git/a.go hidden
mkdir 'no path'
printf 'package a\n' >'no path/a.go'
printf 'No folder.\n' >file

{
    run check mine
    run check link
    run check mine/many --module example.com/many --json
    run check mine/links/folder --module ex.com/real
    run check mine/empty
    run check only
    run check missing
    run check file
    run check mine/unread/pipe.go
    run check shut
    run check 'no path'
    run check 'no path' --module ex.com/path
    run check mine --module ex.com//mine
    run check mine/links/itself --module ex.com/links
    run check hidden
    run check /
    run check --module '' mine
    run check --json --module ex.com/links mine/links/itself
} >"$room/said"

if [ "${1:-}" = show ]; then
    cat "$room/said"
    exit 0
fi
if diff -u -- "$wanted" "$room/said"; then
    echo "folders.sh: all runs are as they stand in folders.txt"
    exit 0
fi
exit 1
