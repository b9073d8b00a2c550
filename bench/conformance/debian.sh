#!/bin/sh
# Checks the packages of Go's own library and of Debian's golang-*-dev packages by `govisd check`, all in one workspace, after what lies outside the grammar is
# left out of them: go/types accepts what is left, and so must govisd, but for what its own rules refuse. WORKSPACES.md in this folder says which packages, why these,
# and what is left out. No source of them is kept in the repository.
#
#     bench/conformance/debian.sh               the program crates/govisd/out/govisd
#     GOVISD=FILE bench/conformance/debian.sh   another program
#     INSTALL=0 bench/conformance/debian.sh     what is there already, and nothing is fetched
#     WANTED='golang-uber-goleak-dev ..' bench/conformance/debian.sh   these packages of Debian, with all that they depend on, in place of seven
#     ALL=1 bench/conformance/debian.sh         every golang-*-dev package that apt knows, unpacked into bench/out and not installed
#
# It prints what is left out and each difference, with its package and declaration.
# Status 0 where there is no fault but those that are named, 1 where there is one, or the program left something out, 2 where nothing could be checked.
set -u

bench=$(dirname -- "$(dirname -- "$(readlink -f -- "$0")")")
. "$bench/conformance/checked_folders.sh"

wanted=${WANTED:-golang-golang-x-tools-dev golang-google-grpc-dev golang-github-prometheus-client-golang-dev golang-github-spf13-cobra-dev golang-github-docker-docker-dev golang-github-go-git-go-git-dev golang-go.uber-zap-dev}
sources=$out/debian_sources
log=$out/debian_apt.log

# Installs the packages that are wanted.
install_wanted() {
    dpkg -s $wanted >/dev/null 2>&1 && return
    as_root=
    [ "$(id -u)" -eq 0 ] || as_root='sudo -n'
    echo 'bench: installing the sources of some Go packages ...' >&2
    DEBIAN_FRONTEND=noninteractive $as_root apt-get install -y --no-install-recommends $wanted >"$log" 2>&1 ||
        echo "bench: not all could be installed; $log says why" >&2
}

# Unpacks every package that apt knows, each into a folder of its own: some of them can't be installed beside others.
unpack_all() {
    mkdir -p "$sources/archives" && cd "$sources/archives" || exit 2
    echo 'bench: unpacking the sources of all Go packages ...' >&2
    for name in $(apt-cache search --names-only '^golang-.*-dev$' | cut -d' ' -f1 | sort); do
        [ -d "../$name" ] || echo "$name"
    done | xargs -r -n 100 apt-get download >"$log" 2>&1 || echo "bench: not all could be fetched; $log says why" >&2
    for archive in *.deb; do
        [ -f "$archive" ] || continue
        rm -rf unpacked
        dpkg-deb -x "$archive" unpacked >>"$log" 2>&1 && mv unpacked "../${archive%%_*}" ||
            echo "bench: $archive could not be unpacked; $log says why" >&2
        rm -f "$archive"
    done
}

set -- "$("$go" env GOROOT)/src"
if [ "${ALL:-0}" = 1 ]; then
    [ "${INSTALL:-1}" = 0 ] || (unpack_all) || exit 2
    for root in "$sources"/*/usr/share/gocode/src; do
        [ ! -d "$root" ] || set -- "$@" "$root"
    done
elif [ "${INSTALL:-1}" = 1 ]; then
    install_wanted
fi
[ ! -d /usr/share/gocode/src ] || set -- "$@" /usr/share/gocode/src
"$peer" reduce debian "$out/debian_whole" "$@" || exit 2
"$peer" own debian "$out/debian" "$out/debian_whole" || exit 2
"$peer" checked "$govisd" "$out/debian" debian
left=$?
[ $left -lt 2 ] || exit 2
"$peer" refused "$govisd" "$out/debian" debian "$out/debian_whole"
refused=$?
[ $refused -lt 2 ] || exit 2
exit $((left | refused))
