# Scripts in the neighbouring folders source this file to run the desk's server. This file finds the
# programs, and makes a temporary folder for the test. Its functions start and end a server.
here=${BATS_TEST_DIRNAME:-$(CDPATH='' cd -P -- "$(dirname -- "$0")" && pwd)}

# The variables CLUBDESK and PASSTOOL have the paths of the programs. If a variable is unset, the
# wrapper in bin/ proves and builds the program, unless the program is up to date. The script then
# runs the program without the wrapper, so that a signal reaches the server.
desk=${CLUBDESK-}
tool=${PASSTOOL-}
[ -n "$desk" ] || { "$here/../../bin/clubdesk" --help >/dev/null && desk=$here/../../crates/clubdesk/out/clubdesk; } || exit 2
[ -n "$tool" ] || { "$here/../../bin/passtool" --help >/dev/null && tool=$here/../../crates/passtool/out/passtool; } || exit 2

# Bats makes a folder for each test and sets its own traps, so the rest of this file is only for
# scripts without bats.
[ -z "${BATS_TEST_DIRNAME-}" ] || return 0

work=$(mktemp -d)
server=
leave() {
    if [ -n "$server" ]; then kill "$server" 2>/dev/null || :; fi
    rm -rf "$work"
}
trap leave EXIT
cd "$work" || exit 2
mkfifo listening

# serve FILE COUNT MOMENT [WORD..]: starts a server through tests/lib/desk.py. Each WORD is an
# additional option of the server. When the function returns, the server listens at $port. If the
# server fails, the file `fault` has the reason. FILE.log has the server's standard error. The
# function `finish` waits until the server ends.
serve() {
    /usr/bin/python3 -B "$here/../lib/desk.py" "$desk" "$@" >listening 2>fault &
    server=$!
    read -r port <listening || { cat fault >&2; exit 1; }
}

finish() {
    wait "$server" || { echo "the server ended with status $?" >&2; cat fault >&2; exit 1; }
    server=
}

# copy FILE TO: copies a database together with its log.
copy() {
    rm -f "$2" "$2-wal"
    cp "$1" "$2"
    if [ -e "$1-wal" ]; then cp "$1-wal" "$2-wal"; fi
}
