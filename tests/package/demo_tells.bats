#!/usr/bin/env bats
# `bin/demo` prints the text of tests/package/demo.told, and always ends its server.
#
# If `curl` or `sqlite3` is missing, bin/demo installs it as root with apt-get. If this isn't possible, bin/demo prints the names of the
# missing commands. bin/demo ends its server after a signal, and also if the server doesn't listen.
#
# If bin/demo can't continue, it prints the reason and exits, for root and for another user.
# pytestmark = [mark.pages, mark.needs("clubdesk passtool"), mark.wants("bats curl sqlite3")]

# Makes a folder with this machine's commands, but without the commands that the tests remove or replace.
setup() {
    bats_require_minimum_version 1.5.0
    load ../lib/serving.sh
    cd "$BATS_TEST_TMPDIR"
    some=$PWD/some
    mkdir some
    ln -s /usr/bin/* some/
    set -o pipefail
    rm -f some/curl some/sqlite3 some/apt-get some/id
    CLUBDESK=$desk PASSTOOL=$tool
    export CLUBDESK PASSTOOL
}

# put NAME: adds a command with this name to the folder `some`. Standard input is the command's script.
# is_user NUMBER: adds an `id` command that prints this user id.
put() { cat >"some/$1" && chmod +x "some/$1"; }
is_user() { echo "echo $1" | put id; }
demo() { "$here/../../bin/demo"; }
demo_of_some() { PATH=$some demo; }

# says_what_is_missing: checks that the demo's standard output is empty. Standard error must have the missing commands and the command
# line that installs them.
says_what_is_missing() {
    run -1 --separate-stderr demo_of_some
    [ -z "$output" ]
    [ "$stderr" = 'demo: these commands are missing: curl sqlite3. As root, run: apt-get install curl sqlite3' ]
}

# Replaces the desk with a desk whose server records its process id and never listens.
silent_desk() {
    # shellcheck disable=SC2016 # another shell reads it
    printf '#!/bin/sh\n[ "$1" = serve ] || exec %s "$@"\necho $$ >%s/server\nexec sleep 600\n' "$desk" "$PWD" >silent
    chmod +x silent
    CLUBDESK=$PWD/silent
}
# ended: waits until the server has ended.
ended() { for _ in $(seq 20); do kill -0 "$(cat server)" 2>/dev/null || return 0; sleep 0.1; done; return 1; }

@test 'with all commands' {
    demo | cmp - "$here/demo.told"
}

@test 'root without apt-get' {
    is_user 0
    says_what_is_missing
}

@test 'a user other than root, who does not call apt-get' {
    is_user 1000
    printf 'touch %s/called\n' "$PWD" | put apt-get
    says_what_is_missing
    [ ! -e called ]
}

@test 'an apt-get that knows its packages only after an update' {
    is_user 0
    put apt-get <<APT
echo "\$*" >>$PWD/installs
case "\$*" in
    *update) touch $PWD/known ;;
    *install*) [ -e $PWD/known ] && ln -s $(command -v curl) $(command -v sqlite3) $some/ ;;
esac
APT
    demo_of_some | cmp - "$here/demo.told"
    [ "$(grep -c 'install curl sqlite3$' installs)" = 2 ]
}

@test 'a server that does not listen' {
    silent_desk
    run ! --separate-stderr demo
    [ "$stderr" = 'demo: the server does not listen' ]
    ended
}

@test 'a signal' {
    silent_desk
    "$here/../../bin/demo" >told 2>said 3>&- &
    for _ in $(seq 100); do [ ! -s server ] || break; sleep 0.1; done
    kill "$!"
    status=0; wait "$!" || status=$?
    [ "$status" != 0 ]
    ended
}
