#!/usr/bin/env bats
# `bin/proved` builds only stale programs, and repeats a build that was interrupted.
#
# To find stale programs, bin/proved compares the checksums of the sources. If bin/proved runs twice at the same time, each program is built once.
#
# The test uses four small crates and a stub of rt. The stub of rt records when it begins and when it ends. At most PROVED_AT_ONCE libraries are built
# at the same time, each after its dependencies. If a source changes during a build, bin/proved builds again. If a signal stops bin/proved, bin/proved
# ends its rt processes and removes its temporary folders. A program doesn't count as built if it is incomplete, or if its build was killed. If a
# build fails, bin/proved shows the failure and exits with status 125.
# pytestmark = [mark.package, mark.wants("bats")]

# Makes a clone and builds its program.
setup() {
    bats_require_minimum_version 1.5.0
    cd "$BATS_TEST_TMPDIR"
    mkdir -p clone/bin path rooms
    for crate in low left right top; do mkdir -p "clone/crates/$crate/src" && echo "$crate" >"clone/crates/$crate/src/lib.rt"; done
    printf 'low:\nleft: low\nright: low\ntop: left right\n' >clone/crates.txt
    echo 'Handles allowed: none.' >clone/HANDLES
    cp "$BATS_TEST_DIRNAME/../../bin/proved" "$BATS_TEST_DIRNAME/../../bin/build_program" clone/bin/
    cat >path/rt <<'RT'
#!/bin/sh
crate=$(basename "$PWD")
echo "begin $crate" >>"$WORK/calls"
for below in $([ "$1" = run ] || sed -n "s/^$crate://p" ../../crates.txt); do
    cmp -s "../$below/src/lib.rt" "../$below/out/rlib/stamp" || { echo "$crate: $below isn't built"; exit 1; }
done
[ "$crate" != "${FAILS-}" ] || { echo "$crate isn't proved"; exit 1; }
mkdir -p out/rlib
if [ "$1" = run ]; then
    printf '#!/bin/sh\necho runs "$@"\n' >"out/$crate"
    chmod +x "out/$crate"
fi
sleep "${TAKES:-0.3}"
[ "$1" = run ] || cp src/lib.rt out/rlib/stamp
echo "end $crate" >>"$WORK/calls"
RT
    chmod +x path/rt
    export WORK=$PWD TMPDIR=$PWD/rooms PATH=$PWD/path:$PATH
    PROVED_AT_ONCE=4 built 4
    [ "$(most)" = 2 ]
    [ "$(sed -n 1,2p calls | xargs)" = 'begin low end low' ]
    [ "$(tail -n 2 calls | xargs)" = 'begin top end top' ]
    [ "$(grep -c '^top: [a-z]* is proved ([0-9]* s), [0-3] left$' said)" = 4 ]
}

# built COUNT: checks that the built program runs, and that bin/proved called rt for COUNT crates.
built() {
    : >calls
    [ "$(clone/bin/proved top a 'b c' 2>said)" = 'runs a b c' ]
    [ "$(grep -c begin calls) $(grep -c end calls)" = "$1 $1" ]
    [ -z "$(ls rooms)" ]
    [ ! -e clone/crates/top/out/build.started ]
    for crate in low left right; do cmp "clone/crates/$crate/out/rlib/stamp" "clone/crates/$crate/src/lib.rt"; done
}
edit() {
    sleep 0.05
    echo more >>"clone/crates/$1/src/lib.rt"
    : >calls
}
# most: prints the greatest number of rt processes that ran at the same time.
most() { awk '/begin/ { n++ } /end/ { n-- } n > m { m = n } END { print m }' calls; }
# wait_for LINE: waits until the stub of rt has written this line into the file `calls`.
wait_for() {
    for _ in $(seq 100); do ! grep -qx "$1" calls || return 0; sleep 0.1; done
    return 1
}
proved_behind() { clone/bin/proved top "$@" >out 2>said 3>&- & }

@test 'a second call builds nothing' {
    built 0
    [ ! -s said ]
}

@test 'one at a time, after an edit' {
    edit left
    PROVED_AT_ONCE=1 built 4
    [ "$(most)" = 1 ]
}

@test 'touched files and an undone edit build nothing' {
    touch clone/crates.txt clone/crates/low/src/lib.rt
    built 0
    edit low
    echo low >clone/crates/low/src/lib.rt
    built 0
    [ ! -s said ]
    [ -z "$(find clone/crates/*/src -newer clone/crates/top/out/top)" ]
}

@test 'a removed file and a new file cause a build' {
    echo two >clone/crates/low/src/two.rt
    built 4
    sleep 0.05
    rm clone/crates/low/src/two.rt
    built 4
}

@test 'a crate with one more dependency is built again' {
    sleep 0.05
    sed -i 's/^right: low/right: low left/' clone/crates.txt
    built 4
}

@test 'a program without a checksum is built again' {
    rm clone/crates/top/out/build.sum
    touch clone/crates/low/src/lib.rt
    built 4
}

@test 'an invalid number' {
    edit low
    PROVED_AT_ONCE=none run ! clone/bin/proved top
    [[ $output == *"PROVED_AT_ONCE must be a number above 0, not 'none'"* ]]
}

@test 'an edit during a build' {
    edit low
    proved_behind
    wait_for 'begin left'
    echo more >>clone/crates/left/src/lib.rt
    wait "$!"
    built 4
}

# stopped SIGNAL: sends the signal, and checks that each rt ends, that no temporary folder is left, and that no program counts as built.
stopped() {
    edit low
    # A background command ignores INT.
    TAKES=1 env --default-signal=INT clone/bin/proved top >out 2>said 3>&- &
    wait_for 'begin low'
    kill -s "$1" "$!"
    status=0; wait "$!" || status=$?
    [ "$status" != 0 ]
    sleep 1.5
    run ! grep end calls
    [ -z "$(ls rooms)" ]
    [ -e clone/crates/top/out/build.started ]
    built 4
}

@test 'a build that is stopped by TERM' { stopped TERM; }
@test 'a build that is stopped by INT' { stopped INT; }
@test 'a build that is stopped by HUP' { stopped HUP; }

@test 'a build that is killed when the program exists and is newer than its sources' {
    edit low
    TAKES=1 proved_behind
    wait_for 'begin top'
    sleep 0.3
    kill -KILL "$!"
    wait "$!" || :
    sleep 1
    [ "$(clone/crates/top/out/top)" = runs ]
    [ -z "$(find clone/crates/*/src -newer clone/crates/top/out/top)" ]
    rm -rf rooms/*
    built 4
}

@test 'a crate that fails' {
    edit right
    FAILS=right run -125 clone/bin/proved top
    [[ $output == *'top: right could not be proved and built; '*'/crates/top/out/build.log ends:'* ]]
    [ "${lines[-1]}" = "right isn't proved" ]
    built 4
}

@test 'two simultaneous calls' {
    edit low
    proved_behind first
    wait_for 'begin low'
    [ "$(clone/bin/proved top second 2>waited)" = 'runs second' ]
    wait "$!"
    [ "$(cat out) $(grep -c begin calls)" = 'runs first 4' ]
    grep -q '^top: waiting for the end of another build in ' waited
}
