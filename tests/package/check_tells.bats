#!/usr/bin/env bats
# `bin/check` runs `rt ci` and `tests/run quick`, and prints which of these two parts failed.
#
# .ci/run runs the same two parts, and adds up their counts. If `rt ci` fails, .ci/run still runs the second part. A part that crashes or never ends
# counts as a failure. bin/check refuses arguments, and fails if rt isn't in PATH.
#
# The test uses stubs of rt and of tests/run.
# pytestmark = [mark.quick, mark.wants("bats")]

# Makes a copy of bin/check and .ci/run, with stubs of the programs that they call.
setup() {
    bats_require_minimum_version 1.5.0
    mkdir -p "$BATS_TEST_TMPDIR/clone/bin" "$BATS_TEST_TMPDIR/clone/.ci" "$BATS_TEST_TMPDIR/clone/tests" "$BATS_TEST_TMPDIR/path"
    cd "$BATS_TEST_TMPDIR"
    cp "$BATS_TEST_DIRNAME/../../bin/check" clone/bin/
    cp "$BATS_TEST_DIRNAME/../../.ci/run" clone/.ci/
    stub path/rt gate 0 'rt: ok
123 passed, 0 failed'
    stub clone/tests/run scripts 0 'passed   0.1 s  lint
12 passed, 0 failed, 3 skipped'
    PATH=$PWD/path:$PATH
}

# stub FILE NAME STATUS LINES: makes a program that writes its name, arguments and folder to `calls`. The stub prints the lines, and exits with the
# status.
stub() {
    # shellcheck disable=SC2016 # the stub's shell reads it
    printf '#!/bin/sh\necho "%s $*, in $(basename "$PWD")" >>%s/calls\nprintf "%%s\\n" "%s"\nexit %s\n' "$2" "$PWD" "$4" "$3" >"$1"
    chmod +x "$1"
}
both_ran() { printf 'gate ci, in clone\nscripts --built quick, in clone\n' | cmp - calls; }
# fails COUNTS PARTS: checks that .ci/run calls both parts, and that it exits with status 1. The last line of standard output must be COUNTS, and the
# last line of standard error must list the failed PARTS.
fails() {
    rm -f calls
    run -1 --separate-stderr clone/.ci/run
    [ "${lines[-1]}" = "$1" ]
    [ "${stderr_lines[-1]}" = "check: failed: $2" ]
    both_ran
}

@test 'both pass' {
    run -0 --separate-stderr clone/bin/check
    [ "${lines[-1]}" = '135 passed, 0 failed' ]
    both_ran
}

@test 'the same result from .ci/run' {
    run -0 --separate-stderr sh -c 'cd clone && exec .ci/run'
    [ "${lines[-1]}" = '135 passed, 0 failed' ]
    [ "${lines[1]}" = '123 passed, 0 failed' ]
    both_ran
}

@test 'a proof fails' {
    stub path/rt gate 1 '120 passed, 3 failed'
    fails '132 passed, 3 failed' 'rt ci'
}

@test 'a test fails' {
    stub clone/tests/run scripts 1 '10 passed, 2 failed, 3 skipped'
    fails '133 passed, 2 failed' 'tests/run quick'
}

@test 'both fail' {
    stub path/rt gate 2 '0 passed, 1 failed'
    stub clone/tests/run scripts 1 '10 passed, 2 failed, 0 skipped'
    fails '10 passed, 3 failed' 'rt ci, tests/run quick'
}

@test 'a part that prints no counts, or no line' {
    stub path/rt gate 137 'Killed'
    stub clone/tests/run scripts 124 ''
    fails '0 passed, 2 failed' 'rt ci, tests/run quick'
    stub path/rt gate 0 ''
    fails '0 passed, 2 failed' 'rt ci, tests/run quick'
}

@test 'a status that contradicts the counts' {
    stub path/rt gate 1 '123 passed, 0 failed'
    stub clone/tests/run scripts 0 '10 passed, 2 failed, 0 skipped'
    fails '133 passed, 3 failed' 'rt ci, tests/run quick'
}

@test 'tests that never end, and their children' {
    sed -i 's/^MINUTES=.*/MINUTES=0.02/' clone/bin/check
    # shellcheck disable=SC2016
    printf '#!/bin/sh\nsleep 300 &\necho $! >left\nwait\n' >clone/tests/run
    run -1 --separate-stderr timeout 60 clone/.ci/run
    kill "$(cat clone/left)"
    [ "${lines[-1]}" = '123 passed, 1 failed' ]
}

@test 'a path without rt' {
    rm path/rt
    PATH=/usr/bin:/bin run -2 clone/bin/check
    [ "$output" = "check: rt isn't on the path" ]
    [ ! -e calls ]
}

@test 'an argument' {
    run -2 clone/bin/check quick
    [ "$output" = 'check: takes no arguments; tests/run runs a group or a single test' ]
    [ ! -e calls ]
}
