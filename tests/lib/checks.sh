# Checks for the test scripts in the neighbouring folders. Source this file after serving.sh.
# `checks` is the number of checks so far. WHAT describes a check in the message about its failure.
checks=0
trap 'exit 1' INT TERM HUP

fail() {
    echo "$0: $1" >&2
    exit 1
}

# same WHAT WANTED FOUND: checks that the text FOUND is the text WANTED.
same() {
    checks=$((checks + 1))
    [ "$2" = "$3" ] || fail "$1: wanted and found
$2
$3"
}

# holds WHAT COMMAND..: checks that the command ends with status 0. Writes the command's output to
# the file `told`.
holds() {
    what=$1
    shift
    checks=$((checks + 1))
    "$@" >told 2>&1 || fail "$what: $(tail -n 30 told)"
}

# soon SECONDS WHAT COMMAND..: repeats the command until it ends with status 0, for at most SECONDS.
# Writes the last output to the file `told`.
soon() {
    tries=$(($1 * 10))
    what=$2
    shift 2
    until "$@" >told 2>&1; do
        tries=$((tries - 1))
        [ "$tries" -gt 0 ] || fail "$what: $(tail -n 30 told)"
        sleep 0.1
    done
}

# unsound FILE: prints the wrong totals of a club.
unsound() { sqlite3 "$1" "$(PYTHONPATH=$here/../lib /usr/bin/python3 -B -c 'import desk; print(desk.SUMS)')"; }
