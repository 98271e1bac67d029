#!/bin/sh
# pyflakes, shellcheck, gofmt and go vet find no faults except those that the code excuses with a stated reason. black finds nothing to lay out anew.
#
# The program shellcheck reads the shell scripts and bats files of tests/, bin/ and deploy/. The program pyflakes reads the Python files of these
# folders, of examples/ and of bindings/. If gofmt is installed, gofmt reads the Go files of tests/,
# examples/ and bindings/. If Debian's packages for the desk in Go are also installed, go vet reads
# the desk's files.
#
# pytestmark = [mark.quick, mark.wants("shellcheck pyflakes3 black")]
set -eu
cd "$(dirname -- "$0")/../.."

# by_first_line PATTERN: lists the scripts whose first line matches the pattern.
by_first_line() {
    find tests bin deploy -type f ! -path '*/out/*' -exec sh -c 'head -n 1 "$1" | grep -qE "$2" && echo "$1"' - {} "$1" \;
}

status=0
# shellcheck disable=SC2046  # no name has a space
shellcheck -x -P tests/lib $(by_first_line '^#!/bin/(ba)?sh') || status=1
# In a bats file, bats sets some variables, and a test ends at the first command that fails.
shellcheck -x -P tests/lib -e SC2154,SC2164 tests/*/*.bats || status=1
# shellcheck disable=SC2046
pyflakes3 $(by_first_line 'python3') $(find tests examples deploy bindings -name '*.py') || status=1
# shellcheck disable=SC2046
black --check --quiet $(by_first_line 'python3') $(find tests examples deploy bindings -name '*.py') ||
    { echo "black: a file isn't in the layout of pyproject.toml"; status=1; }
if command -v gofmt > /dev/null; then
    spelled_otherwise=$(gofmt -l tests/peers/beside_go tests/peers/passes_from_c examples bindings)
    [ -z "$spelled_otherwise" ] || { echo "gofmt: $spelled_otherwise"; status=1; }
    if [ -d /usr/share/gocode/src/github.com/mattn/go-sqlite3 ] && [ -d /usr/share/gocode/src/gopkg.in/macaroon.v2 ]; then
        (cd tests/peers/beside_go && GO111MODULE=off GOPATH=/usr/share/gocode go vet -tags libsqlite3 .) || status=1
    fi
fi
exit $status
