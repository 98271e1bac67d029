#!/bin/sh
# The functions of clubpass.h do what the header says, with each input that libFuzzer tries.
#
# libFuzzer runs for ten minutes, or for as many seconds as the first argument says. The test runs
# tests/peers/passes_from_c/fuzz.c with AddressSanitizer, in a process for each processor. The
# fuzzer begins with the texts of docs/vectors.json, with the bytes that these texts encode in
# base64, and with the caveats of that file.
# pytestmark = [mark.faults, mark.needs("pass_c"), mark.wants("clang libclang-rt-dev python3")]
set -eu
here=$(CDPATH='' cd -P -- "$(dirname -- "$0")" && pwd)
work=$(mktemp -d)
trap 'rm -rf "$work"' EXIT
trap 'exit 1' INT TERM HUP
cd "$work"
"$here/../../bin/library" "$work/library" >/dev/null
mkdir seeds
/usr/bin/python3 - "$here/../../docs/vectors.json" <<'SEEDS'
import base64
import json
import sys

vectors = json.load(open(sys.argv[1], encoding="utf-8"))


def wrapped(text):
    """Returns the bytes that a pass's text encodes, as far as the text can be decoded."""
    if text.startswith("{"):
        return text.encode()
    letters = "".join(it for it in text if it.isascii() and it.isalnum() or it in "-_").encode()
    return base64.urlsafe_b64decode(letters[:len(letters) // 4 * 4])


texts = [it[form] for it in vectors["passes"] for form in ("v1", "v2", "json") if form in it]
texts += [it["text"] for name in ("also read as the third pass", "not passes") for it in vectors[name] if "text" in it]
seeds = [b"\0" + it.encode() for it in texts] + [b"\1" + wrapped(it) for it in texts]
seeds += [b"\2" + it["caveat"].encode() for it in vectors["caveats"]] + [b"\2" + it.encode() for it in vectors["not understood"] if isinstance(it, str)]
seeds += [b"\3" + bytes(it) for it in ([0] * 16, [1, 0, 0, 0, 9, 0, 0, 0, 9, 0, 0, 0, 64, 0, 0, 0, 255, 255], [255] * 200)]
for number, seed in enumerate(seeds):
    with open(f"seeds/{number}", "wb") as file:
        file.write(seed)
SEEDS
# shellcheck disable=SC2016 # a dictionary of libFuzzer
printf '"%s"\n' '\"i\":\"' '\"i64\":\"' '\"c\":[' '{\"i\":\"' '\"s64\":\"' '\"v\":2' '\"l\":\"' 'v64' 'l64' '002fsignature ' '0015identifier ' '0017location ' '0016cid ' 'vid' \
    'kind = ' 'court' 'hours = ' 'days = ' 'until < ' 'guests <= ' 'spend <= ' 'actions = ' 'weekday = ' 'facility = ' '2026-05-01' '\\u00' >words
clang -g -O1 -fsanitize=fuzzer,address -o fuzz "$here/passes_from_c/fuzz.c" -I "$here/../../include" library/lib/libclubpass.a
seconds=${1-600}
status=0
# Runs each input of the corpus once, because in its fork mode libFuzzer skips inputs at which the
# program ends.
./fuzz seeds/* >log 2>&1 || { tail -n 40 log >&2; exit 1; }
./fuzz -max_total_time="$seconds" -max_len=20000 -len_control=20 -dict=words -fork="${FUZZERS-$(nproc)}" -ignore_crashes=0 -print_final_stats=1 seeds >log 2>&1 || status=$?
if [ "$status" != 0 ] || grep -q 'ERROR: \|not so, line' log; then
    tail -n 40 log >&2
    exit 1
fi
echo "$seconds seconds: $(grep -o '#[0-9]*: cov: [0-9]*' log | tail -n 1)"
