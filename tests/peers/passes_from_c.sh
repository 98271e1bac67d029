#!/bin/sh
# Each function of clubpass.h, called from C, does what the header says.
#
# The test calls each function with normal values, with values at its limits, and with values that
# cause each fault.
#
# gcc and clang build tests/peers/passes_from_c.c with the shared library and with the static
# library. The test also compiles the header as C99 and as C++. The program runs without tools,
# under valgrind, and with AddressSanitizer and UndefinedBehaviorSanitizer. The program also runs
# with eight threads, without tools and under helgrind. Each input ends before an inaccessible page
# of memory. In each further run, one allocation fails. Then the call must return "out of memory",
# and the object must be empty.
# pytestmark = [mark.programs, mark.needs("pass_c"), mark.wants("gcc g++ clang libc6-dev pkg-config valgrind")]
set -eu
here=$(CDPATH='' cd -P -- "$(dirname -- "$0")" && pwd)
work=$(mktemp -d)
trap 'rm -rf "$work"' EXIT
. "$here/../lib/checks.sh"
cd "$work"
"$here/../../bin/library" "$work/library" >/dev/null
export PKG_CONFIG_PATH="$work/library/lib/pkgconfig" LD_LIBRARY_PATH="$work/library/lib"
warnings='-Wall -Wextra -Wconversion -Wno-sign-conversion -Werror -g -O1'

# built NAME COMPILER WORD..: builds the program with the shared library.
built() {
    name=$1
    shift
    # shellcheck disable=SC2086,SC2046 # words
    holds "$name is built" "$@" $warnings -o "$name" "$here/passes_from_c.c" $(pkg-config --cflags --libs clubpass) -lpthread
}
built shared gcc -std=c11
built by_clang clang -std=c11
built checked gcc -std=c11 -fsanitize=address,undefined -fno-sanitize-recover=all
# shellcheck disable=SC2086
holds 'static is built' gcc -std=c11 $warnings -I "$here/../../include" -o static "$here/passes_from_c.c" "$work/library/lib/libclubpass.a" -lpthread
printf '#include <clubpass.h>\nint main() { clubpass pass = CLUBPASS_INIT; return (int)clubpass_caveat_count(&pass); }\n' >plain.cc
for standard in c++11 c++17; do
    # shellcheck disable=SC2046
    holds "the header compiles as $standard" g++ -std="$standard" -Wall -Wextra -Werror -pedantic -o plain plain.cc $(pkg-config --cflags --libs clubpass)
    holds "a program in $standard" ./plain
done
cp plain.cc plain.c
# shellcheck disable=SC2046
holds 'the header compiles as C99' gcc -std=c99 -Wall -Wextra -Werror -pedantic -o plain plain.c $(pkg-config --cflags --libs clubpass) -Wno-strict-prototypes

for program in shared by_clang static checked; do
    holds "$program" "./$program"
    same "$program" 'all hold' "$(cat told)"
    holds "$program in threads" "./$program" threads 2000
done
holds 'under valgrind' valgrind -q --error-exitcode=9 --leak-check=full --show-leak-kinds=all ./shared
same 'under valgrind' 'all hold' "$(cat told)"
holds 'threads under helgrind' valgrind -q --tool=helgrind --error-exitcode=9 ./shared threads 20
same 'names of the shared library' "$(grep -o 'clubpass_[a-z_]*(' "$here/../../include/clubpass.h" | tr -d '(' | sort -u)" \
    "$(nm -D --defined-only library/lib/libclubpass.so.0 | sed -n 's/.* T \([a-z_]*\)@.*/\1/p' | sort -u)"
same 'names of the static library' "$(nm -D --defined-only library/lib/libclubpass.so.0 | sed -n 's/.* T \([a-z_]*\)@.*/\1/p' | sort -u)" \
    "$(nm -g --defined-only library/lib/libclubpass.a | sed -n 's/.* [A-Z] //p' | sort -u)"

# ---- In each run, another allocation fails. If the program itself needs this allocation to read a
# line of input, the program prints fewer lines. Such a run doesn't count.
holds 'tell is built' gcc -g -O1 -o tell "$here/passes_from_c/tell.c" -I "$here/../../include" library/lib/libclubpass.a
holds 'refused_memory is built' gcc -shared -fPIC -O1 -o refused_memory "$here/../lib/refused_memory.c" -ldl
cat >lines <<'LINES'
pass 00112233445566778899aabbccddeeff 41674545
pass 00112233445566778899aabbccddeeff 7b2263223a5b7b2269223a226b696e64203d20636f757274227d5d2c2269223a226b65793a616d792d31222c226c223a22636c75622d6465736b222c22733634223a224a42414930385158564d5f73444d4d73363944725962374e6d2d4567545674516667304b4d5a6a5176764d222c2276223a327d
LINES
ALLOCATIONS_COUNTED=$work/counted LD_PRELOAD=$work/refused_memory ./tell <lines >whole
same 'two lines' 2 "$(wc -l <whole)"
met=0
for number in $(seq 1 "$(cat counted)"); do
    REFUSED_ALLOCATION=$number LD_PRELOAD=$work/refused_memory ./tell <lines >told 2>/dev/null
    [ "$(wc -l <told)" = 2 ] || continue
    checks=$((checks + 1))
    cmp -s whole told || { grep -Eq '^fault 5$| fault-5 ' told && met=$((met + 1)); } || fail "allocation $number is refused: $(cat told)"
done
[ "$met" -gt 5 ] || fail "only $met refused allocations caused a fault"
echo "$checks checks hold; memory was refused $met times"
