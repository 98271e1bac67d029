#!/bin/sh
# The pages in web/ are what `bin/pages` makes from web/src, and the modules in web/src pass their tests.
#
# Node's test runner runs the modules' tests, which are in web/tests. A module that needs a browser
# gets the doubles of web/tests/doubles.
#
# pytestmark = [mark.browser, mark.quick, mark.wants("nodejs")]
set -eu
cd "$(dirname -- "$0")/../.."
bin/pages --check
for module in web/src/*.mjs web/tests/*.mjs web/tests/doubles/*.mjs; do node --check "$module"; done
exec node --test web/tests/
