#!/bin/sh
# `rt check` refuses every mutant, including the mutants that the gate omits to save time.
#
# If the contracts accept a mutant, the test that the mutant's edit names must fail.
#
# A mutant is an edit of a crate's code. The program tries mutants, and prints how each mutant is
# refused. The check may find that a goal is false, or leave a goal open. In other cases, a proof
# fails only because it cites a name that the edit removed. If the check proves the mutant, the test
# that the edit names must fail.
#
# The mutants are in crates/NAME/must-fail/ and crates/NAME/more-edits.txt. `rt check` tries the
# mutants in a scratch copy of the current tree. Run this program for each crate whose code or
# contracts change. The status is 1 if a mutant is proved or can't be tried.
#   tests/more_edits.sh                              tries the mutants of all crates
#   tests/more_edits.sh club_core club_reference     tries the mutants of these crates
#   tests/more_edits.sh club_core/charges_a_repeat   tries this mutant
#
# The first word of each printed line is the result:
# - false: the check found a counterexample to a goal, so the mutant has no proof.
# - goal: a goal stays open although each name in its proof exists. An answer is a handwritten proof
#   of a goal. If the goal has an answer, the answer fits the right body but fails for the mutant.
#   If the goal has no answer, the tactics fail.
# - names: only answers fail, because they cite a name that the edit removed. The code's conditions,
#   match arms and calls determine these names. The mutant may break the contract, or it may only
#   have a shape that differs from the right body's shape. So `names` is weak evidence. Rewrite such
#   an edit so that it changes a value and keeps the names.
# - test: the contracts accept the mutant, and the test in the edit's line `test: CRATE
#   MODULE::TEST` fails. An example is a body that reports out of memory although memory is
#   available.
# - proved: the contracts accept the mutant, perhaps only after the answers with missing names are
#   removed. The named test passes too, or the edit names no test.
# - limit: the check exceeded its limit of stack, memory or steps, and gave no verdict.
# - bad: the edit can't be applied, the check can't try the edited code, or the named test doesn't
#   exist.
# With the results `false`, `goal` and `test`, the mutant is refused because of its meaning. Only
# `false` proves that the goal is false. The result `goal` means that the proof fails and that no
# tactic finds another proof. Most mutants get `goal` although their goals are false, because the
# check seldom finds values that break an equation of lists or a bound on a product.
#
# pytestmark = [mark.proofs, mark.timeout(36000)]
here=$(CDPATH='' cd -P -- "$(dirname -- "$0")" && pwd)
exec python3 "$here/lib/more_edits.py" "$@"
