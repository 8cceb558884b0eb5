#!/usr/bin/env bash
# The test command of README.md: `rt ci`, and before its verdict what refused each must-fail edit, what the programs print for the examples, the library's tests in C, C++ and Rust where compilers are at
# hand, and, where python3 is at hand, whether docs/DEFINITIONS.md and every text made from docs/REFUSALS.md are up to date, that whoever tampers with the trusted texts, a log or a program is told,
# the tests of tools/plan and of the Python package, and the stamps from which tools/certificate tells commit, tree, toolchain, programs and libraries.
#   tools/test.sh            proves what changed since an earlier run on this machine, and the crates above that
#   tools/test.sh --anew     proves all of it, whatever earlier runs have kept: `tools/test.sh --anew | tee LOG` is what tools/certificate reads
# An edit that is refused only because a proof file no longer fits the code fails the run, and so do one that can't be applied or read, and an example whose box is not the expected one.
# Programs and library are those of this run: `rt ci` leaves each program in its crate's out/, and the libraries that it proved in theirs, over which the archive is built once (tools/library).
# The line before the verdict has the hash of all lines from the first stamp on. The last line is rt's own, `N passed, M failed`, M counting each other step that fails too.
set -u
cd "$(dirname "$0")/.." || exit 2
case "$*" in
"" | --anew) ;;
*) sed -n '2,8s/^# \{0,1\}//p' "$0"; exit 2 ;;
esac
command -v rt >/dev/null || { echo "rt, the Rattle toolchain's command, is not on the PATH"; echo "0 passed, 1 failed"; exit 2; }
made=$(mktemp -d)
trap 'rm -rf "$made"' EXIT
steps=0
fail() { echo "$1"; steps=$((steps + 1)); }
tests() {
    ! command -v python3 >/dev/null || tools/certificate --stamp begin
    rt ci $* >"$made/rt" 2>&1
    status=$?
    proved=$status
    verdict=$(tail -n 1 "$made/rt")
    sed '$d' "$made/rt"
    # What `rt ci` counts as bad it passes: an edit that can't be applied or read.
    ! grep -qE '^rt: ok.*, [1-9][0-9]* bad\b' "$made/rt" || fail "rt ci: must-fail edits above are bad, and show nothing"
    tools/why.sh "$made/rt" || fail "tools/why.sh: an edit above shows nothing"
    tools/examples.sh || fail "tools/examples.sh: an example above differs"
    if [ "$proved" -ne 0 ]; then
        echo "tools/boundary.sh: skipped, not everything is proved"
    else
        export JELLYPLAIN_AFTER_CI=1
        tools/boundary.sh || fail "tools/boundary.sh: the library in C, C++ or Rust is otherwise than it has to be"
    fi
    if command -v python3 >/dev/null; then
        tools/trusted --check 2>&1 || fail "tools/trusted --check: docs/DEFINITIONS.md or a quotation in docs/GUARANTEE.md and the texts differ"
        python3 tools/trusted_test.py 2>&1 || fail "tools/trusted_test.py: a tampered text above is not named"
        python3 tools/certificate_test.py 2>&1 || fail "tools/certificate_test.py: a tampered log, tree or program above is not named"
        tools/numbers --check || fail "tools/numbers --check: a text and the table of refusal numbers differ"
        python3 tools/plan_test.py 2>&1 || fail "tools/plan_test.py: a test of tools/plan above fails"
        python3 python/tests 2>&1 || fail "python/tests: a test of the Python package above fails"
        tools/certificate --stamp end
    else
        echo "tools/trusted --check, tools/numbers --check, the tests in Python and tools/certificate --stamp: skipped, there is no python3 here"
    fi
    if [ "$steps" -ne 0 ]; then
        [[ $verdict =~ ^([0-9]+)\ passed,\ ([0-9]+)\ failed ]] || BASH_REMATCH=("" 0 0)
        verdict="${BASH_REMATCH[1]} passed, $((BASH_REMATCH[2] + steps)) failed"
        [ "$status" -ne 0 ] || status=1
    fi
    echo "$status" >"$made/status"
    echo "$verdict" >"$made/verdict"
}
echo "0 passed, 1 failed" >"$made/verdict"
echo 1 >"$made/status"
tests "$@" | tee "$made/log"
echo "stamp: log $(sha256sum <"$made/log" | cut -d ' ' -f 1)"
cat "$made/verdict"
exit "$(cat "$made/status")"
