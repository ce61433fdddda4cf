#!/bin/sh
# Runs the tests of all tools, and ends with status 1 where one fails. Each says what it skips where its parts are missing.
#
#     tools/test_tools.sh [TESTSOLV PROOFCHECK]
#
# Without the words the programs are taken where `rt run` builds them.
here=$PWD
cd "$(dirname "$0")/.." || exit 2

# a program's place: $1 as it was given, from the folder of the call, or else $2
place() {
    case $1 in
        "") echo "$PWD/$2" ;;
        /*) echo "$1" ;;
        *) echo "$here/$1" ;;
    esac
}
testsolv=$(place "$1" crates/testsolv/out/testsolv)
proofcheck=$(place "$2" crates/proofcheck/out/proofcheck)

failed=0
try() {
    echo "$1:"
    "$@" || failed=1
}
if command -v black > /dev/null; then
    try black --check --quiet tools
else
    echo "black --check tools: skipped, since black is not installed (Debian: black)"
fi
try tools/tests/test_checks.py
try tools/tests/test_where.py
try tools/tests/test_testtags.py
try tools/tests/test_passed_over.py
try tools/tests/test_refused_memory.py
if [ -x "$testsolv" ]; then
    try tools/tests/test_unpack_debugdata.py "$testsolv"
else
    try tools/tests/test_unpack_debugdata.py
fi
try tools/tests/test_dependencies.py "$testsolv"
try tools/tests/test_odd_repositories.py
try tools/tests/test_suse.py "$testsolv"
try tools/tests/test_compare_readings.py
try tools/tests/test_rpmmd_to_testtags.py "$testsolv"
try tools/tests/test_rpmdb_to_testtags.py "$testsolv"
try tools/tests/test_installable.py "$testsolv" "$proofcheck"
try tools/tests/test_installable_pages.py "$testsolv" "$proofcheck"
try tools/tests/test_upgrade.py "$testsolv"
try tools/tests/test_upgrade_pages.py "$testsolv"
try tools/tests/test_differences.py "$testsolv"
try tools/tests/test_picture.py "$testsolv"
try tools/tests/test_shrink.py "$testsolv"
try tools/tests/test_hostile.py "$testsolv"
exit "$failed"
