#!/bin/sh
# What is checked of pages, definitions and edits without a proof, each in seconds; ends with status 1 where one of them tells of something.
#
#     tools/check_pages.sh
cd "$(dirname "$0")/.." || exit 2
failed=0
try() {
    echo "$*:"
    "$@" || failed=1
}
try tools/promise.py --check
try tools/check_edits.py
try tools/check_names.py
try tools/check_numbers.py
try tools/check_rows.py
try tools/check_words.py
exit "$failed"
