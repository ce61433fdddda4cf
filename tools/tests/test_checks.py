#!/usr/bin/env python3
"""Plants faults for the checks of tools/check_pages.sh in a copy of what they read, and sees that each is told.

    tools/tests/test_checks.py

First each check has to find nothing in the copy as it is; then, with all its faults planted, it has to tell of each, and to end
with status 1.
"""
import pathlib
import shutil
import subprocess
import sys
import tempfile

from places import TOP

COPIED = ("README.md", "crates.txt", "crates", "tools", "include", "c_tests", "packaging", "examples", "docs", ".ci")
# (joined here, so that no file has it as it is planted)
NOWHERE = "_".join(("named", "by", "no", "file"))
# a check; and its faults: the file, the text that is replaced (or put at the end), what stands in its place, what has to be told
FAULTS = {
    "check_names.py": (
        ("docs/HOWTO.md", "`rt plant`", f"`{NOWHERE}`", f": {NOWHERE}"),
        ("docs/PROVED.md", "`evr_order_is_total`", f"`{NOWHERE}` of `solv_prov`", f"{NOWHERE} of solv_prov"),
        ("docs/GATE.md", "`tools/c_tests.py`", f"`tools/{NOWHERE}.py`", f"no file tools/{NOWHERE}.py"),
        ("docs/ARCHITECTURE.md", "| prov, graph |", "| prov |", "solv_trans stands on solv_graph too"),
        ("docs/ARCHITECTURE.md", "| trans, over |", "| trans, over, writing |", "solv_answers does not stand on solv_writing"),
    ),
    "check_edits.py": (
        ("crates/solv_core/must-fail/spent_at_once.edit", "old: if ledger.spent() {", f"old: if {NOWHERE} {{", "0 times in src/core_run.rt"),
        ("crates/solv_trans/must-fail/going_like_coming.edit", "Turn::Early", "Turn::Late", "it changes nothing"),
        ("crates/solv_base/must-fail/pre_release_above_release.edit", "src/version/tokens.rt", f"src/{NOWHERE}.rt", f"there is no src/{NOWHERE}.rt"),
    ),
    "promise.py --check": (
        (
            "crates/solv_pool/specs/Counting.antt",
            None,
            f"\n-- one that no contract reaches\nabbrev pub {NOWHERE} : ℕ\n{NOWHERE} = 7\n",
            f"{NOWHERE} is not of the promise",
        ),
    ),
    "check_numbers.py": (
        ("docs/PROMISE.md", "to a program that calls them | ", "to a program that calls them | 9", "--print library has"),
        ("docs/PROMISE.md", "`proof_run`; of these ", "`proof_run`; of these 9", "of --print proofcheck are not in the text of `run`"),
        ("docs/PROMISE.md", "`--print laws`", "`--print law`", "no row of --print laws"),
        ("crates/solv_script_tests/args", "nothing.t\n", "nothing.t\nnothing.t\n", " scripts"),
        ("docs/PROVED.md", " texts in the gate", " texts", "docs/PROVED.md: 0 sentences on"),
        ("docs/HOWTO.md", "at most 90 of them", "at most 30 of them", "30 is not right of"),
    ),
    "check_words.py": (
        ("docs/LIBRARY.md", None, "\n" + "word " * 41 + "\n", "docs/LIBRARY.md:"),
        ("docs/DECISIONS.md", "## Layout\n", "## Layout\n\n- " + "Word and word. " * 30 + "\n", "an entry of 90 words"),
        ("docs/GLOSSARY.md", None, "\n| x |\n|---|\n" + "| word |\n" * 60_000, " words in all, and not "),
    ),
    "check_rows.py": (
        ("crates/solv_script_tests/args", "shown/worked/language.t\n", "", "shown/worked/language.t is run by no argument"),
        ("crates/solv_script_tests/stdout", "0 shown/worked/favoured.t\n", "", "no status of shown/worked/favoured.t"),
        ("docs/PROVED.md", "`shown/worked/nothing.t`", "`steps_are_checked`", "shown/worked/nothing.t has no row"),
        ("crates/solv_call_tests/src/log_tests.rt", "fn steps_are_checked(", "fn steps_are_seen(", "steps_are_checked is no test"),
        ("crates/solv_run_tests/src/run_tests.rt", "    UNCLOSED,\n", "", "UNCLOSED is no case of runs_go_as_they_are_to"),
        ("crates/solv_proof_tests/args", "clash\n", "", "clash is no argument of solv_proof_tests"),
    ),
}


def run(top, check):
    name, *words = check.split()
    done = subprocess.run([sys.executable, top / "tools" / name, *words], capture_output=True, text=True)
    return done.returncode, done.stdout + done.stderr


def copied(top):
    for name in COPIED:
        here = TOP / name
        if here.is_dir():
            shutil.copytree(here, top / name, ignore=shutil.ignore_patterns("out", "__pycache__"))
        else:
            shutil.copy(here, top / name)


def planted(top, faults):
    """Plants faults, and gives the texts that were there."""
    before = {}
    for name, old, new, _ in faults:
        text = (top / name).read_text()
        before.setdefault(name, text)
        if old is not None and old not in text:
            sys.exit(f"{name} has no {old!r}, where a fault is to be planted")
        (top / name).write_text(text + new if old is None else text.replace(old, new, 1))
    return before


def main():
    with tempfile.TemporaryDirectory() as folder:
        top = pathlib.Path(folder)
        copied(top)
        for check, faults in FAULTS.items():
            status, told = run(top, check)
            if status:
                sys.exit(f"{check} finds without a fault:\n{told}")
            before = planted(top, faults)
            status, told = run(top, check)
            for name, _, new, wanted in faults:
                if status != 1 or wanted not in told:
                    sys.exit(f"{check} does not tell of {new!r} in {name}: status {status}\n{told}")
            for name, text in before.items():
                (top / name).write_text(text)
        status, told = run(top, "promise.py --words solv_policy")
        if status or "| `by_policy` | the candidates in their order |" not in told:
            sys.exit(f"promise.py --words solv_policy: status {status}\n{told}")
    print("as it should be")


if __name__ == "__main__":
    main()
