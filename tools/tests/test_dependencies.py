#!/usr/bin/env python3
"""Tries dependencies.py against testsolv: a text fits at a place where the program reads it there.

    tools/tests/test_dependencies.py [TESTSOLV]

Without the word it takes the program where `rt run` builds it. The texts are a list, and many that are drawn.
"""
import pathlib
import random
import re
import subprocess
import sys

import places

from dependencies import evr_text, unfit, with_signs
from rounds import TESTSOLV
from rpms_for_tests import same

TEXTS = (
    """\
a
lib.so()(64bit)
foo(bar
foo)
a b
a = 1
a  =  1:2-3
a =
= 3
a = (
a = 1)
a = -1
a <> 2
and
a = or
&foo
-
<foo
perl(A B)
(a and b)
(a and b and c)
(a and b or c)
((a and b) or c)
(a or b >= 2)
(a if b)
(a if b else c)
(a if b else c else d)
(a if (b else c))
(a if (b if c))
(a if (b and (c unless d)))
(a unless b)
(a unless b else c)
(a else b)
(a with b >= 2 with b < 3)
(a with (b or c))
((a and b) with c)
(a without b)
(a without b without c)
(a without (b with c))
(a
()
(namespace:language(de) and a)
namespace:language(de)
namespace:language(de) = 1
namespace:language = 1
(lib(x86-64) = 1(b) or c)
""".splitlines()
    + ["(" + " and ".join("a" * count) + ")" for count in (65, 66)]
    + ["(" * count + "a" + ")" * count for count in (64, 65)]
)
WORDS = ["a", "b(c)", "d", "(", "(", ")", ")", "and", "or", "if", "else", "unless", "with", "without", "=", ">=", "1"]
TAGS = ("Req", "Con", "Prv", "Obs", "Sup")


def is_read(program, tag, text):
    script = f"repo a 0 testtags <inline>\n#>=Pkg: p 1 1 noarch\n#>={tag}: {text}\n"
    done = subprocess.run([program, "/dev/stdin"], input=script, capture_output=True, text=True)
    if done.returncode not in (0, 2):
        sys.exit(f"status {done.returncode} of {text}: {done.stderr}")
    return done.returncode == 0


def operand(draw, depth):
    if depth == 0 or draw.random() < 0.4:
        return draw.choice(("a", "b(c)", "d >= 2", "e = 1:2-3"))
    operator = draw.choice(("and", "or", "if", "unless", "with", "without"))
    text = f"({operand(draw, depth - 1)} {operator} {operand(draw, depth - 1)}"
    return text + (f" {draw.choice((operator, 'else'))} {operand(draw, depth - 1)})" if draw.random() < 0.4 else ")")


def try_signs(program, texts):
    """A text with signs is to testsolv what it is with words: both are written again as the same."""
    packages = "".join(f"#>=Pkg: p 1 1 noarch\n#>=Req: {text}\n" for rich in texts for text in (rich, with_signs(rich)))
    done = subprocess.run([program, "--write", "/dev/stdin"], input=f"repo a 0 testtags <inline>\n{packages}", capture_output=True, text=True)
    written = [line for line in done.stdout.splitlines() if line.startswith("#>=Req: ")]
    same("how many are written again", len(written), 2 * len(texts))
    for text, words, signs in zip(texts, written[::2], written[1::2]):
        same(f"{text} with signs, {with_signs(text)}", signs, words)
    same(
        "no word is left",
        [text for text in texts if re.search(r"\) (and|or|if|unless|else|with|without) |[a-z0-9] (if|unless|else) ", with_signs(text))],
        [],
    )


def main():
    program = pathlib.Path(sys.argv[1]) if len(sys.argv) > 1 else TESTSOLV
    if not program.is_file():
        print(f"skipped: there is no program {program}")
        return
    draw = random.Random(1)
    drawn = ["(" + " ".join(draw.choices(WORDS, k=draw.randrange(3, 9))) for _ in range(300)] + [operand(draw, 3) for _ in range(500)]
    tried = [(tag, text) for text in TEXTS for tag in TAGS] + [(draw.choice(TAGS), text) for text in drawn]
    fitting = 0
    for tag, text in tried:
        why = unfit(text, tag)
        fitting += why is None
        same(f"={tag}: {text} is read ({why})", is_read(program, tag, text), why is None)
    rich = list(dict.fromkeys(text for _, text in tried if text[0] == "(" and unfit(text, "Req") is None))
    same(f"many rich texts, {len(rich)}", len(rich) > 60, True)
    try_signs(program, rich)
    same("texts of both kinds are tried", fitting > 200 and len(tried) - fitting > 200, True)
    # (rpm takes a name with a blank for one name, so its words are no operators)
    same("a name with a blank", unfit("a and b", "Req"), "a name with a blank")
    same("versions", [evr_text(*parts) for parts in (("0", "1", "2"), ("3", "1", None), (None, "1", "2"))], ["1-2", "3:1", "1-2"])
    print("as it should be")


if __name__ == "__main__":
    main()
