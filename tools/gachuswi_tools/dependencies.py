"""The texts of dependencies: how they are written in a repository, and which of them cannot stand there.

docs/FORMATS.md, "Dependencies", has the grammar. Operators may be signs, which are libsolv's, or words, which are rpm's.
"""
import functools

SIGNS = {"&": "and", "|": "or", "+": "with", "-": "without", "<IF>": "if", "<UNLESS>": "unless", "<ELSE>": "else"}
BY_WORD = {word: sign for sign, word in SIGNS.items()}
OPERATORS = {**SIGNS, **{word: word for word in SIGNS.values()}}
COMPARISONS = {"<", "<=", "=", ">=", ">", "<>"}
# the bits of rpm's flags for "less", "greater" and "equal"
BY_BITS = {2: "<", 4: ">", 6: "<>", 8: "=", 10: "<=", 12: ">="}
LIMIT = 64
# where a dependency stands, and what may not stand there
WITHOUT = {"Prv": set(SIGNS.values()), "Obs": set(SIGNS.values()), "Con": {"if"}}
# testsolv's blanks, which are not all that Python takes for one
BLANKS = " \t\r"
NAME = r"[^ \t\r\n()&|+<>=-][^ \t\r\n()]*(?:\([^ \t\r\n()]*\)[^ \t\r\n()]*)*"
# most dependencies: one name, or one with a comparison, and no parenthesis that could be taken for another
PLAIN = rf"(?!namespace:){NAME}(?: (?:[<=>]|<=|>=|<>) [^ \t\r\n()&|+<>=-][^ \t\r\n()]*)?"


class Unfit(Exception):
    """Why a text cannot be a dependency."""


def evr_text(epoch, version, release):
    """An EVR as it is written: no epoch where it is 0, no release where there is none."""
    return (f"{epoch}:" if epoch and epoch != "0" else "") + version + (f"-{release}" if release else "")


def words_of(text):
    """The words of a text: a parenthesis where a word begins, and else what runs to a blank or to a `)` without a partner."""
    words, at = [], 0
    while at < len(text):
        end = at + 1
        if text[at] not in BLANKS:
            depth = 0
            while text[at] not in "()" and end < len(text) and text[end] not in BLANKS:
                depth += (text[end] == "(") - (text[end] == ")")
                if depth < 0:
                    break
                end += 1
            words.append(text[at:end])
        at = end
    return words


class Reader:
    """Reads a text into a tree: a name is its words, and a rich dependency a pair of an operator and its operands."""

    def __init__(self, text):
        self.words, self.at, self.depth, self.operators = words_of(text), 0, 0, 0

    def due(self):
        return self.words[self.at] if self.at < len(self.words) else None

    def take(self):
        self.at += 1
        return self.words[self.at - 1] if self.at <= len(self.words) else None

    def operand(self):
        word = self.take()
        if word == "(":
            self.depth += 1
            tree = self.expression()
            if self.take() != ")" or self.depth > LIMIT:
                raise Unfit("a parenthesis is not closed, or stands too deep")
            self.depth -= 1
            return tree
        if word is None or word == ")" or word in SIGNS or word in COMPARISONS:
            raise Unfit("a name is missing")
        if self.due() not in COMPARISONS:
            return word
        comparison, evr = self.take(), self.take()
        if evr in {None, "(", ")"} | SIGNS.keys() | COMPARISONS or is_namespace(word):
            raise Unfit("a version is missing, or may not stand there")
        return f"{word} {comparison} {evr}"

    def expression(self):
        operands, operator = [self.operand()], None
        while self.due() not in (None, ")"):
            one = OPERATORS.get(self.take())
            self.operators += 1
            if one is None or self.operators > LIMIT:
                raise Unfit("a blank in a name or version, or too many operators")
            is_chain = one == operator and one in ("and", "or", "with")
            is_otherwise = one == "else" and operator in ("if", "unless") and len(operands) == 2
            if operator and not is_chain and not is_otherwise:
                raise Unfit("operators are mixed without parentheses")
            operator = operator or one
            operands.append(self.operand())
            # an else may also stand in parentheses with the condition
            if operator in ("if", "unless") and isinstance(operands[1], tuple) and operands[1][0] == "else":
                operands[1:] = operands[1][1]
        return operands[0] if operator is None else (operator, operands)


def is_namespace(name):
    return name.startswith("namespace:") and "(" in name and name.endswith(")")


def operators_of(tree):
    if isinstance(tree, str):
        return set()
    return {tree[0]}.union(*map(operators_of, tree[1]))


def check(tree, tag):
    """Fails where the tree may not stand at this place."""
    if operators_of(tree) & WITHOUT.get(tag, {"unless"}):
        raise Unfit("an operator that may not stand at this place")
    if tag in ("Prv", "Obs") and is_namespace(tree):
        raise Unfit("a namespace that may not stand at this place")
    if isinstance(tree, str):
        return
    operator, operands = tree
    if operator == "else":
        raise Unfit("an else without its condition")
    if operator in ("if", "unless") and operators_of(operands[1]) & {"if", "unless"}:
        raise Unfit("a condition in a condition")
    if operator in ("with", "without") and set().union(*map(operators_of, operands)) - {"or", "with", "without"}:
        raise Unfit(f"an operand of {operator} that no single package can meet")
    for operand in operands:
        check(operand, tag)


@functools.lru_cache(1 << 16)
def unfit(text, tag):
    """Why the text cannot stand as a dependency of this tag, or None where it can."""
    try:
        reader = Reader(text)
        tree = reader.expression()
        if reader.due() is not None:
            raise Unfit("a parenthesis without a partner")
        if text[0] != "(" and not isinstance(tree, str):
            raise Unfit("a name with a blank")
        check(tree, tag)
    except Unfit as why:
        return str(why)
    return None


def signed(tree):
    """A tree's text with signs for its operators."""
    if isinstance(tree, str):
        return tree
    operator, operands = tree
    parts = [one if isinstance(one, str) else f"({signed(one)})" for one in operands]
    signs = [BY_WORD[operator]] * (len(parts) - 1)
    if operator in ("if", "unless"):
        signs[1:] = [BY_WORD["else"]] * len(signs[1:])
    return parts[0] + "".join(f" {sign} {part}" for sign, part in zip(signs, parts[1:]))


@functools.lru_cache(1 << 16)
def with_signs(text):
    """A rich dependency with signs, which stands in parentheses."""
    return f"({signed(Reader(text).expression())})"


def leaves(tree):
    """The names in a tree, each with its comparison."""
    return [tree] if isinstance(tree, str) else [leaf for operand in tree[1] for leaf in leaves(operand)]


def file_names(text):
    """The names of files that a text asks for."""
    return [word for word in words_of(text) if word.startswith("/")]
