#!/usr/bin/env python3
"""Gives this repository's own definitions and lemmas the names of the newer Rattle's style. Run once, at the top, after the kit's port.py.

Usage: port_names.py [--list]        (at the top of the repository that is ported; --list only prints old and new)

Words are in snake case (`memory_of`), types and facts that are types in camel case (`SameSizes`); a hyphen is in no name. Turned are the names that
specs/ and proofs/ of the crates define or bind: what stands first in a line of a module (a definition, a field, a constructor), and the names of
parameters, of `let` and of `λ`. Names of the library, what the check itself makes (`returns-in-..`), names of functions, exported names, strings,
inputs and outputs stay. The table OTHERWISE has the names that no rule gives, since the plain new name was taken or says too little.
"""
import pathlib
import re
import sys

LETTERS = "A-Za-z_Α-Ωα-κμ-ωℕ"
WORD = re.compile(rf"[{LETTERS}][{LETTERS}0-9'₀-₉-]*")
# The name, and its new name where another is there too: the two would fall together.
OTHERWISE = {
    "answers_of": ("answers_lem", "answersOf"),  # a lemma; the other is a definition
    "answers-from": ("answers_computed", "answersFrom"),  # a lemma; the other is a definition
    "memory-of": ("lent_memory", "memoryOf"),  # of what is lent; the other is of a state
    "first-link": ("first_free", "firstLink"),  # of the free chain; the other is of the list
    "getD-mapped": ("get_or_mapped", None),  # the library's `getD` is `get_or` now
}
# What stays: a module of the older kit, and parameters named after a type parameter.
KEPT = {"the-variants", "actsF", "actsS", "tableF", "tableS"}
# A lemma's name that the check makes too, as a field of what a branch knows: behind a dot it stays.
ALSO_MADE = {"marks-is"}
DEFINED = re.compile(
    rf"^\s*(?:(?:abbrev|opaque|unfoldable|instance|pub|record|data|module)\s+)*([{LETTERS}][{LETTERS}0-9'₀-₉-]*)(?=[^=\n]*\s:(?:\s|$)|\s*$|\s)", re.M
)
GOAL = re.compile(r"^(?:abbrev )?(?:pub (?:abbrev )?(?=\S)|(?=invariant-|decreases-))(\S+)", re.M)
LIBRARY = re.compile(r"^\s*(?:pub\s+)?use\s+(Rattle[.·]std|mathlib|lib|Prim|denote|Rattle[.·]itoa)[^\s{]*\{([^}]*)\}", re.M)
BOUND = re.compile(rf"[({{]((?:[{LETTERS}][{LETTERS}0-9'₀-₉-]*\s+)+):\s")
LET = re.compile(rf"\blet\s+([{LETTERS}][{LETTERS}0-9'₀-₉-]*)\s*[:=]")
STRING = re.compile(r'"(?:[^"\\]|\\.)*"')
LAMBDA = re.compile(rf"λ((?:\s*[{LETTERS}][{LETTERS}0-9'₀-₉-]*)+)\s*\.")


def uncommented(text):
    return re.sub(r"--[^\n]*", "", text)


def sources(pattern):
    for path in sorted(pathlib.Path("crates").glob(pattern)):
        if "out" not in path.parts:
            yield path


def own_names():
    """The names that files of specs/ and proofs/ define or bind. Files that answer a function's goals bind names as others do, and define none."""
    names, library = set(), set()
    for path in [*sources("*/specs/**/*.antt"), *sources("*/proofs/**/*.antt")]:
        text = uncommented(path.read_text())
        for found in LIBRARY.finditer(text):
            library |= {word.strip() for word in found[2].split(",")}
        # in an answer file, what is `pub`, an invariant or a measure answers a goal, and the goal's name is the check's
        answers = path.name in ("Answers.antt", "Invariants.antt", "Proof.antt")
        goals = {m[1] for m in GOAL.finditer(text)} if answers else set()
        names |= {m[1] for m in DEFINED.finditer(text)} - goals
        for found in BOUND.finditer(text):
            names |= set(found[1].split())
        names |= {m[1] for m in LET.finditer(text)}
        for found in LAMBDA.finditer(text):
            names |= set(found[1].split())
    return names - library - KEPT


def is_fact(name):
    return name[0].isupper()


def newer(name, names):
    new, other = OTHERWISE.get(name, (None, name))
    if new and (other is None or other in names):
        return new
    if is_fact(name):
        return "".join(part[0].upper() + part[1:] for part in name.split("-")) if "-" in name else name
    plain = name.replace("-", "_")
    return re.sub(r"(?<=[a-z0-9])([A-Z])", lambda m: "_" + m[1].lower(), plain)


def table():
    names = own_names()
    turned = {name: newer(name, names) for name in names if newer(name, names) != name}
    taken = {}
    for name in sorted(names):
        new = turned.get(name, name)
        if new in taken:
            print(f"fall together: {taken[new]} and {name}, as {new}", file=sys.stderr)
        taken[new] = name
    return turned


def turn(found, turned):
    word = found[0]
    if word in ALSO_MADE and found.string[found.start() - 1] == ".":
        return word
    return turned.get(word, word)


def turn_all(text, turned):
    """The text with its names turned, but for what stands in strings."""
    parts, at = [], 0
    for string in STRING.finditer(text):
        parts += [WORD.sub(lambda m: turn(m, turned), text[at : string.start()]), string[0]]
        at = string.end()
    return "".join(parts) + WORD.sub(lambda m: turn(m, turned), text[at:])


def main():
    if sys.argv[1:] not in ([], ["--list"]):
        sys.exit(__doc__)
    turned = table()
    if sys.argv[1:]:
        for old, new in sorted(turned.items()):
            print(old, new)
        return
    for pattern in ("*/specs/**/*.antt", "*/proofs/**/*.antt", "*/src/**/*.rt", "*/must-fail/*.edit"):
        for path in sources(pattern):
            text = path.read_text()
            new = turn_all(text, turned)
            if new != text:
                path.write_text(new)


main()
