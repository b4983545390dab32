#!/usr/bin/env python3
"""Brings the repository's own definitions and lemmas to the spelling of the library: words in snake case.

    tools/spelling.py [FOLDER]      rewrites crates/ and the names in backticks in README.md and docs/, once

Types, modules, functions of src/, strings, inputs and outputs keep their names, and so does whatever the
checker makes (the goals of a proof and the steps in them). A name that would fall together with another one
in a file where it stands is said and left as it is.
"""
import re
import sys
from pathlib import Path

WORD = re.compile(r"(?<![\w'-])(?:[^\W\d_]['\w≡≢≤<ℕ∷⊎+*]*(?:-['\w≡≢≤<ℕ∷⊎+*]+)+|[a-z][a-z0-9]*[A-Z]\w*)")
USE = re.compile(r"^\s*(?:pub )?(?:ghost )?use ([^;{\n]+?)(?:\.\{([^}]*)\})?(?: as (\S+?))?;?\s*$", re.M)
OUTSIDE = re.compile(r"(?:Rattle\.(?:std|core)\b|Prim\b|borrow\b|native\b|lib\b|mathlib\b)")


def snake(name):
    return re.sub(r"(?<=[a-z0-9])([A-Z])", lambda m: "_" + m[1].lower(), name).replace("-", "_")


def code_and_comment(line, mark):
    """A line's code, and its comment."""
    at = re.search(r"(?:^|\s)" + re.escape(mark), line)
    return (line, "") if at is None else (line[: at.start()], line[at.start() :])


def imported(text):
    """The names that a file takes from the libraries, and those that it takes from what the checker makes."""
    outside, made = set(), set()
    for path, names, _ in USE.findall(text):
        found = {w for item in names.split(",") for w in re.split(r"\s+as\s+", item.strip()) if w}
        if OUTSIDE.match(path):
            outside |= found
        elif re.search(r"\.(?:Goals|Given)$", path):
            made |= found
    return outside, made


def lemma_files(root):
    for crate in sorted(root.glob("crates/*")):
        for folder in "specs", "proofs":
            yield from sorted((crate / folder).glob("*.antt"))


def proof_files(root):
    top = set(lemma_files(root))
    return [p for p in sorted(root.glob("crates/*/proofs/**/*.antt")) if p not in top]


def words_of(text, mark):
    return {w for line in text.splitlines() for w in WORD.findall(code_and_comment(line, mark)[0])}


def own_names(root):
    own, outside = set(), set()
    for path in lemma_files(root):
        text = path.read_text()
        own |= words_of(text, "--")
        outside |= imported(text)[0]
    for path in [*proof_files(root), *sorted(root.glob("crates/*/src/*.rt"))]:
        text = path.read_text()
        outside |= imported(text)[0]
        for path_, names, _ in USE.findall(text):
            if not OUTSIDE.match(path_) and not re.search(r"\.(?:Goals|Given)$", path_):
                own |= {w for w in WORD.findall(names)}
    return own - outside


def turn(text, own, mark, keep, said, where, steps=False):
    """The text with its own names respelled; `keep` says which words the checker made there, and `steps` whether
    the fields of `c` and `l` are the checker's too."""
    taken = set(re.findall(r"[\w']+", text))

    def word(m, line):
        old = m[0]
        before = line[: m.start()]
        if old not in own or old in keep or (steps and re.search(r"(?:^|[^\w.])(?:c|l|goal|given)\.$", before)):
            return old
        if snake(old) in taken:
            said.append(f"{where}: {old} would fall together with {snake(old)}")
        return snake(old)

    lines = []
    for line in text.split("\n"):
        code, comment = code_and_comment(line, mark)
        code = WORD.sub(lambda m: word(m, code), code)
        comment = re.sub(r"`[^`]*`", lambda m: WORD.sub(lambda w: snake(w[0]) if w[0] in own else w[0], m[0]), comment)
        lines.append(code + comment)
    return "\n".join(lines)


def main(root):
    own, said = own_names(root), []
    for path in lemma_files(root):
        path.write_text(turn(path.read_text(), own, "--", set(), said, path))
    for path in proof_files(root):
        text = path.read_text()
        goals = set(re.findall(r"^(?:abbrev )?(?:pub )?(\S+) : (?:goal|given)\.", text, re.M))
        path.write_text(turn(text, own, "--", imported(text)[1] | goals, said, path, True))
    for path in sorted(root.glob("crates/*/src/*.rt")):
        path.write_text(turn(path.read_text(), own, "//", set(), said, path))
    for path in [root / "README.md", *sorted((root / "docs").glob("*.md"))]:
        if path.exists():
            text = path.read_text()
            path.write_text(re.sub(r"`[^`\n]*`", lambda m: WORD.sub(lambda w: snake(w[0]) if w[0] in own else w[0], m[0]), text))
    print("\n".join(sorted(set(map(str, said)))))
    print(f"{len(own)} names respelled, {len(said)} places where two fall together")


main(Path(sys.argv[1] if len(sys.argv) > 1 else "."))
