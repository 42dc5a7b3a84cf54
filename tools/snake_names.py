#!/usr/bin/env python3
"""Brings the names that this repository gave to its own definitions and lemmas to the spelling of today's Rattle.

usage: python3 tools/snake_names.py        once, at the top, right after the toolchain's port.py, and never on a tree that was mended since

A name of specs/ or proofs/ that was spelled with dashes gets underscores, as `parity-right` becomes `parity_right`; a type
or a fact, which begins with a capital, is written in one, as `Same-file` becomes `SameFile`. Names that are not the
repository's own stay: those that a file brings in from the library, and those that the toolchain makes for goals and
steps of a proof, whose parts a dash joins and whose source names keep their underscores (`returns-then-parity_is_right`).
There it goes by text: a call `read` bound to `word`, whose step is `read-word`, it takes for a function `read_word`; the check tells.
Comments are turned only inside backticks, strings not at all.
"""
import glob
import re
import sys

WORD = r"[^\s(){}\[\];,.«»\"⌜⌝|⟨⟩]+"
HEAD = re.compile(r"^(?:\s*(?:(?:pub|abbrev|unfoldable|record|data|ruleset)\s+)+)?(" + WORD + r")\s*(?:[({:]|$|=)")
FIELD = re.compile(r"^\s+(?:pub\s+)?((?:" + WORD + r"\s+)*" + WORD + r")\s*:(?:\s|$)")
ALIAS = re.compile(r"\bas\s+(" + WORD + r")")
USE = re.compile(r"use\s+([\w.'+-]+)\.\{([^}]*)\}")
TOKEN = re.compile(r"--[^\n]*|//[^\n]*|\"(?:[^\"\\]|\\.)*\"|«[^»]*»|" + WORD)


# A name that would be a field's, once it is turned: `first_wrong` of the survey.
OTHER = {"first-wrong": "first_wrong_address"}


def turned(name):
    """The new spelling of a name of the repository's own."""
    if name in OTHER:
        return OTHER[name]
    if name[0].isupper():
        parts = name.split("-")
        return parts[0] + "".join(p[:1].upper() + p[1:] for p in parts[1:])
    return name.replace("-", "_")


def spelled(name):
    return "-" in name and re.fullmatch(r"[A-Za-z][\w'₀-₉-]*", name) is not None


def read(path):
    with open(path, encoding="utf-8") as f:
        return f.read()


def crates():
    return {l.split(":")[0].split()[0] for l in read("crates.txt").splitlines() if l.strip() and not l.startswith("#")}


def sources(ending):
    return sorted(p for p in glob.glob("crates/**/*" + ending, recursive=True) if "/out/" not in p)


def of_a_function(path):
    """Whether the file is a function's own proof, below proofs/F/."""
    below = path.split("/proofs/", 1)
    return len(below) == 2 and "/" in below[1]


def declared():
    """The names of the repository's own, and those that it brings in from elsewhere."""
    own, made, other = set(), set(), set()
    mine = crates()
    for path in sources(".antt") + sources(".rt"):
        text = read(path)
        for m in USE.finditer(text):
            inside = m.group(1).startswith("Rattle.") and m.group(1).split(".")[1] in mine
            for item in m.group(2).split(","):
                first = item.split(" as ")[0].strip()
                if not inside and "-" in first:
                    other.add(first)
            own |= {n for n in ALIAS.findall(m.group(2)) if spelled(n)}
        if path.endswith(".rt"):
            continue
        made |= set(re.findall(r"\bgoal\.(" + WORD + ")", text))
        for line in text.splitlines():
            line = re.sub(r"(^|\s)--.*$", "", line)
            top = HEAD.match(line)
            if top and spelled(top.group(1)):
                own.add(top.group(1))
            field = FIELD.match(line)
            if field:
                own |= {n for n in field.group(1).split() if spelled(n)}
            for bound in re.findall(r"let\s+(" + WORD + r")\s*[:=]", line):
                if spelled(bound):
                    own.add(bound)
    return own, made, other


def source_names():
    """The identifiers of the program's text that hold an underscore, longest first, as an older toolchain wrote them."""
    found = set()
    for path in sources(".rt"):
        text = re.sub(r"//[^\n]*|\"(?:[^\"\\]|\\.)*\"", "", read(path))
        found |= {w for w in re.findall(r"\b[a-z][a-z0-9]*(?:_[a-z0-9]+)+\b", text)}
    return sorted(found, key=len, reverse=True)


def of_steps(token, names):
    """A name that the toolchain makes: its parts from the source get their underscores back."""
    token = re.sub(r"(?<![^-])in-default(?![^-])", "in_default", token)
    for n in names:
        token = re.sub(r"(?<![^-])" + re.escape(n.replace("_", "-")) + r"(?![^-])", n, token)
    return token


def main():
    own, made, other = declared()
    own -= made | other
    names = source_names()
    fallen = {}
    for n in sorted(own):
        fallen.setdefault(turned(n), []).append(n)
    for new, olds in fallen.items():
        if len(olds) > 1:
            print(f"these fall together: {olds}")
            return 1
    changed = 0
    for path in sources(".antt") + sources(".rt"):
        text = read(path)
        proof = of_a_function(path)

        def put(m):
            t = m.group(0)
            if t.startswith(("--", "//")):
                return re.sub(r"`(" + WORD + r")`", lambda b: "`" + (turned(b.group(1)) if b.group(1) in own else b.group(1)) + "`", t)
            if t[0] in "\"«":
                return t
            if t in own:
                return turned(t)
            if proof and spelled(t) and t not in other:
                return of_steps(t, names)
            return t

        new = TOKEN.sub(put, text)
        if new != text:
            with open(path, "w", encoding="utf-8") as f:
                f.write(new)
            changed += 1
    print(f"{len(own)} names of the repository's own, {changed} files changed")
    return 0


if __name__ == "__main__":
    sys.exit(main())
