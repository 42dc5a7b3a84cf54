#!/usr/bin/env python3
"""Lists the places that docs/DESIGN-PASS.md counts, by point: python3 tools/places.py [DIRECTORY] [--all]

DIRECTORY is a checkout of this repository (default: this one). Without --all only the counts are printed. Points 1, 3, 4, 6 and 7 are
patterns over the lines of crates/*/src; point 2 compares the shapes of functions and of structs; point 5 compares clauses and parameter lists.
A line that `rustfmt` broke is seen as it stands, so a pattern may miss one: the page says what a reading found besides."""

import collections
import pathlib
import re
import sys

PATTERNS = {
    "1 numbers for kinds, a flag beside its value, hand-made Option and Result": [
        r"^\s*(pub )?const [A-Z_]+: u32 = [0-9]+;$|^    const KIND: u32;",
        r"^\s*(pub )?(by|kind): u32,|[({ ](by|kind|function): u32[,) ]",
        r"wish: bool,",
        r"None => None|Ok\(\(\)\) => Ok|Some\(first\) => Some|None => (0|true|\{\})|Err\(_\) => 0|Some\(interrupt\) => match",
        r"function == [0-9]|asks_for\(control, ",
    ],
    "3 loops that count an index": [
        r"for [a-z_]+ in 0\.\.",
        r"\.enumerate\(\)",
        r"^\s*while ",
    ],
    "4 conversion, order, equality, copying and printing by hand": [
        r"^\s*(pub )?(pub\(crate\) )?fn (number|words|size_of|channel_in|channel_for|position|control_of|conditions_of|fields|decode|index_of|number|word|answer_text|print_survey|asks_word|compare_wide|no_counts|empty_tally|at_rest|initializes|unserved)\(",
        r"^#\[derive\(Clone, Copy\)\]",
    ],
    "6 buffers with a length, parallel arrays": [
        r"\[(level|at|address|index|at \+ [12])\]",
    ],
    "7 switches on which step to run": [
        r"^\s*match (operation|position|number|due|self\.processor\.works\.run)\b",
    ],
}

WORD = re.compile(r"[A-Za-z_][A-Za-z_0-9]*|[0-9][0-9A-Fa-f_x]*|\S")
KEYWORDS = set(
    "fn pub crate self Self mut let if else match for in while return const struct enum impl as ref true false Some None Ok Err".split()
)


def sources(root):
    for path in sorted(root.glob("crates/*/src/**/*.rt")):
        yield path.relative_to(root), path.read_text()


def without_comments(text):
    return "\n".join(re.sub(r"//.*", "", line) for line in text.split("\n"))


def braces(text, start):
    """The end of the block that opens at start."""
    depth = 0
    for at in range(start, len(text)):
        depth += {"{": 1, "}": -1}.get(text[at], 0)
        if depth == 0:
            return at + 1
    return len(text)


def functions(text):
    """Name, parameters, clauses and body of each function that has a body."""
    text = without_comments(text)
    for found in re.finditer(r"^( *)(?:pub(?:\(crate\))? )?fn (\w+)", text, re.M):
        indent = found.group(1)
        end = re.compile(r"^%s(\{|.*\{\}$|.*\{$)" % indent, re.M).search(text, found.start())
        if end is None:
            continue
        head = text[found.start() : end.start()]
        opening = end.start() + end.group(0).rindex("{") if "{}" not in end.group(0) else end.end() - 2
        if end.group(0).strip() != "{":
            head = text[found.start() : opening]
        body = text[opening : braces(text, opening)]
        clauses = re.findall(r"^\s*(requires|ensures)(?: \w+)? \{ (.*) \}$", head, re.M)
        yield found.group(2), re.split(r"\n\s*(?:requires|ensures)", head)[0], clauses, body


def shape(text):
    """The text with every name that is not a keyword, and every number, made alike."""
    out = []
    for word in WORD.findall(text):
        if re.match(r"[A-Za-z_]", word) and word not in KEYWORDS:
            out.append("x")
        elif word[0].isdigit():
            out.append("0")
        else:
            out.append(word)
    return out


def twins(root):
    groups = collections.defaultdict(list)
    for path, text in sources(root):
        text = re.sub(r"#\[cfg\(test\)\].*", "", text, flags=re.S)
        for name, head, _clauses, body in functions(text):
            form = shape(re.sub(r"^\s*(pub(\(crate\))? )?fn \w+", "fn", head) + body)
            if len(form) >= 24:
                groups[tuple(form)].append(f"{path}: fn {name}")
        for found in re.finditer(r"^pub struct (\w+)[^;{]*\{", text, re.M):
            block = without_comments(text[found.start() : braces(text, found.end() - 1)])
            types = tuple(re.findall(r": (.*),", block))
            if len(types) >= 2:
                groups[("struct",) + types].append(f"{path}: struct {found.group(1)}")
    return [places for places in groups.values() if len(places) > 1]


def repeated(root):
    clauses = collections.defaultdict(list)
    together = collections.defaultdict(list)
    for path, text in sources(root):
        for name, head, found, _body in functions(text):
            for kind, clause in found:
                clause = re.sub(r"2 \^ [0-9 +]+|\+ [0-9]+$|Keeps [0-9]+", "N", clause.strip())
                clauses[f"{kind} {clause}"].append(f"{path}: fn {name}")
            inner = head[head.index("(") + 1 :] if "(" in head else ""
            params = re.findall(r"(\w+): ([^,()]+(?:\([^)]*\))?)", inner)
            for first, second in zip(params, params[1:]):
                together[f"{first[0]}: {first[1]}, {second[0]}: {second[1]}"].append(f"{path}: fn {name}")
    few = {k: v for k, v in clauses.items() if len(set(v)) >= 3}
    pairs = {k: v for k, v in together.items() if len(set(v)) >= 3}
    return few, pairs


def main():
    args = [a for a in sys.argv[1:] if a != "--all"]
    root = pathlib.Path(args[0] if args else pathlib.Path(__file__).resolve().parent.parent)
    show = "--all" in sys.argv
    lines = [(path, n + 1, line) for path, text in sources(root) for n, line in enumerate(text.split("\n"))]
    report = {}
    for point, patterns in PATTERNS.items():
        report[point] = [
            f"{path}:{n}: {line.strip()}"
            for path, n, line in lines
            if any(re.search(p, line) for p in patterns)
            and not re.match(r"\s*(//|ghost use|requires|ensures)", line)
        ]
    groups = twins(root)
    report["2 twins, groups of like shape"] = [" = ".join(group) for group in groups]
    few, pairs = repeated(root)
    report["5 clauses in three or more functions"] = [f"{len(set(v))} x {k}" for k, v in few.items()]
    report["5 parameters side by side in three or more functions"] = [f"{len(set(v))} x {k}" for k, v in pairs.items()]
    answers = [p for p in root.glob("crates/*/proofs/**/Answers.antt")]
    proofs = [p for p in root.glob("crates/*/proofs/**/*.antt")]
    report["8 files of answers"] = [str(p.relative_to(root)) for p in answers]
    for point in sorted(report):
        print(f"{point}: {len(report[point])}")
        if show:
            for place in sorted(report[point]):
                print(f"    {place}")
    print(f"8 lines in proofs/: {sum(len(p.read_text().splitlines()) for p in proofs)}")


main()
