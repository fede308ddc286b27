#!/usr/bin/env python3
"""Respells the definitions and lemmas of this repository in snake case, as today's Rattle spells words.

usage: python3 tools/respell.py [--dry]      at the top of the repository, once, right after the kit's port.py

`markFault` and `line-known` become `mark_fault` and `line_known`. Types, modules, functions of src/, strings, inputs and outputs keep their
names. A name that would fall together with another word of the repository gets `_of` or `the_` (a value in camel case) or `_lem` (a lemma with
hyphens), so that no two names become one. The names of goals in a Proof.antt (those with a type of `tie`) are made, and keep theirs.
"""
import glob
import re
import sys

WORD = re.compile(r"[^\s(){}\[\],;.`@\"⌜⌝⟦⟧]+")
DECLARED = re.compile(r"^(?:(?:abbrev|unfoldable|pub|opaque)\s+)*([^\s:(){}]+)\s+:\s+(?!tie\.)")
MEMBER = re.compile(r"^\s+(?:(?:abbrev|unfoldable|pub|opaque)\s+)*([^\s:(){}\[\]↦.,;]+)\s+:\s+(?!tie\.)")


def snake(name):
    name = re.sub(r"(?<=[a-z0-9'])(?=[A-Z])", "_", name)
    return "_".join(part[:1].lower() + part[1:] if i or part[:1].islower() else part for i, part in enumerate(re.split(r"[-_]", name)))


def wants(name):
    return bool(re.fullmatch(r"[A-Za-z][A-Za-z0-9'?]*(?:[-_][A-Za-z0-9'?]+)*", name)) and ("-" in name or bool(re.match(r"[a-z].*[A-Z]", name)))


def code(path):
    """The lines of a file, each with the part that is code and the part that is a comment."""
    mark = "//" if path.endswith(".rt") else "--"
    with open(path, encoding="utf-8") as f:
        for line in f:
            at = re.search(r"(?:^|(?<=\s))" + mark, line)
            yield (line[: at.start()], line[at.start():]) if at else (line, "")


def declared(paths):
    found = set()
    for path in paths:
        for text, _ in code(path):
            it = MEMBER.match(text) if text[:1].isspace() else DECLARED.match(text)
            if it and wants(it.group(1)):
                found.add(it.group(1))
    return found


def words(paths):
    found = set()
    for path in paths:
        for text, _ in code(path):
            found.update(WORD.findall(text))
    return found


def table(names, taken):
    """Old name to new name: no new name is another word of the repository, and no two are the same."""
    to, used = {}, set(taken)
    for name in sorted(names, key=lambda n: ("-" not in n, n)):
        new = snake(name)
        if new in used:
            new = new + "_lem" if "-" in name else "the_" + new if re.search(r"_(of|to|by|at)$", new) else new + "_of"
        while new in used:
            new += "'"
        to[name] = new
        used.add(new)
    return to


def turn(path, to):
    """The text of a file with its names respelled; in a comment only within backquotes, or where a word has a capital inside."""
    def word(m):
        return to.get(m.group(0), m.group(0))

    def quoted(m):
        return WORD.sub(word, m.group(0))

    def camel(m):
        return to.get(m.group(0), m.group(0)) if "-" not in m.group(0) else m.group(0)

    out, clause = [], False
    for text, comment in code(path):
        if path.endswith(".rt"):
            # a clause begins at a ghost item, a requires or an ensures, and ends where its braces do; nothing else is antt
            if re.match(r"\s*(?:pub )?ghost\b|\s*(?:requires|ensures)\b", text):
                clause, depth = True, 0
            if clause:
                depth += text.count("{") - text.count("}")
                text = WORD.sub(word, text)
                clause = depth > 0 or not re.search(r"[};]\s*$", text)
        else:
            text = WORD.sub(word, text)
        out.append(text + WORD.sub(camel, re.sub(r"`[^`]*`", quoted, comment)))
    return "".join(out)


def edit(path, to):
    """The text of a must-fail edit: its old and new text are antt where its file is."""
    with open(path, encoding="utf-8") as f:
        lines = f.readlines()
    antt = False
    for i, line in enumerate(lines):
        if line.startswith("file:"):
            antt = line.strip().endswith(".antt")
        if line.startswith(("old:", "new:")) and (antt or re.match(r"(old|new):\s*(requires|ensures|ghost)\b", line)):
            lines[i] = WORD.sub(lambda m: to.get(m.group(0), m.group(0)), line)
    return "".join(lines)


def main():
    antt = sorted(glob.glob("crates/*/specs/**/*.antt", recursive=True) + glob.glob("crates/*/proofs/**/*.antt", recursive=True))
    rt = sorted(glob.glob("crates/*/src/**/*.rt", recursive=True))
    names = declared(antt)
    to = table(names, words(antt + rt) - names)
    odd = {n: v for n, v in to.items() if v != snake(n)}
    print(f"{len(to)} names; {len(odd)} of them would have fallen together with another word:")
    for name, new in sorted(odd.items()):
        print(f"  {name} -> {new}")
    if "--dry" in sys.argv:
        return
    for path in antt + rt:
        text = turn(path, to)
        with open(path, "w", encoding="utf-8") as f:
            f.write(text)
    for path in sorted(glob.glob("crates/*/must-fail/*.edit")):
        text = edit(path, to)
        with open(path, "w", encoding="utf-8") as f:
            f.write(text)
    with open("docs/RESPELLED.tsv", "w", encoding="utf-8") as f:
        f.writelines(f"{n}\t{v}\n" for n, v in sorted(to.items()))


if __name__ == "__main__":
    main()
