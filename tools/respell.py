#!/usr/bin/env python3
"""Spells this repository's own definitions and lemmas as its Rattle does: words in snake case.

usage: python3 tools/respell.py [--list]        at the top of the repository, once, after the kit's port.py

Every name that a file of specs/ or proofs/ declares and that holds a dash or goes from a small letter to a capital
(`firstLarge`, `large-more`) is written `first_large`, `large_more` wherever it stands in an .antt file, and in the
clauses and `ghost use` lines of an .rt file. Types, facts and modules, which begin with a capital, keep theirs; so do
the names that Rattle makes (a word behind `tie.`, and a declaration whose type is one of `tie`'s). `--list` writes the
table to standard output and changes nothing. It stops where two names would fall together in one file, or where the
new name is already a name of something else there.
"""

import os
import re
import sys

NAME = r"[^\s(){}.;,@\"«»\[\]\\:]+"
DECLARED = re.compile(
    r"^[ ]*(?:(?:abbrev|unfoldable|pub|data|record|instance|infixl?|infixr) +)*(?:\| )?(" + NAME + r")(?: \([^:]*\))* :(?= |$)",
    re.M,
)
TOKEN = re.compile(r"--[^\n]*|\"(?:[^\"\\]|\\.)*\"|" + r"[^\s(){}.;,@\"«»\[\]\\]+")
# Lemmas that port.py spelled as a definition is to be called: a lemma of that name takes `_lem` behind it.
FALLEN = {"is_free": "is_free_lem", "read_number": "read_number_lem"}
CLAUSE = re.compile(r"\b(?:requires|ensures|ghost|invariant)\b\*?")


def files(root, end):
    for folder, dirs, names in os.walk(os.path.join(root, "crates")):
        dirs[:] = sorted(d for d in dirs if d not in ("out", "must-fail", "data"))
        for name in sorted(names):
            if name.endswith(end):
                yield os.path.join(folder, name)


def read(path):
    with open(path, encoding="utf-8") as f:
        return f.read()


def snake(name):
    name = re.sub(r"([a-zα-ω0-9₀-₉])([A-Z])", lambda m: m.group(1) + "_" + m.group(2).lower(), name)
    return name.replace("-", "_")


def wants(name):
    if name[0].isupper() or not name[0].isalpha() or "◌" in name:
        return False
    return "-" in name or re.search(r"[a-z0-9][A-Z]", name) is not None


def bare(text, walk):
    """The text with no comments, strings and paths, and of a walk no steps."""
    text = re.sub(r"--[^\n]*|\"(?:[^\"\\]|\\.)*\"", "", text)
    text = re.sub(r"(?m)^use [^\s{]*", "", text)
    return re.sub(r"\.[a-z][^\s(){}.;,\[\]]*-[^\s(){}.;,\[\]]*", "", text) if walk else text


def declared(root):
    """Each own name that wants another spelling, and the files that declare it."""
    table = {}
    for path in files(root, ".antt"):
        text = re.sub(r"--[^\n]*", "", read(path))
        for m in DECLARED.finditer(text):
            name = m.group(1)
            rest = text[m.end() : m.end() + 40].lstrip()
            if rest.startswith("tie.") or not wants(name):
                continue
            if name.endswith("-spec") and path.endswith("/Proof.antt"):
                continue
            table.setdefault(name, []).append(path)
    return table


def turn_antt(text, table, walk=False):
    def one(m):
        word = m.group(0)
        if word.startswith("--") or word.startswith('"'):
            return in_comment(word, table) if word.startswith("--") else word
        before = text[: m.start()]
        if before.endswith("tie.") or (word in FALLEN and before.endswith(".")):
            return word
        # in a walk a word behind a dot is a step that Rattle named
        if walk and "-" in word and before.endswith(".") and not before.rsplit("\n", 1)[-1].startswith("use "):
            return word
        return table.get(word, word)

    return TOKEN.sub(one, text)


def in_comment(text, table):
    """Comments cite a name between backquotes."""
    return re.sub(r"`([^`\n]+)`", lambda m: "`" + " ".join(table.get(w, w) for w in m.group(1).split(" ")) + "`", text)


def spans(text):
    """The parts of an .rt file that antt reads: ghost use lines, and what stands between the braces of a clause."""
    for m in re.finditer(r"ghost use [^;]*;", text):
        yield m.start(), m.end()
    for m in CLAUSE.finditer(text):
        at = text.find("{", m.end())
        if at < 0 or text[m.end() : at].strip() and not re.fullmatch(r"\s*\w+:?\s*", text[m.end() : at]):
            continue
        depth, i = 0, at
        while i < len(text):
            depth += {"{": 1, "}": -1}.get(text[i], 0)
            i += 1
            if depth == 0:
                break
        yield at, i


def turn_rt(text, table):
    marks = sorted(spans(text))
    out, at = [], 0
    for a, b in marks:
        if a < at:
            continue
        out.append(re.sub(r"//[^\n]*", lambda m: in_comment(m.group(0), table), text[at:a]))
        out.append(turn_antt(text[a:b], table))
        at = b
    out.append(re.sub(r"//[^\n]*", lambda m: in_comment(m.group(0), table), text[at:]))
    return "".join(out)


def main(argv):
    root = os.getcwd()
    found = declared(root)
    table = {name: snake(name) for name in found} | FALLEN
    # two names of one file that would be one: the lemma, which has dashes, takes `_lem` behind it
    for path in files(root, ".antt"):
        text = bare(read(path), "/Proof.antt" in path)
        words = {m.group(0) for m in TOKEN.finditer(text)}
        for w in words:
            if "-" in w and table.get(w) == snake(w):
                if any(table.get(v, v) == table[w] for v in words if v != w):
                    table[w] = snake(w) + "_lem"
    if "--list" in argv:
        for name in sorted(table):
            print(name, table[name], len(found[name]))
        return 0
    # two names of one file that would be one
    clash = 0
    for path in files(root, ".antt"):
        text = bare(read(path), "/Proof.antt" in path)
        words = {m.group(0) for m in TOKEN.finditer(text)}
        here = {}
        for w in words:
            here.setdefault(table.get(w, w), []).append(w)
        for new, olds in here.items():
            if len(olds) > 1:
                print(f"{path}: {' and '.join(sorted(olds))} would be one: {new}")
                clash += 1
    if clash and "--anyway" not in argv:
        print(f"respell: {clash} names fall together; nothing was written")
        return 1
    n = 0
    for end, turn in ((".antt", turn_antt), (".rt", turn_rt)):
        for path in files(root, end):
            old = read(path)
            new = turn(old, table, True) if path.endswith("/Proof.antt") else turn(old, table)
            if path.endswith("/Proof.antt"):
                new = re.sub(r"(?<![\w-])[\w-]+-spec(?= (?::|=))", lambda m: m.group(0).replace("-", "_"), new)
            if new != old:
                n += 1
                with open(path, "w", encoding="utf-8") as f:
                    f.write(new)
    print(f"respell: {len(table)} names, {n} files")
    return 0


if __name__ == "__main__":
    raise SystemExit(main(sys.argv[1:]))
