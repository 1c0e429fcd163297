#!/usr/bin/env python3
"""Spells the repository's own definitions, fields, constructors and lemmas in snake case, by tools/names.tsv (old, a tab, new).

usage: python3 tools/spell.py            at the top of a checkout in which port.py has just run; then rt fmt in each crate

Turned are whole words: in .antt files outside text and comments, in .rt files in clauses, ghost items and `ghost use`, in both in code spans of
comments, and in the must-fail edits that speak of such lines. In proofs/FUNCTION/ a name behind a dot stays, unless the path begins with Rattle:
there a dot leads to what the check makes. Functions, exported names, strings, inputs and outputs keep their names. Run it once: five lemmas of
the table have the spelling that a definition gets.
"""

import os
import re
import subprocess
import sys

TOP = os.path.dirname(os.path.dirname(os.path.abspath(__file__)))
WORD = re.compile(r'[^\s(){}.;,@"«»]+')
QUIET = re.compile(r'"(?:[^"\\\n]|\\.)*"|(?<![^\s(){}.;,@"«»])--[^\n]*|\{-.*?-\}', re.S)
RUST = re.compile(r'//[^\n]*|b?"(?:\\.|[^"\\])*"|b?\'(?:\\.[^\']*|[^\'\\])\'')
SPAN = re.compile(r"\x60[^\x60\n]*\x60")
GHOST = re.compile(r"\bghost\s+use\b[^;]*;")
CLAUSE = re.compile(r"\b(?:requires|ensures)\b\s*\*?\s*(?:\w+\s*)?\{|\bghost\s*(?:\w+\s*(?::\s*|=\s*)?)?\{")

with open(os.path.join(TOP, "tools", "names.tsv"), encoding="utf-8") as f:
    NAMES = dict(line.rstrip("\n").split("\t") for line in f if line.strip())


def turned(text, made=False):
    """The text with each word of the table turned; where `made` holds, a word behind a dot stays if its path does not begin with Rattle."""

    def one(m):
        if text[: m.start()].endswith(".proofs."):
            return m[0]  # the folder of a function
        if made and text[m.start() - 1 : m.start()] == ".":
            head = re.search(r'[^\s(){};,@"«»]*$', text[: m.start()])[0]
            if not head.startswith("Rattle."):
                return m[0]
        return NAMES.get(m[0], m[0])

    return WORD.sub(one, text)


def between(pattern, text, inside, outside):
    out, at = [], 0
    for m in pattern.finditer(text):
        out += [outside(text[at : m.start()]), inside(m[0])]
        at = m.end()
    return "".join([*out, outside(text[at:])])


def spans(text):
    """Prose: only what stands in a code span is turned."""
    return between(SPAN, text, lambda s: "`" + turned(s[1:-1]) + "`", str)


def antt(text, made=False):
    return between(QUIET, text, lambda s: s if s[0] == '"' else spans(s), lambda s: turned(s, made))


def closing(text, at):
    """Where the brace that was opened before `at` closes."""
    depth = 1
    for m in re.compile(r"[{}]").finditer(text, at):
        depth += 1 if m[0] == "{" else -1
        if depth == 0:
            return m.start()
    return len(text)


def rust(text):
    """A source file: comments and strings apart, clauses and ghost items are turned."""
    out, at = [], 0
    for m in RUST.finditer(text):
        out += [(False, text[at : m.start()]), (True, m[0])]
        at = m.end()
    out.append((False, text[at:]))
    return "".join(spans(s) if quiet and s.startswith("//") else s if quiet else clauses(s) for quiet, s in out)


def clauses(text):
    out, at = [], 0
    while True:
        found = [m for m in (GHOST.search(text, at), CLAUSE.search(text, at)) if m]
        if not found:
            return "".join([*out, text[at:]])
        m = min(found, key=lambda it: it.start())
        end = m.end() if m.re is GHOST else closing(text, m.end())
        start = m.start() if m.re is GHOST else m.end()
        out += [text[at:start], turned(text[start:end])]
        at = end


def edit(text):
    """A must-fail edit: the texts after old: and new:. Of a source file only what is spelled so in no Rust is turned."""
    source = re.search(r"(?m)^file: src/", text)
    of = (lambda s: turned(s) if re.match(r"\s*(requires|ensures|ghost|\})", s) or "≡" in s else s) if source else antt
    return re.sub(r"(?m)^((?:old|new): )(.*)$", lambda m: m[1] + of(m[2]), text)


def main():
    for folder, folders, files in os.walk(os.path.join(TOP, "crates")):
        folders[:] = sorted(it for it in folders if it != "out")
        for name in sorted(files):
            path = os.path.join(folder, name)
            kind = os.path.splitext(name)[1]
            if kind not in (".antt", ".rt", ".edit"):
                continue
            with open(path, encoding="utf-8") as f:
                text = f.read()
            steps = os.path.relpath(path, TOP).split(os.sep)
            made = len(steps) > 4 and steps[2] == "proofs"
            new = antt(text, made) if kind == ".antt" else rust(text) if kind == ".rt" else edit(text)
            if new != text:
                with open(path, "w", encoding="utf-8") as f:
                    f.write(new)
    for name in sorted(os.listdir(os.path.join(TOP, "crates"))):
        where = os.path.join(TOP, "crates", name)
        if os.path.isdir(os.path.join(where, "src")):
            subprocess.run(["rt", "fmt"], cwd=where, stdout=subprocess.DEVNULL, stderr=subprocess.DEVNULL, check=False)


if __name__ == "__main__":
    sys.exit(main())
