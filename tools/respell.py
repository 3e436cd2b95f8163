#!/usr/bin/env python3
"""Brings this repository's own definitions and lemmas to the spelling of today's Rattle: words in snake case, types in camel case.

usage: tools/respell.py [FOLDER]     at the top of the repository, or of the one in FOLDER, once, after the kit's port.py

tools/spelling.tsv, beside this script, has a row for each name: old, a tab, new. Where a definition and a law would have come to one
name, the law's ends in _lem. Whole words turn in crates/: in .antt files, in the clauses and ghost items of .rt files (no Rust name is
spelled like a row's old name), and in the texts of must-fail edits. A comment's words turn where they are quoted by backticks, or are
written with capitals in their midst. A row without a dash and without such capitals turns in .antt files alone, and not behind a dot.
"""
import os
import re
import sys

HERE = os.path.dirname(os.path.realpath(__file__))
WORD = re.compile(r'[^\s(){}.;,@"«»]+')
COMMENT = {".antt": re.compile(r'(?<![^\s(){}.;,@"«»])--[^\n]*'), ".rt": re.compile(r"//[^\n]*")}


def table():
    with open(os.path.join(HERE, "spelling.tsv"), encoding="utf-8") as f:
        return dict(line.rstrip("\n").split("\t") for line in f)


def is_plain(name):
    return "-" not in name and not re.search("[a-z0-9][A-Z]", name)


def words(text, rows, kind):
    def turn(m):
        new = rows.get(m[0], m[0])
        if new != m[0] and is_plain(m[0]) and (kind != ".antt" or text[m.start() - 1 : m.start()] == "."):
            return m[0]
        return new

    return WORD.sub(turn, text)


def comment(text, rows):
    quoted = lambda m: "`" + WORD.sub(lambda w: rows.get(w[0], w[0]), m[1]) + "`"
    text = re.sub(r"`([^`\n]*)`", quoted, text)
    return re.sub(r"[a-z][a-z0-9]*(?:[A-Z][a-z0-9]*)+", lambda m: rows.get(m[0], m[0]), text)


def turned(text, rows, kind):
    if kind == ".edit":
        head = re.compile(r"(?m)^((?:old|new): )(.*)$")
        return head.sub(lambda m: m[1] + words(m[2], {o: n for o, n in rows.items() if not is_plain(o)}, kind), text)
    done, at = [], 0
    for m in COMMENT[kind].finditer(text):
        done += [words(text[at : m.start()], rows, kind), comment(m[0], rows)]
        at = m.end()
    return "".join(done) + words(text[at:], rows, kind)


def main(top):
    rows = table()
    for folder, inner, files in os.walk(os.path.join(top, "crates")):
        inner[:] = [it for it in inner if it != "out"]
        for name in files:
            kind = os.path.splitext(name)[1]
            if kind not in (".antt", ".rt", ".edit"):
                continue
            path = os.path.join(folder, name)
            with open(path, encoding="utf-8") as f:
                old = f.read()
            new = turned(old, rows, kind)
            if new != old:
                with open(path, "w", encoding="utf-8") as f:
                    f.write(new)


main(sys.argv[1] if len(sys.argv) > 1 else ".")
