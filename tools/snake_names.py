#!/usr/bin/env python3
"""Brings the repository's own names to snake case: threeReports becomes three_reports.

usage: python3 tools/snake_names.py [--check] [FOLDER]

Run it once, at the top, right after the kit's port.py. It turns every word of specs/, proofs/, the clauses and ghost lines of src/,
the must-fail edits and the papers' code spans that begins with a small letter and has a capital, by its spelling alone; names with a
capital in front, functions of src/, strings, inputs and outputs stay. A name that would fall together with another gets the one that
TOGETHER gives. --check writes nothing and says which names would fall together.
"""
import collections
import os
import re
import sys

WORD = re.compile(r"[^\s(){}\[\],;.\"`«»:|/*<>=!?@&%+]+")
CAMEL = re.compile(r"^[a-z][\w₀-₉'-]*$")
# Names that would fall together with another name, and what they are called instead.
TOGETHER = {}
# Words that look like names and are none.
LEAVE = set()


def snake(word):
    if word in TOGETHER:
        return TOGETHER[word]
    out = []
    for i, c in enumerate(word):
        if c.isascii() and c.isupper() and i and word[i - 1] not in "_-":
            out.append("_")
        out.append(c.lower() if c.isascii() else c)
    return "".join(out)


def is_camel(word):
    return bool(CAMEL.match(word)) and any(c.isascii() and c.isupper() for c in word) and word not in LEAVE


def files(root):
    for above, folders, names in os.walk(os.path.join(root, "crates")):
        folders[:] = sorted(f for f in folders if f not in ("out", "target", ".git"))
        for name in sorted(names):
            yield os.path.join(above, name)


def papers(root):
    for name in ("README.md", "CONTRIBUTING.md"):
        yield os.path.join(root, name)
    docs = os.path.join(root, "docs")
    for name in sorted(os.listdir(docs)):
        if name.endswith(".md") and not name.startswith("PORT"):
            yield os.path.join(docs, name)


PATHED = re.compile(r"^[A-Z]|^crates?/")


def turn_words(text, own=None):
    def one(m):
        w = m[0]
        if is_camel(w) and (own is None or w in own):
            return snake(w)
        return w

    return WORD.sub(one, text)


STRING = re.compile(r'"(?:[^"\\\n]|\\.)*"')


def turn_code(text, own):
    """Everything but strings."""
    out = []
    last = 0
    for m in STRING.finditer(text):
        out.append(turn_words(text[last : m.start()], own))
        out.append(m[0])
        last = m.end()
    out.append(turn_words(text[last:], own))
    return "".join(out)


SPAN = re.compile(r"`[^`\n]*`")


def turn_spans(text, own):
    return SPAN.sub(lambda m: turn_words(m[0], own), text)


def main(argv):
    check = "--check" in argv
    roots = [a for a in argv if not a.startswith("--")]
    root = roots[0] if roots else "."
    texts = {}
    for path in files(root):
        if path.endswith((".antt", ".rt", ".edit")):
            with open(path, encoding="utf-8") as f:
                texts[path] = f.read()
    own = set()
    every = collections.Counter()
    for path, text in texts.items():
        if path.endswith(".antt"):
            bare = re.sub(r"--.*", "", text)
            for w in WORD.findall(bare):
                every[w] += 1
                if is_camel(w):
                    own.add(w)
    if check:
        back = collections.defaultdict(set)
        for w in own:
            back[snake(w)].add(w)
        for new, olds in sorted(back.items()):
            if len(olds) > 1:
                print("together:", new, sorted(olds))
            if new in every:
                print("taken in antt:", sorted(olds), new, every[new])
        rust = collections.defaultdict(set)
        for path, text in texts.items():
            if path.endswith(".rt"):
                code = re.sub(r"//.*", "", text)
                for w in re.findall(r"[a-z_][a-z0-9_]*", code):
                    rust[w].add(path.split("/crates/")[-1])
        for new, olds in sorted(back.items()):
            if new in rust:
                print("in src:", sorted(olds), new, sorted(rust[new])[:4])
        print(len(own), "names")
        return 0
    for path, text in texts.items():
        if path.endswith(".antt"):
            new = turn_code(text, None)
        elif path.endswith(".rt"):
            new = turn_code(text, own)
        else:
            new = "".join(turn_code(l, own) if l.startswith(("old:", "new:")) else l for l in text.splitlines(True))
        if new != text:
            with open(path, "w", encoding="utf-8") as f:
                f.write(new)
    for path in papers(root):
        with open(path, encoding="utf-8") as f:
            text = f.read()
        new = turn_spans(text, own)
        if new != text:
            with open(path, "w", encoding="utf-8") as f:
                f.write(new)
    return 0


sys.exit(main(sys.argv[1:]))
