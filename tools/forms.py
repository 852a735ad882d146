#!/usr/bin/env python3
"""Counts old forms in the code of a tree, for docs/DESIGN-PASS.md: usage: tools/forms.py [FOLDER] [--list]
FOLDER has crates/; with --list each place is printed. By text alone; comments are left out, but for those that say what a number 0 stands for."""
import collections
import glob
import os
import re
import sys

args = [a for a in sys.argv[1:] if not a.startswith("--")]
top = args[0] if args else "."
found = collections.OrderedDict()


def add(form, path, line, text):
    found.setdefault(form, []).append(f"{os.path.relpath(path, top)}:{line}: {text.strip()}")


FORMS = [
    ("1 numbers of refusals by name", re.compile(r"REFUSED_\w+")),
    ("1 `kind: u8`, parameters and fields", re.compile(r"\bkind: u8")),
    ("1 other codes as u8 (program, mark, sort, way)", re.compile(r"\b(program|mark|sort|way): u8")),
    ("3 loops by while or loop", re.compile(r"\bwhile\b|\bloop \{")),
    ("4 own larger of two", re.compile(r"fn (larger|higher)\b")),
    ("4 `{ 1 } else { 0 }` and `{ 0 } else { 1 }`", re.compile(r"\{ 1 \} else \{ 0 \}|\{ 0 \} else \{ 1 \}")),
]
clauses = collections.Counter()
for path in sorted(glob.glob(os.path.join(top, "crates/*/src/**/*.rt"), recursive=True)):
    lines = open(path).read().split("\n")
    said = ""
    for i, line in enumerate(lines, 1):
        if line.lstrip().startswith("//"):
            said = said + line
            continue
        m = re.match(r"\s*(?:pub(?:\(crate\))? )?(?:extern \"C\" )?fn (\w+)", line)
        if m:
            head = line
            j = i
            while ")" not in head.split("->")[0] or not re.search(r"\)\s*(->.*)?$|\) -> ", head):
                head += lines[j].strip()
                j += 1
                if j > i + 12:
                    break
            if re.search(r"-> u8\b", head) and re.search(r"refusal|way_in", m[1]):
                add("1 tests that answer a refusal's number, 0 for none", path, i, line)
            if re.search(r"-> (u8|u32|usize)\b", head) and re.search(r"\b0\b[^.]*\bwhere\b|; 0 (at|for)\b", said) and not re.search(r"refusal|way_in", m[1]):
                add("1 functions whose number 0 stands for nothing", path, i, line)
        for form, what in FORMS:
            for _ in what.finditer(line):
                add(form, path, i, line)
        m = re.match(r"\s*(?:pub )?enum (\w+)", line)
        if m:
            end = next(k for k in range(i, len(lines)) if lines[k].strip() == "}")
            body = " ".join(lines[i:end])
            if re.search(r"\b(Nothing|Bad|Failed|Open|Refused|Zero)\b", body):
                add("1 own enums of the shape of Option or Result", path, i, line)
        for c in re.findall(r"length \w+\.(?:now|old|new) ≡ (\w+)", line):
            clauses["5 clauses `length .. ≡ " + c + "`"] += 1
        if line.strip():
            said = ""
for form in sorted(found):
    print(f"{len(found[form]):4}  {form}")
    if "--list" in sys.argv:
        for place in found[form]:
            print("        " + place)
for c, n in sorted(clauses.items()):
    if n > 2:
        print(f"{n:4}  {c}")
