#!/usr/bin/env python3
"""spell_docs.py [ROOT]: turns the names of definitions and lemmas in the pages as tools/spell.py turned them in the crates
(tools/spelled.tsv). Run once. Only what stands in backticks, or in a block of code, is turned; paths, names of Rust (`crate::name`) and
flags stay. What port.py had turned before, as `bitOf` to `bit_of`, is not in that table: it is turned where the crates have the new name
and not the old one.
"""
import os
import re
import sys

ROOT = sys.argv[1] if len(sys.argv) > 1 else "."
PAGES = ["README.md", "CONTRIBUTING.md", "compare/README.md"]
PAGES += sorted("docs/" + it for it in os.listdir(os.path.join(ROOT, "docs")) if it.endswith(".md") and it != "PORT.md")
CODE = re.compile(r"(?<!`)`(?:[^`\n]|\n(?!\n))+`(?!`)")
TOKEN = re.compile(r"(?<![\w'′/:-])[\w][\w'′-]*(?![\w'′/-]|::|\.(?:antt|rt|rs|sh|md|c|h)\b)")
# an operator's places, `_when_` and `when`
PLACES = re.compile(r"(?<![\w])_([a-z]+|[^\w\s`]+)_(?![\w])")

with open(os.path.join(ROOT, "tools/spelled.tsv"), encoding="utf-8") as f:
    new = {old: name for old, name, _ in (line.rstrip("\n").split("\t") for line in f)}
# a name with neither a capital nor a dash may as well be that of a function, or a definition's new one
new = {old: name for old, name in new.items() if re.search(r"[A-Z-]", old)}
words = set()
for folder, dirs, names in os.walk(os.path.join(ROOT, "crates")):
    dirs[:] = [it for it in dirs if it != "out"]
    for name in names:
        if name.endswith(".antt"):
            with open(os.path.join(folder, name), encoding="utf-8") as f:
                words |= set(re.findall(r"[\w][\w'′-]*", re.sub(r"--.*", "", f.read())))


def turn(old):
    if old in new:
        return new[old]
    name = re.sub(r"(?<=[a-z0-9])[A-Z]", lambda m: "_" + m[0].lower(), old).replace("-", "_").replace("′", "'")
    return name if old[0].islower() and old not in words and name in words else old


files = {"image_sector/Contracts": "image_sector/Callers", "image_sector/specs/Contracts": "image_sector/specs/Callers"}


def code(text):
    return PLACES.sub(r"◌\1◌", TOKEN.sub(lambda m: turn(m[0]), text))


def filled(text):
    """Lays a paragraph out anew from a line on that has got too long."""
    lines, at = text.split("\n"), 0
    while at < len(lines):
        line = lines[at]
        if len(line) > WIDE and not line.startswith(("|", "    ", "#")):
            end = at + 1
            while end < len(lines) and re.match(r" {0,3}(?![-*|#] |\d+\. |\|)\S", lines[end]):
                end += 1
            inside = re.match(r"(?:[-*] |\d+\. | *)", line)[0]
            inside = " " * len(inside) if at + 1 == end else re.match(" *", lines[at + 1])[0]
            rows = [re.match(" *", line)[0]]
            for word in " ".join(lines[at:end]).split():
                if len(rows[-1]) + 1 + len(word) > WIDE:
                    rows.append(inside)
                rows[-1] += ("" if not rows[-1].strip() else " ") + word
            lines[at:end] = rows
        at += 1
    return "\n".join(lines)


WIDE = 140
left = {}
for page in PAGES:
    path = os.path.join(ROOT, page)
    with open(path, encoding="utf-8") as f:
        text = f.read()
    # blocks of code are indented by four, and stand behind an empty line
    parts = re.split(r"((?:(?<=\n\n)|\A)(?:    [^\n]*\n|\n(?=    ))+)", text)
    parts = [code(it) if it.startswith("    ") else CODE.sub(lambda m: code(m[0]), it) for it in parts]
    turned = "".join(parts)
    for old, name in files.items():
        turned = re.sub(re.escape(old) + r"\b", name, turned)
    for m in CODE.finditer(turned):
        for it in re.findall(r"[\w'′-]*[a-z0-9][A-Z-][\w'′-]*", m[0]):
            left.setdefault(it, set()).add(page)
    with open(path, "w", encoding="utf-8") as f:
        f.write(filled(turned) if turned != text else text)
for it in sorted(left):
    print(f"{it}\t{' '.join(sorted(left[it]))}")
print(f"left with a capital or a dash, to be read: {len(left)}")
