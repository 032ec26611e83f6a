#!/usr/bin/env python3
"""spell_edits.py [ROOT]: spells the must-fail edits of definitions as tools/spell.py spelled the definitions. Only an edit whose old text no
longer stands in its file is turned, and only where the turned one stands there once. Run once; what is left is printed.
"""
import glob
import os
import re
import sys

ROOT = sys.argv[1] if len(sys.argv) > 1 else "."
TOKEN = re.compile(r"\w[\w'′-]*")
LINE = re.compile(r"(?m)^(file|old|new):(.*)$")

with open(os.path.join(ROOT, "tools/spelled.tsv"), encoding="utf-8") as f:
    new = {old: name for old, name, _ in (line.rstrip("\n").split("\t") for line in f)}
new = {old: name for old, name in new.items() if re.search(r"[A-Z-]", old)}
words = set()
for path in glob.glob(f"{ROOT}/crates/*/*/**/*.antt", recursive=True):
    if "/out/" not in path:
        with open(path, encoding="utf-8") as f:
            words |= set(TOKEN.findall(re.sub(r"--.*", "", f.read())))


def turn(old):
    if old in new:
        return new[old]
    name = re.sub(r"(?<=[a-z0-9])[A-Z]", lambda m: "_" + m[0].lower(), old).replace("-", "_").replace("′", "'")
    return name if old[0].islower() and old not in words and name in words else old


def stands(crate, edit):
    """Returns whether each old text of the edit stands once in its file, the earlier pairs applied; spaces count."""
    text = None
    for line in edit.split("\n"):
        word, _, said = line.partition(": ")
        if word == "file":
            path = f"{crate}/{said.strip()}"
            if not os.path.isfile(path):
                return False
            with open(path, encoding="utf-8") as f:
                text = f.read()
        elif word == "old":
            old = said
            if text.count(old) != 1:
                return False
        elif word == "new":
            text = text.replace(old, said)
    return True


turned, left = 0, []
for path in sorted(glob.glob(f"{ROOT}/crates/*/must-fail/*.edit")):
    crate = os.path.dirname(os.path.dirname(path))
    with open(path, encoding="utf-8") as f:
        edit = f.read()
    if stands(crate, edit):
        continue
    file = re.search(r"(?m)^file: *(.*)$", edit)[1]
    spelled = edit
    if not file.startswith("src/"):
        spelled = LINE.sub(lambda m: m[0] if m[1] == "file" else f"{m[1]}:" + TOKEN.sub(lambda it: turn(it[0]), m[2]), edit)
        spelled = spelled.replace("file: specs/Contracts.antt", "file: specs/Callers.antt")
    if spelled != edit and stands(crate, spelled):
        turned += 1
        with open(path, "w", encoding="utf-8") as f:
            f.write(spelled)
    else:
        left.append(os.path.relpath(path, ROOT))
print("\n".join(left))
print(f"{turned} edits turned, {len(left)} left")
