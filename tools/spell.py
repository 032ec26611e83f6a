#!/usr/bin/env python3
"""spell.py [ROOT]: spells the definitions and lemmas of this repository as today's Rattle spells its own; run once, straight after port.py.

Words are in snake case, facts (what has a type for its value) in camel case. A dash stays only where it joins the names of two definitions,
as in `drop-tab`; elsewhere it becomes an underscore. Names of the library, labels that Rattle makes, functions and strings of src/ stay.
A lemma whose new name a definition has gets `_lem`. What was renamed is written to tools/spelled.tsv: old, new, kind.
"""
import collections
import os
import re
import sys

ROOT = sys.argv[1] if len(sys.argv) > 1 else "."
NAME = r"[^\s(){}.;,@\"«»`]+"
DECLARED = re.compile(r"^( *)((?:abbrev |unfoldable |pub )*)(" + NAME + r")((?: \{[^{}\n]*\})*) :(?=\s)")
HUMP = re.compile(r"(?<=[a-z0-9])([A-Z])")
# what the library calls its functions on lists and numbers, where a lemma's name may join them by a dash
LIBRARY = set(
    "length drop take append replicate set sets get_or map sum get reverse concat add sub mul div mod pow zero suc eqb ltb leb not "
    "bit_and bit_or bit_xor shl shr min max".split()
)


def files():
    for folder, dirs, names in os.walk(os.path.join(ROOT, "crates")):
        dirs[:] = sorted(d for d in dirs if d != "out")
        for name in sorted(names):
            if name.endswith((".antt", ".rt")):
                yield os.path.join(folder, name)


def plain(path, text):
    return re.sub(r"--.*" if path.endswith(".antt") else r"//.*", "", text)


def read(path):
    with open(path, encoding="utf-8") as f:
        return f.read()


# ---- what is declared, and where
texts = {p: read(p) for p in files()}
declared = collections.defaultdict(list)
fields = set()
for path, text in texts.items():
    if not path.endswith(".antt") or path.endswith("/Proof.antt"):
        continue
    lines = plain(path, text).split("\n")
    record = -1
    for i, line in enumerate(lines):
        indent = len(line) - len(line.lstrip())
        if line.strip() and indent <= record:
            record = -1
        if re.match(r" *(pub )?record .* where$", line):
            record = indent
        m = DECLARED.match(line)
        if m:
            if record >= 0:
                fields.add(m[3])
            signature, k = line[m.end() :], i + 1
            while k < len(lines) and lines[k].strip() and len(lines[k]) - len(lines[k].lstrip()) > len(m[1]):
                signature += " " + lines[k].strip()
                k += 1
            declared[m[3]].append((path, signature.strip()))
definitions = {n for n, places in declared.items() if any("/specs/" in p for p, _ in places)}
tokens = collections.Counter()
humped = set()
for path, text in texts.items():
    if path.endswith(".antt"):
        for token in re.findall(NAME, plain(path, text)):
            tokens[token] += 1
            if re.match(r"[a-z]", token) and HUMP.search(token) and re.fullmatch(r"[\w'→₀-₉-]+", token):
                humped.add(token)


def snake(name):
    return HUMP.sub(lambda m: "_" + m[1].lower(), name)


def is_fact(name):
    return any(re.search(r"→ *Type( 0)?$", s) for _, s in declared.get(name, []))


new = {}
for name in sorted(humped):
    new[name] = name[0].upper() + name[1:] if is_fact(name) and "-" not in name else snake(name)
known = {new.get(n, n) for n in definitions} | LIBRARY

# ---- dashes
for name in sorted(declared):
    if "-" not in name.strip("-") or name.startswith("-") or not re.match(r"[A-Za-z]", name):
        continue
    parts = new.get(name, name).split("-")
    spelled = parts[0]
    for before, after in zip(parts, parts[1:]):
        spelled += ("-" if before in known and after in known else "_") + after
    if spelled != name:
        new[name] = spelled

# ---- names that fall together
taken = set(tokens) - set(new)
claimed = collections.Counter(new.values())
for name, spelled in sorted(new.items()):
    if name in definitions or name in humped and "-" not in name:
        continue
    if spelled in taken or claimed[spelled] > 1:
        new[name] = spelled + "_lem"
        print(f"together: {name}: {spelled} is taken: {new[name]}")
spec_names = {new[n] for n in new if n in definitions or n in humped and "-" not in n}
for other in sorted(spec_names & taken):
    if other in declared and other not in definitions:
        new[other] = other + "_lem"
        print(f"together: {other}: now a definition's name: {new[other]}")
    elif other in tokens:
        print(f"look: {other} was a word here already")


# ---- respell
def turn(path, text):
    in_walk = path.endswith("/Proof.antt") or "/must-fail/" in path

    def one(m):
        word, at = m[0], m.start()
        if word not in new:
            return word
        # behind a dot stands a field, or what Rattle makes of a function's name
        if at > 0 and text[at - 1] == "." and word not in fields and not HUMP.search(word) and (in_walk or "-" not in word):
            return word
        return new[word]

    if path.endswith(".rt"):
        return re.sub(r"(?<![\w\"\\'])[a-z]\w*(?![\w\"'])", lambda m: new[m[0]] if m[0] in new and HUMP.search(m[0]) else m[0], text)
    return re.sub(NAME, one, text)


changed = 0
for path, text in texts.items():
    turned = turn(path, text)
    if turned != text:
        changed += 1
        with open(path, "w", encoding="utf-8") as f:
            f.write(turned)
# ---- Rattle makes a module specs.contracts of its own
def rename_module(crate, old, name):
    specs = os.path.join(ROOT, "crates", crate, "specs")
    if os.path.exists(os.path.join(specs, old + ".antt")):
        os.rename(os.path.join(specs, old + ".antt"), os.path.join(specs, name + ".antt"))
        for path in [*files()]:
            text = read(path)
            turned = text.replace(f"Rattle.{crate}.specs.{old}.", f"Rattle.{crate}.specs.{name}.")
            if path == os.path.join(specs, "Lib.antt"):
                turned = re.sub(rf"(?m)^pub mod {old}$", f"pub mod {name}", turned)
            if turned != text:
                with open(path, "w", encoding="utf-8") as f:
                    f.write(turned)


rename_module("image_sector", "Contracts", "Callers")
os.makedirs(os.path.join(ROOT, "tools"), exist_ok=True)
with open(os.path.join(ROOT, "tools/spelled.tsv"), "w", encoding="utf-8") as f:
    for name in sorted(new):
        kind = "definition" if name in definitions else "lemma" if name in declared else "variable"
        f.write(f"{name}\t{new[name]}\t{kind}\n")
print(f"spelled {len(new)} names anew in {changed} files")
