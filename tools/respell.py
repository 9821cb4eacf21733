#!/usr/bin/env python3
"""Respells the repository's own definitions, lemmas, fields and bound names: a word of several parts joined by dashes
becomes snake case, a type (a name that begins with a capital letter) camel case, and a prime an apostrophe.

    python3 tools/respell.py [--list]      at the top of the repository, once, after the kit's own port script

Names that Rattle makes (goals, loops, calls) keep their dashes: they are declared in proofs/F/, which is not read for
declarations. A name that a file imports from outside the repository keeps its spelling in that file. Strings of .rt
files stay. With --list nothing is written, and the names are printed.
"""
import os
import re
import sys

IDENT = r"[A-Za-zα-ωΑ-Ωμ][A-Za-z0-9α-ωΑ-Ω_'′≤≢≡≠→·*+ℕ]*(?:-[A-Za-z0-9_'′≤≢≡≠→·*+ℕ]+)+"
TOKEN = re.compile(r"(?<![A-Za-z0-9_'′·-])" + IDENT + r"(?![A-Za-z0-9_'′-])")
DECLARED = re.compile(r"^\s*(?:abbrev pub |pub abbrev |abbrev |pub record |record |pub data |data |pub module |module |unfoldable pub |unfoldable |pub )?(" + IDENT + r")\s*(?::|\(|\{|=|$)", re.M)
BOUND = re.compile(r"[({]([^(){}:,]+?) :(?!:)")
LET = re.compile(r"\blet (" + IDENT + r")\s*[:=]")
LAMBDA = re.compile(r"λ ([^.()]+)\.")
ALIAS = re.compile(r"\bas (" + IDENT + r")\s*[,;}\n]")
FIELD = re.compile(r"^\s+pub (" + IDENT + r")\s*:", re.M)
USE = re.compile(r"^(?:ghost )?use ([^\s{;]+)(?:\.\{([^}]*)\})?( as [^\s;]+)?;?\s*$", re.M)


def crates():
    return sorted(d for d in os.listdir("crates") if os.path.isdir(os.path.join("crates", d)))


def files():
    for top in ("crates", "docs"):
        for folder, names, found in os.walk(top):
            names[:] = [n for n in names if n not in ("out", "target", "data")]
            for name in sorted(found):
                if name.endswith((".antt", ".rt", ".md")):
                    yield os.path.join(folder, name)
    for name in ("README.md",):
        if os.path.exists(name):
            yield name


def is_declaring(path):
    parts = path.split(os.sep)
    if not path.endswith(".antt") or parts[0] != "crates":
        return False
    return parts[2] == "specs" or (parts[2] == "proofs" and len(parts) == 4)


# names that would fall together with a word of the library that stands in the same files
APART = {"bit-and": "bit_of_and", "bit-or": "bit_of_or", "bit-xor": "bit_of_xor"}


def respelled(name):
    if name in APART:
        return APART[name]
    name = name.replace("′", "'")
    parts = name.split("-")
    if name[0].isupper():
        return "".join(p[:1].upper() + p[1:] for p in parts)
    return "_".join(parts)


def declared():
    names = {}
    for path in files():
        if not is_declaring(path):
            continue
        text = open(path, encoding="utf-8").read()
        code = re.sub(r"--.*", "", text)
        found = set(DECLARED.findall(code)) | set(LET.findall(code)) | set(FIELD.findall(code)) | set(ALIAS.findall(code))
        for group in BOUND.findall(code) + LAMBDA.findall(code):
            found.update(w for w in group.split() if re.fullmatch(IDENT, w))
        for name in found:
            names.setdefault(name, set()).add(path)
    return names


def imported_from_outside(text, own):
    kept = set()
    for path, names, _ in USE.findall(text):
        crate = re.match(r"Rattle[.·]([A-Za-z0-9_]+)", path)
        if crate and crate.group(1) in own:
            continue
        for name in names.split(","):
            # an alias is the file's own
            kept.add(name.split(" as ")[0].strip())
    return kept


def turned(path, text, names, own):
    kept = imported_from_outside(text, own)

    def word(match):
        name = match.group(0)
        return respelled(name) if name in names and name not in kept else name

    if path.endswith(".md"):
        return re.sub(r"`[^`\n]*`", lambda m: TOKEN.sub(word, m.group(0)), text)
    if path.endswith(".rt"):
        pieces = re.split(r'("(?:[^"\\\n]|\\.)*")', text)
        return "".join(p if i % 2 else TOKEN.sub(word, p) for i, p in enumerate(pieces))
    return TOKEN.sub(word, text)


def main():
    own = set(crates())
    names = declared()
    if "--list" in sys.argv:
        for name in sorted(names):
            print(name, respelled(name), *sorted(names[name]))
        return
    for path in files():
        text = open(path, encoding="utf-8").read()
        new = turned(path, text, names, own)
        if new != text:
            open(path, "w", encoding="utf-8").write(new)
            print("respelled", path)


if __name__ == "__main__":
    main()
