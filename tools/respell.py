#!/usr/bin/env python3
"""Brings the definitions and lemmas of crates/ to the spelling of today's Rattle, after port.py.

usage: python3 tools/respell.py [FOLDER]      at the top of the repository, or of another checkout

Words are in snake case (`isOpen` and `accepted-node` become `is_open` and `accepted_node`), a prime is an apostrophe. Functions of src/, exported C names,
strings, inputs and outputs keep their names. A lemma whose name would fall together with a definition's gets `_lem`.
Besides: the folder specs/contracts is specs/clauses (Rattle makes a module `specs.contracts`), the crates that have the name of a library of Rattle's get
another, plain types are Copy, and each crate asks for tactics. It is run once; a second run changes nothing.
"""

import os
import re
import sys

CRATES = {"json": "json_text", "base64": "base64_text"}
NAME = r"[^\s(){}\[\];,.:λ→∷×⊎≡«»\"@\\|$!⌜⌝]+"
DECLARED = re.compile(rf"^\s*(?:abbrev |unfoldable |mutual )*(?:pub )?(?:data |record )?({NAME})(?: (?:\(.*?\)|\{{.*?\}}))* :(?: |$)")
PART = re.compile(r"[A-Za-z][A-Za-z0-9_']*[₀-₉]*(?:-[A-Za-z0-9_'₀-₉]+)*")
TOKEN = re.compile(r"(?<![A-Za-z0-9_'′₀-₉·-])[A-Za-z][A-Za-z0-9_'′₀-₉]*(?:[-][A-Za-z0-9_'′₀-₉]+)*")
USE = re.compile(r"(?m)^\s*(?:ghost )?(?:pub )?use ([^\s;{]+?)\.\{([^}]*)\}")
CAMEL = re.compile(r"[a-z0-9][A-Z]")


def files(root, ends):
    for folder, dirs, names in os.walk(os.path.join(root, "crates")):
        dirs[:] = sorted(d for d in dirs if d != "out")
        for name in sorted(names):
            if name.endswith(ends):
                yield os.path.join(folder, name)


def read(path):
    with open(path, encoding="utf-8") as f:
        return f.read()


def write(path, text):
    with open(path, "w", encoding="utf-8") as f:
        f.write(text)


def snake(name):
    name = name.replace("′", "'")
    if name[0].isupper():
        return name
    name = re.sub(r"(?<=[a-z0-9])[A-Z]+", lambda m: "_" + m[0].lower(), name)
    return re.sub(r"-(?=[A-Za-z0-9])", "_", name)


def own_names(root):
    """The names that antt files of the repository declare, and those that they take from elsewhere."""
    own, other, lemmas = set(), set(), set()
    for path in files(root, (".antt", ".rt")):
        text = read(path)
        for line in text.splitlines():
            m = DECLARED.match(line) if path.endswith(".antt") else None
            if m and not path.endswith("Proof.antt"):
                own.add(m[1])
                if "/proofs/" in path:
                    lemmas.add(m[1])
        for m in USE.finditer(text):
            names = [n.split(" as ")[0].strip() for n in m[2].split(",")]
            crate = m[1].split(".")
            if not (crate[0] == "Rattle" and os.path.isdir(os.path.join(root, "crates", crate[1]))):
                other.update(names)
    return own, other, lemmas


def mapping(root):
    own, other, lemmas = own_names(root)
    # locals of proofs in several words are no names of the repository; they keep theirs
    table = {n: snake(n) for n in own - other if snake(n) != n}
    # a lemma that has the name that a definition gets
    taken = {}
    for old, new in table.items():
        if CAMEL.search(old) and "-" not in old:
            taken[new] = old
    for n in sorted(lemmas):
        new = snake(n)
        if new in taken and n != taken[new] and n not in other:
            table[n] = new + "_lem"
    return table


def respell(text, table, source):
    def word(m):
        name = m[0]
        if name in table:
            before = text[m.start() - 1] if m.start() else " "
            new = table[name]
            if new.endswith("_lem") and new[:-4] == name and (before == "." or source):
                return name
            return new
        if "′" in name:
            return name.replace("′", "'")
        return name

    out = []
    for i, piece in enumerate(re.split(r'("(?:[^"\\\n]|\\.)*")', text) if source else [text]):
        if i % 2:
            out.append(piece)
        elif source:
            text = piece
            out.append(TOKEN.sub(word, piece))
        else:
            out.append(TOKEN.sub(word, piece))
    return "".join(out)


def rename_crates(root):
    path = os.path.join(root, "crates.txt")
    text = read(path)
    for old, new in CRATES.items():
        if os.path.isdir(os.path.join(root, "crates", old)):
            os.rename(os.path.join(root, "crates", old), os.path.join(root, "crates", new))
        text = re.sub(rf"(?m)^((?!#).*?)\b{old}\b(?!_)", lambda m: m[1] + new, text)
        while re.search(rf"(?m)^(?!#).*\b{old}\b(?!_)", text):
            text = re.sub(rf"(?m)^((?!#).*?)\b{old}\b(?!_)", lambda m: m[1] + new, text)
    write(path, text)
    for path in files(root, (".antt", ".rt", ".edit")):
        text = was = read(path)
        for old, new in CRATES.items():
            text = re.sub(rf"\bRattle\.{old}\.", f"Rattle.{new}.", text)
            if path.endswith((".rt", ".edit")):
                text = re.sub(rf"\b{old}::", f"{new}::", text)
        if text != was:
            write(path, text)


def rename_contracts(root):
    for crate in sorted(os.listdir(os.path.join(root, "crates"))):
        specs = os.path.join(root, "crates", crate, "specs")
        if not os.path.isfile(os.path.join(specs, "contracts.antt")):
            continue
        os.rename(os.path.join(specs, "contracts.antt"), os.path.join(specs, "Clauses.antt"))
        os.rename(os.path.join(specs, "contracts"), os.path.join(specs, "Clauses"))
        lib = os.path.join(specs, "Lib.antt")
        write(lib, re.sub(r"(?m)^((?:pub )?mod )contracts$", r"\1Clauses", read(lib)))
        modules = {f[:-5] for f in os.listdir(os.path.join(specs, "Clauses"))}
        for path in files(root, (".antt", ".rt", ".edit")):
            text = was = read(path)
            text = re.sub(rf"\bRattle\.{crate}\.specs\.contracts\.(?=({'|'.join(sorted(modules))})\b)", f"Rattle.{crate}.specs.Clauses.", text)
            if text != was:
                write(path, text)


def main(argv):
    root = argv[0] if argv else "."
    if not os.path.isfile(os.path.join(root, "crates.txt")):
        print("respell.py: no crates.txt here", file=sys.stderr)
        return 2
    rename_crates(root)
    rename_contracts(root)
    table = mapping(root)
    for path in files(root, (".antt", ".rt", ".edit")):
        text = was = read(path)
        source = path.endswith((".rt", ".edit"))
        text = respell(text, table, source)
        if path.endswith(".rt"):
            text = text.replace("#[derive(Drop)]", "#[derive(Clone, Copy)]")
            if os.path.basename(path) in ("lib.rt", "main.rt") and "#![tactic(auto)]" not in text:
                m = re.match(r"(?://[^\n]*\n)*", text)
                text = text[: m.end()] + "#![tactic(auto)]\n\n" + text[m.end() :].lstrip("\n")
        if text != was:
            write(path, text)
    for old, new in sorted(table.items()):
        print(f"{old}\t{new}")
    return 0


if __name__ == "__main__":
    raise SystemExit(main(sys.argv[1:]))
