#!/usr/bin/env python3
"""Spells the repository's own definitions and lemmas as Rattle's library does.

usage: python3 tools/spell_names.py [--list]      at the top of the repository

A name with dashes becomes snake case (`escaped-flag` is `escaped_flag`), and a fact, whose name has a capital, upper camel case
(`One-form` is `OneForm`). Only names that a file of specs/ or proofs/ declares, and the other names of imports, are turned: what the library
or the prover names keeps its dashes, and so do comments, texts and the code of src/ outside its clauses.
It stops, and writes nothing, where two names would fall together. --list prints the names and writes nothing.
"""

import os
import re
import sys

IDENT = r"[^\s(){}\[\].,;:λ∷×≡→↦⌜⌝|@\"]+"
TOKEN = re.compile(r"--[^\n]*|\"(?:[^\"\\]|\\.)*\"|" + IDENT)
RUST = re.compile(r"//[^\n]*|b?\"(?:[^\"\\]|\\.)*\"|b?'(?:\\(?:u\{[^}]*\}|x..|.)|[^'\\])'|[^\W\d][\w'-]*")
DECLARES = re.compile(r"^\s*(?:(?:abbrev|unfoldable|pub|data|record|let|instance)\s+)*(" + IDENT + r")\s*(?:\{[^}]*\}\s*|\([^)]*\)\s*)*:(?!:)(.*)$")
PROVERS = re.compile(r"goal\.")


def files(root, ending):
    for folder, folders, names in os.walk(os.path.join(root, "crates")):
        folders[:] = sorted(it for it in folders if it != "out")
        for name in sorted(names):
            if name.endswith(ending):
                yield os.path.join(folder, name)


def text_of(path):
    with open(path, encoding="utf-8") as it:
        return it.read()


def has_dash(name):
    return re.fullmatch(r"[A-Za-z][\w']*(?:-[\w']+)+", name) is not None


def spelled(name):
    if name[0].isupper():
        return "".join(it[0].upper() + it[1:] for it in name.split("-"))
    return name.replace("-", "_")


def other_names(texts):
    """The names with a dash that the files give to what they import."""
    found = set()
    for text in texts.values():
        for names in re.findall(r"^(?:ghost )?use [^\s{]+\.\{([^}]*)\}", text, re.M):
            found |= {it.split(" as ")[1].strip() for it in names.split(",") if " as " in it}
    return {it for it in found if has_dash(it)}


def words_of(path, text):
    """The words that could stand for a thing of their own there: no parts of a path, no fields, and of src/ only what clauses import."""
    if path.endswith(".antt"):
        plain = re.sub(r"^use [^\s{]+\.\{", "{", text, flags=re.M)
        return set(TOKEN.findall(re.sub(r"(?<=[\w'])\.[\w'-]+", "", plain)))
    return {it.strip().split(" as ")[-1] for names in re.findall(r"^ghost use [^\s{]+\.\{([^}]*)\}", text, re.M) for it in names.split(",")}


def declared(texts):
    """The names with a dash that the files declare, but for the answers to the prover's goals, which it names itself."""
    own, answers = set(), set()
    for text in texts.values():
        for line in text.splitlines():
            if line.lstrip().startswith("--"):
                continue
            said = DECLARES.match(line)
            if said and has_dash(said[1]):
                (answers if PROVERS.search(said[2]) else own).add(said[1])
            for group in re.findall(r"[({]([^(){}:]+):(?!:)", line):
                own |= {it for it in group.split() if has_dash(it)}
            for it in re.findall(r"λ\s*\(?([\w'-]+)", line) + re.findall(r"let\s+([\w'-]+)\s*=", line):
                if has_dash(it):
                    own.add(it)
    return own - answers, own & answers


def imported(texts, own_crates):
    """The names with a dash that the files take from the library."""
    found = set()
    for text in texts.values():
        for path, names in re.findall(r"^(?:ghost )?use ([^\s{]+)\.\{([^}]*)\}", text, re.M):
            crate = re.match(r"Rattle\.(\w+)\.", path)
            if crate and crate[1] in own_crates:
                continue
            found |= {it.strip().split(" as ")[0].strip() for it in names.split(",")}
    return found


def turn(text, names, pattern):
    def one(it):
        word = it[0]
        return names.get(word, word)

    return pattern.sub(one, text)


def main():
    root = os.getcwd()
    own_crates = set(os.listdir(os.path.join(root, "crates")))
    proofs = {it: text_of(it) for it in files(root, ".antt")}
    sources = {it: text_of(it) for it in files(root, ".rt")}
    own, both = declared(proofs)
    own |= other_names(proofs) | other_names(sources)
    taken = imported(proofs, own_crates) | imported(sources, own_crates)
    names = {it: spelled(it) for it in sorted(own - taken)}
    clashes = [f"{it}: declared here, and an answer's name too" for it in sorted(both)]
    clashes += [f"{it}: declared here, and imported from the library" for it in sorted(own & taken)]
    for path, text in [*proofs.items(), *sources.items()]:
        words = words_of(path, text)
        for old in sorted(words & names.keys()):
            if names[old] in words:
                clashes.append(f"{os.path.relpath(path, root)}: {old} falls together with {names[old]}")
    targets = {}
    for old, new in names.items():
        targets.setdefault(new, []).append(old)
    clashes += [f"{' and '.join(olds)} fall together" for olds in targets.values() if len(olds) > 1]
    if "--list" in sys.argv:
        print("\n".join(f"{old} {new}" for old, new in names.items()))
    if clashes:
        print("\n".join(clashes), file=sys.stderr)
        return 1
    if "--list" not in sys.argv:
        for path, text in [*proofs.items(), *sources.items()]:
            new = turn(text, names, TOKEN if path.endswith(".antt") else RUST)
            if new != text:
                with open(path, "w", encoding="utf-8") as it:
                    it.write(new)
    return 0


if __name__ == "__main__":
    raise SystemExit(main())
