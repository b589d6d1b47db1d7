#!/usr/bin/env python3
"""Spells the repository's own definitions and lemmas as Rattle's guides do today: words joined by underscores, types in camel case.

usage: python3 tools/respell.py [--list]        at the top of the repository, once, after the kit's port.py

A name that a file of specs/ or proofs/ declares and that has a dash gets underscores; one that begins with a capital becomes
camel case.  Names that Rattle makes (the goals and steps in Answers and Invariants) stay, and so does a name in a file that
imports it from a library.  Functions, fields, strings and files keep their names.  A name that would fall together with another
one is reported, and nothing is written.  --list prints the names and writes nothing.
"""

import os
import re
import sys

TOKEN = re.compile(r"[^\s(){}.;,@\"«»⌜⌝]+")
DECLARED = re.compile(r"^[ \t]*(?:(?:pub|abbrev|unfoldable|data|record|ruleset|open)[ \t]+)*([^\s(){}.;,@\"«»:]+)(?:[ \t][^:\n]*?)?[ \t]+:[ \t]", re.M)
LET = re.compile(r"\blet[ \t]+([^\s(){}.;,@\"«»:=]+)[ \t]*[:=]")
BINDER = re.compile(r"[({]((?:[^\s(){}.;,@\"«»:]+[ \t]+)+):[ \t]")
LAMBDA = re.compile(r"λ[ \t]+((?:[^\s(){}.;,@\"«»:]+[ \t]*)+)\.")
GOAL = re.compile(r"^(?:abbrev[ \t]+)?(?:pub[ \t]+)?(\S+)[ \t]*:[ \t]*goal\.", re.M)
USE = re.compile(r"\buse[ \t]+([^\s;{]+)\.\{([^}]*)\}")
GHOST = re.compile(r"ghost use [^;]*;|\bghost \w+[^{=;]*[=:]?[ \t]*\{|\b(?:requires|ensures|invariant)\b[^{\n]*\{")
# Names that the rule alone would not spell well: acronyms, and a definition that would have its function's name.
OTHERWISE = {"ML-KEM": "MlKem", "ML-DSA": "MlDsa", "no-masks": "no_masks_lem"}
# Names that meet another one in a file where they are told apart: a module, or a function where the definition is imported under another name.
TOLD_APART = {"Mask-lists", "in-work", "is-transformed", "same-form"}
MADE = re.compile(r"^(if|loop|in|then|else|returns|overflow|bounds|match|mul|add|sub|cast|slice_bounds|nonzero|invariant|decreases|ghost)[-_]")


def files(root, ending):
    for folder, folders, names in os.walk(os.path.join(root, "crates")):
        folders[:] = sorted(f for f in folders if f != "out")
        for name in sorted(names):
            if name.endswith(ending):
                yield os.path.join(folder, name)


def respelled(name):
    if name in OTHERWISE:
        return OTHERWISE[name]
    if name[0].isupper():
        parts = name.split("-")
        return parts[0] + "".join(p[:1].upper() + p[1:] for p in parts[1:])
    return name.replace("-", "_")


def turns(name):
    return "-" in name.strip("-") and re.fullmatch(r"[A-Za-z][\w'-]*", name) is not None


def own_names(text, of_a_function):
    """The names with a dash that this text declares, without those of goals."""
    found = set(DECLARED.findall(text)) | set(LET.findall(text))
    for group in BINDER.findall(text) + LAMBDA.findall(text):
        found |= set(group.split())
    if of_a_function:
        found -= set(GOAL.findall(text))
    return {n for n in found if turns(n)}


def from_libraries(text, crates):
    names = set()
    for path, group in USE.findall(text):
        steps = path.split(".")
        if steps[0] != "Rattle" or len(steps) < 2 or steps[1] not in crates:
            names |= {n.split(" as ")[-1].strip() for n in group.split(",")}
    return names


def without_comments(text):
    return re.sub(r"--[ \t][^\n]*|--$", "", text, flags=re.M)


def turn(text, names):
    """Each of the names, where it stands as a word of its own."""
    return TOKEN.sub(lambda m: respelled(m[0]) if m[0] in names else m[0], text)


def clause_end(text, start):
    depth = 1
    while depth:
        depth += {"{": 1, "}": -1}.get(text[start], 0)
        start += 1
    return start


def turn_source(text, names):
    """The same in the clauses and ghost lines of a source."""
    out, at = [], 0
    while True:
        found = GHOST.search(text, at)
        if not found:
            return "".join(out) + text[at:]
        end = found.end() if found[0].endswith(";") else clause_end(text, found.end())
        out += [text[at:found.start()], turn(text[found.start():end], names)]
        at = end


def main():
    root = os.getcwd()
    crates = set(os.listdir(os.path.join(root, "crates")))
    texts = {p: open(p, encoding="utf-8").read() for p in files(root, ".antt")}
    names = set()
    for path, text in texts.items():
        names |= own_names(without_comments(text), re.search(r"/(Answers|Invariants|Proof)\.antt$", path) is not None)
    if "--list" in sys.argv:
        for name in sorted(names):
            print(name, respelled(name), "MADE?" if MADE.match(name) else "")
        return 0
    clashes = []
    results = {}
    for path, text in texts.items():
        here = names - from_libraries(text, crates)
        here -= set(GOAL.findall(text))
        used = {t for t in TOKEN.findall(without_comments(text))}
        for name in sorted((here & used) - TOLD_APART):
            if respelled(name) in used:
                clashes.append(f"{path}: {name} and {respelled(name)}")
        results[path] = turn(text, here)
    for path in files(root, ".rt"):
        text = open(path, encoding="utf-8").read()
        here = names - from_libraries(text, crates)
        used = set(TOKEN.findall(text)) | set(re.findall(r"\w+", text))
        for name in sorted((here & set(TOKEN.findall(text))) - TOLD_APART):
            if respelled(name) in used:
                clashes.append(f"{path}: {name} and {respelled(name)}")
        results[path] = turn_source(text, here)
    for clash in clashes:
        print("falls together: " + clash)
    if clashes:
        return 1
    for path, text in results.items():
        with open(path, "w", encoding="utf-8") as file:
            file.write(text)
    print(f"{len(names)} names in {len(results)} files")
    return 0


if __name__ == "__main__":
    sys.exit(main())
