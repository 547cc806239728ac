#!/usr/bin/env python3
"""Brings the repository's own definitions and lemmas to one spelling: words in snake case, types in camel case, a prime as an apostrophe.

usage: python3 tools/respell.py         at the top of the repository, once
       python3 tools/respell.py list    prints the names alone: old, new, and how many files declare the old one

    scheduleOf -> schedule_of      not-before-both -> not_before_both      Not-before-is-least -> NotBeforeIsLeast

In proofs it also spells the parts of generated names that come from the source as the source does: next-in-train-probe -> next_in_train-probe.
Names of functions of src/, strings and comments stay. It stops where two names would fall together.
"""

import collections
import os
import re
import subprocess
import sys

TOKEN = re.compile(r"--[ \n][^\n]*|--$|\"(?:[^\"\\]|\\.)*\"|[^\s(){}.;,@\"«»\[\]\\]+", re.M)
RUST = re.compile(r"//[^\n]*|b?\"(?:[^\"\\]|\\.)*\"|b?'(?:\\.|[^'\\\n])'|[^\s(){}.;,@\"«»\[\]\\:&|!<>*+=/?#]+", re.M)
DECLARED = re.compile(
    r"^[ ]*(?:abbrev |unfoldable )?(?:pub )?(record |data |ruleset )?([^\s(){}.;,@\"«»\[\]\\:]+)((?: [({][^\n]*?[)}])*) :(?=[ \n])([^\n]*)", re.M
)
USED = re.compile(r"^\s*(?:ghost )?(?:pub )?use ([^\s{};]+?)(?:\.\{([^}]*)\})?;?\s*(?:as [^\n]*)?$", re.M)
SOURCE = re.compile(r"(?<![\w'])[a-z][a-z0-9]*(?:_[a-z0-9]+)+(?![\w'])")
# Words of several parts in generated names.
MADE = re.compile(
    r"(?<![^-+])(overflow-(?:add|sub|mul|shl|shr|cast|step)|nonzero-(?:div|rem)|(?:offset|slice)-bounds|(?:invariant|shape)-of|type-inv|[iI]n-(?:default|ok|err))(?![^-+])"
)
# Where words alone would bring two names together.
CHOSEN = {"in-range": "range_kept", "lastDay": "end_day"}
WORDS = "record data ruleset use pub abbrev unfoldable unfolding where module let in elim as λ mod".split()


def texts(ending):
    for folder, dirs, files in os.walk("crates"):
        dirs[:] = sorted(d for d in dirs if d != "out")
        for f in sorted(files):
            if f.endswith(ending):
                yield os.path.join(folder, f)


def read(path):
    with open(path, encoding="utf-8") as f:
        return f.read()


def is_answer(path):
    return os.path.basename(path) in ("Answers.antt", "Invariants.antt", "Proof.antt") and "/proofs/" in path


def split(name):
    return [w for w in re.split(r"-|(?<=[a-z0-9])(?=[A-Z])", name) if w]


def respelled(name):
    if name in CHOSEN:
        return CHOSEN[name]
    name = name.replace("′", "'")
    if name[0].isupper():
        return "".join(w[0].upper() + (w[1:].lower() if w.isupper() else w[1:]) for w in split(name)) if "-" in name else name
    words = split(name)
    if len(words) < 2 or not all(re.fullmatch(r"[\w'≢≤≡ℕ]+", w) for w in words):
        return name
    return "_".join(w[0].lower() + w[1:] for w in words)


def names():
    """Own names by how many files declare them, names of libraries that files import, and every word of the antt files."""
    own, foreign = collections.Counter(), set()
    crates = set(os.listdir("crates"))
    for path in [*texts(".antt"), *texts(".rt")]:
        text = read(path)
        for at, items in USED.findall(text):
            part = at.split(".")
            mine = len(part) > 1 and part[0] == "Rattle" and part[1] in crates
            if not mine:
                foreign |= {i.strip().split(" as ")[0].strip() for i in (items or "").split(",")} | {part[-1]}
        if path.endswith(".rt"):
            continue
        for kind, name, _, rest in DECLARED.findall(text):
            if name in WORDS or name.startswith("--") or (is_answer(path) and re.match(r" goal\.", rest)):
                continue
            own[name] += 1
    return own, foreign


def mapping():
    own, foreign = names()
    to, left = {}, []
    for name in sorted(own):
        new = respelled(name)
        if new == name:
            continue
        if name in foreign:
            left.append(name)
        else:
            to[name] = new
    back = collections.defaultdict(set)
    for old, new in to.items():
        back[new].add(old)
    for new in back:
        if new in own or new in foreign:
            back[new].add(new)
    together = {new: olds for new, olds in back.items() if len(olds) > 1}
    return own, foreign, to, left, together


def source_words():
    words = set()
    for path in texts(".rt"):
        for m in SOURCE.finditer(read(path)):
            words.add(m[0])
    return words


def made(token, dashed):
    """A generated name with each part that the source spells with _ spelled so."""
    if "-" not in token:
        return token
    part, out, i = MADE.sub(lambda m: m[0].replace("-", "_"), token).split("-"), [], 0
    while i < len(part):
        for j in range(len(part), i + 1, -1):
            if "-".join(part[i:j]) in dashed:
                out.append("_".join(part[i:j]))
                i = j
                break
        else:
            out.append(part[i])
            i += 1
    return "-".join(out)


def main():
    own, foreign, to, left, together = mapping()
    if sys.argv[1:] == ["list"]:
        for old, new in sorted(to.items()):
            print(old, new, own[old])
        for n in left:
            print("left, a library's too:", n)
    if together:
        for new, olds in sorted(together.items()):
            print(f"fall together as {new}: {', '.join(sorted(olds))}")
        raise SystemExit(1)
    if sys.argv[1:] == ["list"]:
        return
    dashed = {w.replace("_", "-") for w in source_words()}
    for path in [*texts(".antt"), *texts(".rt"), *texts(".edit")]:
        text = read(path)
        proof = "/proofs/" in path

        def turn(m):
            token = m[0]
            if token.startswith(("--", "//", '"', 'b"', "'", "b'")) or token in foreign:
                return token
            if token in to:
                return to[token]
            return made(token, dashed) if proof else token

        new = (TOKEN if path.endswith(".antt") else RUST).sub(turn, text)
        if new != text:
            with open(path, "w", encoding="utf-8") as f:
                f.write(new)
    for crate in sorted(os.listdir("crates")):
        subprocess.run(["rt", "fmt"], cwd=os.path.join("crates", crate), stdout=subprocess.DEVNULL, check=True)


main()
