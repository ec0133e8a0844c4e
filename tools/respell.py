#!/usr/bin/env python3
"""Respells the names of this repository's own definitions and lemmas: words in snake case, types in camel case.

usage: tools/respell.py [--show]      at the top of the repository, once, after the port to Rattle's newer spelling

A name that specs/ or proofs/ declares, and a variable of a proof, loses its dashes: `from-be` is `from_be`, and a type
`Root-fraction` is `RootFraction`. Names that the prover makes, names of the library, and functions of src/ stay.
--show prints the old and new names and changes nothing.
"""

import collections
import glob
import os
import re
import sys

CRATES = ("refusal", "compression", "sealing", "image", "chain", "counter", "hashing", "timing", "pace", "trial", "vectors")
ANSWERS = ("Answers.antt", "Invariants.antt", "Choices.antt", "Proof.antt")
SPLIT = re.compile(r"([\s(){}\[\],;.«»]+)")
HEAD = re.compile(r"^\s*(?:abbrev pub|abbrev|unfoldable pub|unfoldable|pub data|pub record|data|record|pub)?\s*"
                  r"([^\s(){}:«»]+)\s*(?:\([^=\n]*\)|\{[^=\n]*\})*\s*:\s([^\n]*)", re.M)
USE = re.compile(r"^\s*(?:ghost |pub )?(?:open )?use ([^\n]*)$", re.M)
FIELDS = re.compile(r"^  pub ([^\s(){}:]+) :", re.M)
MADE = re.compile(r"^(then|else|in|loop|returns|invariant|measure|if|match|overflow|index|range|cast|div)-")


def read(path):
    with open(path, encoding="utf-8") as file:
        return file.read()


def bare(text):
    """The text without its comments and without its imports."""
    return USE.sub("", re.sub(r"(--|//)[^\n]*", "", text))


def own(path):
    return re.match(r"Rattle\.(%s)\." % "|".join(CRATES), path) is not None


def new_name(name, is_type):
    parts = name.split("-")
    if is_type:
        return "".join(p[:1].upper() + p[1:] for p in parts)
    return "_".join(parts)


def main():
    os.chdir(os.path.join(os.path.dirname(os.path.abspath(__file__)), "..") if "--here" not in sys.argv else ".")
    antt = sorted(f for f in glob.glob("crates/*/**/*.antt", recursive=True) if "/out/" not in f)
    code = sorted(f for f in glob.glob("crates/*/src/**/*.rt", recursive=True))
    names, fields, foreign, answers = {}, set(), collections.defaultdict(set), collections.defaultdict(set)
    for path in antt + code:
        for line in USE.findall(read(path)):
            if not own(line):
                foreign[path].update(x for x in re.split(r"[\s{},;]+", line.partition("{")[2]))
    for path in antt:
        text = read(path)
        for name, signature in HEAD.findall(re.sub(r"--[^\n]*", "", text)):
            if os.path.basename(path) in ANSWERS and re.match(r"(goal|given|need)\.", signature):
                answers[path].add(name)
            elif "-" in name.strip("-") and os.path.basename(path) not in ANSWERS:
                is_type = signature.rstrip().endswith(("Type 0", "Type 0 where"))
                names[name] = new_name(name, is_type)
                if is_type and not name[0].isupper():
                    print("a type in lower case:", name, path)
        fields.update(f for f in FIELDS.findall(text) if "-" in f)
    local = collections.defaultdict(dict)
    for path in antt:
        words = SPLIT.split(bare(read(path)))
        for i in range(0, len(words), 2):
            word, before = words[i], words[i - 1] if i else ""
            if "-" in word and word not in names and word not in foreign[path] and word not in answers[path] \
                    and not before.endswith(".") and not MADE.match(word) and re.match(r"[^\W\d_]", word):
                local[path][word] = new_name(word, False)
    falls = collections.Counter(names.values())
    for name, times in falls.items():
        if times > 1:
            print("fall together:", name, [n for n in names if names[n] == name])
    declared = {n for p in antt for n, _ in HEAD.findall(read(p))}
    for old, new in names.items():
        if new in declared:
            print("is there already:", old, new)
        if any(old in f for f in foreign.values()):
            print("also a name of the library:", old)
    if "--show" in sys.argv:
        for old, new in sorted(names.items()):
            print(old, new)
        for path in antt:
            for old, new in sorted(local[path].items()):
                print(path, old, new)
    dotted = collections.Counter()
    for path in antt + code:
        text = read(path)
        out = []
        for line in text.split("\n"):
            imported = USE.match(line)
            if imported and not own(imported.group(1)) or re.match(r"\s*(//|--)", line):
                out.append(line)
                continue
            words = SPLIT.split(line)
            for i in range(0, len(words), 2):
                word, before = words[i], words[i - 1] if i else ""
                if before.endswith(".") and not imported:
                    if word in names and word not in fields:
                        dotted[(word, path)] += 1
                    elif word in names:
                        words[i] = names[word]
                elif word in names and word not in answers[path] and word not in foreign[path]:
                    words[i] = names[word]
                elif path in local and word in local[path]:
                    words[i] = local[path][word]
            out.append("".join(words))
        if "--show" not in sys.argv:
            with open(path, "w", encoding="utf-8") as file:
                file.write("\n".join(out))
    if "--show" in sys.argv:
        for (word, path), n in sorted(dotted.items()):
            print("behind a dot, left:", word, n, path)


if __name__ == "__main__":
    main()
