#!/usr/bin/env python3
"""Brings the repository's own dashed names to the spelling of today's Rattle.

usage: python3 tools/respell.py [--dry]      once, at the top, after port.py

Definitions, lemmas, constructors and variables in specs/, proofs/ and the clauses of src/ are in snake case, and a
fact's name is a type's. A dash stays in a lemma that is named by its left side, as `length-append` is, and in the
names that Rattle makes. It prints the new names that stand already: each is a function of src/, a step that is
named by one, or the name of a clause, and no other definition.
"""
import glob
import re
import sys

# a dash here joins the names of two functions, the outer first
KEPT = {
    "length-append", "length-text", "length-hex", "length-hex-take", "hex-append",
    "bit-xor", "bit-and", "bit-or", "bit-shr", "bit-mod",
    "dec-enc", "enc-dec", "after-dec-enc", "after-enc-dec",
    "length-told", "length-tag", "length-ciphertext", "length-sealing", "length-plain",
}
TURNED = {"bit-shl-high": "bit-shl_high", "bit-shl-low": "bit-shl_low", "true-false": "true_is_false"}
# variables, and helpers in the proofs of functions
LOCALS = {
    "Told-here", "f-byte", "f-length", "given-opened", "given-sealed", "known-one", "no-seal", "sealed-bytes",
    "steps-from", "steps-from₂", "told-then", "with-one", "by-12", "by-4", "by-8", "zero-at", "plain-or-mixings",
    "plain-text", "mixings-text",
}
DEFINED = re.compile(r"^\s*(?:(?:abbrev|unfoldable|pub|data|record)\s+)*([^\s:(){}]+)\s*[:({]")
TOKEN = re.compile(r"[^\s(){}\[\];,.]+")


def files():
    for pattern in ("specs/*.antt", "proofs/**/*.antt", "src/**/*.rt"):
        yield from sorted(glob.glob("crates/*/" + pattern, recursive=True))


def is_made(path):
    return path.endswith(("Answers.antt", "Invariants.antt"))


def respelled(name):
    if name in TURNED:
        return TURNED[name]
    if name[0].isupper():
        return "".join(part[0].upper() + part[1:] for part in name.split("-"))
    return name.replace("-", "_")


def names(texts):
    found = set(LOCALS)
    for path, text in texts.items():
        if path.endswith(".rt") or is_made(path):
            continue
        for line in text.split("\n"):
            m = DEFINED.match(line)
            if m and "-" in m[1] and not m[1].startswith("-"):
                found.add(m[1])
    return {n: respelled(n) for n in found - KEPT}


def together(renamed, texts):
    """New names that stand already, where the old one stands too or where another definition has them."""
    clashes = []
    for old, new in renamed.items():
        for path, text in texts.items():
            words = set(TOKEN.findall(text))
            if new in words and (old in words or any((m := DEFINED.match(l)) and m[1] == new for l in text.split("\n"))):
                clashes.append((old, new, path))
    return clashes


def main(argv):
    texts = {p: open(p, encoding="utf-8").read() for p in files()}
    renamed = names(texts)
    dry = "--dry" in argv
    for clash in together(renamed, texts):
        print("together:", *clash)
    changed = 0
    for path, text in texts.items():
        turned = TOKEN.sub(lambda m: renamed.get(m[0], m[0]), text)
        if turned != text:
            changed += 1
            if not dry:
                open(path, "w", encoding="utf-8").write(turned)
    print(f"{len(renamed)} names, {changed} files")
    return 0


if __name__ == "__main__":
    raise SystemExit(main(sys.argv[1:]))
