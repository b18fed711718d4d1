#!/usr/bin/env python3
"""Respells this repository's own definitions and lemmas: words in snake case, as the Rattle of docs/PORT.md has them.

usage: python3 tools/respell.py [--check] [ROOT]

It reads which names the files of specs/ and proofs/ declare, and turns those in camel case (clampTo) and those joined by dashes
(clamp-is) to snake case (clamp_to, clamp_is), in crates/. A name that begins with a type keeps its dash (Keeps-cell), and so does
each name that Rattle makes: those are not declared in a lemma's file. Two names that would fall together, or a name that a file uses
for something else already, stop it; OWN has the names chosen by hand for these.

It was run once, on the tree as the kit's script had left it, and is kept as the record of that (docs/PORT.md).
"""

import collections
import glob
import os
import re
import sys

NAME = r"[^\s(){}.;,@\"«»`\[\]\\:]+"
DECLARED = re.compile(
    r"^(\s*)(?:(?:abbrev|unfoldable|pub|data|record)\s+)*(" + NAME + r")((?:\s+" + NAME + r")*)\s*(?:[({].*)?\s*:(?!=)"
)
TOKEN = re.compile(r"(?<![^\s(){}.;,@\"«»`\[\]\\:])" + NAME)

# A lemma whose plain turn is its function's name, or another's, gets `_lem`.
LEMMAS = "all_in answer-of bad-from ends-before first-pair good-half grid-start is-o is-painted item-at jump-found laid_on length-good on-primary on-secondary pair-on st-of sum-h sum-n"
# Fields of ours that have the name of a field of the code's structs: another record's, so they do not meet.
APART = {"primary-used", "secondary-used"}
OWN = {name: name.replace("-", "_") + "_lem" for name in LEMMAS.split()}


def snake(name):
    name = name.replace("getD", "get_or")
    name = re.sub(r"([a-z0-9₀-₉])([A-Z])", lambda m: m.group(1) + "_" + m.group(2).lower(), name)
    return re.sub(r"(?<=[^\W_])-(?=[^\W_])", "_", name)


def turns(name):
    """Whether a declared name is one of ours to turn: it begins in lower case and has a capital or a dash inside."""
    return re.match(r"^[a-zα-ωσ]", name) and (re.search(r"[a-z0-9][A-Z]", name) or re.search(r"[^\W_]-[^\W_]", name))


def declared(root):
    """Names that files of specs/ and lemmas declare, each with whether it stands indented somewhere: a field, a case, a local name."""
    found = collections.defaultdict(bool)
    for path in glob.glob(root + "/crates/*/specs/**/*.antt", recursive=True) + glob.glob(root + "/crates/*/proofs/**/*.antt", recursive=True):
        if os.path.basename(path) == "Proof.antt":
            continue
        for line in open(path, encoding="utf-8"):
            m = DECLARED.match(line)
            if m and not line.strip().startswith(("--", "module", "use ")):
                for name in [m.group(2), *m.group(3).split()]:
                    found[name] |= bool(m.group(1))
    return found


def borrowed(root):
    """Names that the files take from Rattle's own libraries."""
    found = set()
    for path in glob.glob(root + "/crates/**/*.antt", recursive=True):
        for line in open(path, encoding="utf-8"):
            m = re.match(r"\s*use (?!Rattle\.(?!std))[\w.]+\.\{(.*)\}", line)
            if m:
                found |= {w for item in m.group(1).split(",") for w in item.split() if w != "as"}
    return found


def table(root):
    found = declared(root)
    theirs = borrowed(root)
    new = {}
    for name in found:
        if (turns(name) or name in OWN) and name not in theirs:
            new[name] = OWN.get(name, snake(name))
    return {k: v for k, v in new.items() if k != v}, found


def respell(text, new, fields, kebab=True):
    def word(m):
        name = m.group(0)
        if name not in new or (not kebab and "-" in name):
            return name
        before = text[: m.start()]
        if before.endswith(".") and name not in fields and not re.search(r"(?:^|[^\w.'-])[\w.]*\b[A-Z]\w*\.$", before[-120:]):
            return name
        return new[name]

    return TOKEN.sub(word, text)


def main(argv):
    check = "--check" in argv
    rest = [a for a in argv if a != "--check"]
    root = rest[0] if rest else "."
    new, found = table(root)
    fields = {n for n in new if found[n]}
    paths = [p for p in glob.glob(root + "/crates/**/*", recursive=True) if p.endswith((".antt", ".rt", ".edit")) and "/out/" not in p]
    bad = []
    back = collections.defaultdict(list)
    for k, v in new.items():
        back[v].append(k)
    for v, ks in back.items():
        if len(ks) > 1:
            bad.append(f"{' and '.join(sorted(ks))} fall together as {v}")
    texts = {p: open(p, encoding="utf-8").read() for p in paths}
    for p, t in texts.items():
        if not p.endswith(".antt"):
            continue
        words = set(TOKEN.findall(t))
        for k, v in new.items():
            # a module's path, or a field of a struct of the code, is no other use
            if k in words and v in words and v not in new and k not in APART and not p.endswith("Proof.antt") and re.search(r"(?<![.\w-])" + re.escape(v) + r"(?![.\w'-])", t):
                bad.append(f"{p}: has {v} beside {k}")
    print("\n".join(sorted(bad)))
    print(f"{len(new)} names, {len(bad)} to be chosen by hand")
    if check or bad:
        return 1 if bad else 0
    for p, t in texts.items():
        after = respell(t, new, fields, kebab=p.endswith(".antt"))
        if after != t:
            open(p, "w", encoding="utf-8").write(after)
    return 0


if __name__ == "__main__":
    raise SystemExit(main(sys.argv[1:]))
