#!/usr/bin/env python3
"""Brings the repository's own definitions and lemmas to snake case, after port.py: camel case and dashes go, types and modules stay.

usage: python3 tools/respell.py    at the top of the repository, once
A name is the repository's own if a file of specs/, or a file right in proofs/, defines it, or an import from a crate of the repository names it anew.
In a file, a name that comes from the kit stays. Two names that would fall together are told apart by APART, and any other pair is an error.
"""
import collections
import glob
import os
import re
import sys

WORD = re.compile(r"[^\s(){}.;,@\"«»`|\[\]]+")
DEFINED = re.compile(r"(?m)^( *)(?:(?:unfoldable|abbrev|pub|mod|record|data) +)*([^\s(){}.;,@\"«»:]+)(?: |\()[^\n]*?:")
USE = re.compile(r"(?:ghost )?use ([^\s;{]+?)(?:\.\{([^}]*)\})?(?: as (\S+?))?;?(?=\n|$)")
KIT = ("Rattle.std.", "mathlib.", "native.", "Prim.", "lib.", "borrow.", "denote.", "logic.")

# A lemma, a field or a constructor that would fall together with a definition gets this behind its name, everywhere ..
SUFFIX = "_law"
# .. and so do these, beside a word of the kit, ..
BESIDE = ["bit-and", "bit-or"]
# .. and, in one file each, these, which have no dash.
APART = {
    "crates/layout/proofs/Planned.antt": {"part_in": "part_in_law"},
    "crates/marked/proofs/Large.antt": {"in_one": "in_one_law"},
    "crates/planner/proofs/Holding.antt": {"front_at": "front_at_law"},
    "crates/planner/proofs/Accepting.antt": {"front_at": "front_at_law"},
    "crates/planner/proofs/Timing.antt": {"front_cut": "front_cut_law"},
    "crates/planner/proofs/changes/all_works/Proof.antt": {"front_cut": "front_cut_law"},
}
# A crate may not be named as one of the kit's.
CRATES = {"csv": "rfc4180"}


def snake(name):
    if re.fullmatch(r"[A-Z][A-Z0-9]*(-[A-Z0-9]+)+", name):
        return name.replace("-", "_")
    name = re.sub(r"^getD(?=-|$)", "get_or", name)
    parts = name.split("-") if re.search(r"[\w']-[\w']", name) else [name]
    return "_".join(re.sub(r"(?<=[a-z0-9])([A-Z])", lambda m: "_" + m[1].lower(), p) if re.match(r"[a-z]", p) else p for p in parts)


def read(path):
    with open(path, encoding="utf-8") as f:
        return f.read()


def own_files():
    return sorted(glob.glob("crates/*/specs/**/*.antt", recursive=True) + glob.glob("crates/*/proofs/*.antt"))


def plain(name):
    return re.fullmatch(r"[a-zA-Z][\w'-]*", name) and len(name) > 2


def collect():
    names = set()
    for path in own_files():
        names |= {m[2] for m in DEFINED.finditer(read(path)) if plain(m[2])}
    for path in own_files() + sorted(glob.glob("crates/*/src/*.rt")) + sorted(glob.glob("crates/*/proofs/**/*.antt", recursive=True)):
        for m in USE.finditer(read(path)):
            if m[1].startswith(KIT):
                continue
            names |= {w for w in re.findall(r" as ([^\s,}]+)", m[2] or "") if plain(w)}
            if m[3] and plain(m[3].rstrip(";")) and m[3][0].islower() and m[3] != "goal":
                names.add(m[3].rstrip(";"))
    names -= {"tie", "use", "module", "goal"}
    return names


def table(names):
    by_new = collections.defaultdict(set)
    for n in names:
        by_new[snake(n)].add(n)
    out = {}
    for new, olds in by_new.items():
        keeps = [n for n in olds if re.match(r"[a-z][a-z0-9]*[A-Z]", n)] or [n for n in olds if "-" not in n] or sorted(olds)[:1]
        for n in olds:
            if n in keeps:
                out[n] = new
            elif "-" in n:
                out[n] = new + SUFFIX
            else:
                out[n] = n
    out |= {n: snake(n) + SUFFIX for n in BESIDE}
    return {a: b for a, b in out.items() if a != b}


def from_kit(text):
    found = set()
    for m in USE.finditer(text):
        if m[1].startswith(KIT):
            found |= {w.split(" as ")[-1].strip() for w in (m[2] or "").split(",")}
    return found


def turn(text, names, stays, apart):
    def word(m):
        w = m[0]
        head, tail = re.match(r"^(.*?)('*)$", w, re.S).groups()
        if w in apart:
            return apart[w]
        if w in names and w not in stays:
            return names[w]
        if tail and head in names and head not in stays:
            return names[head] + tail
        return w

    return WORD.sub(word, text)


def spans(text, names):
    return re.sub(r"`[^`\n]+`", lambda m: turn(m[0], names, set(), {}), text)


def main():
    names = table(collect())
    bad = []
    for path in sorted(glob.glob("crates/*/specs/**/*.antt", recursive=True) + glob.glob("crates/*/proofs/**/*.antt", recursive=True) + glob.glob("crates/*/src/*.rt")):
        text = read(path)
        stays = from_kit(text)
        apart = next((v for k, v in APART.items() if path == k), {})
        here = set(WORD.findall(text))
        after = collections.defaultdict(set)
        for w in here:
            new = apart.get(w) or (names.get(w, w) if w not in stays else w)
            after[new].add(w)
        for new, olds in after.items():
            if len(olds) > 1 and path.endswith(".antt") and not path.endswith(("Settled.antt", "Proof.antt", "Sign.antt")):
                bad.append(f"{path}: {sorted(olds)} would be {new}")
        new = turn(text, names, stays, apart)
        if new != text and "--check" not in sys.argv:
            with open(path, "w", encoding="utf-8") as f:
                f.write(new)
    for b in bad:
        print(b)
    if "--check" in sys.argv:
        return 1 if bad else 0
    for path in sorted(glob.glob("crates/*/must-fail/*.edit")):
        text = read(path)
        new = turn(text, names, set(), {})
        if new != text:
            with open(path, "w", encoding="utf-8") as f:
                f.write(new)
    for old, new in CRATES.items():
        os.rename(f"crates/{old}", f"crates/{new}")
        places = glob.glob("crates/*/**/*.antt", recursive=True) + glob.glob("crates/*/src/*.rt") + glob.glob("crates/*/must-fail/*.edit")
        for path in sorted(places):
            text = read(path)
            named = re.sub(rf"\bRattle\.{old}\b", f"Rattle.{new}", text)
            named = re.sub(rf"\b{old}::", f"{new}::", named)
            named = re.sub(rf"(?m)^(new|old|file): (.*)\bRattle·{old}\b", rf"\1: \2Rattle·{new}", named)
            if named != text:
                with open(path, "w", encoding="utf-8") as f:
                    f.write(named)
        lines = read("crates.txt")
        with open("crates.txt", "w", encoding="utf-8") as f:
            f.write(re.sub(rf"(?m)(?<=[: ]){old}(?= |$)|^{old}(?=:)", new, lines))
    for path in ["README.md"] + sorted(glob.glob("docs/*.md")):
        text = read(path)
        new = spans(text, names)
        if new != text:
            with open(path, "w", encoding="utf-8") as f:
                f.write(new)
    return 0


if __name__ == "__main__":
    raise SystemExit(main())
