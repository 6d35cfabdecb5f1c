#!/usr/bin/env python3
"""Brings the repository's own definitions and lemmas to the spelling of today's Rattle: words in snake case, a dash only between two names.

usage: respell.py table    writes names.tsv beside this script from the definitions of specs/ and proofs/
       respell.py          turns crates/ by names.tsv: .antt files, the clauses of .rt files, and edits

Functions of src/, strings, inputs and outputs keep their names. It is run once, after port.py. Python 3.8 or later.
"""

import collections
import glob
import os
import re
import sys

HERE = os.path.dirname(os.path.realpath(__file__))
TABLE = os.path.join(HERE, "names.tsv")
WORD = re.compile(r"[^\s(){}.;,@\"«»\[\]|:=\\\x60]+")
DEFINED = re.compile(r"\s*(?:(?:pub|abbrev|unfoldable|record|data|ruleset|let)\s+)*([^\s(){}:.,;=]+)\s*:(?!=)")
USE = re.compile(r"\b(?:ghost )?use ([^\s{;]+)\.\{([^}]*)\}|\buse ([^\s{;]+) as", re.S)
ODD = re.compile(r"[a-zℤℕ0-9'₀-₉→]-[a-zA-Z0-9≤+*]|[A-Z]-[a-z0-9]|^→?[a-z][^-]*[a-z0-9](?:[A-Z]|[ℤℕ]$)")
# names of the library that lemmas of ours are named after
LIBRARY = "length map take drop append set get_or replicate cons sum count min max le lt add sub mul suc".split()


# lemmas that are in snake case already, and whose function now gets that name
BY_HAND = {"one-if-le": "one_if_le", "netBytes": "net_bytes_of", "listingBytes": "listing_bytes_of"} | {w: w + "_lem" for w in "far_at least_under leaves_in root_line sinks_in way_up".split()}


def crates():
    return sorted(os.path.basename(d) for d in glob.glob("crates/*") if os.path.isdir(d))


def law_files():
    return sorted(glob.glob("crates/*/specs/**/*.antt", recursive=True) + [f for f in glob.glob("crates/*/proofs/**/*.antt", recursive=True) if not f.endswith("/Proof.antt")])


def code_of(line):
    at = line.find("--")
    return line if at < 0 else line[:at]


def snake(word):
    word = re.sub(r"(?<=[a-z0-9])(?=[ℤℕ])", "_", word)
    word = re.sub(r"(?<=[a-z0-9])([A-Z])", lambda m: "_" + m[1].lower(), word)
    return re.sub(r"^([A-Z])(?=-)", lambda m: m[1].lower(), word)


def named(word, functions):
    return word in LIBRARY or ("_" in word and word in functions)


def turned(word, functions):
    lead = re.match(r"[→+*]*", word)[0]
    parts = [snake(p) for p in word[len(lead):].split("-")] if not re.fullmatch(r"[A-Z]-.*", word) else snake(word).split("-")
    out = parts[0]
    for i, p in enumerate(parts[1:], 1):
        dash = named(out, functions) and any(named("_".join(parts[i:j]), functions) for j in range(i + 1, len(parts) + 1))
        out += ("-" if dash else "_") + p
    return lead + out


def make_table():
    defs, functions, here, own = collections.Counter(), set(LIBRARY), set(), set(crates())
    for f in law_files():
        with open(f, encoding="utf-8") as it:
            text = it.read()
            library = kept(text, own)
            for line in text.splitlines():
                line = code_of(line)
                here.update(w for w in WORD.findall(line) if w not in library)
                m = DEFINED.match(line)
                if m:
                    defs[m[1]] += 1
                    if "/specs/" in f and re.match(r"(abbrev|unfoldable) pub [a-z]", line) and "-" not in m[1]:
                        functions.add(snake(m[1]))
    rows = dict(BY_HAND)
    for w in sorted(w for w in here if ODD.search(w) and not w.startswith("-")):
        new = turned(w, functions)
        if new != w and w not in rows:
            rows[w] = new
    # a lemma that would have its function's name
    by_camel = {n for w, n in rows.items() if "-" not in w}
    for w, n in rows.items():
        if "-" in w and (n in by_camel or n in here):
            rows[w] = n + "_lem"
    back = collections.defaultdict(list)
    for w, n in rows.items():
        back[n].append(w)
    for n, ws in back.items():
        if len(ws) > 1:
            print("fall together:", n, ws)
        if n in here:
            print("is there already:", n, ws)
    with open(TABLE, "w", encoding="utf-8") as f:
        f.writelines(f"{w}\t{n}\n" for w, n in sorted(rows.items()))
    print(len(rows), "rows")


def own_path(path, own):
    parts = path.split(".")
    return parts[0] == "Rattle" and len(parts) > 1 and parts[1] in own


def kept(text, own):
    """Names that this file takes from the library, and the names that its generated goals have."""
    out = set()
    for m in USE.finditer(text):
        if m[1] and not own_path(m[1].replace("Rattle·", "Rattle."), own):
            for item in m[2].split(","):
                out.update(WORD.findall(item))
    out.update(re.findall(r"(?m)^(\S+) : tie\.", text))
    return out


def functions_of_src():
    out = set()
    for f in glob.glob("crates/*/src/**/*.rt", recursive=True):
        with open(f, encoding="utf-8") as it:
            out.update(re.findall(r"\bfn (\w+)", it.read()))
    return out


def turn(text, rows, keep, generated):
    def one(m):
        w = m[0]
        if w not in rows or w in keep:
            return w
        if m.start() and text[m.start() - 1] == "." and (re.sub(r"\d+$", "", w).replace("-", "_") in generated):
            return w
        return rows[w]

    return WORD.sub(one, text)


def turn_rt(text, rows, keep, generated):
    """Clauses, ghost items and comments alone."""
    out = []
    for line in text.splitlines(keepends=True):
        s = line.strip()
        if s.startswith(("ghost ", "requires", "ensures", "//")) or "⌜" in s or "→" in s or "≡" in s or "λ" in s or "×" in s:
            words = rows if not s.startswith("//") else {w: n for w, n in rows.items() if "-" not in w}
            line = turn(line, words, keep, generated)
        out.append(line)
    return "".join(out)


def run():
    with open(TABLE, encoding="utf-8") as f:
        rows = dict(line.rstrip("\n").split("\t") for line in f)
    own, generated = set(crates()), functions_of_src()
    for kind in ("antt", "rt", "edit"):
        for f in sorted(glob.glob(f"crates/**/*.{kind}", recursive=True)):
            if "/out/" in f:
                continue
            with open(f, encoding="utf-8") as it:
                text = it.read()
            proof = generated if f.endswith("/Proof.antt") or kind == "edit" else set()
            new = (turn_rt if kind == "rt" else turn)(text, rows, kept(text, own), proof)
            if new != text:
                with open(f, "w", encoding="utf-8") as it:
                    it.write(new)


if __name__ == "__main__":
    make_table() if sys.argv[1:] == ["table"] else run()
