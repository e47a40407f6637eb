#!/usr/bin/env python3
"""Brings this repository's own definitions, fields, lemmas and bound variables to one spelling.

usage: python3 tools/respell.py [--list]      at the top of the repository, once, right after the kit's port.py

Words are in snake case (last-fifty is last_fifty) and facts and types in camel case (Powered-up is PoweredUp).
A name that the toolchain makes (a goal, a step of a function) or that its library has keeps its spelling.
"""
import os
import re
import sys

TOP = os.path.dirname(os.path.dirname(os.path.abspath(__file__)))
WORD = r"[A-Za-z_Α-ωℓ][\w'₀-₉⁻¹²]*(?:-[\w'₀-₉⁻¹²+*≤<]+)*"
# a definition, a record's field or a constructor, at the head of a line
HEAD = re.compile(r"^\s*(?:abbrev |unfoldable )?(?:pub )?(?:data |record )?(" + WORD + r")\s*(?:\([^=]*?\)|\{[^=]*?\})*\s*:(?!=)", re.M)
# names bound in a telescope or by λ
BOUND = re.compile(r"[({]((?:" + WORD + r"\s+)*" + WORD + r")\s*:")
LAMBDA = re.compile(r"λ\s+((?:" + WORD + r"\s+)*" + WORD + r")\s*\.")
# what a file calls a definition of another
AS = re.compile(r"\bas (" + WORD + r")")
# variables of a clause's left side, and what tells apart two names that would fall together
MORE = {"was-channel", "was-majority", "yes-digit", "right-after", "right-written", "left-written"}
APART = {"First-wrong": "FirstLineWrong"}
LET = re.compile(r"\blet\s+(" + WORD + r")\s*[:=]")


def files():
    for folder, dirs, names in os.walk(os.path.join(TOP, "crates")):
        dirs[:] = sorted(d for d in dirs if d != "out")
        for name in sorted(names):
            if name.endswith((".antt", ".rt")):
                yield os.path.join(folder, name)


def respelt(name):
    if name in APART:
        return APART[name]
    parts = name.split("-")
    if name[0].isupper():
        return "".join(p[:1].upper() + p[1:] for p in parts)
    return "_".join(parts)


def imported(text):
    """The names that a file takes from the toolchain's library or from what it makes."""
    own = set()
    for m in re.finditer(r"^(?:ghost )?use ([\w.+\-']+)\.\{([^}]*)\}", text, re.M):
        path = m.group(1)
        ours = re.match(r"Rattle\.(\w+)\.(specs|proofs)", path)
        if ours and ours.group(1) in CRATES and not path.endswith((".Goals", ".Given")):
            continue
        for n in m.group(2).split(","):
            own.add(n.split(" as ")[0].strip())
    return own


CRATES = set(os.listdir(os.path.join(TOP, "crates")))


def main():
    texts = {p: open(p, encoding="utf-8").read() for p in files()}
    names = set(MORE)
    for p, t in texts.items():
        names.update(n for n in AS.findall(" ".join(re.findall(r"^(?:ghost )?use .*$", t, re.M))) if n != "need")
        if not p.endswith(".antt"):
            continue
        for m in HEAD.finditer(t):
            # an answer has the toolchain's name
            rest = t[m.end():m.end() + 40]
            if re.match(r"\s*(goal|given|need)\.", rest):
                continue
            names.add(m.group(1))
        for r in (BOUND, LAMBDA):
            for m in r.finditer(t):
                names.update(m.group(1).split())
        for m in LET.finditer(t):
            names.add(m.group(1))
    # a dash before an operator joins it to a name, as in the library
    names = {n for n in names if "-" in n and not n.endswith("-++")}
    if "--list" in sys.argv:
        for n in sorted(names):
            print(n, respelt(n))
        return
    all_words = set()
    for t in texts.values():
        all_words.update(re.findall(WORD, t))
    for n in sorted(names):
        if respelt(n) in all_words:
            print("falls together:", n, respelt(n))
    for p, t in texts.items():
        keep = imported(t)

        def turn(m):
            n = m.group(0)
            # a step of a function, behind the record that a proof is given, is the toolchain's
            made = re.search(r"(?<![\w'-])[clw]\.$", t[max(0, m.start() - 3):m.start()])
            return respelt(n) if n in names and n not in keep and not made else n

        new = re.sub(r"(?<![\w'-])" + WORD, turn, t)
        if new != t:
            with open(p, "w", encoding="utf-8") as f:
                f.write(new)


main()
