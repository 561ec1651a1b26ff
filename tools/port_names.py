#!/usr/bin/env python3
"""Brings the repository's own names to the spelling of today's Rattle; run once, right after the kit's port.py, at the top.

usage: python3 tools/port_names.py [--dry]

1. The crate hex becomes hexadecimal: the kit has a library of that name.
2. Definitions, lemmas and constructors of specs/ and proofs/ that are written likeThis become like_this.
3. Fields of records: a dash becomes _.
4. In a lemma's name a dash stays where it joins the names of two definitions, as in length-put; a plain word is joined by _.
5. The proof of a function f is named f_spec, also where f has _ in its name.

Functions of src/, exported names, strings, inputs and outputs keep their names. A name that stands in the kit's library too stays, and so
does one whose new spelling is taken; both are told.
"""

import glob
import os
import re
import subprocess
import sys
from collections import defaultdict

DRY = "--dry" in sys.argv
WORD = r"[^\s(){}\[\].,;:@«»]+"
HEAD = re.compile(r"^(?:(?:abbrev|unfoldable|record|data|ruleset|pub)\s+)*(" + WORD + r")((?:\s[^:]*)?\s:\s.*| where\s*)$")
FIELD = re.compile(r"^\s+(?:pub\s+)?(" + WORD + r")((?:\s[^:]*)?\s:\s)")
# Names of the logic and of std that the repository's lemmas speak of.
KIT_WORDS = {
    "length", "take", "drop", "append", "get_or", "set", "replicate", "zero", "suc", "add", "sub", "mul", "div", "mod", "min", "max", "eqb", "ltb",
    "leb", "not", "and", "or", "xor", "map", "reverse", "le", "lt", "eq", "ne", "true", "false", "some", "none", "nil", "cons",
}


def files():
    for pattern in ("crates/*/specs/**/*.antt", "crates/*/proofs/**/*.antt", "crates/*/src/**/*.rt"):
        yield from sorted(glob.glob(pattern, recursive=True))


def shared(path):
    """A file of definitions or lemmas, not the proof of one function."""
    parts = path.split(os.sep)
    return "specs" in parts or (len(parts) == 4 and parts[2] == "proofs")


def snake(name):
    return re.sub(r"(?<=[a-z0-9])([A-Z])", lambda m: "_" + m.group(1).lower(), name) if re.match(r"[a-z]", name) else name


# 1. The crate.
if os.path.isdir("crates/hex") and not DRY:
    subprocess.run(["git", "mv", "crates/hex", "crates/hexadecimal"], check=True)
    with open("crates.txt", encoding="utf-8") as f:
        text = f.read()
    with open("crates.txt", "w", encoding="utf-8") as f:
        f.write(re.sub(r"\bhex\b", "hexadecimal", text))
    for p in files():
        with open(p, encoding="utf-8") as f:
            text = f.read()
        new = re.sub(r"\bRattle\.hex\.", "Rattle.hexadecimal.", text)
        if p.endswith(".rt"):
            new = re.sub(r"(?<![\w.])hex::", "hexadecimal::", new)
            new = re.sub(r"^use hex;", "use hexadecimal;", new, flags=re.M)
        if new != text:
            with open(p, "w", encoding="utf-8") as f:
                f.write(new)

# What is defined, and what is a field.
places = defaultdict(set)
fields = set()
functions = set()
for p in files():
    if not p.endswith(".antt") or not shared(p):
        continue
    with open(p, encoding="utf-8") as f:
        inside = False
        for line in f:
            if line.startswith((" ", "\t")):
                m = FIELD.match(line)
                if m and inside:
                    fields.add(m.group(1))
                    places[m.group(1)].add(p)
                continue
            if not line.strip() or line.startswith("--"):
                continue
            words = line.split()
            inside = any(w in ("record", "data") for w in words[:3]) and line.rstrip().endswith("where") or (inside and line.startswith(" "))
            if words[0] in ("use", "mod", "infix", "infixl", "infixr", "unfolding") or words[:2] == ["pub", "mod"]:
                continue
            m = HEAD.match(line.rstrip("\n"))
            if m:
                places[m.group(1)].add(p)
                if words[0] in ("abbrev", "unfoldable"):
                    functions.add(m.group(1))

# What is imported from the kit.
kit = set()
for p in files():
    with open(p, encoding="utf-8") as f:
        for m in re.finditer(r"use ([\w.+'-]+)\.\{([^}]*)\}", f.read()):
            path = m.group(1)
            own = re.match(r"Rattle\.(\w+)\.", path + ".")
            if own and os.path.isdir("crates/" + own.group(1)):
                continue
            kit |= {w.strip().split(" as ")[0] for w in m.group(2).split(",")}

names = {snake(n) for n in functions} | functions | KIT_WORDS


def joined(name):
    if not re.match(r"[a-z]", name) or "-" not in name.strip("-"):
        return name
    parts = name.split("-")
    out = parts[0]
    for a, b in zip(parts, parts[1:]):
        keep = a in names and b in names or not re.fullmatch(r"\w+'*", b) or not re.fullmatch(r"\w+'*", a)
        out += ("-" if keep else "_") + b
    return out


turned = {}
for n in sorted(places):
    if n in kit:
        if snake(n) != n or "-" in n:
            print(f"stays, the kit has it: {n}")
        continue
    new = snake(n)
    new = new.replace("-", "_") if n in fields else joined(new)
    if new != n:
        turned[n] = new

# Names that fall together. A lemma that would have the name of a definition ends in _lem; a field keeps the plain name, and where both words are
# constructors the dash stays.
clash = {}
STAY = {"hung-up"}
# There a lemma stands in a module with parameters, apart from the definition of its name.
NO_CLASH = {"crates/bench_walk/proofs/Round.antt", "crates/bench_walk/proofs/Walk.antt", "crates/protocol/proofs/Order.antt"}
for n, new in sorted(turned.items()):
    others = [m for m in turned if m != n and turned[m] == new]
    if new in kit or new in places and new not in turned or others:
        if n in STAY or new in kit:
            print(f"stays, falls together: {n}: {sorted(places[n])[:2]}")
            turned.pop(n)
        elif "-" in n or n in {"at_a", "is_digit"}:
            clash[n] = new
            turned.pop(n)
            print(f"falls together: {n} -> {new}_lem where it is a lemma: {sorted(places[n])[:2]}")
for n in ("at_a", "is_digit"):
    if n in places:
        clash[n] = n

# Names that are declared indented or several to a line.
turned |= {
    "endListening": "end_listening", "closeFinished": "close_finished", "closedByPartner": "closed_by_partner", "leavesBy": "leaves_by",
    "onOctets": "on_octets", "restartAt": "restart_at", "calls-callOutcome": "calls-call_outcome", "now-endpointLeft": "now-endpoint_left",
}

print(f"{len(turned)} names")
if DRY:
    for n, new in turned.items():
        print(f"{n} -> {new}")
    raise SystemExit

token = re.compile(r"(?<![\w'·-])(" + "|".join(re.escape(n) for n in sorted(turned, key=len, reverse=True)) + r")(?![\w'·-])")
lemma = re.compile(r"(?m)(^ *(?:pub )?|\.|[^\n])(?<![\w'·-])(" + "|".join(re.escape(n) for n in sorted(clash, key=len, reverse=True)) + r")(?![\w'·-])( [:=] )?")


def as_lemma(m):
    """The lemma at the start of a line or in a term; a field behind a dot, indented before a colon, or before an equals sign."""
    before, name, after = m.group(1), m.group(2), m.group(3) or ""
    indented = before.strip() in ("", "pub") and before.startswith(" ")
    field = before == "." or after and (indented or before in ("{", ";"))
    return before + clash[name] + ("" if field else "_lem") + after


for p in files():
    with open(p, encoding="utf-8") as f:
        text = f.read()
    if p.endswith(".antt"):
        new = lemma.sub(as_lemma, text)
        if p in NO_CLASH:
            new = re.sub("_lem(?![\\w'-])", "", new)
        new = token.sub(lambda m: turned[m.group(1)], new)
        parts = p.split(os.sep)
        if parts[-1] == "Proof.antt":
            name = parts[-2]
            for n in {name, name.replace("_", "-")}:
                new = re.sub(r"(?<![\w'-])" + re.escape(n) + r"-spec(?![\w'-])", name + "_spec", new)
    else:
        # Clauses alone: from ghost use to ;, and from a clause's word to its brace.
        out, depth, active = [], 0, False
        for line in text.split("\n"):
            if not active and re.match(r"\s*(pub )?(ghost\b|requires\b|ensures\b)", line):
                active = True
            out.append(token.sub(lambda m: turned[m.group(1)], line) if active and not line.lstrip().startswith("//") else line)
            if active:
                depth += line.count("{") - line.count("}")
                if depth <= 0:
                    active, depth = False, 0
        new = "\n".join(out)
    if new != text:
        with open(p, "w", encoding="utf-8") as f:
            f.write(new)
