#!/usr/bin/env python3
"""Brings the repository's own names in antt to one spelling: words in snake case, types and modules in camel case.

usage: tools/respell.py [--list]     at the top of the repository, once, right after the library's own respelling

A name is the repository's own where a file of specs/ or proofs/ declares it: a signature, a constructor, a field, a bound name, or the `as` of a `use`. Of those, one that
begins with a small letter and has a capital or a dash in it is respelled, in specs/ and proofs/, in the clauses and `ghost use` lines of src/, in must-fail/, and where
comments and the pages quote it in ` `. Not respelled: a name that a `use` brings from outside the repository, the name of a function of src/, and the answers to goals, which
are named after the code. Where two names would fall together it says so and writes nothing.
"""
import collections
import glob
import os
import re
import sys

TOKEN = re.compile(r"[^\s(){}\[\];,.@:`\"|]+")
BINDER = re.compile(r"[({]([^(){}:=]+?)\s:\s|λ\s([^.()]+)\.")
SIGNATURE = re.compile(r"^\s*(?:(?:pub|abbrev|unfoldable|record|data)\s+)*([^\s(){}.;,=]+)\s+(?:\{[^}]*\}\s*)*:(?:\s(.*))?$")
CONSTRUCTOR_OR_LET = re.compile(r"\blet\s+([^\s(){}.;,=:]+)\s")
HEAD = re.compile(r"^\s*(?:pub\s+)?(?:record|data)\s+(?:pub\s+)?([^\s(){}.;,=:]+)")
ALIAS = re.compile(r"\bas\s+([^\s(){}.;,]+)")
GOAL = re.compile(r"^(tie|goal|the-goal)\.")
# where the capitals are one word, or a function of src/ keeps its spelling, or the library has the name
BY_HAND = {
    "isNaR": "is_nar",
    "qAbsLent": "qAbs_lent",
    "qAddQLent": "qAddQ_lent",
    "qSubQLent": "qSubQ_lent",
    "at-exit": "exit_part",
    "at_entry_lem": "entry_part",
}
# where a theorem would fall together with the definition that it is about
IN_FILE = {
    "crates/promises/proofs/Demand1.antt": {
        "write-number": "write_number_just_due",
        "read_number": "read_number_just_due",
        "batch-number": "batch_number_just_due",
        "claim-number": "claim_number_just_due",
    },
    "crates/rounding/proofs/Packed.antt": {"from-digits": "rounds_from_digits"},
    "crates/quire_sheet/proofs/are/Proof.antt": {"from-image": "from_its_image"},
}


def antt_files():
    return sorted(glob.glob("crates/*/specs/**/*.antt", recursive=True) + glob.glob("crates/*/proofs/**/*.antt", recursive=True))


def code_files():
    return sorted(glob.glob("crates/*/src/**/*.rt", recursive=True))


def text_of(path):
    with open(path, encoding="utf-8") as f:
        return f.read()


def bare(line):
    return re.sub(r"(^|\s)--+(\s.*)?$", "", line)


def is_own(path):
    m = re.match(r"Rattle\.(\w+)\.(specs|proofs)\b", path)
    return bool(m) and os.path.isdir("crates/" + m.group(1)) and ".declared." not in path and ".contracts." not in path


def brought_from_outside(line):
    m = re.match(r"\s*(?:pub )?(?:ghost )?use\s+([^\s{]+?)\.\{(.*)\}", line)
    if not m or is_own(m.group(1)):
        return set()
    return {re.sub(r".* as ", "", it.strip()) for it in m.group(2).split(",")}


def declared(path):
    """The names that a file declares, and of these the answers to goals."""
    names, goals = set(), set()
    for line in text_of(path).splitlines():
        line = bare(line)
        m = SIGNATURE.match(line)
        if m:
            names.add(m.group(1))
            if GOAL.match(m.group(2) or ""):
                goals.add(m.group(1))
        for m in CONSTRUCTOR_OR_LET.finditer(line):
            names.add(m.group(1))
        for m in BINDER.finditer(line):
            names.update((m.group(1) or m.group(2)).split())
        m = HEAD.match(line)
        if m:
            names.add(m.group(1))
        for m in ALIAS.finditer(line):
            names.add(m.group(1))
    return names - goals, goals


def functions():
    found = set()
    for p in code_files():
        found.update(re.findall(r"\bfn\s+(\w+)", text_of(p)))
    return found


def respelled(name, code):
    if name in BY_HAND:
        return BY_HAND[name]
    words = []
    for word in name.split("-"):
        if word not in code:
            word = re.sub(r"(?<=[a-z0-9])(?=[A-Z])", "_", word).lower() if re.match(r"[a-z]", word) else word
        words.append(word)
    return "_".join(words)


def wants(name, code):
    return re.match(r"[a-z]", name) and not {name, name.split("_")[0]} & code and (re.search(r"[A-Z]", name) or "-" in name.strip("-")) and re.fullmatch(r"[\w'-]+", name)


def plan():
    code = functions()
    own, outside = set(), set()
    per_goal = {}
    for p in antt_files():
        names, per_goal[p] = declared(p)
        own |= names
        for line in text_of(p).splitlines():
            outside |= brought_from_outside(line)
    for p in code_files():
        for line in text_of(p).splitlines():
            outside |= brought_from_outside(line)
    table = {n: respelled(n, code) for n in sorted(own - outside) if n in BY_HAND or wants(n, code)}
    return table, per_goal


def clashes(path, table, goals, named):
    """Names of one file that would be one name. The functions of src/ and the crates are told apart by the path before them."""
    text = "\n".join(bare(line) for line in text_of(path).splitlines())
    here = {m.group(0): m.group(0) for m in TOKEN.finditer(text) if text[m.start() - 1 : m.start()] != "." and m.group(0) not in named}
    here.update({t: table[t] for t in here if t in table and t not in goals})
    here.update({t: n for t, n in IN_FILE.get(path, {}).items() if t in here and n not in here})
    meet = collections.defaultdict(set)
    for old, new in here.items():
        meet[new].add(old)
    return [olds for new, olds in sorted(meet.items()) if len(olds) > 1]


def turn_tokens(text, table, but=()):
    return TOKEN.sub(lambda m: table[m.group(0)] if m.group(0) in table and m.group(0) not in but else m.group(0), text)


def turn_quoted(text, table):
    return re.sub(r"`[^`\n]+`", lambda m: turn_tokens(m.group(0), table), text)


def turn_antt(text, table, goals):
    out = []
    for line in text.split("\n"):
        code = bare(line)
        out.append(turn_tokens(code, table, goals) + turn_quoted(line[len(code):], table))
    return "\n".join(out)


CLAUSE = re.compile(r"(\b(?:requires|ensures)\*?(?:\s+\w+)?\s*\{)")


def turn_code(text, table):
    """Clauses up to the brace that closes them, and `ghost use` items."""
    out, rest = [], text
    while True:
        m = re.search(r"(\b(?:requires|ensures)\*?(?:\s+\w+)?\s*\{)|(\bghost use\b)", rest)
        if not m:
            break
        out.append(turn_quoted(rest[: m.end()], table))
        rest = rest[m.end():]
        if m.group(2):
            end = rest.index(";")
        else:
            depth, end = 1, 0
            while depth:
                depth += {"{": 1, "}": -1}.get(rest[end], 0)
                end += 1
        out.append(turn_tokens(rest[:end], table))
        rest = rest[end:]
    out.append(turn_quoted(rest, table))
    return "".join(out)


def main(argv):
    table, per_goal = plan()
    named = functions() | set(os.listdir("crates"))
    bad = 0
    for p in antt_files():
        for olds in clashes(p, table, per_goal[p], named):
            print(f"respell: {p}: {', '.join(sorted(olds))} would fall together", file=sys.stderr)
            bad = 1
    if "--list" in argv:
        for old, new in table.items():
            print(old, new)
    if bad or "--list" in argv:
        return bad
    in_file = {p: {o: n for o, n in names.items() if n not in text_of(p)} for p, names in IN_FILE.items() if os.path.exists(p)}
    turned = [(p, turn_antt(text_of(p), {**table, **in_file.get(p, {})}, per_goal[p])) for p in antt_files()]
    turned += [(p, turn_code(text_of(p), table)) for p in code_files()]
    turned += [(p, turn_tokens(text_of(p), table)) for p in sorted(glob.glob("crates/*/must-fail/*.edit"))]
    turned += [(p, turn_quoted(text_of(p), table)) for p in ["README.md", *sorted(glob.glob("docs/*.md"))]]
    for path, text in turned:
        if text != text_of(path):
            with open(path, "w", encoding="utf-8") as f:
                f.write(text)
    print(f"respell: {len(table)} names")
    return 0


if __name__ == "__main__":
    raise SystemExit(main(sys.argv[1:]))
