#!/usr/bin/env python3
"""Makes the stored vectors of crates/replay: its file `stdin`, and the counts of `stdout`.

The answers are the exact model's of tools/vectors.py, with Python's integers and rationals: a pattern is read by the standard's
formula, and a result is rounded by comparing it with the cut. No answer comes from our code. The choice of operands is below;
it starts from a fixed seed, so every run makes the same files. A run takes a minute or two.

    python3 tools/replay_vectors.py           writes the two files, and says how near to a cut the results are
    python3 tools/replay_vectors.py --check   says whether the two files are just these
"""
import random
import struct
import sys
from fractions import Fraction
from functools import lru_cache
from itertools import product
from math import isqrt
from pathlib import Path

import vectors

CRATE = Path(__file__).resolve().parent.parent / "crates" / "replay"
NAR, MASK = 0x80000000, 0xFFFFFFFF
EXTREMES = [0, NAR, 1, 2, 3, 0x7FFFFFFF, 0x7FFFFFFE, 0x7FFFFFFD, 0x40000000, 0x3FFFFFFF, 0x40000001, 0x48000000]
EXTREMES += [-p & MASK for p in EXTREMES if p not in (0, NAR)]
dice = random.Random(20221)


# ---- the model, for 32 bits

@lru_cache(maxsize=1 << 16)
def value(p):
    return vectors.value(32, 2, p)


@lru_cache(maxsize=1 << 16)
def cut(u):
    return vectors.cut(32, 2, u)


def rounded(x):
    return vectors.rounded(32, 2, x)


NAMES = {"add": "sum", "sub": "difference", "mul": "product", "div": "quotient", "sqrt": "squareRoot",
         "mul_add": "fusedSum", "mul_sub": "fusedDifference", "sub_product": "productTaken"}
OPERANDS = {"neg": 1, "add": 2, "sub": 2, "mul": 2, "div": 2, "recip": 1, "sqrt": 1, "mul_add": 3, "mul_sub": 3, "sub_product": 3}


def answer(name, ps):
    if name == "neg":
        return rounded(-value(ps[0])) if ps[0] != NAR else NAR
    if name == "recip":
        return vectors.operation(32, 2, "quotient", 0x40000000, ps[0])
    return vectors.operation(32, 2, NAMES[name], *ps)


# ---- operands

def turned(p):
    """A pattern, or its opposite."""
    return p if dice.random() < 0.5 else -p & MASK


def any_pattern():
    return dice.getrandbits(32)


def by_regime():
    """Every length of the run alike, then random digits, of which often only the first few are set."""
    run, ones = dice.randrange(1, 32), dice.getrandbits(1)
    bits = ("1" * run + "0" if ones else "0" * run + "1")[:31]
    free = 31 - len(bits)
    body = dice.getrandbits(free) if free else 0
    if free and dice.random() < 0.4:
        body &= MASK << dice.randrange(free + 1)
    p = int(bits + format(body & (1 << free) - 1, f"0{free}b") if free else bits, 2)
    return turned(p or 1)


def of_size(low, high):
    """A pattern above 0 with its regime between two bounds."""
    k = dice.randrange(low, high)
    bits = "1" * (k + 1) + "0" if k >= 0 else "0" * -k + "1"
    return int((bits + format(dice.getrandbits(31), "031b"))[:31], 2)


def extreme():
    return dice.choice(EXTREMES)


def beside(x):
    """A pattern next to a rational, or its rounding."""
    p = rounded(x) + dice.choice((-1, 0, 0, 1)) & MASK
    return p


# ---- near a cut: all operands but one are chosen, and the last is solved for

def near_sum(name):
    u = of_size(-8, 8)
    a = u + dice.randrange(-2, 3) if dice.random() < 0.5 else of_size(-8, 8)
    b = beside(cut(u) - value(a))
    if name == "sub":
        b = -b & MASK
    return (a, b) if dice.random() < 0.5 else (-a & MASK, -b & MASK)


def near_product(name):
    """A precise factor near 1, and a result whose run is longer; or odd factors whose product has one digit more than fits, a tie."""
    u = of_size(-16, 16)
    if dice.random() < 0.5:
        a = beside(cut(u) / dice.randrange(1, 16))
        return turned(a), turned(beside(cut(u) / value(a)))
    while True:
        c = cut(u).numerator
        a = dice.choice([d for d in (1, 3, 5, 7, 9, 11, 13, 17, 19, 23, 29, 31, 37, 41, 43, 47, 121, 169) if c % d == 0])
        if a > 1:
            return turned(rounded(Fraction(a))), turned(beside(cut(u) / a))
        u = of_size(-16, 16)


def near_quotient(name):
    """A precise dividend near 1, and a quotient whose run is longer; or a short divisor, so that the cut times it is a pattern."""
    u = of_size(-25, 25)
    b = rounded(Fraction(dice.randrange(1, 64))) if dice.random() < 0.5 else beside(dice.randrange(1, 16) / cut(u))
    return turned(beside(cut(u) * value(b))), turned(b)


def near_recip(name):
    return found(name, lambda: (turned(beside(1 / cut(of_size(-29, 29)))),))


def near_root(name):
    return found(name, lambda: (beside(cut(of_size(-14, 14)) ** 2),))


def found(name, row):
    """One of up to 30 rows: the first whose result is very near to a cut."""
    for _ in range(dice.choice((1, 30))):
        ps = row()
        if place(result(name, [value(p) for p in ps])):
            break
    return ps


def near_fused(name):
    u = of_size(-8, 8)
    if dice.random() < 0.5:     # the third is next to the answer, and the product is half a gap, or almost
        c = u + dice.choice((-1, 0, 0, 1))
        a = of_size(-5, 5)
        b = beside((cut(u) - value(c)) / value(a))
    else:
        a, b = of_size(-4, 4), of_size(-4, 4)
        c = beside(cut(u) - value(a) * value(b))
    return arranged(name, a, b, c)


def arranged(name, a, b, c):
    """Operands in an operation's order so that its exact result is a·b + c, or the opposite of that."""
    if dice.random() < 0.5:
        a, c = -a & MASK, -c & MASK
    if name == "mul_add":
        return a, b, c
    return (a, b, -c & MASK) if name == "mul_sub" else (c, -a & MASK, b)


NEAR = {"add": near_sum, "sub": near_sum, "mul": near_product, "div": near_quotient, "recip": near_recip, "sqrt": near_root,
        "mul_add": near_fused, "mul_sub": near_fused, "sub_product": near_fused}


def equal_sizes(name):
    """Equal magnitudes, and terms that cancel all or nearly all."""
    a = by_regime()
    near = lambda p: turned(p + dice.choice((-1, 0, 0, 0, 1)) & MASK)
    if OPERANDS[name] == 1:
        return (near(a),)
    if OPERANDS[name] == 2:
        return turned(a), near(a)
    a, b = of_size(-9, 9), of_size(-9, 9)
    return arranged(name, a, b, beside(-value(a) * value(b)))


def vectors_of(name, count):
    """The operands of one operation: each kind has its share."""
    n = OPERANDS[name]
    rows = list(product(EXTREMES, repeat=n)) if n < 3 else [tuple(extreme() for _ in range(n)) for _ in range(500)]
    rows += [tuple(dice.choice((extreme, by_regime))() for _ in range(n)) for _ in range(200)]
    rows += [equal_sizes(name) for _ in range(300)]
    if name in NEAR:
        rows += [NEAR[name](name) for _ in range(1200)]
    while len(rows) < count:
        rows.append(tuple(dice.choice((any_pattern, by_regime, by_regime))() for _ in range(n)))
    return rows


def posit_records(count=3000):
    out, counts, lines = b"", {}, []
    for op, name in enumerate(OPERANDS):
        rows = vectors_of(name, count)
        for ps in rows:
            a, b, c = (list(ps) + [0, 0])[:3]
            out += struct.pack(">BIIII", op, a, b, c, answer(name, ps))
        lines.append(f"posit {name} {len(rows)} run 0 wrong\n")
        counts[name] = places(name, rows)
    return out, "".join(lines), counts


# ---- how near the results are

EXACT = {"add": lambda a, b: a + b, "sub": lambda a, b: a - b, "mul": lambda a, b: a * b, "div": lambda a, b: a / b if b else None,
         "recip": lambda a: 1 / a if a else None, "mul_add": lambda a, b, c: a * b + c, "mul_sub": lambda a, b, c: a * b - c,
         "sub_product": lambda c, a, b: c - a * b}


def result(name, vs):
    """The exact result, a root to 200 digits below the point; None where there is none."""
    if None in vs:
        return None
    if name == "sqrt":
        return Fraction(isqrt(int(vs[0] * 4 ** 200)), 2 ** 200) if vs[0] >= 0 else None
    return EXACT[name](*vs) if name in EXACT else None


def place(x):
    """below, on or above a cut by less than 1/256 of the gap around it; None where x is farther."""
    if not x:
        return None
    x, u = abs(x), rounded(abs(x))
    for v in (u - 1, u):
        if 0 < v < 0x7FFFFFFF and abs(x - cut(v)) * 256 < value(v + 1) - value(v):
            return "below" if x < cut(v) else "on" if x == cut(v) else "above"
    return None


def places(name, rows):
    found = [place(result(name, [value(p) for p in ps])) for ps in rows]
    return {k: found.count(k) for k in ("below", "on", "above")}


# ---- the accumulator: a whole number of 2^-240, or None for NaR

TOP = 2 ** 511 - 1
STEPS = ["add_product", "sub_product", "add_posit", "sub_posit", "neg"]


def units(x):
    return vectors.units(32, 2, x)


def brought(step, a, b):
    """What a step brings, with its sign; None for NaR."""
    if NAR in ((a, b) if "product" in step else (a,)):
        return None
    x = units(value(a) * value(b) if "product" in step else value(a))
    return x if step.startswith("add") else -x


def after(step, t, a, b):
    if t is None:
        return None
    if step == "neg":
        return -t
    x = brought(step, a, b)
    return None if x is None else vectors.kept(512, t + x)


def free_state():
    """Any 512 bits; any length; runs of ones and zeros that end at or beside a word's border."""
    kind = dice.randrange(4)
    if kind == 0:
        return dice.getrandbits(511) * dice.choice((1, -1))
    if kind == 1:
        return dice.getrandbits(dice.randrange(1, 512)) * dice.choice((1, -1))
    j = min(64 * dice.randrange(1, 8) + dice.choice((-1, 0, 0, 1)), 510)
    if kind == 2:
        return (2 ** j + dice.choice((-1, 0, 1))) * dice.choice((1, -1))
    return (dice.getrandbits(511) >> j << j) + dice.choice((0, 1, 2 ** j - 1, 2 ** (j - 1)))


def tie_state():
    """A cut, or one unit beside it, where the cut is a whole number of units."""
    u = of_size(-29, 29) if dice.random() < 0.8 else dice.choice((1, 2, 3, 0x7FFFFFFC, 0x7FFFFFFD, 0x7FFFFFFE))
    return (units(cut(u)) + dice.choice((-1, 0, 1))) * dice.choice((1, -1))


def aimed_state(x):
    """A state for which a step that brings x comes to the edge of the range, to 0, or to a long carry."""
    d = dice.choice((-1, 0, 1))
    kind = dice.randrange(4)
    if kind == 0 and x:
        edge = TOP if x > 0 else -TOP
        return max(-TOP, min(TOP, edge - x + d))
    if kind == 1:
        return -x + d
    j = min(64 * dice.randrange(1, 8) + dice.choice((-1, 0, 0, 1)), 510)
    if kind == 2:
        return vectors.kept(512, (2 ** j - x + d))
    return vectors.kept(512, dice.choice((1, -1)) * (dice.getrandbits(511) >> j << j | 2 ** j - 1) + d)


def operands(step, t):
    """The patterns of a step; a product may use any two, and a posit now and then is the total's own rounding."""
    a = dice.choice((by_regime, by_regime, any_pattern, extreme))()
    b = dice.choice((by_regime, by_regime, any_pattern, extreme))()
    if dice.random() < 0.25 and t is not None:
        a = vectors.to_posit(32, 2, t)
        b = 0x40000000
    return (a, b) if "product" in step else (a, 0) if step != "neg" else (0, 0)


def group(step, length, todo):
    """A state to round, then steps from it: the first is aimed, and none follows NaR but one."""
    a, b = operands(step, None)
    x = brought(step, a, b) if step != "neg" else None
    t = aimed_state(x) if x is not None and dice.random() < 0.6 else dice.choice((free_state, tie_state))()
    if dice.random() < 0.01:
        t = dice.choice((0, None))
    yield "to_posit", vectors.to_posit(32, 2, t), 0, t
    for k in range(length):
        was, t = t, after(step, t, a, b)
        yield step, a, b, t
        if was is None or t is None and dice.random() < 0.9:
            return
        step = max(STEPS, key=lambda s: todo[s] + dice.random())
        a, b = operands(step, t)


def counted(counts, step, before, t):
    """What a step came to. Four words or more: an operand covers two at most, so the rest is carried."""
    counts["to NaR"] += t is None and before is not None
    if t is not None and step != "neg":
        counts["to 0"] += t == 0
        counts["to the last two totals"] += abs(t) >= TOP - 1
        changed = sum(v != w for v, w in zip(vectors.words(512, before), vectors.words(512, t)))
        counts["four words or more change"] += changed >= 4


def quire_records(count=2000):
    names = STEPS + ["to_posit"]
    todo, done, out = dict.fromkeys(STEPS, count), dict.fromkeys(names, 0), b""
    counts = dict.fromkeys(("below", "on", "above", "to NaR", "to 0", "to the last two totals", "four words or more change"), 0)
    before = 0
    while max(todo.values()) > 0:
        for name, a, b, t in group(max(STEPS, key=todo.get), 4, todo):
            out += struct.pack(">BII", len(OPERANDS) + names.index(name), a, b) + bytes(vectors.image(512, t))
            done[name] += 1
            if name in todo:
                todo[name] -= 1
                counted(counts, name, before, t)
            elif t is not None and (p := place(Fraction(t, 2 ** 240))):
                counts[p] += 1
            before = t
    return out, "".join(f"quire {n} {done[n]} run 0 wrong\n" for n in names), {"accumulator": counts}


# ---- two accumulators: the states are as above, and so is the range

JOINS = ["qAddQ", "qSubQ", "qAbs"]
BORDERS = [64 * i for i in range(1, 8)]
ENDS = [TOP, TOP - 1, TOP - 2, 2 ** 510, 2 ** 510 - 1, 2 ** 510 + 1, 1, 2, 2 ** 64, 2 ** 448 - 1]
ENDS = [None, 0] + ENDS + [-t for t in ENDS]


def joined(name, t, u):
    """What an operation makes of two states, and the exact total before its range is judged."""
    if t is None or u is None and name != "qAbs":
        return None, None
    total = {"qAddQ": lambda: t + u, "qSubQ": lambda: t - u, "qAbs": lambda: abs(t)}[name]()
    return vectors.kept(512, total), total


def from_words(words):
    """The state that eight words are, the most significant first."""
    n = sum(w << 64 * (7 - i) for i, w in enumerate(words))
    return None if n == 2 ** 511 else n - 2 ** 512 if n > 2 ** 511 else n


def off_nar(digit):
    """The words of NaR, with one more digit set."""
    return 2 ** digit - 2 ** 511


def any_word():
    return dice.choice((0, 1, 2 ** 63, 2 ** 64 - 1, 2 ** 63 - 1, dice.getrandbits(64), dice.getrandbits(64)))


def one_word():
    place, word = dice.randrange(8), any_word() or dice.getrandbits(16)
    return from_words([word if i == place else 0 for i in range(8)])


def every_word():
    return from_words([any_word() for _ in range(8)])


def aimed_pair(name):
    """A state, and another that brings it to an end of the range, out of it by one or two units, or to a word's border."""
    sign, j = dice.choice((1, -1)), dice.choice(BORDERS)
    total = sign * dice.choice((TOP, TOP, TOP + 1, TOP + 1, TOP + 2, TOP - 1, 0, 1, 2 ** j, 2 ** j - 1, 2 ** j + 1))
    t = sign * max(abs(free_state()), 1) if abs(total) > TOP - 2 else free_state() // 2
    u = total - t
    return max(-TOP, min(TOP, t)), max(-TOP, min(TOP, u if name == "qAddQ" else -u))


def close_pair(name):
    """Totals that cancel all but a few units, or just those below some digit."""
    t = dice.choice((free_state, every_word, one_word))() or 0
    u = t + dice.choice((0, 0, 1, -1, 2 ** dice.randrange(511), -(2 ** dice.randrange(511))))
    return t, max(-TOP, min(TOP, u)) * (-1 if name == "qAddQ" else 1)


def off_pair(name):
    """Words one digit off NaR's on one side; on the other what leads to -2^511 or just not there, or another state."""
    digit, other = dice.randrange(511), off_nar(dice.randrange(511))
    t = off_nar(digit)
    u = dice.choice((-(2 ** digit), 1 - 2 ** digit, 0, other, -other, free_state(), free_state()))
    if name == "qAddQ":
        return (t, u) if dice.random() < 0.5 else (u, t)
    return (t, -u) if dice.random() < 0.5 else (-u, t)


def pairs_of(name, count):
    """The states of one operation: each kind has its share."""
    if name == "qAbs":
        rows = [(t, None) for t in ENDS + [off_nar(d) for d in range(511)]]
        kinds = (free_state, tie_state, one_word, every_word)
        return rows + [(dice.choice(kinds)(), None) for _ in range(count - len(rows))]
    rows = list(product(ENDS, repeat=2))
    rows += [aimed_pair(name) for _ in range(500)]
    rows += [close_pair(name) for _ in range(200)]
    rows += [off_pair(name) for _ in range(300)]
    rows += [(None, free_state()) if dice.random() < 0.5 else (free_state(), None) for _ in range(40)]
    kinds = (free_state, one_word, every_word)
    return rows + [(dice.choice(kinds)(), dice.choice(kinds)()) for _ in range(count - len(rows))]


def judged(counts, rows, name):
    """What the pairs of one operation come to."""
    for t, u in rows:
        after, total = joined(name, t, u)
        counts["NaR in"] += total is None
        counts["out of the range"] += total is not None and after is None
        counts["by one unit"] += total is not None and abs(total) == TOP + 1
        counts["to the last total"] += after is not None and abs(after) == TOP
        counts["to 0"] += after == 0
        counts["one digit off NaR"] += any(x is not None and x < 0 and (x + 2 ** 511).bit_count() == 1 for x in (t, u))


def join_records():
    out, lines, all_counts = b"", [], {}
    for op, name in enumerate(JOINS, len(OPERANDS) + len(STEPS) + 1):
        rows = pairs_of(name, 1000 if name == "qAbs" else 2000)
        for t, u in rows:
            states = joined(name, t, u)[0], t, 0 if name == "qAbs" else u
            out += struct.pack(">BII", op, 0, 0) + b"".join(bytes(vectors.image(512, x)) for x in states)
        lines.append(f"quire {name} {len(rows)} run 0 wrong\n")
        counts = all_counts[name] = dict.fromkeys(
            ("NaR in", "out of the range", "by one unit", "to the last total", "to 0", "one digit off NaR"), 0)
        judged(counts, rows, name)
    return out, "".join(lines), all_counts


def main():
    posits, quires = posit_records(), quire_records()
    joins = join_records()      # last, so that the random numbers of the others stay what they are
    text = posits[1] + quires[1] + joins[1] + "unknown 0 run 0 wrong\n"
    files = {"stdin": posits[0] + quires[0] + joins[0], "stdout": text.encode()}
    if "--check" in sys.argv:
        same = all((CRATE / name).exists() and (CRATE / name).read_bytes() == new for name, new in files.items())
        print("the stored vectors are these" if same else "the stored vectors DIFFER")
        sys.exit(not same)
    for name, new in files.items():
        (CRATE / name).write_bytes(new)
    print(text, end="")
    for name, c in (posits[2] | quires[2] | joins[2]).items():
        print(f"  {name}: {c}")


if __name__ == "__main__":
    main()
