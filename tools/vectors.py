#!/usr/bin/env python3
"""Works out the cases of proofs/Vectors.antt of the crates that define something.

How the list was made. The inputs below were chosen by hand, except FUSED: those were searched for at random, until rounding the
product first gave another answer. The answers are worked out here with exact rationals, from the Posit Standard (2022), with any
es where it has 2, and in other steps than the definitions take: a pattern is read as a string of bits with
the standard's formula, which has no two's complement in it; rounding halves an interval of patterns and compares values as
rationals; words and images are Python's own signed integers in bytes. The accumulator's range and the desk's numbers are no part
of the standard. They follow our own rules, and some of the desk's answers are just written down.

    python3 tools/vectors.py CRATE    prints the cases of a crate
    python3 tools/vectors.py --check  says of each crate whether its Vectors.antt holds just these cases, line for line
"""
import sys
from fractions import Fraction

SIZES = [(8, 0), (16, 1), (16, 2), (32, 2)]    # bits n, exponent bits es; the definitions count w = n - 1 digits below the sign


# ---- the standard

def value(n, es, p):
    """The value of a pattern: (1 - 3s + f) * 2^((1 - 2s) * (2^es * r + e + s)); None for NaR."""
    bits = format(p, f"0{n}b")
    if p == 0 or p == 2 ** (n - 1):
        return Fraction(0) if p == 0 else None
    s, r, e, f = fields(bits, es)
    return (1 - 3 * s + f) * Fraction(2) ** ((1 - 2 * s) * (2 ** es * r + e + s))


def fields(bits, es):
    """Sign, regime, exponent and fraction of a string of bits; bits beyond the end are 0."""
    body = bits[1:]
    run = len(body) - len(body.lstrip(body[0]))
    rest = body[run + 1:]
    e, f = rest[:es].ljust(es, "0"), rest[es:]
    return int(bits[0]), run - 1 if body[0] == "1" else -run, int("0" + e, 2), Fraction(int("0" + f, 2), 2 ** len(f))


def cut(n, es, u):
    """The value of the posit one bit longer: the pattern u followed by 1."""
    return value(n + 1, es, 2 * u + 1)


def nearest(n, es, over):
    """The pattern for a size x above 0. over(v) is above, at or below 0 as x is above, at or below v."""
    u, w = 1, 2 ** (n - 1) - 1
    if over(value(n, es, w)) >= 0:
        return w
    if over(value(n, es, u)) <= 0:
        return u
    while w - u > 1:
        m = (u + w) // 2
        u, w = (m, w) if over(value(n, es, m)) >= 0 else (u, m)
    if over(value(n, es, u)) == 0:
        return u
    c = over(cut(n, es, u))
    return u if c < 0 or c == 0 and u % 2 == 0 else w


def rounded(n, es, x):
    if x == 0:
        return 0
    p = nearest(n, es, lambda v: abs(x) - v)
    return p if x > 0 else 2 ** n - p


def operation(n, es, name, *ps):
    """The pattern that an operation answers."""
    nar, vs = 2 ** (n - 1), [value(n, es, p) for p in ps]
    if None in vs:
        return nar
    if name == "squareRoot":
        x = vs[0]
        return nar if x < 0 else 0 if x == 0 else nearest(n, es, lambda v: x - v * v)
    if name == "quotient" and vs[1] == 0:
        return nar
    return rounded(n, es, {
        "sum": lambda a, b: a + b, "difference": lambda a, b: a - b, "product": lambda a, b: a * b, "quotient": lambda a, b: a / b,
        "fusedSum": lambda a, b, c: a * b + c, "fusedDifference": lambda a, b, c: a * b - c, "productTaken": lambda c, a, b: c - a * b}[name](*vs))


# ---- the accumulator: a whole number of 2^-unit, or None for NaR

def unit(n, es):
    return 2 * 2 ** es * (n - 2)


def units(n, es, x):
    x *= 2 ** unit(n, es)
    assert x.denominator == 1
    return int(x)


def kept(bits, t):
    return t if abs(t) < 2 ** (bits - 1) else None


def batch(n, es, bits, t, xs, ys):
    for x, y in zip(xs, ys):
        a, b = value(n, es, x), value(n, es, y)
        if t is None or a is None or b is None:
            return None
        t = kept(bits, t + units(n, es, a * b))
    return t


def to_posit(n, es, t):
    return 2 ** (n - 1) if t is None else rounded(n, es, Fraction(t, 2 ** unit(n, es)))


def parts_of(n, es, bits, count, t):
    ps = []
    for _ in range(count):
        ps.append(to_posit(n, es, t))
        t = None if t is None else kept(bits, t - units(n, es, value(n, es, ps[-1])))
    return ps


def image(bits, t):
    return list((-2 ** (bits - 1) if t is None else t).to_bytes(bits // 8, "big", signed=True))


def words(bits, t):
    b = bytes(image(bits, t))
    return [int.from_bytes(b[i:i + 8], "big") for i in range(0, len(b), 8)]


def claim_number(n, es, bits, xs, ys, claim):
    if len(xs) != len(ys):
        return 3
    if len(xs) > 16384:
        return 4
    if len(claim) != bits // 8:
        return 1
    return 5 if claim != image(bits, batch(n, es, bits, 0, xs, ys)) else 0


# ---- the text of a case

def num(x, n=None):
    """A number as text: a pattern of n bits in hex; else with the power of two in it, or next to it, written out."""
    if n:
        return f"0x{x:0{n // 4}x}"
    for d in (-3, -2, -1, 1, 2):
        if x > 2 ** 20 and x - d == 1 << (x - d).bit_length() - 1:
            return f"2 ^ {(x - d).bit_length() - 1} {'+' if d > 0 else '-'} {abs(d)}"
    j = (x & -x).bit_length() - 1 if x else 0
    m = x >> j
    if j < 8:
        return str(x) if x < 10 ** 6 else hex(x)
    return f"2 ^ {j}" if m == 1 else f"{arg(num(m))} * 2 ^ {j}"


def arg(t):
    return f"({t})" if " " in t else t


def row(xs, n=None):
    """A list, with a stretch of one number in it as replicate."""
    out, i = "[]", len(xs)
    while i:
        j = i
        while j and xs[j - 1] == xs[i - 1]:
            j -= 1
        x = num(xs[i - 1], n)
        x = f"({x})" if " + " in x or " - " in x else x
        if i - j > 8:
            out = f"replicate {i - j} {arg(x)}" + ("" if out == "[]" else f" ++ ({out})" if " " in out else f" ++ {out}")
        else:
            out = f"{x} ∷ " * (i - j) + (f"({out})" if "++" in out else out)
        i = j
    return out


def lists(*xs):
    return " ".join(arg(row(x, 32)) for x in xs)


def shown(x):
    """How `shown` of Table.antt tells a whole number: 1 for below 0, then the size."""
    return [int(x < 0), abs(x)]


def state(t):
    """A state, as the definitions write it."""
    return "notReal" if t is None else f"(total ({'pos' if t >= 0 else 'negsuc'} {arg(num(t if t >= 0 else -t - 1))}))"


def held(t):
    """How `held` of Table.antt tells a state: nothing for NaR, else as `shown`."""
    return [] if t is None else shown(t)


table = []    # of the crate that is being built


def group(text):
    table.append(f"-- {text}")


def case(expr, answer, n=None):
    if isinstance(answer, list):
        table.append(f"are {arg(expr)} {arg(row(answer, n))}")
    else:
        table.append(f"is ({expr}) {arg(num(answer, n))}")


def together(n, cases):
    """Several answers of one size, in one row where that is not too long."""
    text = f"are ({' ∷ '.join(c for c, _ in cases)} ∷ []) ({row([a for _, a in cases], n)})"
    if len(cases) > 1 and len(text) < 150:
        table.append(text)
    elif len(cases) > 2:
        together(n, cases[:2])
        together(n, cases[2:])
    else:
        for c in cases:
            case(*c, n)


def op(n, es, name, *ps):
    return f"{name} {es} {n - 1} {' '.join(num(p, n) for p in ps)}", operation(n, es, name, *ps)


def rounding(n, es, x):
    """round at a size that is a whole number of units"""
    u = unit(n, es)
    return f"round {es} {n - 1} {u} (whole {arg(num(units(n, es, x)))})", rounded(n, es, x)


# ---- the inputs

PATTERNS = {    # value: plain ones of both signs; the ends; exponent bits cut off by the end of the word
    (8, 0): [0x01, 0x5d, 0x7f, 0x93, 0xff],
    (16, 1): [0x0001, 0x5a3c, 0x7ffe, 0x7ffd, 0xa5c3, 0x8001],
    (16, 2): [0x0003, 0x3b6d, 0x7ffe, 0x7ffd, 0x7ffb, 0x8001, 0xc493],
    (32, 2): [0x00000001, 0x00000003, 0x32aaaaab, 0x7fffffff, 0x7ffffffe, 0xcd555555, 0x80000003]}
UNPACKED = {(8, 0): [0xa6], (16, 1): [0x7ffd], (16, 2): [0x0002, 0xd123], (32, 2): [0x00000007, 0x9abcdef0]}
TIES = {(8, 0): [0x52, 0x53], (16, 1): [0x2344, 0x2345], (16, 2): [0x6788, 0x6789], (32, 2): [0x31415926, 0x31415927]}
PAIRS = {    # sum, difference, product, quotient
    (8, 0): [(0x5b, 0x35), (0x5b, 0xb5), (0x5b, 0xb5), (0x5b, 0x35)],
    (16, 1): [(0x5b1d, 0x13f5), (0x35b1, 0x5bb5), (0x95b1, 0x2bb5), (0x5b01, 0x9335)],
    (16, 2): [(0x5b1d, 0x83f5), (0x35b1, 0xbbb5), (0x15b1, 0x2bb5), (0x9b01, 0x9335)],
    (32, 2): [(0x5b1d37a2, 0x13f5c0de), (0x35b1a0b1, 0x36bb50c3), (0x95b10f0f, 0x2bb57a7b), (0x5b012345, 0x93356789)]}
ROOTS = {(8, 0): 0x65, (16, 1): 0x1c01, (16, 2): 0x6f0b, (32, 2): 0x48000000}
FUSED = {(8, 0): (0x57, 0x4f, 0x33), (16, 1): (0x3e71, 0x4fdf, 0x2015), (16, 2): (0x2ab9, 0x5ee7, 0x3b12), (32, 2): (0x2d89a08e, 0x467344c3, 0x4ddaa5bf)}
BATCH = {
    (8, 0): ([0x01, 0x93, 0x7f], [0x01, 0x5d, 0x21]),
    (16, 1): ([0x0001, 0x5a3c, 0xa5c3], [0x0001, 0x1234, 0x4321]),
    (16, 2): ([0x0003, 0x3b6d, 0xc493], [0x0005, 0x7ffb, 0x4321]),
    (32, 2): ([0x00000003, 0x32aaaaab, 0xcd555555], [0x00000001, 0x4c000000, 0x9abcdef0])}


def posit():
    group("values, told in units of the smallest size: plain ones of both signs, the ends, and exponents cut off by the end of the word")
    for n, es in SIZES:
        u = 2 ** es * (n - 2)
        for p in PATTERNS[n, es]:
            case(f"shown (value {es} {n - 1} {u} {num(p, n)})", shown(int(value(n, es, p) * 2 ** u)))

    group("rounded at the ends: the largest size is itself and takes all above it; no size above 0 goes to 0")
    for n, es in SIZES:
        top, least = value(n, es, 2 ** (n - 1) - 1), Fraction(1, 2 ** unit(n, es))
        together(n, [rounding(n, es, x) for x in (top, top + least, least)])
    group("a tie goes down to an even pattern, and up from an odd one; one unit below the tie goes down, and one above it up")
    for n, es in SIZES:
        even, odd = (cut(n, es, u) for u in TIES[n, es])
        least = Fraction(1, 2 ** unit(n, es))
        together(n, [rounding(n, es, x) for x in (even, odd, odd - least, even + least)])
    group("with es above 0 the cut between the two largest sizes, and between the two smallest, is not their middle")
    for n, es in SIZES[1:]:
        least = Fraction(1, 2 ** unit(n, es))
        high, low = cut(n, es, 2 ** (n - 1) - 2), cut(n, es, 1)
        middle = (value(n, es, 2 ** (n - 1) - 2) + value(n, es, 2 ** (n - 1) - 1)) / 2
        assert high < middle and low < (value(n, es, 1) + value(n, es, 2)) / 2
        together(n, [rounding(n, es, x) for x in (high, high + least, middle, low - least, low)])
    group("quotients and roots of whole numbers of units")
    for n, es in SIZES:
        u = unit(n, es)
        a, b = 2 ** (u + 1), 5 * 2 ** (2 * u - 3)
        case(f"round {es} {n - 1} {u} (ratio ({num(a)}) 7)", rounded(n, es, Fraction(a, 7 * 2 ** u)), n)
        case(f"round {es} {n - 1} {u} (root ({num(b)}))", nearest(n, es, lambda v: Fraction(b, 4 ** u) - v * v), n)
    group("a result below 0, and 0")
    for n, es in SIZES:
        u, a = unit(n, es), 12345 * 2 ** (unit(n, es) - 10)
        case(f"rounded {es} {n - 1} {u} (negsuc {arg(num(a))})", rounded(n, es, Fraction(-a - 1, 2 ** u)), n)
    case("rounded 2 31 240 (pos 0)", 0)

    group("the operations; the fused results would differ if the product were rounded first")
    for n, es in SIZES:
        together(n, [op(n, es, name, *ab) for name, ab in zip(("sum", "difference", "product", "quotient"), PAIRS[n, es])])
        case(*op(n, es, "squareRoot", ROOTS[n, es]), n)
        a, b, c = FUSED[n, es]
        ab = operation(n, es, "product", a, b)
        together(n, [op(n, es, "fusedSum", a, b, c), op(n, es, "fusedDifference", a, b, c), op(n, es, "productTaken", c, a, b)])
        assert operation(n, es, "sum", ab, c) != operation(n, es, "fusedSum", a, b, c)
        assert operation(n, es, "difference", ab, c) != operation(n, es, "fusedDifference", a, b, c)
    group("a fused sum just above the cut between the two largest sizes: the part below the word counts")
    case(*op(32, 2, "fusedSum", 0x7ffffffe, 0x50000000, 0x40000000), 32)
    group("at the ends of the range: sums and products beyond it, and a product and a quotient that are not rounded to 0")
    for n, es in SIZES:
        top, bottom = 2 ** (n - 1) - 1, 2 ** (n - 1) + 1
        together(n, [op(n, es, "sum", top, top), op(n, es, "product", top, bottom), op(n, es, "product", 1, 2 ** n - 1), op(n, es, "quotient", 1, top)])
    group("NaR comes from a NaR operand, also beside 0, from division by 0, and from the root of a negative; not from the root or a quotient of 0")
    for n, es in SIZES:
        nar, one = 2 ** (n - 1), 2 ** (n - 2)
        together(n, [op(n, es, "sum", nar, 0), op(n, es, "difference", 0, nar), op(n, es, "product", 0, nar), op(n, es, "squareRoot", nar)])
        together(n, [op(n, es, "quotient", one, 0), op(n, es, "quotient", 0, 0), op(n, es, "quotient", 0, nar), op(n, es, "quotient", 0, one)])
        together(n, [op(n, es, "fusedSum", 0, one, nar), op(n, es, "fusedDifference", nar, 0, one), op(n, es, "productTaken", one, 0, nar)])
        together(n, [op(n, es, "squareRoot", nar + one), op(n, es, "squareRoot", 0)])

    group("the accumulator of 512 bits: 1 and -1 as words, the image of 1, and NaR")
    one = 2 ** unit(32, 2)
    case("words 512 (ofPosit 2 31 0x40000000)", words(512, one))
    case("words 512 (negated (ofPosit 2 31 0x40000000))", words(512, -one))
    case("image 512 (ofPosit 2 31 0x40000000)", image(512, one))
    assert image(512, one) == [0] * 33 + [1] + [0] * 30
    case("words 512 (ofPosit 2 31 0x80000000)", words(512, None))
    case("held (negated notReal)", held(None))
    group("a state as one number and back, and from words and bytes: the largest total, the smallest, and NaR just below that")
    for t in (2 ** 511 - 1, 1 - 2 ** 511, None):
        case(f"bitsOf 512 {state(t)}", int.from_bytes(bytes(image(512, t)), "big"))
    for b in (2 ** 511 - 1, 2 ** 511, 2 ** 511 + 1, 2 ** 512 - 1):
        t = int.from_bytes(b.to_bytes(64, "big"), "big", signed=True)
        case(f"held (stateOf 512 {arg(num(b))})", held(None if t == -2 ** 511 else t))
    case(f"held (fromWords 128 ({row([2 ** 64 - 1, 2 ** 64 - 256])}))", held(-256))
    case(f"held (fromImage 64 ({row([255] * 6 + [1, 2])}))", held(int.from_bytes(bytes([255] * 6 + [1, 2]), "big", signed=True)))
    group("steps at the limit of the range: the last total within it, then NaR; and no way out of NaR")
    for t, d in ((2 ** 511 - 2, 1), (2 ** 511 - 1, 1), (2 - 2 ** 511, -1), (1 - 2 ** 511, -1), (2 ** 511 - 1, -1)):
        case(f"held ({'plus' if d > 0 else 'minus'} 512 {state(t)} (ofProduct 2 31 0x1 0x1))", held(kept(512, t + d)))
    case("held (plus 512 notReal (total (pos 1)))", held(None))
    case("held (minus 512 (total (pos 1)) (ofPosit 2 31 0x80000000))", held(None))
    group("three parts of a total at each size; the first part is the total rounded")
    for n, es in SIZES:
        bits, t = 16 * n, batch(n, es, 16 * n, 0, *BATCH[n, es])
        case(f"partsOf {es} {n - 1} {bits} 3 {state(t)}", parts_of(n, es, bits, 3, t), n)
    group("totals rounded: one unit, below 0 too; just above the cut between the two largest; the limit of the range; NaR, also in parts")
    for t in (1, -1, 2 ** 358 + 1, 1 - 2 ** 511, None):
        case(f"toPosit 2 31 {state(t)}", to_posit(32, 2, t), 32)
    case("partsOf 2 31 512 2 notReal", parts_of(32, 2, 512, 2, None), 32)


def desk():
    group("a batch at each size")
    for n, es in SIZES:
        xs, ys = BATCH[n, es]
        case(f"held (batch {es} {n - 1} {16 * n} clear ({row(xs, n)}) ({row(ys, n)}))", held(batch(n, es, 16 * n, 0, xs, ys)))
    group("the range is judged after each pair, in 26 bits: out of it and back is NaR, the other order is not; a NaR operand; no pairs")
    for xs, ys in (([0x7f, 0x7f, 0x81], [0x7f] * 3), ([0x7f, 0x81, 0x7f], [0x7f] * 3), ([0x80, 0x40], [0x00, 0x40]), ([], [])):
        case(f"held (batch 0 7 26 (total (pos 5)) {arg(row(xs, 8))} {arg(row(ys, 8))})", held(batch(8, 0, 26, 5, xs, ys)))

    group("the desk, numbers 1 to 4: images of 63, 64 and 65 bytes, buffers of these lengths, and lists about as long as is allowed")
    together(None, [(f"lengthRefusal 512 (replicate {k} 0)", 0 if k == 64 else 1) for k in (63, 64, 65)])
    together(None, [(f"bufferRefusal 512 (replicate {k} 0)", 2 if k < 64 else 0) for k in (63, 64, 65)])
    for a, b in ((2, 1), (16384, 16384), (16385, 16385), (16385, 16384)):
        case(f"batchRefusal (replicate {a} 0) (replicate {b} 0)", claim_number(32, 2, 512, [0] * a, [0] * b, image(512, 0)))
    group("a claim: 3 and 4 come before 1, 1 before 5, a wrong byte gives 5, and a right one gives no number, NaR too")
    ones, i1 = [0x40000000], image(512, 2 ** unit(32, 2))
    for xs, ys, claim in (([0, 0], [0], [0] * 63), ([0] * 16385, [0] * 16385, [0] * 63), (ones, ones, [0] * 63), (ones, ones, i1[:63] + [1]),
                          (ones, ones, i1), (ones, [0x80000000], image(512, None)), ([], [], [0] * 64)):
        case(f"claimRefusal 2 31 512 {lists(xs, ys)} {arg(row(claim))}", claim_number(32, 2, 512, xs, ys, claim))
    group("what is left behind: a short buffer as it was, a long one beyond its 64 bytes, and the state after a refusal")
    case("writtenTo 512 (ofPosit 2 31 0x40000000) (replicate 63 9)", [9] * 63)
    case("writtenTo 512 (ofPosit 2 31 0x40000000) (replicate 66 9)", i1 + [9, 9])
    case("held (readInto 512 (total (pos 7)) (replicate 63 1))", held(7))
    case("held (readInto 512 (total (pos 7)) (replicate 64 255))", held(-1))
    case("held (afterBatch 2 31 512 (total (pos 7)) (0x1 ∷ 0x1 ∷ []) (0x1 ∷ []))", held(7))
    case("held (afterBatch 2 31 512 (total (pos 7)) (0x1 ∷ []) (0x1 ∷ []))", held(8))


def unpacking():
    group("the sign, k, e, and the significand with its leading one at bit w - 1; [] for 0 and one 0 for NaR")
    for n, es in SIZES:
        for p in UNPACKED[n, es]:
            s, k, e, f = fields(format(2 ** n - p if p >> n - 1 else p, f"0{n}b"), es)
            case(f"listed (parts {es} {n - 1} {num(p, n)})", [p >> n - 1, *shown(k), e, int((1 + f) * 2 ** (n - 2))])
    case("listed (parts 2 31 0)", [])
    case("listed (parts 2 31 0x80000000)", [0])


def printed():
    out, first = [], True
    for line in table:
        note = line.startswith("--")
        out.append("    " + (line if note or first else "∷ " + line))
        first = first and note
    return out + ["    ∷ []"]


def quire_steps():
    top, nar, beside = 2 ** 511 - 1, [2 ** 63] + [0] * 7, [2 ** 63] + [0] * 6 + [1]
    group("accumulator plus accumulator and minus accumulator, at the edges of the range, with NaR on either side, and of a state and itself")
    for t, u in ((top, 1), (top - 1, 1), (top, top), (top, -top), (-top, -1), (1 - top, -1), (top, None), (None, 1), (None, None), (2 ** 448, -1)):
        for name, v in (("plus", u), ("minus", None if u is None else -u)):
            case(f"held ({name} 512 {state(t)} {state(u)})", held(None if t is None or v is None else kept(512, t + v)))
    for t in (-top, 7):
        case(f"held (minus 512 {state(t)} {state(t)})", held(0))
    group("without its sign: the lowest total is in range, and NaR stays")
    for t in (top, -top, -1, 0, 1, None, -2 ** 64):
        case(f"held (signOff {state(t)})", held(t if t is None else abs(t)))
    group("from words: NaR's are no number, and those beside them, with a last bit more, are the lowest total")
    for ws in (nar, beside):
        t = None if ws == nar else -top
        case(f"held (signOff (fromWords 512 {arg(row(ws))}))", held(t and abs(t)))
        case(f"held (plus 512 (fromWords 512 {arg(row(ws))}) (total (pos 1)))", held(t and t + 1))
        case(f"held (minus 512 (total (pos 1)) (fromWords 512 {arg(row(ws))}))", held(t and kept(512, 1 - t)))
    case(f"words 512 (plus 512 {state(2 ** 448 - 1)} {state(1)})", words(512, 2 ** 448))


CRATES = {"posit": posit, "unpacking": unpacking, "quire_steps": quire_steps, "desk": desk}


def cases_of(crate):
    table.clear()
    CRATES[crate]()
    return "\n".join(printed())


def main():
    if sys.argv[1:] == ["--check"]:
        wrong = [c for c in CRATES if open(f"crates/{c}/proofs/Vectors.antt", encoding="utf-8").read().split("vectors =\n")[1].split("\n\n")[0] != cases_of(c)]
        print("\n".join(f"{c}: {'not the same' if c in wrong else 'the same'}" for c in CRATES))
        sys.exit(bool(wrong))
    if len(sys.argv) != 2 or sys.argv[1] not in CRATES:
        sys.exit(__doc__)
    print(cases_of(sys.argv[1]))


if __name__ == "__main__":
    main()
