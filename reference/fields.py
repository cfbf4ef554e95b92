"""Finite fields of up to 256 elements, written apart from the library and by other ways, to hold it against.

A field has a width, a one, a product on codes and a verdict; the sum of codes is the exclusive or.
"""


import re


def degree(p):
    """The position of the highest set bit."""
    return p.bit_length() - 1


def plain_product(a, b):
    """The product of two polynomials over two elements, bit i being the coefficient of X^i."""
    return sum_of(b << i for i in range(a.bit_length()) if a >> i & 1)


def sum_of(polynomials):
    total = 0
    for polynomial in polynomials:
        total ^= polynomial
    return total


def remainder(n, p):
    """Long division from the top."""
    while n and degree(n) >= degree(p):
        n ^= p << (degree(n) - degree(p))
    return n


class Dead:
    width, one, sound = 1, 1, False

    def product(self, a, b):
        return 0


class Shift:
    one = 1

    def __init__(self, p):
        self.p = p
        self.width = degree(p)
        lower = range(1 << self.width)
        self.sound = all(remainder(p, d) for d in lower if d > 1)

    def product(self, a, b):
        mask = (1 << self.width) - 1
        return remainder(plain_product(a & mask, b & mask), self.p)


def shift(p):
    return Shift(p) if 2 <= p <= 511 else Dead()


class PowerTable:
    one = 1

    def __init__(self, p, g):
        base = shift(p)
        self.width = base.width
        self.mask = (1 << base.width) - 1
        self.powers = [1]
        for _ in range(self.mask - 1):
            self.powers.append(base.product(g, self.powers[-1]))
        self.sound = all(a in self.powers for a in range(1, 1 << base.width))

    def product(self, a, b):
        a, b = a & self.mask, b & self.mask
        if a == 0 or b == 0 or a not in self.powers or b not in self.powers:
            return 0
        return self.powers[(self.powers.index(a) + self.powers.index(b)) % self.mask]


def power_table(p, g):
    return PowerTable(p, g) if 2 <= p <= 511 else Dead()


class Tower:
    def __init__(self, below, c):
        self.below, self.m = below, below.width
        self.c = c % (1 << self.m)
        self.width, self.one = 2 * below.width, below.one
        roots = (r for r in codes(below) if below.product(r, r) ^ r == self.c)
        self.sound = below.sound and not any(True for _ in roots)

    def product(self, x, y):
        size = 1 << self.m
        times = self.below.product
        (b, a), (e, d) = divmod(x % size**2, size), divmod(y % size**2, size)
        low = times(a, d) ^ times(times(b, e), self.c)
        high = times(a, e) ^ times(b, d) ^ times(b, e)
        return low + size * high


def tower(below, c):
    return Tower(below, c) if below.width <= 4 else Dead()


class Scaled:
    """The same codes and sums; products carry a factor, so that one may be another code. For tests."""

    def __init__(self, below, factor, one):
        self.below, self.width = below, below.width
        self.factor, self.one = factor % len(codes(below)), one % len(codes(below))
        self.sound = below.sound and below.product(self.factor, self.one) == below.one

    def product(self, a, b):
        return self.below.product(self.below.product(a, b), self.factor)


class Tabled:
    """A field's answers, with every product looked up."""

    def __init__(self, field):
        self.width, self.one, self.sound = field.width, field.one, field.sound
        self.mask = len(codes(field)) - 1
        self.rows = [[field.product(a, b) for b in codes(field)] for a in codes(field)]

    def product(self, a, b):
        return self.rows[a & self.mask][b & self.mask]


def case_field(text):
    """The field of a line that the program trials reads: `scaled C E` may stand before its name. No name must be damaged."""
    if not text.startswith("scaled "):
        return named(text)[0]
    _, factor, one, name = text.split(" ", 3)
    return Scaled(named(name)[0], int(factor), int(one))


def named(text):
    """The field that a text names, or why it names none."""
    return named_within(text, 3)


def named_within(text, room):
    make, _, rest = text.partition(" ")
    if text == make or make not in ("shift", "table", "tower"):
        return None, "a field is a `shift`, a `table` or a `tower`"
    if make == "shift":
        p = number(rest)
        return (shift(p), None) if p is not None else (None, "`shift` takes a number of 32 bits")
    first, space, tail = rest.partition(" ")
    if make == "table":
        p, g = number(first), number(tail)
        if p is None or g is None or not space:
            return None, "`table` takes two numbers of 32 bits"
        return power_table(p, g), None
    c = number(first)
    if c is None or not space:
        return None, "`tower` takes a number of 32 bits and a field"
    if room == 0:
        return None, "at most three towers stand on a field"
    below, why = named_within(tail, room - 1)
    return (tower(below, c), None) if below else (None, why)


def number(text):
    if not re.fullmatch(r"\+?[0-9]+", text) or int(text) >= 1 << 32:
        return None
    return int(text)


def codes(field):
    return range(1 << field.width)


def invertible(field):
    """How many codes have an inverse."""
    return sum(any(field.product(a, b) == field.one for b in codes(field)) for a in codes(field))


def period(field, a):
    """The smallest number of copies of a whose product is one, or 0."""
    x = field.one
    for copies in range(1, len(codes(field)) + 1):
        x = field.product(a, x)
        if x == field.one:
            return copies
    return 0


def longest_period(field):
    return max(period(field, a) for a in codes(field))
