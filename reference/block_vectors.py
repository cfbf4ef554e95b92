"""Lines for the program trials: what blocks over fields of every make come to."""
import random

import blocks
import fields

chance = random.Random(1991)

SOUND = ["shift 2", "shift 7", "shift 11", "shift 283", "table 19 2", "table 283 3", "tower 1 shift 2", "tower 2 tower 1 shift 2"]
SCALED = ["scaled 2 3 shift 7", "scaled 83 202 shift 283"]
UNSOUND = ["shift 5", "table 31 2", "tower 1 tower 1 shift 2", "scaled 2 2 shift 7"]
# for each size, the l and the numbers t for which raising to 1 + q^t can be undone
SIZES = {3: (1, [1]), 5: (2, [1, 2]), 6: (1, [2]), 31: (15, list(range(1, 16)))}


def random_block(field, size):
    return [chance.randrange(blocks.order(field)) for _ in range(size)]


def write(*parts):
    return " ".join(",".join(map(str, part)) if isinstance(part, list) else str(part) for part in parts)


def rule_line(field, name, modulus):
    return write("rule" if blocks.follows_rule(field, modulus) else "no-rule", modulus, name)


def ruled(field, size):
    """A modulus that follows the rule."""
    if size == 31:
        return ruled_31(field)
    while True:
        modulus = random_block(field, size)
        if blocks.follows_rule(field, modulus):
            return modulus


def unruled(field, size):
    """A modulus that does not."""
    while True:
        modulus = random_block(field, size)
        if not blocks.follows_rule(field, modulus):
            return modulus


def ruled_31(field):
    """X^31 + X^3 + 1 does over every sound field, and so it does with aX + c for X; and so does a product of X + r over 31 codes r."""
    if blocks.order(field) >= 31 and chance.random() < 0.5:
        return blocks.with_roots(field, chance.sample(fields.codes(field), 31))
    trinomial = [field.one if i in (0, 3) else 0 for i in range(31)]
    return blocks.moved(field, trinomial, chance.randrange(1, blocks.order(field)), chance.randrange(blocks.order(field)))


def arithmetic_lines(field, name, size):
    """Products, squares and q-th powers modulo any modulus."""
    for _ in range(2):
        modulus, a, b = (random_block(field, size) for _ in range(3))
        yield write("multiply", modulus, a, b, blocks.product(field, modulus, a, b), name)
    yield write("square", modulus, a, blocks.product(field, modulus, a, a), name)
    yield write("frobenius", modulus, b, blocks.to_q(field, modulus, b), name)
    yield rule_line(field, name, modulus)


def step_lines(field, name, size):
    """The two steps modulo a modulus that follows the rule."""
    l, steps = SIZES[size]
    modulus = ruled(field, size)
    yield rule_line(field, name, modulus)
    for t in chance.sample(steps, min(2, len(steps))):
        a = random_block(field, size)
        yield write("forward", t, modulus, a, blocks.forward(field, modulus, t, a), name)
        b = random_block(field, size)
        yield write("back", l, t, modulus, b, blocks.back(field, modulus, t, b), name)


def plain_blocks_lines(field, name, size):
    """The two steps at zero and at one."""
    l, steps = SIZES[size]
    modulus, t = ruled(field, size), chance.choice(steps)
    for a in ([0] * size, blocks.unit(field, size)):
        yield write("forward", t, modulus, a, blocks.forward(field, modulus, t, a), name)
        yield write("back", l, t, modulus, a, blocks.back(field, modulus, t, a), name)


def unsound_lines(field, name, size):
    modulus, a, b = (random_block(field, size) for _ in range(3))
    yield write("multiply", modulus, a, b, blocks.product_in_steps(field, modulus, a, b), name)
    yield write("multiply", modulus, b, a, blocks.product_in_steps(field, modulus, b, a), name)
    yield write("square", modulus, a, blocks.product_in_steps(field, modulus, a, a), name)


def edge_lines(field, name):
    """The smallest and the largest size, bytes that are no codes, and steps forward that no step undoes."""
    for size in (1, 32):
        yield from arithmetic_lines(field, name, size)
    modulus, a, b = ([chance.randrange(256) for _ in range(7)] for _ in range(3))
    yield write("multiply", modulus, a, b, blocks.product_in_steps(field, modulus, a, b), name)
    modulus, a = unruled(field, 4), random_block(field, 4)
    for t in (0, 1, 4, 9):
        yield write("forward", t, modulus, a, blocks.forward(field, modulus, t, a), name)


def scaled_lines(field, name):
    """What a scaled field answers, which is asked of it as of any other."""
    yield write("width", field.width, name)
    yield write("one", field.one, name)
    yield write("sound" if field.sound else "unsound", name)
    for _ in range(3):
        a, b = chance.randrange(256), chance.randrange(256)
        yield write("product", a, b, field.product(a, b), name)


def lines():
    made = {name: fields.Tabled(fields.case_field(name)) for name in SOUND + SCALED + UNSOUND}
    for name in SCALED + UNSOUND[-1:]:
        yield from scaled_lines(made[name], name)
    for number, name in enumerate(SOUND + SCALED):
        for size in SIZES:
            yield from arithmetic_lines(made[name], name, size)
            yield from step_lines(made[name], name, size)
        yield from plain_blocks_lines(made[name], name, list(SIZES)[number % len(SIZES)])
    for name in UNSOUND:
        for size in SIZES:
            yield from unsound_lines(made[name], name, size)
    for name in ("shift 7", "table 283 3", "scaled 83 202 shift 283"):
        yield from edge_lines(made[name], name)


def next_code(result):
    """A result that is off by one code, in its last place."""
    return result[:-1] + [result[-1] ^ 1]


def damaged_lines():
    """Lines that the program must not call right."""
    name, a, b = "shift 7", [3, 0, 2], [1, 2, 3]
    field = fields.case_field(name)
    modulus = ruled(field, 3)
    yield from false_lines(field, name, modulus, unruled(field, 3), a, b)
    product, power = blocks.product(field, modulus, a, b), blocks.back(field, modulus, 1, a)
    yield from incomplete_lines(name, modulus, a, b, product, power)
    yield from misfit_lines(name, modulus, a, b, product, blocks.product(field, modulus, a, a))
    # steps that there are not
    yield write("back", 1, 0, modulus, a, power, name)
    yield write("back", 1, 3, modulus, a, power, name)
    yield write("back", 0, 1, modulus, a, power, name)
    yield write("forward", 256, modulus, [0, 0, 0], [0, 0, 0], name)
    # fields that there are not
    yield write("rule", modulus, "shaft 7")
    yield write("multiply", modulus, a, b, product, "shift")
    yield write("multiply", modulus, a, b, product, "shift 7 7")
    yield write("one", 3, "scaled 256 3 shift 7")
    yield write("one", 3, "scaled 2 3 scaled 1 1 shift 7")


def false_lines(field, name, modulus, other, a, b):
    """For each kind, an answer that is off by one code, or the other answer."""
    yield write("product", 2, 3, field.product(2, 3) ^ 1, name)
    yield write("width", 3, name)
    yield write("one", 3, name)
    yield write("sound", "shift 5")
    yield write("unsound", name)
    yield write("one", 1, "scaled 2 3 shift 7")
    yield write("multiply", modulus, a, b, next_code(blocks.product(field, modulus, a, b)), name)
    yield write("square", modulus, a, next_code(blocks.product(field, modulus, a, a)), name)
    yield write("frobenius", modulus, a, next_code(blocks.to_q(field, modulus, a)), name)
    yield write("forward", 1, modulus, a, next_code(blocks.forward(field, modulus, 1, a)), name)
    yield write("back", 1, 1, modulus, a, next_code(blocks.back(field, modulus, 1, a)), name)
    yield write("rule", other, name)
    yield write("no-rule", modulus, name)


def incomplete_lines(name, modulus, a, b, product, power):
    """Kinds that there are not, and lines that leave a number or a block out."""
    yield "sound"
    yield write("divide", modulus, a, b, product, name)
    yield write("Multiply", modulus, a, b, product, name)
    yield write("multiply", modulus, a, b, name)
    yield write("forward", modulus, a, a, name)
    yield write("back", 1, modulus, a, power, name)
    yield write("product", 2, 3, name)
    yield write("one", 3, "scaled 2 shift 7")


def misfit_lines(name, modulus, a, b, product, square):
    """Blocks that are none, and blocks of another size than the modulus."""
    yield write("square", modulus, [], [], name)
    yield write("square", [], [], [], name)
    yield write("rule", [0] * 33, name)
    yield write("square", [0] * 33, [0] * 33, [0] * 33, name)
    yield write("square", modulus, [256, 0, 0], [0, 0, 0], name)
    yield write("square", modulus, "3,,2", square, name)
    yield write("square", modulus, "3,0,2,", square, name)
    yield write("multiply", modulus, [3, 0], b, product, name)
    yield write("multiply", modulus, a + [0], b, product, name)
    yield write("multiply", modulus, a, [1, 2], product, name)
    yield write("square", modulus, a, square + [0], name)
    yield write("frobenius", modulus + [0], a, a, name)
