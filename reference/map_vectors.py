"""Lines for the program trials: what affine maps on blocks over fields of every make come to."""
import random

import fields
import maps
from block_vectors import SCALED, SOUND, next_code, write

chance = random.Random(1992)

UNSOUND = ["shift 5", "table 31 2"]
SIZES = [3, 5, 8]


def random_codes(field, size):
    return [chance.choice(fields.codes(field)) for _ in range(size)]


def any_rows(field, size):
    return [random_codes(field, size) for _ in range(size)]


def one_to_one(field, rows):
    return maps.rank(field, rows) == len(rows)


def random_rows(field, size):
    while True:
        rows = any_rows(field, size)
        if one_to_one(field, rows):
            return rows


def late_rows(field, size):
    """One to one, with 0 where a leading element is first looked for."""
    while True:
        rows = any_rows(field, size)
        rows[0][0] = 0
        if one_to_one(field, rows):
            return rows


def unit_rows(field, size):
    return [[field.one if i == j else 0 for j in range(size)] for i in range(size)]


def permuting_rows(field, size):
    return chance.sample(unit_rows(field, size), size)


def triangular_rows(field, size):
    rows = any_rows(field, size)
    for i in range(size):
        rows[i] = [0] * i + [chance.choice(fields.codes(field)[1:])] + rows[i][i + 1 :]
    return rows[:: chance.choice([1, -1])]


def dependent_rows(field, size):
    """The last row is a combination of the others, which are independent."""
    rows = random_rows(field, size)
    rows[-1] = maps.image(field, [0] * size, rows[:-1], random_codes(field, size - 1))
    return rows


def zero_column_rows(field, size):
    place = chance.randrange(size)
    return [row[:place] + [0] + row[place + 1 :] for row in any_rows(field, size)]


def zero_row_rows(field, size):
    rows = any_rows(field, size)
    rows[chance.randrange(size)] = [0] * size
    return rows


def equal_rows(field, size):
    rows = any_rows(field, size)
    first, second = chance.sample(range(size), 2)
    rows[first] = list(rows[second])
    return rows


def zero_rows(field, size):
    return [[0] * size for _ in range(size)]


SPECIAL = [late_rows, permuting_rows, triangular_rows, unit_rows]
SINGULAR = [dependent_rows, zero_column_rows, zero_row_rows, equal_rows, zero_rows]
LARGEST = [
    ("shift 2", late_rows, dependent_rows),
    ("table 283 3", random_rows, zero_column_rows),
    ("tower 2 tower 1 shift 2", triangular_rows, equal_rows),
    ("scaled 83 202 shift 283", late_rows, dependent_rows),
]


def written(constants, rows):
    """The bytes of a map."""
    return constants + [code for row in rows for code in row]


def apply_line(field, name, constants, rows, block):
    return write("apply", written(constants, rows), block, maps.image(field, constants, rows, block), name)


def solve_line(field, name, constants, rows, target):
    return write("solve", written(constants, rows), maps.solution(field, constants, rows, target), target, name)


def both_lines(field, name, rows):
    """A map of these rows on one block, and what it sends to another."""
    size = len(rows)
    constants = random_codes(field, size)
    yield apply_line(field, name, constants, rows, random_codes(field, size))
    yield solve_line(field, name, constants, rows, random_codes(field, size))


def solved_line(field, name, rows):
    return solve_line(field, name, random_codes(field, len(rows)), rows, random_codes(field, len(rows)))


def singular_line(field, name, rows):
    assert not one_to_one(field, rows)
    return write("singular", written(random_codes(field, len(rows)), rows), len(rows), name)


def largest_lines(field, name, make, singular):
    """Maps on blocks of 32 codes."""
    yield solved_line(field, name, make(field, 32))
    yield singular_line(field, name, singular(field, 32))


def smallest_lines(field, name):
    """Maps on single codes."""
    yield from both_lines(field, name, random_rows(field, 1))
    yield singular_line(field, name, zero_rows(field, 1))


def unsound_lines(field, name, size):
    for _ in range(2):
        yield apply_line(field, name, random_codes(field, size), any_rows(field, size), random_codes(field, size))


def byte_line(field, name, size):
    """Bytes that are no codes: products take the low bits, and constants are added whole."""
    constants, block, *rows = ([chance.randrange(256) for _ in range(size)] for _ in range(size + 2))
    return apply_line(field, name, constants, rows, block)


def lines():
    made = {name: fields.Tabled(fields.case_field(name)) for name in SOUND + SCALED + UNSOUND}
    for number, name in enumerate(SOUND + SCALED):
        for turn, size in enumerate(SIZES):
            yield from both_lines(made[name], name, random_rows(made[name], size))
            yield solved_line(made[name], name, SPECIAL[(number + turn) % len(SPECIAL)](made[name], size))
            yield singular_line(made[name], name, SINGULAR[(number + turn) % len(SINGULAR)](made[name], size))
    for name, make, singular in LARGEST:
        yield from largest_lines(made[name], name, make, singular)
        yield from smallest_lines(made[name], name)
    for name in UNSOUND:
        for size in SIZES:
            yield from unsound_lines(made[name], name, size)
    for name in ("shift 7", "scaled 2 3 shift 7", "shift 5"):
        yield byte_line(made[name], name, 4)


def damaged_lines():
    """Lines that the program must not call right."""
    name, a = "shift 7", [3, 0, 2]
    field = fields.case_field(name)
    constants, rows = [1, 2, 3], late_rows(field, 3)
    flat = equal_rows(field, 3)
    b, none = maps.image(field, constants, rows, a), maps.image(field, constants, flat, a)
    codes, flat_codes = written(constants, rows), written(constants, flat)
    yield from false_lines(name, codes, a, b, flat_codes, none)
    yield from misfit_lines(name, codes, a, b, flat_codes)


def false_lines(name, codes, a, b, flat_codes, image):
    """A result that is off by one code, and maps that are one to one where they should not be, or are not."""
    yield write("apply", codes, a, next_code(b), name)
    yield write("apply", codes, next_code(a), b, name)
    yield write("apply", codes, b, a, name)
    yield write("solve", codes, a, next_code(b), name)
    yield write("solve", codes, next_code(a), b, name)
    yield write("solve", flat_codes, a, image, name)
    yield write("singular", codes, 3, name)


def misfit_lines(name, codes, a, b, flat_codes):
    """Maps of another size than the blocks, sizes that there are not, and lines that leave something out."""
    for kind in ("apply", "solve"):
        yield write(kind, codes[:-1], a, b, name)
        yield write(kind, codes + [0], a, b, name)
        yield write(kind, codes, a, b[:-1], name)
        yield write(kind, codes, a[:-1], b, name)
        yield write(kind, codes, a, b + [0], name)
        yield write(kind, codes, a, name)
        yield write(kind, [], a, b, name)
    yield write("singular", flat_codes[:-1], 3, name)
    yield write("singular", flat_codes + [0], 3, name)
    yield write("singular", flat_codes, 2, name)
    yield write("singular", flat_codes, name)
    yield write("singular", flat_codes, 0, name)
    yield write("singular", [], 0, name)
    yield write("singular", flat_codes, 33, name)
    yield write("singular", [0] * (33 * 34), 33, name)
