"""Writes the lines that the programs cases and trials read, those that trials must call wrong at the end, or what trials must print.

python3 reference/vectors.py fields > crates/cases/stdin
python3 reference/vectors.py > crates/trials/stdin
python3 reference/vectors.py answers > crates/trials/stdout
"""
import random
import sys

import block_vectors
import fields
import map_vectors

random.seed(1988)

EDGES = [0, 1, 2, 3, 4, 5, 7, 256, 257, 283, 510, 511, 512, 1 << 31, (1 << 32) - 1]
SHIFTS = [f"shift {p}" for p in EDGES + [random.randrange(2, 512) for _ in range(150)]]
TABLES = [f"table {p} {g}" for p in EDGES for g in (0, 1, 2, 259)]
TABLES += [f"table {random.randrange(2, 512)} {random.randrange(256)}" for _ in range(150)]
TABLES += [f"table {p} {g}" for p, g in ((2, 0), (3, 1), (7, 2), (19, 2), (31, 2), (31, 3), (283, 3), (283, 2))]
GROUND = SHIFTS[:30] + random.sample(TABLES, 60)


def numbers():
    return random.choice([0, 1, 2, 3, 4, 8, random.randrange(256), random.randrange(1 << 32)])


TOWERS = [f"tower {c} {name}" for c in (0, 1, 2, 3) for name in ("shift 2", "shift 3", "shift 7", "table 7 2", "shift 5", "shift 0")]
TOWERS += [f"tower {numbers()} {random.choice(GROUND)}" for _ in range(150)]
TOWERS += [f"tower {numbers()} {random.choice(TOWERS)}" for _ in range(150)]
TOWERS += ["tower 2 tower 1 shift 2", "tower 1 tower 1 shift 2", "tower 8 tower 2 tower 1 shift 2", "tower 4 tower 2 tower 1 shift 2"]


def field_lines():
    """What fields of every make answer."""
    for name in SHIFTS + TABLES + TOWERS:
        field, why = fields.named(name)
        if field is None:
            continue
        yield f"width {field.width} {name}"
        yield f"one {field.one} {name}"
        yield f"{'sound' if field.sound else 'unsound'} {name}"
        for _ in range(6):
            a, b = random.randrange(256), random.randrange(256)
            yield f"product {a} {b} {field.product(a, b)} {name}"
    for p in range(515):
        yield f"{'sound' if fields.shift(p).sound else 'unsound'} shift {p}"


of_fields = [*field_lines()]
if sys.argv[1:] == ["fields"]:
    print(*of_fields, sep="\n")
    sys.exit()
right = [*of_fields, *block_vectors.lines(), *map_vectors.lines()]
wrong = [*block_vectors.damaged_lines(), *map_vectors.damaged_lines()]
if sys.argv[1:] == ["answers"]:
    print(*(f"wrong: {line}" for line in wrong), f"{len(right)} right, {len(wrong)} wrong", sep="\n")
else:
    print(*right, *wrong, sep="\n")
