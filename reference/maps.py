"""Affine maps on blocks: constants and as many rows, which send a block to the constants plus, for each i, its code i times row i."""
import fields


def image(field, constants, rows, block):
    total = list(constants)
    for x, row in zip(block, rows):
        total = [u ^ field.product(x, y) for u, y in zip(total, row)]
    return total


def inverse(field, a):
    """Found by search; a is not 0."""
    return next(b for b in fields.codes(field) if field.product(a, b) == field.one)


def reduced(field, equations, unknowns):
    """The equations after elimination in that many unknowns, those with a leading unknown first, and how many these are."""
    equations = [list(equation) for equation in equations]
    found = 0
    for unknown in range(unknowns):
        lead = next((i for i in range(found, len(equations)) if equations[i][unknown]), None)
        if lead is None:
            continue
        equations[found], equations[lead] = equations[lead], equations[found]
        factor = inverse(field, equations[found][unknown])
        equations[found] = [field.product(factor, a) for a in equations[found]]
        for i, equation in enumerate(equations):
            if i != found:
                times = equation[unknown]
                equations[i] = [a ^ field.product(times, b) for a, b in zip(equation, equations[found])]
        found += 1
    return equations, found


def rank(field, rows):
    return reduced(field, rows, len(rows[0]))[1]


def solution(field, constants, rows, target):
    """The only block that a map sends to the target, from an equation for each place of it, which ends with what the rest
    must come to. None where there is not just one."""
    size = len(rows)
    equations = [[row[j] for row in rows] + [constants[j] ^ target[j]] for j in range(size)]
    solved, found = reduced(field, equations, size)
    return [equation[-1] for equation in solved] if found == size else None
