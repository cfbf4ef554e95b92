"""Blocks over a field: polynomials of degree below v, lowest coefficient first, multiplied modulo X^v + f by long division."""
import random
import sys

import fields


def unit(field, size):
    return [field.one] + [0] * (size - 1)


def plain_product(field, a, b):
    total = [0] * (len(a) + len(b) - 1)
    for i, x in enumerate(a):
        for j, y in enumerate(b):
            total[i + j] ^= field.product(x, y)
    return total


def product(field, modulus, a, b):
    return remainder(field, modulus, plain_product(field, a, b))


def remainder(field, modulus, polynomial):
    """Long division from the top; the leading coefficient of the divisor is one."""
    rest = list(polynomial)
    size = len(modulus)
    while len(rest) > size:
        top = rest.pop()
        for i, f in enumerate(modulus):
            rest[len(rest) - size + i] ^= field.product(top, f)
    return rest


def product_in_steps(field, modulus, a, b):
    """As the specification has it for any field, sound or not: from the top element of a down, X times what there is, and
    then the element times b."""
    total = [0] * len(modulus)
    for x in reversed(a):
        top = total[-1]
        total = [u ^ field.product(top, f) for u, f in zip([0] + total[:-1], modulus)]
        total = [u ^ field.product(x, y) for u, y in zip(total, b)]
    return total


def power(field, modulus, a, exponent):
    """By squares and products, along the bits of the exponent from the top."""
    result = unit(field, len(modulus))
    for bit in bin(exponent)[2:]:
        result = product(field, modulus, result, result)
        if bit == "1":
            result = product(field, modulus, result, a)
    return result


def order(field):
    return 1 << field.width


def to_q(field, modulus, a):
    return power(field, modulus, a, order(field))


def forward(field, modulus, t, a):
    return power(field, modulus, a, 1 + order(field) ** t)


def back(field, modulus, t, a):
    """The inverse exponent comes from Python's own arithmetic."""
    q, size = order(field), len(modulus)
    return power(field, modulus, a, pow(1 + q**t, -1, q**size - 1))


def follows_rule(field, modulus):
    """Whether X raised to q^v leaves X."""
    size = len(modulus)
    x = remainder(field, modulus, [0, field.one] + [0] * (size - 2))
    return power(field, modulus, x, order(field) ** size) == x


def moved(field, modulus, a, c):
    """The low coefficients of the modulus with aX + c for X, made monic; a is not 0."""
    total = [field.one]
    for f in reversed(modulus):
        total = plain_product(field, total, [c, a])
        total[0] ^= f
    inverse = next(b for b in fields.codes(field) if field.product(total[-1], b) == field.one)
    return [field.product(inverse, f) for f in total[:-1]]


def with_roots(field, roots):
    """The low coefficients of the product of X + r over the roots."""
    total = [field.one]
    for root in roots:
        total = plain_product(field, total, [root, field.one])
    return total[:-1]


if __name__ == "__main__":
    # one random product in the field and of the size given: blocks.py SIZE NAME
    random.seed(int(sys.argv[1]))
    field, why = fields.named(sys.argv[2])
    modulus, a, b = ([random.randrange(1 << field.width) for _ in range(int(sys.argv[1]))] for _ in range(3))
    print(modulus, a, b, product(field, modulus, a, b))
