"""What the program survey writes for the lines on standard input."""
import sys

import fields


def findings(field):
    said = f"width {field.width}, one {field.one}, "
    if not field.sound:
        return said + "not sound"
    return said + f"sound, codes with an inverse {fields.invertible(field)}, largest period {fields.longest_period(field)}"


for line in sys.stdin.read().splitlines():
    field, why = fields.named(line)
    print(f"{line}: {findings(field) if field else 'not understood: ' + why}")
