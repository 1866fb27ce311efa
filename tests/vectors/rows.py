#!/usr/bin/env python3
"""Writes crates/vectors/stdin: a row for each line of the files beside this script.

A row is 16 columns of 16 hexadecimal digits, one space between two and a line feed at the end: the operation, base, digits, emin, emax,
direction; sign, significand, exponent of the first operand and of the second; the answer's refusal number, 0 for none, and its sign,
significand, exponent. Below zero is two's complement. Columns that a call does not use are 0.
- A pattern stands as a significand.
- A fraction's numerator stands as the first exponent, its denominator as the second significand.
- A comparison answers -1, 0 or 1 as a sign and a significand.
- A number of quotient digits stands as a significand.
- The three-step sum, each step in the row's direction, answers x.
- A line that ends with the publisher's inexact flag makes a row that asks for the mark alone and answers 0, 1 or 2: exact, low, high. The
  publisher's answer is compared with the exact result for it, and the flag has to say the same; patterns stand there as numbers of binary32."""
import os
from fractions import Fraction

FILES = ["binary32_nearest.txt", "binary32_directions.txt", "decimal.txt", "minus_zero.txt", "decimal32.txt", "wide.txt", "fractions.txt", "scope.txt", "digits.txt", "conversions.txt"]
FLAGGED = ["inexact/binary32_directions.txt", "inexact/decimal.txt"]
# the operations in the order of their numbers, which is that of `calls` in crates/vectors/specs/Calls.antt
NUMBERS = ["sum", "diff", "prod", "quot", "frac", "cmp", "abs", "neg", "pred", "succ", "ufp"]
PATTERNS = ["sum", "diff", "prod", "quot"]
DECIMAL32 = ["dread", "dwrite"]
OPERATIONS = NUMBERS + ["pattern " + name for name in PATTERNS] + ["mark " + name for name in PATTERNS] + DECIMAL32 + ["digits", "conv", "steps"]
BINARY32 = [2, 24, -149, 104]
NOTHING = [0, 0, 0]


def pattern_row(name, direction, a, b, answer):
    refusal, pattern = int(answer[:8], 16), int(answer[8:], 16)
    operation = OPERATIONS.index("pattern " + name)
    return [operation, 0, 0, 0, 0, int(direction), 0, int(a, 16), 0, 0, int(b, 16), 0, refusal, 0, pattern, 0]


def answer_columns(kind, *words):
    values = [int(word) for word in words]
    if kind == "n":
        return [0] + values
    if kind == "c":
        return [0, int(values[0] < 0), abs(values[0]), 0]
    if kind in ("p", "d"):
        return [0, 0] + values + [0]
    assert kind == "r"
    return values + NOTHING


def number_row(call, answer):
    name, values = call[0], [int(word) for word in call[1:]]
    operands = values[5:]
    if name == "frac":
        operands = [0, 0, operands[0], 0, operands[1], 0]
    operands += NOTHING[: 6 - len(operands)]
    return [OPERATIONS.index(name)] + values[:5] + operands + answer_columns(*answer)


def decimal32_row(call, answer):
    name, operand = call[0], [int(word) for word in call[6:]]
    if name == "dread":
        operand = [0] + operand + [0]
    return [OPERATIONS.index(name), 0, 0, 0, 0, 0] + operand + NOTHING + answer_columns(*answer)


def number_of(pattern):
    bits = int(pattern, 16)
    field, fraction = bits >> 23 & 255, bits & 2**23 - 1
    sign, significand, exponent = bits >> 31, fraction + (2**23 if field else 0), max(field, 1) - 150
    return [sign, significand, exponent]


def value(base, sign, significand, exponent):
    return (-1) ** sign * significand * Fraction(base) ** exponent


def mark(name, base, operands, result):
    a, b, kept = value(base, *operands[:3]), value(base, *operands[3:]), value(base, *result)
    exact = a / b if name == "quot" else {"sum": a + b, "diff": a - b, "prod": a * b}[name]
    return 0 if kept == exact else 1 if kept < exact else 2


def flagged_row(line):
    words = line.split()
    flag, arrow = int(words.pop()), words.index("->")
    if arrow == 4:
        name, direction, a, b = words[:4]
        values, result = BINARY32 + [int(direction)] + number_of(a) + number_of(b), number_of(words[5][8:])
    else:
        name, values = words[0], [int(word) for word in words[1:arrow]]
        result = [int(word) for word in words[arrow + 2 :]]
    says = mark(name, values[0], values[5:], result)
    assert flag == min(says, 1), line
    return [OPERATIONS.index("mark " + name)] + values + [0, 0, says, 0]


def row(line):
    words = line.split()
    arrow = words.index("->")
    if arrow == 4:
        return pattern_row(*words[:4], words[5])
    if words[0] in DECIMAL32:
        return decimal32_row(words[:arrow], words[arrow + 1 :])
    return number_row(words[:arrow], words[arrow + 1 :])


here = os.path.dirname(os.path.abspath(__file__))
with open(os.path.join(here, "../../crates/vectors/stdin"), "w") as out:
    for name in FILES + FLAGGED:
        for line in open(os.path.join(here, name)):
            columns = flagged_row(line) if name in FLAGGED else row(line)
            assert len(columns) == 16
            out.write(" ".join(f"{value % 2**64:016x}" for value in columns) + "\n")
