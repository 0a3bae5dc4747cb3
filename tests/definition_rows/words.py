"""Rows of words: the word of so many bits that an integer literal is, or that it is none, by Python's integers.

A row is proved by the constructors of the definitions, from the sign and the digits that a literal has; if they are not
what the definitions ask for, the prover refuses the row.
"""
import random
import re

from .computed import Row
from .readers import SIGNS, signed
from .terms import flag, listed

WIDTHS = [32, 64]
OTHER_WIDTHS = [1, 8, 16, 33, 128]
WORDED = [f"{width} bits, {sign or 'no sign'}" for width in [*WIDTHS, "other"] for sign in SIGNS]


def word_of(literal, width):
    """Rule 17: the value modulo 2^width, if it is in the range of unsigned integers, or with a sign of signed ones."""
    value = int(literal, 16 if "0x" in literal else 10)
    half = 2 ** (width - 1)
    in_range = -half <= value < half if literal[0] in "+-" else value < 2 * half
    return value % 2**width if in_range else None


def digit(figure):
    name = "digit" if figure.isdigit() else "upper" if figure.isupper() else "lower"
    return f"(Hex.{name} {int(figure, 16) % 10} (lit< tt), lit< tt)"


def num(digits):
    proof = f"Num.one {digit(digits[0])}"
    for gap, figure in re.findall("(_?)([^_])", digits[1:]):
        proof = f"Num.{'gap' if gap else 'more'} ({proof}) {digit(figure)}"
    return proof


def word_row(literal, width):
    sign, prefix, digits = re.fullmatch("([+-]?)(0x)?(.*)", literal).groups(default="")
    number, word = int(digits, 16 if prefix else 10), word_of(literal, width)
    hexadecimal, figures, source = flag(prefix), listed(digits.encode()), listed(literal.encode())
    is_number = f"Num {hexadecimal} {figures} {number}"
    statement = f"{is_number} × (amount (radix {hexadecimal}) 0 {figures} ≡ {number})"
    proof = f"let r : {is_number} = {num(digits)} in (r, refl"
    if word is None:
        rule = {"": "unsigned k", "+": "plus k", "-": "minus p k e"}[sign]
        no_word = f"Word {width} sign.{SIGNS[sign]} {number} v → ⊥"
        statement += f" × ((v : ℕ) → {no_word}) × (out_of_range_number ≡ 40)"
        # that a literal has no other number is beyond these proofs: they take the theorem of wat_values for it
        statement += f" × (evidence.OneNumber → Worded {width} {source} value.OutOfRange)"
        proof += ", λ v. none, refl"
        proof += f", λ one. Worded.out_of_range (evidence.no_word one {signed(sign)} r refl (λ v. none)))"
        proof += f"\n  where\n    none : {{v : ℕ}} → {no_word}\n    none (Word.{rule}) = evidence.past tt k"
    else:
        rule = {"": "unsigned (lit< tt)", "+": "plus (lit< tt)", "-": "minus (lit< tt) (lit≤ tt) refl"}[sign]
        rule = "minus_zero" if sign == "-" and number == 0 else rule
        statement += f" × Worded {width} {source} (value.Word {word})"
        proof += f", Worded.word (IntegerWord.literal {signed(sign)} r refl (Word.{rule})))"
    line = f"{literal} of {width} bits has {'no word' if word is None else f'the word {word}'}"
    answer = f"{width if width in WIDTHS else 'other'} bits, {sign or 'no sign'}"
    column = f"{prefix} {'40' if word is None else 'word'}".strip()
    return Row(line, answer, statement, proof, column=column, shown=repr(literal))


def edges():
    """Widths, and numbers next to the ends of their ranges."""
    for width in WIDTHS + OTHER_WIDTHS:
        ends = [31, 32, 63, 64] if width in WIDTHS else [width - 1, width]
        numbers = {0, 1, *(2**end + past for end in ends for past in range(-2, 3))}
        yield from ((width, number) for number in sorted(numbers) if number >= 0)


def spelt(number, hexadecimal, dice):
    """The number's digits, with leading zeros, underscores and letters of either case, or without."""
    digits = "0" * dice.choice([0, 0, 0, 1, 2, 5]) + (f"{number:x}" if hexadecimal else str(number))
    gaps = dice.choice([[""], ["", "", "", "_"], ["", "_"], ["_"]])
    cases = dice.choice([[str.lower], [str.upper], [str.lower, str.upper]])
    first, *more = (dice.choice(cases)(figure) for figure in digits)
    return ("0x" if hexadecimal else "") + first + "".join(dice.choice(gaps) + figure for figure in more)


def word_rows(count, seed):
    """Up to half of the rows are of numbers next to the ends of ranges, the others of random numbers."""
    dice = random.Random(seed)
    asked = [(width, number, sign, radix) for width, number in edges() for sign in SIGNS for radix in (10, 16)]
    asked = dice.sample(asked, min(len(asked), count // 2))
    while len(asked) < count:
        width = dice.choice(4 * WIDTHS + OTHER_WIDTHS)
        bits = dice.choice([dice.randint(0, width), width - 1, width, width + 1, 100])
        asked.append((width, dice.getrandbits(bits), dice.choice([*SIGNS]), dice.choice([10, 16])))
    return [word_row(sign + spelt(number, radix == 16, dice), width) for width, number, sign, radix in asked]
