"""Rows that the prover computes: what the original answers, and the two sides of the equation that says so."""
import dataclasses
import random
import re

from .terms import ERRORS, FULL, KINDS, REFUSALS, SETTINGS
from .terms import applied, error, flag, float_kind, integer_kind, kind, listed


@dataclasses.dataclass
class Row:
    """A line of the oracle; where its answer is counted; the sides of an equation, or a statement and its proof."""

    line: str
    answer: str
    left: str
    right: str
    column: str = ""
    shown: str = ""


def from_hexadecimal(word):
    return bytes.fromhex(word.strip("-"))


def lex_row(line):
    setting, text, said, *numbers = line.split()
    text, numbers = from_hexadecimal(text), list(map(int, numbers))
    if said == "end":
        answer, right = "end", "answer.End"
    elif said == "token":
        number, length = numbers
        answer, right = f"{number % 256} {KINDS[number % 256]}", f"answer.Token {kind(number)} {length}"
    else:
        number, *data, place, after = numbers
        answer = f"{number} {ERRORS[number][0]}"
        right = f"answer.Fault (fault {error(number, data)} {place} {after})"
    return Row(line, answer, f"lex {SETTINGS[setting]} {listed(text)}", right, column=setting, shown=repr(text))


def utf8_row(line):
    text, said, *numbers = line.split()
    text = from_hexadecimal(text)
    if said == "ok":
        answer, right = "UTF-8", "Ok tt"
    else:
        answer, right = f"not UTF-8, error length {numbers[1]}", f"Bad {' '.join(numbers)}"
    return Row(line, answer, f"checked {listed(text)}", right, shown=repr(text))


def kind_row(line):
    """A kind as the original shows it: `Id`, `Float(Inf { negative: true })`, `Integer(IntegerKind { sign: None, ..`."""
    shown, number = line.split(" is ")
    names, flags = re.findall(r"\b[A-Z]\w+", shown), [word == "true" for word in re.findall(r"true|false", shown)]
    if names[0] == "Integer":
        term = integer_kind({"None": "Unsigned"}.get(names[-1], names[-1]), *flags)
    elif names[0] == "Float":
        term = float_kind(names[1], flags)
    else:
        term = f"kind.{names[0]}"
    return Row(line, "kinds", f"(kind_number {term}, [])", f"({number}, [])")


def error_row(line):
    """An error by the name that the original has for it, or the definitions for their own."""
    shown, number = line.split(" is ")
    name, *data = shown.split()
    data = data[: dict(ERRORS.values())[name]]
    return Row(line, "errors", f"error_number {applied(f'error.{name}', data)}", f"({number}, {listed(data)})")


def refusal_rows():
    """What docs/RULES.md adds to the original's errors."""
    rows = []
    for number, name in REFUSALS.items():
        data = [5, 2] if name == "NotUtf8" else []
        left = f"number {applied(f'refusal.{name}', data)}"
        rows.append(Row(f"{name} is {number}", "refusals", left, f"({number}, {listed(data)})"))
    for number, name in FULL.items():
        rows.append(Row(f"{name} is {number}", "refusals", f"({name}, [])", f"({number}, [])"))
    return rows


def message_row(line):
    number, first, second, room, said, *told = line.split()
    left = f"answer {number} {first} {second} (replicate {room} 238)"
    if said == "told":
        message = from_hexadecimal(told[0])
        buffer = message + b"\xee" * (int(room) - len(message))
        return Row(line, "a message", left, f"(Ok {len(message)}, {listed(buffer)})", shown=repr(message))
    answer, name = {"none": ("34, none", "NoMessage"), "too-short": ("32, too short a buffer", "BufferTooShort")}[said]
    return Row(line, answer, left, f"(Err refusal.{name}, replicate {room} 238)")


def place(line, column, last):
    return f"record {{ line = {line}; column = {column}; after_cr = {flag(last == 'cr')} }}"


def place_row(line):
    words = line.split()
    asked, text, moved = words[:3], from_hexadecimal(words[3]), words[5:]
    right = f"record {{ ok = {flag(moved)}; place = {place(*(moved or asked))} }}"
    answer = "a place" if moved else "35, past the limit"
    return Row(line, answer, f"moved ({place(*asked)}) {listed(text)}", right, column=asked[2], shown=repr(text))


LINE_ENDS = ["no line end", "one line end", "more line ends"]


def line_end_rows(count, seed):
    """How many line ends bytes have, also behind a CR, and whether a CR is the last of all: as a regular expression
    finds them."""
    chance, rows = random.Random(seed), {}
    while len(rows) < count:
        before = chance.choice([b"", b"\r"])
        text = bytes(chance.choice([13, 10, 97, chance.randrange(256)]) for _ in range(chance.randrange(12)))
        ends = len(re.findall(rb"\r\n|\r|\n", before + text)) - len(before)
        last, given = flag((before + text).endswith(b"\r")), f"{flag(before)} {listed(text)}"
        left, right = f"(line_ends {given}, ends_in_return {given})", f"({ends}, {last})"
        column, answer = "cr" if before else "other", LINE_ENDS[min(ends, 2)]
        line = f"{column} {text.hex() or '-'} has {ends} {last}"
        rows[before, text] = Row(line, answer, left, right, column=column, shown=repr(text))
    return list(rows.values())


RECORDED = ["a token of any length", "one token", "two tokens", "more tokens"]


def record_row(line):
    asked, records = line.split(" has ")
    text, *numbers = asked.split()
    text, numbers = from_hexadecimal(text), list(map(int, numbers))
    pieces = zip(numbers[::2], numbers[1::2])
    tokens = [f"record {{ kind = {kind(number)}; len = {length} }}" for number, length in pieces]
    answer = RECORDED[min(len(tokens), 3)] if text else RECORDED[0]
    left = f"records {listed(text)} {listed(tokens)}"
    return Row(line, answer, left, listed(from_hexadecimal(records)), shown=repr(text))
