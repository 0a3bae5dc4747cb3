"""Rows of readers: that `Reads` holds, proved by its constructors from the parts that a token's bytes have.

The parts come from regular expressions; if they are not what the definitions ask for, the prover refuses the row.
"""
import re

from .computed import Row, from_hexadecimal
from .terms import HEX, KINDS, READERS, SIGILS, error, kind, listed

# what is counted: the readers, and that of names by whose they are
NAMED = [*(f"name of an {token}" for token in SIGILS.values()), "name of another"]
READ = [answer for reader, _ in READERS.values() for answer in (NAMED if reader == "name" else [reader])]

ESCAPES = {"t": 9, "n": 10, "r": 13, '"': 34, "'": 39, "\\": 92}


def hex_digit(digit):
    name, zero = ("figure", "0") if digit.isdigit() else ("upper", "A") if digit.isupper() else ("lower", "a")
    return f"(evidence.{name} {ord(digit) - ord(zero)} tt)"


def element(source):
    """An element of a string."""
    if number := re.fullmatch(r"\\u\{(.)(.*)\}", source):
        more = [f"({len(gap)}, {hex_digit(digit)})" for gap, digit in re.findall(r"(_*)([^_])", number[2])]
        char = chr(int(number[1] + number[2].replace("_", ""), 16)).encode()
        return f"evidence.unicode {hex_digit(number[1])} {listed(more)} {listed(char)} tt refl"
    if source[1:] in ESCAPES:
        return f"evidence.letter {ord(source[1])} {ESCAPES[source[1:]]} tt"
    if source[0] == "\\":
        return f"evidence.pair {hex_digit(source[1])} {hex_digit(source[2])}"
    return f"evidence.raw {listed(source.encode())} tt refl refl refl"


def string(source):
    elements = re.findall(r"\\u\{.*?\}|\\[0-9A-Fa-f]{2}|\\.|[^\\]", source[1:-1])
    return f"(evidence.string {listed(map(element, elements))})"


def name(source, said, left):
    """A name after its `$` or `@`."""
    if source == "":
        return "Name.nothing"
    if source[0] != '"':
        return f"(Name.word (evidence.each idchar {listed(source.encode())} tt))"
    if said in ("23", "24"):
        return f"(Name.quoted_nothing {string(source)})"
    if said == "22":
        return f"(Name.quoted_wrong {string(source)} (right {listed(left)}))"
    characters = listed(listed(char.encode()) for char in left.decode())
    return f"(Name.quoted {string(source)} (evidence.text {characters} tt))"


def digits(source):
    if len(source) == 1:
        return "(Digits.last refl)"
    step, rest = ("gap", source[2:]) if source[1] == "_" else ("next", source[1:])
    return f"(Digits.{step} refl {digits(rest)})"


SIGNS = {"": "Unsigned", "+": "Plus", "-": "Minus"}


def signed(sign):
    return f"Signed.{SIGNS[sign].lower()}"


def implicit(names, values):
    """Implicit arguments, in the order of the names: signs, the byte m, and else bytes."""
    terms = []
    for name in names.split():
        value = values[name]
        sign, byte = name in ("sign", "power"), name == "m"
        term = f"sign.{SIGNS[value]}" if sign else ord(value) if byte else listed(value.encode())
        terms.append(f"{{{name} = {term}}}")
    return " ".join(terms)


def number(part, source, hexadecimal):
    """A part of a number, split into u, its sign's bytes, digits p, fraction f with its dot, exponent e."""
    figures, prefix = ("[0-9A-Fa-f_]", "0x") if hexadecimal else ("[0-9_]", "")
    shape = rf"([+-]?){prefix}({figures}+)(\.{figures}*)?([A-Za-z].*)?"
    u, p, f, e = re.fullmatch(shape, source).groups(default="")
    mark, v, magnitude = re.fullmatch(r"(.?)([+-]?)(.*)", e).groups()
    values = {"sign": u, "u": u, "p": p, "f": f, "e": e, "power": v, "m": mark, "v": v}
    after = "none" if f == "" else "dot" if f == "." else f"dot_digits {digits(f[1:])}"
    of_power = f"{signed(v)} {digits(magnitude)}" if e else ""
    power = f"power {implicit('u s', {'u': v, 's': magnitude})} refl {of_power}" if e else "none"
    fields = f"signed = {signed(u)}; whole = {digits(p)}; after = Fraction.{after}; power = Exponent.{power}; is = refl"
    split = f"(record {{ {fields} }})"
    if part == "digits":
        return f"Reads.an_integer {implicit('sign u p', values)} {split}"
    if part == "float the.Integral":
        return f"Reads.an_integral {implicit('sign u p f e', values)} {split}"
    if part == "float the.Fraction":
        if after in ("none", "dot"):
            rule = "no_fraction" if after == "none" else "only_dot"
            return f"Reads.{rule} {implicit('sign u p e', values)} {split}"
        values["s"] = f[1:]
        return f"Reads.a_fraction {implicit('sign u p s e', values)} {split} {digits(f[1:])}"
    if e == "":
        return f"Reads.no_exponent {implicit('sign u p f', values)} {split}"
    values["s"] = magnitude
    return f"Reads.an_exponent {implicit('sign power m u p f v s', values)} {split} {of_power}"


def derivation(reader, kind_number, source, said, left):
    """Why a reader leaves this of a token: a proof of `Reads`."""
    kind_name = KINDS[kind_number % 256]
    if reader == "src":
        return "Reads.itself"
    if reader == "string":
        return f"Reads.a_string {string(source)}"
    if reader == "name":
        return f"Reads.a_name Sigil.{SIGILS[kind_number]} {name(source[1:], said, left)}"
    if kind_name in ("Inf", "Nan"):
        return f"Reads.of_{kind_name.lower()}"
    if kind_name == "NanVal":
        if reader != "float the.Payload":
            return f"Reads.of_payload (evidence.other {reader.split()[1]} refl)"
        sign, payload = re.fullmatch(r"([+-]?)nan:0x(.*)", source).groups()
        given = implicit("sign u s", {"sign": sign, "u": sign, "s": payload})
        return f"Reads.a_payload {given} {signed(sign)} {digits(payload)} refl"
    if reader == "float the.Payload":
        return "Reads.of_normal"
    return number(reader, source, kind_number & HEX)


def other_kind(reader, kind_term):
    """Why a reader does not take a kind: a proof that `Takes` is empty."""
    if reader == "name":
        return f"evidence.no_name {{k = {kind_term}}} refl"
    return f"λ (t : Takes (Reader.{reader}) {kind_term}). elim t [ ]"


def name_call(kind_number, offset, length, place):
    """That the name call answers what the reader of names does, and of which token a name is: a statement and its proof."""
    token = f"(record {{ kind = {kind(kind_number)}; offset = {offset}; len = {length} }})"
    case, numbers = place.removeprefix("reading.").split(" ", 1)
    if case == "Refused":
        answer, proof = f"named.Refused {numbers}", "ReadsName.no_name"
    else:
        answer = f"named.{case} whose.{KINDS[kind_number]} {numbers}"
        proof = f"ReadsName.in_{case.lower()} Sigil.{SIGILS[kind_number]}"
    read = f"Read Reader.name text {token} buffer ({place}) after"
    statement = f"((text buffer after : List ℕ) → {read} → ReadsName text {token} buffer ({answer}) after)"
    return statement, f"λ text buffer after r. {proof} r"


def reader_row(line):
    asked_reader, kind_number, offset, source, said, *numbers = line.split()
    reader, takes = READERS[asked_reader]
    kind_number, offset, source = int(kind_number), int(offset), from_hexadecimal(source)
    answer = reader
    if reader == "name":
        token = SIGILS.get(kind_number)
        answer, takes = f"name of an {token}" if token else NAMED[-1], f"{takes} Sigil.{token}"
    asked = f"(Reader.{reader}) {kind(kind_number)}"
    if said == "other-kind":
        proof = other_kind(reader, kind(kind_number))
        return Row(line, answer, f"Takes {asked} → ⊥", proof, column="31", shown=repr(source))
    left = from_hexadecimal(numbers[-1]) if numbers else b""
    copied = left
    if said == "absent":
        value, place = "absent", "reading.Absent"
    elif said == "part":
        start, copied = int(numbers[0]), b""
        value, place = f"(part {start - offset} {listed(left)})", f"reading.Text {start} {len(left)}"
    elif said == "copy":
        value, place = f"(copy {listed(left)})", f"reading.Buffer 0 {len(left)}"
    else:
        said, *data, at = numbers[:-1]
        reason = error(int(said), data)
        value, place = f"(refused {listed(left)} {reason})", f"reading.Refused (Lexical {reason}) {at}"
    reads = f"Reads {asked} {listed(source)} {value}"
    proof = derivation(reader, kind_number, source.decode(), said, left)
    # where UTF-8 ends is beyond these proofs: they take the theorem of wat for it, which says that the check is right
    if said == "22":
        reads, proof = f"(evidence.CheckIsRight → {reads})", f"λ right. {proof}"
    statement = f"Takes {asked} × {reads} × (found {offset} {value} ≡ {place}) × (needs {value} ≡ {listed(copied)})"
    proof = f"Takes.{takes}, {proof}, refl, refl"
    if reader == "name":
        called, why = name_call(kind_number, offset, len(source), place)
        statement, proof = f"{statement} × {called}", f"{proof}, {why}"
    return Row(line, answer, statement, f"({proof})", column=said, shown=repr(source))
