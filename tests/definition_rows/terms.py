"""Terms of antt, and the numbers of docs/RULES.md with the names that the definitions have for them."""

KINDS = {
    1: "LineComment",
    2: "BlockComment",
    3: "Whitespace",
    4: "LParen",
    5: "RParen",
    6: "String",
    7: "Id",
    8: "Keyword",
    9: "Annotation",
    10: "Reserved",
    11: "Integer",
    12: "Inf",
    13: "Nan",
    14: "NanVal",
    15: "Normal",
}
PLUS, MINUS, UNDERSCORES, HEX = 256, 512, 1024, 2048
# the settings of lexing by the oracle's names: those that the definitions name, and the two with strict digits
SETTINGS = {
    "plain": "plain",
    "lenient": "lenient",
    "strict": "(record { allow_confusing = false; strict_digits = true })",
    "both": "(record { allow_confusing = true; strict_digits = true })",
}
# each error, and how many data it carries; readers alone give those of names
NAMES = {22, 23, 24}
ERRORS = {
    10: ("DanglingBlockComment", 0),
    11: ("Unexpected", 1),
    12: ("InvalidStringElement", 1),
    13: ("InvalidStringEscape", 1),
    14: ("InvalidHexDigit", 1),
    16: ("Expected", 2),
    17: ("UnexpectedEof", 0),
    18: ("NumberTooBig", 0),
    19: ("InvalidUnicodeValue", 1),
    20: ("LoneUnderscore", 0),
    21: ("ConfusingUnicode", 1),
    22: ("InvalidUtf8Id", 2),
    23: ("EmptyId", 0),
    24: ("EmptyAnnotation", 0),
    25: ("DoubleUnderscore", 0),
}
# the refusals that the original does not have (rules 1, 11 and 13)
REFUSALS = {
    1: "TooLong",
    2: "NotUtf8",
    3: "PastEnd",
    4: "InsideCharacter",
    30: "NotThatToken",
    31: "NotThatKind",
    32: "BufferTooShort",
    34: "NoMessage",
}
# a full list (rule 10), which is no refusal of the definitions
FULL = {33: "list_full"}
# the readers by the oracle's words for them, and what `Takes` calls the kinds that they take
READERS = {
    "0": ("src", "any"),
    "1": ("string", "a_string"),
    "name": ("name", "a_name"),
    "4": ("digits", "an_integer"),
    "5": ("float the.Integral", "a_float"),
    "6": ("float the.Fraction", "a_float"),
    "7": ("float the.Exponent", "a_float"),
    "8": ("float the.Payload", "a_float"),
}
# what `Sigil` calls the tokens that have a name, by their kinds
SIGILS = {7: "id", 9: "annotation"}


def listed(items):
    return f"({''.join(f'{item} ∷ ' for item in items)}[])"


def applied(function, arguments):
    return f"({' '.join([function, *map(str, arguments)])})" if arguments else function


def flag(is_so):
    return "true" if is_so else "false"


def integer_kind(sign, underscores, hexadecimal):
    fields = f"sign = sign.{sign}; underscores = {flag(underscores)}; hex = {flag(hexadecimal)}"
    return f"(kind.Integer (record {{ {fields} }}))"


def float_kind(name, flags):
    return f"(kind.Float {applied(f'float.{name}', list(map(flag, flags)))})"


def kind(number):
    name = KINDS[number % 256]
    if name == "Integer":
        sign = "Plus" if number & PLUS else "Minus" if number & MINUS else "Unsigned"
        return integer_kind(sign, number & UNDERSCORES, number & HEX)
    floats = {"Inf": [MINUS], "Nan": [MINUS], "NanVal": [MINUS, UNDERSCORES], "Normal": [UNDERSCORES, HEX]}
    if name in floats:
        return float_kind(name, [number & bit for bit in floats[name]])
    return f"kind.{name}"


def error(number, data):
    name, count = ERRORS[number]
    return applied(f"error.{name}", data[:count])
