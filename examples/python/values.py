"""The values of the strings, names and integers in a file, with lines and columns, by the installed library: values.py FILE"""
import ctypes
import struct
import sys

pointer, size, word, small = ctypes.c_void_p, ctypes.c_size_t, ctypes.c_uint64, ctypes.c_uint32
lib = ctypes.CDLL("libthallusweb.so")
lib.thallusweb_list.argtypes = pointer, size, small, size, size, pointer, size, pointer
lib.thallusweb_read.argtypes = pointer, size, word, pointer, pointer, size, pointer
lib.thallusweb_name.argtypes = pointer, size, pointer, pointer, size, pointer
lib.thallusweb_part.argtypes = pointer, size, pointer, size, pointer, pointer
lib.thallusweb_integer_64.argtypes = pointer, size, pointer, pointer
lib.thallusweb_message.argtypes = word, word, word, pointer, size, pointer
lib.thallusweb_move.argtypes = pointer, pointer, size
RECORD, MESSAGE = 6, 64  # THALLUSWEB_RECORD, THALLUSWEB_MESSAGE
STRING = 1  # THALLUSWEB_STRING
KIND_STRING, KIND_ID, KIND_ANNOTATION, KIND_INTEGER, KIND_MASK = 6, 7, 9, 11, 255  # with THALLUSWEB_ before them


def value(own, kind):
    """What a token stands for, given just its own bytes, an integer as a signed one of 64 bits; of a name first whose it
    is, which the call says; nothing if it is refused."""
    token, copy = (word * 3)(kind, 0, len(own)), ctypes.create_string_buffer(len(own))
    answer, part = (word * 6)(), (word * 3)()
    if kind & KIND_MASK == KIND_INTEGER:
        lib.thallusweb_integer_64(own, len(own), token, answer)
        return b"%d" % ctypes.c_int64(answer[1]).value if answer[0] == 1 else b""
    if kind == KIND_STRING:
        lib.thallusweb_read(own, len(own), STRING, token, copy, len(copy), answer)
    else:
        lib.thallusweb_name(own, len(own), token, copy, len(copy), answer)
    lib.thallusweb_part(own, len(own), copy, len(copy), answer, part)
    whose = {KIND_ID: b"id ", KIND_ANNOTATION: b"annotation "}.get(answer[5], b"")
    return whose + (copy.raw if part[0] == 3 else own)[part[1] : part[1] + part[2]]


def main(name):
    with open(name, "rb") as file:
        text = file.read()
    records, listed, at = ctypes.create_string_buffer(RECORD * len(text) + 1), (word * 7)(), 0
    place = (small * 3)(1, 1, 0)  # line, column, and whether the last byte passed is a CR
    lib.thallusweb_list(text, len(text), 0, 0, len(text), records, RECORD * len(text), listed)
    for i in range(listed[5]):
        length, kind = struct.unpack_from("<IH", records, RECORD * i)
        own = text[at : at + length]
        if kind in (KIND_STRING, KIND_ID, KIND_ANNOTATION) or kind & KIND_MASK == KIND_INTEGER:
            sys.stdout.buffer.write(b"%d:%d %s\n" % (place[0], place[1], value(own, kind)))
        lib.thallusweb_move(place, own, length)
        at += length
    if listed[0] == 2:
        message, told = ctypes.create_string_buffer(MESSAGE), (word * 5)()
        lib.thallusweb_move(place, text[at : listed[2]], max(listed[2] - at, 0))
        lib.thallusweb_message(listed[1], listed[3], listed[4], message, MESSAGE, told)
        said = message.raw[: told[1]].decode() if told[0] == 1 else f"refused by {listed[1]}"
        sys.exit(f"{name}:{place[0]}:{place[1]}: {said}")


if len(sys.argv) != 2:
    sys.exit("usage: values.py FILE")
main(sys.argv[1])
