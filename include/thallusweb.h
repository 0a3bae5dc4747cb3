/* Thallusweb: a lexer for the WebAssembly text format with one proved reading.
 *
 * thallusweb_list takes a text apart into tokens, thallusweb_parse gives one token, thallusweb_fold finds the end of a
 * form; thallusweb_read, thallusweb_name and thallusweb_part give what a string, a number or a name among the tokens
 * stands for, and thallusweb_integer_32 and thallusweb_integer_64 an integer's value; thallusweb_move counts lines and
 * columns. The program examples/c/list.c does all of this.
 *
 * A text is an array of bytes in UTF-8, at most THALLUSWEB_MAX_TEXT of them; another is refused by number. No 0 byte
 * ends it: a 0 is a character like others. Lengths, positions, offsets and places count bytes.
 *
 * A call needs two things of its arguments:
 *   - A pointer is good for the length that is given, and is not null, where the length is 0 too.
 *   - What a call writes (list, buffer, out, place) overlaps nothing else that it is passed: no two lent arrays
 *     overlap, unless both are only read. With a buffer inside the text, or `out` as a token's words, answers would be
 *     wrong.
 * Everything else may be anything: a call answers for every text, position, settings word, token, number and size.
 *
 * An answer goes into an array of 64-bit words, `out`. All of its words are written; those that say nothing are 0.
 *
 * A call that takes a text checks all of it for UTF-8 first, however short its token is: so a whole text is best listed
 * by one call, and a token read as a text of its own. What each call costs is said there.
 *
 * A call allocates nothing, keeps nothing for the next one, reads nothing but what it is lent, and prints nothing: any
 * number of threads may call at once. 16 KiB of stack suffice for every call (tests/stack.c).
 */
#ifndef THALLUSWEB_H
#define THALLUSWEB_H

#include <stdbool.h>
#include <stddef.h>
#include <stdint.h>

#ifdef __cplusplus
extern "C" {
#endif

/* The number of this header's words, constants and prototypes. It rises whenever one of them changes, comes or goes: a
 * library belongs to this header where thallusweb_version returns THALLUSWEB_VERSION. */
#define THALLUSWEB_VERSION 6
uint32_t thallusweb_version(void);

/* The longest text that is lexed, the bytes of a token's record in a list, a buffer that holds every message, and how
 * deep forms may stand in each other. */
#define THALLUSWEB_MAX_TEXT 16777216
#define THALLUSWEB_RECORD 6
#define THALLUSWEB_MESSAGE 64
#define THALLUSWEB_LEVELS 64

/* How many words there are: in the `out` of each call, and for a token. */
#define THALLUSWEB_UTF8_WORDS 3
#define THALLUSWEB_PARSE_WORDS 6
#define THALLUSWEB_ANNOTATION_WORDS 5
#define THALLUSWEB_LIST_WORDS 7
#define THALLUSWEB_FOLD_WORDS 5
#define THALLUSWEB_READ_WORDS 5
#define THALLUSWEB_NAME_WORDS 6
#define THALLUSWEB_PART_WORDS 3
#define THALLUSWEB_SIGN_WORDS 5
#define THALLUSWEB_INTEGER_WORDS 5
#define THALLUSWEB_MESSAGE_WORDS 5
#define THALLUSWEB_TOKEN_WORDS 3

/* Settings: bits joined by |, 0 for none. Bits that are not defined here are ignored, and should be 0, since a later
 * version may give them a meaning.
 *
 * THALLUSWEB_ALLOW_CONFUSING lets nine characters stand raw in strings and comments, where they are otherwise refused
 * by 21, since with them a page may show another text than is there:
 *   U+202A left-to-right embedding     U+202B right-to-left embedding    U+202D left-to-right override
 *   U+202E right-to-left override      U+2066 left-to-right isolate      U+2067 right-to-left isolate
 *   U+2068 first strong isolate        U+2069 pop directional isolate    U+206C inhibit Arabic form shaping
 *
 * THALLUSWEB_STRICT_DIGITS lets only a single underscore stand between two digits of a \u{..}, as the WebAssembly
 * standard has it: the second underscore of a pair is refused by 25. Without it any number of them may stand there, and
 * "\u{1__0}" is a string, of the byte 16. Nothing else depends on it: the digits of integers and floats have single
 * underscores, whatever the settings are.
 *
 * The calls that take a token, such as thallusweb_read, take no settings: they lex with the first and without the
 * second. So every token is theirs, with whatever settings it was lexed, and its value is the same. */
#define THALLUSWEB_ALLOW_CONFUSING 1
#define THALLUSWEB_STRICT_DIGITS 2

/* What out[0] says. */
enum {
    THALLUSWEB_REFUSED = 2,   /* all but part: a refusal; its number, place and values follow, but for utf8_check */
    THALLUSWEB_NOTHING = 0,   /* parse, annotation: no token */
    THALLUSWEB_TOKEN = 1,     /* parse, annotation: a token */
    THALLUSWEB_END = 0,       /* list: the end of the text */
    THALLUSWEB_BUDGET = 1,    /* list: the budget is used up */
    THALLUSWEB_FULL = 3,      /* list: no room for the next token */
    THALLUSWEB_ABSENT = 0,    /* read, float_sign: the token has no such thing; part: an empty part */
    THALLUSWEB_IN_TEXT = 1,   /* read, name, part: a part of the text */
    THALLUSWEB_IN_BUFFER = 3, /* read, name, part: a part of the buffer */
    THALLUSWEB_TOLD = 1       /* fold, integer_sign, float_sign, integer_32, integer_64, message: out[1] says it */
};

/* A token's kind: one of the first fifteen numbers, which `kind & THALLUSWEB_KIND_MASK` is, plus the bits of what a
 * number's spelling shows. */
enum {
    THALLUSWEB_KIND_LINE_COMMENT = 1,   /* ;; and what follows, up to LF, CR or the end of the text, without it */
    THALLUSWEB_KIND_BLOCK_COMMENT = 2,  /* (; .. ;), which may hold others */
    THALLUSWEB_KIND_WHITESPACE = 3,     /* a run of space, tab, LF and CR */
    THALLUSWEB_KIND_LPAREN = 4,         /* ( */
    THALLUSWEB_KIND_RPAREN = 5,         /* ) */
    THALLUSWEB_KIND_STRING = 6,         /* "abc" */
    THALLUSWEB_KIND_ID = 7,             /* $abc or $"abc" */
    THALLUSWEB_KIND_KEYWORD = 8,        /* abc */
    THALLUSWEB_KIND_ANNOTATION = 9,     /* @abc or @"abc" */
    THALLUSWEB_KIND_RESERVED = 10,      /* any other run, such as 1x or "a"b, and each of ; , [ ] { } */
    THALLUSWEB_KIND_INTEGER = 11,       /* 10, -1_000, 0xff */
    THALLUSWEB_KIND_INF = 12,           /* inf */
    THALLUSWEB_KIND_NAN = 13,           /* nan */
    THALLUSWEB_KIND_NAN_VAL = 14,       /* nan:0x12 */
    THALLUSWEB_KIND_NORMAL = 15,        /* any other float: 1.5, 1e3, 0x1p-2 */
    THALLUSWEB_KIND_PLUS = 256,         /* a + before an integer */
    THALLUSWEB_KIND_MINUS = 512,        /* a - before an integer, inf, nan or nan:0x.., and no other float */
    THALLUSWEB_KIND_UNDERSCORES = 1024, /* underscores in an integer, a nan:0x.. or any other float */
    THALLUSWEB_KIND_HEX = 2048,         /* 0x in an integer or any other float */
    THALLUSWEB_KIND_MASK = 255
};

/* Refusals: number, place and values. A value that is not named is 0; 15 is not used. */
enum {
    /* What is asked: tested first, in this order. The place of 1, 3 and 4 is the position, or the token's offset, that
     * was given; that of 2 is valid-up-to. */
    THALLUSWEB_TOO_LONG = 1,         /* the text is longer than THALLUSWEB_MAX_TEXT */
    THALLUSWEB_NOT_UTF8 = 2,         /* the text is not UTF-8; first: valid-up-to, how many bytes at its front are;
                                        second: how many bytes are wrong there, 0 if the text ends inside a character */
    THALLUSWEB_PAST_END = 3,         /* the position is past the end of the text */
    THALLUSWEB_INSIDE_CHARACTER = 4, /* the position is inside a character */

    /* What the text says. The place is the comment's start for 10 and the end of the text for 17; else it is that of
     * the character, digit or underscore that is named here. */
    THALLUSWEB_DANGLING_BLOCK_COMMENT = 10, /* a block comment is never closed */
    THALLUSWEB_UNEXPECTED = 11,             /* no token starts with this character; first: the character */
    THALLUSWEB_INVALID_STRING_ELEMENT = 12, /* a character under U+20, or U+7F, in a string; first: the character */
    THALLUSWEB_INVALID_STRING_ESCAPE = 13,  /* no escape has this character after its \; first: the character */
    THALLUSWEB_INVALID_HEX_DIGIT = 14,      /* no hexadecimal digit, where one is needed; first: the character */
    THALLUSWEB_EXPECTED = 16,               /* another character than the { or } of \u{..}; first: the one wanted,
                                               second: the character */
    THALLUSWEB_UNEXPECTED_EOF = 17,         /* the text ends inside a string */
    THALLUSWEB_NUMBER_TOO_BIG = 18,         /* with this digit the number of a \u{..} no longer fits 32 bits */
    THALLUSWEB_INVALID_UNICODE_VALUE = 19,  /* with this last digit the number of a \u{..} is no Unicode scalar value;
                                               first: the number */
    THALLUSWEB_LONE_UNDERSCORE = 20,        /* the number of a \u{..} ends in this underscore */
    THALLUSWEB_CONFUSING_UNICODE = 21,      /* one of the nine above, raw in a string or a comment, the first there;
                                               first: the character */
    THALLUSWEB_DOUBLE_UNDERSCORE = 25,      /* with THALLUSWEB_STRICT_DIGITS: this underscore follows another in the
                                               number of a \u{..}; in reading order with 18, before 20 and 19 */

    /* What a name stands for. The place is the token's offset. */
    THALLUSWEB_INVALID_UTF8_ID = 22,  /* the name is not UTF-8; first and second: as for 2, in the decoded name */
    THALLUSWEB_EMPTY_ID = 23,         /* nothing stands behind the $, or an empty string */
    THALLUSWEB_EMPTY_ANNOTATION = 24, /* nothing stands behind the @, or an empty string */

    /* What a call cannot do. These have no place: it is 0. */
    THALLUSWEB_NOT_THAT_TOKEN = 30,   /* no token of that kind and length stands at the offset */
    THALLUSWEB_NOT_THAT_KIND = 31,    /* the call does not take tokens of that kind; fold: no ( stands there */
    THALLUSWEB_BUFFER_TOO_SHORT = 32, /* the copy or the message is longer than the buffer */
    THALLUSWEB_LIST_FULL = 33,        /* the list has no room for the next token; out[0] is THALLUSWEB_FULL */
    THALLUSWEB_NO_MESSAGE = 34,       /* no error that has a message has that number and those values */
    THALLUSWEB_COUNTER_FULL = 35,     /* a line or column over 4,294,967,295: thallusweb_move returns false */
    THALLUSWEB_OUT_OF_RANGE = 40,     /* no word of so many bits is the integer's value */

    /* What keeps a form from ending. */
    THALLUSWEB_TOO_DEEP = 41, /* a ( that would be level THALLUSWEB_LEVELS + 1; the place is the ( */
    THALLUSWEB_UNCLOSED = 42  /* the text ends, and a form is open; the place is the end of the text */
};

/* Whether the text, here of any length, is UTF-8. out: 0, 0, 0; or THALLUSWEB_REFUSED, valid-up-to and the number of
 * wrong bytes, as the values of refusal 2.
 * Cost: the text. */
void thallusweb_utf8_check(const uint8_t *text, size_t len, uint64_t out[3]);

/* One token at a position. out[0]:
 *   THALLUSWEB_NOTHING   the position is the end of the text
 *   THALLUSWEB_TOKEN     out[1] its kind, out[2] its offset, which is the position, out[3] its length
 *   THALLUSWEB_REFUSED   1 to 4, 10 to 21 or 25: out[1] the number, out[2] its place, out[3] and out[4] its values
 * out[5] is the position afterwards: past the token; after 12 to 20 and 25 past the last character read; after 21 in a
 * string the same, in a comment past the comment. After 1 to 4, 10 and 11, and at the end, it is the position given,
 * where the same call answers the same again.
 * Cost: a check of the whole text, then the token. */
void thallusweb_parse(const uint8_t *text, size_t len, uint32_t settings, size_t position, uint64_t out[6]);

/* The annotation at a position: the words are those of thallusweb_parse without the last. THALLUSWEB_NOTHING where no @
 * stands, past the end and inside a character too, and where another token starts with the @. Refused by 1, 2, 12 to 21
 * and 25.
 * Cost: a check of the whole text, then the token. */
void thallusweb_annotation(const uint8_t *text, size_t len, uint32_t settings, size_t position, uint64_t out[5]);

/* The tokens from `start` on, at most `budget` of them, as records in `list`: a record has THALLUSWEB_RECORD bytes, the
 * token's length in four and its kind in two, the least byte first. The first token's offset is `start`, the next one's
 * that plus the length, and so on. A list of six times the text's length always suffices, since no token is empty.
 * out[0] is why it stopped: THALLUSWEB_REFUSED by 1 to 4 before any token, else the first of these that holds:
 *   THALLUSWEB_END       the end of the text
 *   THALLUSWEB_BUDGET    as many tokens as `budget` says are in the list
 *   THALLUSWEB_REFUSED   10 to 21 or 25: out[1] the number, out[2] its place, out[3] and out[4] its values, as for 1
 *                        to 4
 *   THALLUSWEB_FULL      no room for the next token: out[1] is 33
 * out[5] is how many tokens are in the list. out[6] is the position, from which another call goes on: the start of the
 * first token that is not in the list, or after a refusal what thallusweb_parse leaves in out[5] there. Bytes of the
 * list past its records stay as they were.
 * Cost: one check of the whole text, then the tokens. */
void thallusweb_list(const uint8_t *text, size_t len, uint32_t settings, size_t start, size_t budget, uint8_t *list,
                     size_t list_len, uint64_t out[7]);

/* The end of the form whose ( stands at a position: comments, strings, inner forms and whatever else stands there are
 * passed over, up to the ) that belongs to the (. The ( is level 1, and forms in it may go down to THALLUSWEB_LEVELS.
 * out[0]:
 *   THALLUSWEB_TOLD      out[1] the position past the )
 *   THALLUSWEB_REFUSED   out[1] the number, out[2] its place, out[3] and out[4] its values: 1 to 4; 31 where no LParen
 *                        token stands at the position, be it another, an error or the end; else the first in reading
 *                        order of 10 to 21, 25, 41 and 42
 * Cost: a check of the whole text, then the form; each token is lexed once, however deep it stands. */
void thallusweb_fold(const uint8_t *text, size_t len, uint32_t settings, size_t position, uint64_t out[5]);

/* Readers. Digits come without underscores, without a + and without 0x; of a hexadecimal number, other than its
 * exponent, they are hexadecimal. Ids and annotations have a call of their own, thallusweb_name; 2 and 3, their
 * readers' numbers before version 6, are no reader's now, and will not be. */
enum {
    THALLUSWEB_SRC = 0,      /* the token's own bytes; takes every kind */
    THALLUSWEB_STRING = 1,   /* the bytes that a string stands for, its escapes decoded; kind 6 */
    THALLUSWEB_INTEGER = 4,  /* an integer's digits, with its -; kind 11 */
    THALLUSWEB_INTEGRAL = 5, /* the digits before a float's point, with its -; kinds 12 to 15, as the next three */
    THALLUSWEB_FRACTION = 6, /* those after its point, if there are any */
    THALLUSWEB_EXPONENT = 7, /* those of its exponent, with its -, if it has one */
    THALLUSWEB_PAYLOAD = 8   /* those after nan:0x, of kind 14 */
};

/* A reader's first call. token: kind, offset and length, as thallusweb_parse leaves them in out[1], out[2] and out[3].
 * Copy these words, unless the answer goes into another array: `uint64_t token[3] = { out[1], out[2], out[3] };`. The
 * value's bytes are a part of the text, or a copy at the front of the buffer; a buffer as long as the token always
 * holds one. out[0]:
 *   THALLUSWEB_ABSENT     the token has no such part
 *   THALLUSWEB_IN_TEXT    out[1] where the value starts in the text, out[2] its length
 *   THALLUSWEB_IN_BUFFER  out[1] where it starts in the buffer, which is 0, out[2] its length
 *   THALLUSWEB_REFUSED    1 to 4, 30, 31 or 32, tested in this order: out[1] the number, out[2] its place, out[3] and
 *                         out[4] its values
 * A reader's number that is not above is refused by 31. Bytes of the buffer past a copy stay as they were; a refusal
 * leaves all of them.
 * Cost: a check of the whole text, then the token. Handed the token's own bytes as a text, with the offset 0, a reader
 * gives the same value for the cost of the token alone. */
void thallusweb_read(const uint8_t *text, size_t len, uint64_t reader, const uint64_t token[3], uint8_t *buffer,
                     size_t buffer_len, uint64_t out[5]);

/* The name of an id, behind its $, or of an annotation, behind its @, decoded if it is a string; and which of the two
 * it is. token, buffer and cost: as for thallusweb_read. out[0]:
 *   THALLUSWEB_IN_TEXT    out[1] where the name starts in the text, out[2] its length
 *   THALLUSWEB_IN_BUFFER  out[1] where it starts in the buffer, which is 0, out[2] its length
 *   THALLUSWEB_REFUSED    1 to 4, 30, 31 for every kind but 7 and 9, 32, 22, and 23 for an empty id or 24 for an empty
 *                         annotation, tested in this order: out[1] the number, out[2] its place, out[3] and out[4]
 *                         its values
 * out[5] is THALLUSWEB_KIND_ID or THALLUSWEB_KIND_ANNOTATION where a name is answered, else 0. Bytes of the buffer past
 * a copy stay as they were; a refusal leaves all of them, but 22, which leaves the decoded name at the front. */
void thallusweb_name(const uint8_t *text, size_t len, const uint64_t token[3], uint8_t *buffer, size_t buffer_len,
                     uint64_t out[6]);

/* The second call, after thallusweb_read or thallusweb_name: the part that the first call's answer names. out:
 * THALLUSWEB_IN_TEXT or THALLUSWEB_IN_BUFFER, its start and its length; or 0, 0, 0, an empty part, where the answer
 * names none or one that is not inside. Any five words may be handed to it, such as the first five of thallusweb_name.
 * Cost: the same for every text. */
void thallusweb_part(const uint8_t *text, size_t len, const uint8_t *buffer, size_t buffer_len,
                     const uint64_t answer[5], uint64_t out[3]);

/* The sign of an integer, as out[1] says it. */
enum {
    THALLUSWEB_SIGN_NONE = 0,
    THALLUSWEB_SIGN_PLUS = 1,
    THALLUSWEB_SIGN_MINUS = 2
};

/* An integer's sign. out[0]: THALLUSWEB_TOLD, with the sign in out[1]; or THALLUSWEB_REFUSED, by 1 to 4, 30 or 31.
 * Cost: a check of the whole text, then the token. */
void thallusweb_integer_sign(const uint8_t *text, size_t len, const uint64_t token[3], uint64_t out[5]);

/* Whether an inf, nan or nan:0x.. is negative. out[0]: THALLUSWEB_TOLD, with 1 in out[1] if it is, else 0;
 * THALLUSWEB_ABSENT for any other float, whose - is in its integral part; or THALLUSWEB_REFUSED, by 1 to 4, 30 or 31.
 * Cost: a check of the whole text, then the token. */
void thallusweb_float_sign(const uint8_t *text, size_t len, const uint64_t token[3], uint64_t out[5]);

/* An integer's value as a word of 32 or 64 bits, by the standard: without a sign a number below 2^32 or 2^64; with a +
 * or a - one of the signed range, by its two's complement. In 32 bits -1 is 4294967295, -2147483648 passes and
 * +2147483648 does not; -0 is 0. Any number of zeros may stand in front. token: as for thallusweb_read. out[0]:
 *   THALLUSWEB_TOLD      out[1] the word
 *   THALLUSWEB_REFUSED   1 to 4, 30, 31 or 40, tested in this order: out[1] the number, out[2] its place, out[3] and
 *                        out[4] its values
 * Cost: a check of the whole text, then the token. Handed the token's own bytes as a text, with the offset 0, a call
 * gives the same value for the cost of the token alone. */
void thallusweb_integer_32(const uint8_t *text, size_t len, const uint64_t token[3], uint64_t out[5]);
void thallusweb_integer_64(const uint8_t *text, size_t len, const uint64_t token[3], uint64_t out[5]);

/* The message of an error, 10 to 24: its number and its values, as a refusal has them. Values that the error does not
 * carry, and those of 22, may be anything. 25 has no message, and is refused by 34 like every other number. out[0]:
 * THALLUSWEB_TOLD, with the message's length in out[1] and the message at the front of the buffer (no 0 follows it); or
 * THALLUSWEB_REFUSED, by 34 or 32, tested in this order, which leaves the buffer as it was. THALLUSWEB_MESSAGE bytes
 * always suffice.
 * Cost: the message. */
void thallusweb_message(uint64_t number, uint64_t first, uint64_t second, uint8_t *buffer, size_t buffer_len,
                        uint64_t out[5]);

/* The place counter: line and column, each from 1, and 1 if the last byte passed is a CR, else 0, so that a new one is
 * { 1, 1, 0 }. It is moved over bytes, such as a token's. A line ends at LF (the byte 10), at CR (13), and at CR LF
 * together, also where the two fall to two moves. After either byte the column is 1; every other byte is a column. Any
 * third word but 0 counts as 1; a move, over no byte too, leaves 0 or 1 there. Returns false, and leaves all words as
 * they were, where a line or column would pass 4,294,967,295 at any byte (35).
 * Cost: the bytes. */
bool thallusweb_move(uint32_t place[3], const uint8_t *bytes, size_t len);

#ifdef __cplusplus
}
#endif

#endif
