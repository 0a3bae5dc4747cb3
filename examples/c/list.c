/* Lists the tokens of a file, each with its line, column, kind and bytes, what the strings and names among them stand
 * for, the values of the integers, and for a ( that stands in no form where its form ends. */
#include "thallusweb.h"

#include <stdio.h>
#include <stdlib.h>
#include <string.h>

/* how many bytes of the text are looked at first for tokens and for a form, and how many tokens are listed at once */
enum { WINDOW = 4096, FORM = 64, CHUNK = 4096 };

/* The bytes of a file, which are one more than the longest text if there are that many. */
static uint8_t *contents(const char *name, size_t *len) {
    FILE *file = fopen(name, "rb");
    if (file == NULL) {
        perror(name);
        exit(1);
    }
    uint8_t *text = malloc(THALLUSWEB_MAX_TEXT + 1);
    if (text == NULL) {
        perror("memory");
        exit(1);
    }
    *len = fread(text, 1, THALLUSWEB_MAX_TEXT + 1, file);
    if (ferror(file)) {
        perror(name);
        exit(1);
    }
    fclose(file);
    return text;
}

/* A refusal's message, or its number where it has none of its own. */
static void complain(const char *name, const uint32_t place[3], const uint64_t refusal[5]) {
    uint8_t message[THALLUSWEB_MESSAGE];
    uint64_t told[THALLUSWEB_MESSAGE_WORDS];
    thallusweb_message(refusal[1], refusal[3], refusal[4], message, sizeof message, told);
    if (told[0] == THALLUSWEB_TOLD) {
        printf("%s:%u:%u: %.*s\n", name, place[0], place[1], (int)told[1], (const char *)message);
    } else {
        printf("%s:%u:%u: refused by %llu\n", name, place[0], place[1], (unsigned long long)refusal[1]);
    }
}

/* Whether print_value is for tokens of the kind: a string, or one of the two that have a name. */
static bool has_value(uint64_t kind) {
    return kind == THALLUSWEB_KIND_STRING || kind == THALLUSWEB_KIND_ID || kind == THALLUSWEB_KIND_ANNOTATION;
}

/* What a string stands for, or a name, and of which token it is: one call reads both. It is handed just the token's own
 * bytes: the value is the same, and the price the token's. */
static void print_value(const uint8_t *own, uint64_t kind, uint64_t len) {
    uint64_t token[THALLUSWEB_TOKEN_WORDS] = {kind, 0, len};
    uint64_t answer[THALLUSWEB_NAME_WORDS], part[THALLUSWEB_PART_WORDS];
    uint8_t *buffer = malloc(len);
    if (buffer == NULL) {
        perror("memory");
        exit(1);
    }
    const char *whose = "";
    if (kind == THALLUSWEB_KIND_STRING) {
        thallusweb_read(own, len, THALLUSWEB_STRING, token, buffer, len, answer);
    } else {
        thallusweb_name(own, len, token, buffer, len, answer);
        whose = answer[5] == THALLUSWEB_KIND_ID ? "id " : "annotation ";
    }
    thallusweb_part(own, len, buffer, len, answer, part);
    if (answer[0] == THALLUSWEB_REFUSED) {
        printf(" refused by %llu", (unsigned long long)answer[1]);
    } else {
        printf(" = %s", whose);
        fwrite((part[0] == THALLUSWEB_IN_BUFFER ? buffer : own) + part[1], 1, part[2], stdout);
    }
    free(buffer);
}

/* An integer's value as an int64_t, for the price of the token too. */
static void print_integer(const uint8_t *own, uint64_t kind, uint64_t len) {
    uint64_t token[THALLUSWEB_TOKEN_WORDS] = {kind, 0, len}, answer[THALLUSWEB_INTEGER_WORDS];
    thallusweb_integer_64(own, len, token, answer);
    if (answer[0] == THALLUSWEB_REFUSED) {
        printf(" refused by %llu", (unsigned long long)answer[1]);
    } else {
        printf(" = %lld", (long long)answer[1]);
    }
}

/* The tokens of a UTF-8 text from `at` on, at most CHUNK of them, as records in `list`; the words as thallusweb_list
 * leaves them for the whole text, but for the position. Each call checks the text that it is given: so it is given a
 * window, which grows until a token ends inside it, and all takes as long as the text is. That the window's answers are
 * the text's is proved (docs/ARCHITECTURE.md: windows): each token but one that ends where the window does, and each
 * error but 10 that leaves the position before the window's end. */
static void next_tokens(const uint8_t *text, size_t len, size_t at, uint8_t *list,
                        uint64_t listed[THALLUSWEB_LIST_WORDS]) {
    for (size_t window = WINDOW;; window *= 2) {
        size_t end = len - at <= window ? len : at + window;
        while (end < len && (text[end] & 0xC0) == 0x80) {
            end--; /* to the start of a character */
        }
        thallusweb_list(text + at, end - at, 0, 0, CHUNK, list, THALLUSWEB_RECORD * CHUNK, listed);
        bool refused = listed[0] == THALLUSWEB_REFUSED;
        bool decided = listed[0] == THALLUSWEB_BUDGET ||
                       (refused && listed[1] != THALLUSWEB_DANGLING_BLOCK_COMMENT && listed[6] < end - at);
        if (refused) {
            listed[2] += at;
        }
        if (decided || end == len) {
            return;
        }
        if (listed[0] == THALLUSWEB_END) {
            listed[5]--; /* the token that ends where the window does */
        }
        if (listed[5] > 0) {
            listed[0] = THALLUSWEB_BUDGET;
            return;
        }
    }
}

/* Where the form at `at` ends, or by what it is refused; gives the position past it, or the text's end. The call is
 * given a window here too, which grows until the form ends inside it. */
static size_t print_form(const uint8_t *text, size_t len, size_t at, const uint32_t place[3]) {
    uint64_t folded[THALLUSWEB_FOLD_WORDS];
    for (size_t window = FORM;; window *= 2) {
        size_t end = len - at <= window ? len : at + window;
        while (end < len && (text[end] & 0xC0) == 0x80) {
            end--;
        }
        thallusweb_fold(text + at, end - at, 0, 0, folded);
        if (folded[0] == THALLUSWEB_TOLD) {
            uint32_t past[3] = {place[0], place[1], place[2]};
            thallusweb_move(past, text + at, folded[1]);
            printf(" up to %u:%u", past[0], past[1]);
            return at + folded[1];
        }
        if (end == len) {
            printf(" refused by %llu", (unsigned long long)folded[1]);
            return len;
        }
    }
}

int main(int argc, char **argv) {
    if (argc != 2) {
        fprintf(stderr, "usage: list FILE\n");
        return 2;
    }
    if (thallusweb_version() != THALLUSWEB_VERSION) {
        fprintf(stderr, "list: the library is not the header's\n");
        return 2;
    }
    size_t len;
    uint8_t *text = contents(argv[1], &len);
    uint32_t place[3] = {1, 1, 0};
    uint64_t listed[THALLUSWEB_LIST_WORDS];
    static uint8_t list[THALLUSWEB_RECORD * CHUNK];
    /* with a budget of 0 this says whether the text is refused, by 1 or 2 */
    thallusweb_list(text, len, 0, 0, 0, list, sizeof list, listed);
    if (listed[0] == THALLUSWEB_REFUSED) {
        complain(argv[1], place, listed);
        free(text);
        return 1;
    }
    size_t at = 0, past = 0; /* the last form that stands in no other */
    for (;;) {
        next_tokens(text, len, at, list, listed);
        for (size_t i = 0; i < listed[5]; i++) {
            const uint8_t *record = list + THALLUSWEB_RECORD * i;
            uint64_t token_len = record[0] | record[1] << 8 | record[2] << 16 | (uint64_t)record[3] << 24;
            uint64_t kind = record[4] | record[5] << 8;
            if (kind != THALLUSWEB_KIND_WHITESPACE) {
                printf("%u:%u %llu ", place[0], place[1], (unsigned long long)kind);
                fwrite(text + at, 1, token_len, stdout);
                if (has_value(kind)) {
                    print_value(text + at, kind, token_len);
                } else if ((kind & THALLUSWEB_KIND_MASK) == THALLUSWEB_KIND_INTEGER) {
                    print_integer(text + at, kind, token_len);
                } else if (kind == THALLUSWEB_KIND_LPAREN && at >= past) {
                    past = print_form(text, len, at, place);
                }
                putchar('\n');
            }
            thallusweb_move(place, text + at, token_len);
            at += token_len;
        }
        if (listed[0] == THALLUSWEB_END) {
            free(text);
            return 0;
        }
        if (listed[0] == THALLUSWEB_REFUSED) {
            if (listed[2] >= at && listed[2] <= len) {
                thallusweb_move(place, text + at, listed[2] - at);
            }
            complain(argv[1], place, listed);
            free(text);
            return 1;
        }
    }
}
