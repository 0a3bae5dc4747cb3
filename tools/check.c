/* ./wat-tokens --check: whether texts pass, over the proved library. A text passes where one listing carries it from
 * byte 0 to its end and each of its names, of ids and of annotations, can be read. For each that does not, a line on
 * standard error: FILE:LINE:COLUMN: message.
 *
 * check [--name NAME] FILE...: `-` is standard input, which the lines call NAME. Exit status: 0 all pass, 1 one does not
 * or cannot be read, 2 wrong use. */
#include "thallusweb.h"

#include <errno.h>
#include <stdio.h>
#include <stdlib.h>
#include <string.h>

/* A text, and what is lent to the calls on it: a list with room for a token to each byte, a buffer that holds each name. */
struct room {
    uint8_t *text, *list, *buffer;
};

/* Says why a file has no text to look at. */
static bool unread(const char *name) {
    fprintf(stderr, "%s: %s\n", name, strerror(errno));
    return false;
}

/* The bytes of a file, which are one more than the longest text if there are that many. */
static bool contents(const char *file, const char *name, uint8_t *text, size_t *len) {
    bool standard_input = strcmp(file, "-") == 0;
    FILE *from = standard_input ? stdin : fopen(file, "rb");
    if (from == NULL) {
        return unread(name);
    }
    *len = fread(text, 1, THALLUSWEB_MAX_TEXT + 1, from);
    bool read = !ferror(from) || unread(name);
    if (!standard_input) {
        fclose(from);
    }
    return read;
}

/* Says what is refused, by the refusal's words, and at which byte. Always false, since the text does not pass. */
static bool refused(const char *name, const uint8_t *text, size_t at, const uint64_t refusal[5]) {
    uint32_t place[3] = {1, 1, 0};
    thallusweb_move(place, text, at);
    char message[THALLUSWEB_MESSAGE];
    uint64_t told[5];
    thallusweb_message(refusal[1], refusal[3], refusal[4], (uint8_t *)message, sizeof message, told);
    if (told[0] != 1) { /* 1 and 2 are refusals of the text, and no errors with a message */
        const char *why = refusal[1] == 1   ? "text longer than 16777216 bytes"
                          : refusal[1] == 2 ? "text is not UTF-8"
                                            : "refused";
        told[1] = (uint64_t)snprintf(message, sizeof message, "%s", why);
    }
    fprintf(stderr, "%s:%u:%u: %.*s\n", name, place[0], place[1], (int)told[1], message);
    return false;
}

/* Whether the names among so many listed tokens can be read. The call is handed just the token's bytes: the name is the
 * same (passes_readable). */
static bool names_pass(const char *name, const struct room *room, uint64_t count) {
    size_t at = 0;
    for (uint64_t i = 0; i < count; i++) {
        const uint8_t *record = room->list + THALLUSWEB_RECORD * i;
        uint64_t len = record[0] | record[1] << 8 | record[2] << 16 | (uint64_t)record[3] << 24;
        uint64_t kind = record[4] | record[5] << 8;
        if (kind == THALLUSWEB_KIND_ID || kind == THALLUSWEB_KIND_ANNOTATION) {
            uint64_t token[THALLUSWEB_TOKEN_WORDS] = {kind, 0, len};
            uint64_t answer[THALLUSWEB_NAME_WORDS];
            thallusweb_name(room->text + at, len, token, room->buffer, len, answer);
            if (answer[0] == THALLUSWEB_REFUSED) {
                return refused(name, room->text, at, answer);
            }
        }
        at += len;
    }
    return true;
}

/* Whether the text of a file passes; says so if not. */
static bool passes(const char *file, const char *name, const struct room *room) {
    size_t len;
    if (!contents(file, name, room->text, &len)) {
        return false;
    }
    uint64_t listed[7];
    thallusweb_list(room->text, len, 0, 0, len, room->list, THALLUSWEB_RECORD * len, listed);
    if (listed[0] != 0) {
        return refused(name, room->text, listed[2] <= len ? listed[2] : 0, listed);
    }
    return names_pass(name, room, listed[5]);
}

int main(int argc, char **argv) {
    const char *standard_input = "<stdin>";
    int first = 1;
    if (argc > 2 && strcmp(argv[1], "--name") == 0) {
        standard_input = argv[2];
        first = 3;
    }
    if (first >= argc) {
        fprintf(stderr, "usage: check [--name NAME] FILE...\n");
        return 2;
    }
    /* of the longest text; only what is written of it takes memory */
    size_t most = THALLUSWEB_MAX_TEXT + 1;
    struct room room = {malloc(most), malloc(THALLUSWEB_RECORD * most), malloc(most)};
    if (room.text == NULL || room.list == NULL || room.buffer == NULL) {
        perror("memory");
        return 1;
    }
    bool all = true;
    for (int i = first; i < argc; i++) {
        all &= passes(argv[i], strcmp(argv[i], "-") == 0 ? standard_input : argv[i], &room);
    }
    free(room.text);
    free(room.list);
    free(room.buffer);
    return all ? 0 : 1;
}
