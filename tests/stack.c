/* Every call on large texts, the first of them as large as can be and nested as deep, on a stack of 16 KiB with a page below it that
 * cannot be touched: it ends by a signal if a call needs more. Forms are as deep as they are read, with large tokens at each level. */
#define _GNU_SOURCE
#include "thallusweb.h"

#include <stdio.h>
#include <stdlib.h>
#include <string.h>
#include <sys/mman.h>
#include <ucontext.h>
#include <unistd.h>

#define STACK 16384

static uint8_t *text, *buffer;
static size_t most = THALLUSWEB_MAX_TEXT;

static bool as_deep = true; /* that forms were read as deep as they are */

/* Writes so many bytes from a position on, a piece again and again; gives the position behind. */
static size_t repeat(size_t at, const char *piece, size_t bytes) {
    size_t n = strlen(piece);
    for (size_t i = 0; i < bytes; i++) text[at + i] = (uint8_t)piece[i % n];
    return at + bytes;
}

/* Forms in each other, so many, at each level a comment with as many in each other as there is room for, and a string; closings up to
 * the end. */
static void nest(size_t levels) {
    size_t at = 0, room = most / (levels + 1) / 4 & ~(size_t)1;
    for (size_t level = 0; level < levels; level++) {
        at = repeat(at, "(", 1);
        at = repeat(at, "(;", room);
        at = repeat(at, ";)", room);
        at = repeat(at, "\"", 1);
        at = repeat(at, "a", room);
        at = repeat(at, "\"", 1);
    }
    repeat(at, ")", most - at);
}

/* The form at 0, which is refused by a number, or ends where that is 0. */
static void fold(uint64_t refusal) {
    uint64_t out[5];
    thallusweb_fold(text, most, 0, 0, out);
    as_deep = as_deep && (refusal == 0 ? out[0] == THALLUSWEB_TOLD : out[0] == THALLUSWEB_REFUSED && out[1] == refusal);
}

static void ask(void) {
    uint64_t out[7], part[3];
    uint32_t place[3] = {1, 1, 0};
    thallusweb_utf8_check(text, most, out);
    thallusweb_annotation(text, most, 0, 0, out);
    thallusweb_list(text, most, 0, 0, SIZE_MAX, buffer, 6 * most, out);
    thallusweb_fold(text, most, 0, 0, out);
    thallusweb_parse(text, most, THALLUSWEB_ALLOW_CONFUSING, 0, out);
    uint64_t token[3] = {out[1], out[2], out[3]};
    for (uint64_t reader = 0; reader < 10; reader++) {
        thallusweb_read(text, most, reader, token, buffer, most, out);
        thallusweb_part(text, most, buffer, most, out, part);
    }
    thallusweb_name(text, most, token, buffer, most, out);
    thallusweb_part(text, most, buffer, most, out, part);
    thallusweb_integer_sign(text, most, token, out);
    thallusweb_float_sign(text, most, token, out);
    thallusweb_integer_32(text, most, token, out);
    thallusweb_integer_64(text, most, token, out);
    for (uint64_t number = 0; number <= 42; number++) thallusweb_message(number, 0x202e, 0x10ffff, buffer, 64, out);
    thallusweb_message(19, 0xffffffff, 0, buffer, 64, out);
    thallusweb_move(place, text, most);
}

static void run(void) {
    const char *pieces[] = {"(;", "\"", " ", ";;a", "0x1_", "1", "0", "$\"\\u{41}", "\\", "\"\\ff", "(;;)", "@", "a \"\\00\" "};
    uint64_t out[5];
    nest(THALLUSWEB_LEVELS);
    fold(0);
    nest(THALLUSWEB_LEVELS + 1);
    fold(THALLUSWEB_TOO_DEEP);
    for (size_t i = 0; i < sizeof pieces / sizeof *pieces; i++) {
        repeat(0, pieces[i], most);
        ask();
        text[most - 1] = '"';
        ask();
        text[0] = '"';
        ask();
        for (size_t levels = THALLUSWEB_LEVELS; levels <= THALLUSWEB_LEVELS + 1; levels++) {
            size_t at = repeat(0, "(", levels);
            repeat(at, pieces[i], most - at);
            thallusweb_fold(text, most, 0, 0, out);
        }
        most = 1 << 20;
    }
}

int main(void) {
    static ucontext_t here, there;
    size_t page = (size_t)sysconf(_SC_PAGESIZE);
    text = malloc(most);
    buffer = malloc(6 * most);
    uint8_t *area = mmap(NULL, page + STACK, PROT_READ | PROT_WRITE, MAP_PRIVATE | MAP_ANONYMOUS, -1, 0);
    if (text == NULL || buffer == NULL || area == MAP_FAILED || mprotect(area, page, PROT_NONE) != 0 || getcontext(&there) != 0) {
        perror("stack");
        return 1;
    }
    there.uc_stack.ss_sp = area + page;
    there.uc_stack.ss_size = STACK;
    there.uc_link = &here;
    makecontext(&there, run, 0);
    if (swapcontext(&here, &there) != 0) {
        perror("stack");
        return 1;
    }
    if (!as_deep) {
        fputs("stack: forms are not read as deep as they are\n", stderr);
        return 1;
    }
    puts("16 KiB of stack suffice for every call");
    return 0;
}
