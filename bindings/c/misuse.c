// Every function with wrong lengths, unsound tables and random bytes: only answers and refusals come back, and what must stay, stays.
// Each slice ends or begins at a page that may not be touched, so that one element past it ends the program.
//
// misuse [ROUNDS] [SEED]: each round calls eight functions, and one of twelve `lir_fresh` too. Standard input has images, one a line in hexadecimal.
#define _GNU_SOURCE
#include <inttypes.h>
#include <stdio.h>
#include <stdlib.h>
#include <string.h>
#include <sys/mman.h>

#include "../../include/lir.h"

enum { REGISTERS, ANSWER, STORE, FRAMES, BOUNDS, POINTERS, VARIABLES, IMAGE, BYTES, TAGS, BITS, LIVE, FRAME, ALLOCATION, OFFSET, SLICES };
enum { FRESH, START, STEP, RUN, ALLOCATE, WRITE, READ, LIST, WRITE_IMAGE, FUNCTIONS };
enum { GUARD = 65536, IMAGES = 4096, LONGEST = 33000, COMPARED = 64 };

#define BIT(slice) (1u << (slice))
#define TABLES (BIT(REGISTERS) | BIT(ANSWER) | BIT(STORE) | BIT(FRAMES) | BIT(BOUNDS) | BIT(POINTERS) | BIT(VARIABLES))

// The right count of a slice's elements (for those with none, the most that is lent), and the size of one.
static const size_t right[SLICES] = { LIR_REGISTERS, LIR_ANSWER, LIR_STORE, LIR_FRAMES, LIR_BOUNDS, LIR_POINTERS, LIR_VARIABLES, LONGEST, 400, 20, 20, 5000, 5000, 5000, 5000 };
static const size_t width[SLICES] = { 8, 8, 1, 8, 8, 8, 8, 1, 1, 8, 8, 8, 8, 8, 8 };

// Which slices a call that is not refused may change.
static const unsigned changed[FUNCTIONS] = {
    TABLES, TABLES, TABLES, TABLES, TABLES & ~BIT(VARIABLES), BIT(STORE), BIT(ANSWER) | BIT(BYTES),
    BIT(LIVE) | BIT(FRAME) | BIT(ALLOCATION) | BIT(OFFSET), BIT(ANSWER) | BIT(BYTES),
};

// The pages of a slice, from its first byte to the one after its last; low: it is lent from the first byte on, else up to the last.
static struct { uint8_t *first, *end, *shadow; int low; } pages[SLICES];
static struct { void *at; size_t count; } lent[SLICES];
static struct { uint8_t *bytes; size_t count; } images[IMAGES];
static size_t image_count, image_now;
static uint64_t chance, tally[64], calls;

static uint64_t any(void) {
    chance ^= chance << 13;
    chance ^= chance >> 7;
    chance ^= chance << 17;
    return chance;
}

static uint64_t below(uint64_t n) { return any() % n; }

// A small number, a larger one, one of the greatest, or any.
static uint64_t number(void) {
    switch (below(4)) {
    case 0: return below(6);
    case 1: return below(5000);
    case 2: return UINT64_MAX - below(4);
    default: return any();
    }
}

static void fail(const char *why, uint64_t which, uint64_t what) {
    printf("misuse: %s: function %" PRIu64 ", %" PRIu64 "\n", why, which, what);
    exit(1);
}

static void make_pages(int slice) {
    size_t room = (2 * right[slice] * width[slice] + GUARD - 1) / GUARD * GUARD;
    uint8_t *all = mmap(NULL, room + 2 * GUARD, PROT_NONE, MAP_PRIVATE | MAP_ANONYMOUS, -1, 0);
    if (all == MAP_FAILED || mprotect(all + GUARD, room, PROT_READ | PROT_WRITE) != 0) fail("no memory", 0, room);
    pages[slice].first = all + GUARD;
    pages[slice].end = all + GUARD + room;
    pages[slice].shadow = malloc(room);
}

static void lend(int slice, size_t count) {
    lent[slice].count = count;
    lent[slice].at = pages[slice].low ? pages[slice].first : pages[slice].end - count * width[slice];
    if (count == 0 && below(4) == 0) lent[slice].at = NULL;
}

// Mostly the right count; else none, one less, one more or any.
static size_t length(int slice) {
    switch (below(200)) {
    case 0: return 0;
    case 1: return right[slice] - 1;
    case 2: return right[slice] + 1;
    case 3: return below(2 * right[slice]);
    default: return right[slice];
    }
}

// The image that the machine was started with, mostly; else cut, with a byte changed, another, or any bytes.
static void lend_image(void) {
    size_t which = below(12) == 0 ? below(image_count) : image_now, count = images[which].count;
    int spoilt = (int)below(8);
    if (spoilt == 0) count = below(count + 1);
    if (spoilt == 1) count = below(60);
    lend(IMAGE, count);
    uint8_t *at = lent[IMAGE].at;
    if (count == 0) return;
    memcpy(at, images[which].bytes, count < images[which].count ? count : images[which].count);
    if (spoilt == 1) for (size_t k = 0; k < count; k++) at[k] = (uint8_t)any();
    if (spoilt == 2) at[below(count)] = (uint8_t)any();
}

static void lend_all(void) {
    for (int slice = REGISTERS; slice <= VARIABLES; slice++) lend(slice, length(slice));
    lend_image();
    lend(BYTES, below(2) == 0 ? below(right[BYTES]) : below(lent[IMAGE].count < right[BYTES] ? lent[IMAGE].count + 1 : right[BYTES]));
    lend(TAGS, below(8) == 0 ? below(right[TAGS]) : below(4));
    lend(BITS, below(30) == 0 ? below(right[BITS]) : lent[TAGS].count);
    for (size_t k = 0; k < lent[TAGS].count; k++) ((uint64_t *)lent[TAGS].at)[k] = below(16);
    for (size_t k = 0; k < lent[BITS].count; k++) ((uint64_t *)lent[BITS].at)[k] = number();
    for (int slice = LIVE; slice <= OFFSET; slice++) lend(slice, below(below(2) == 0 ? right[slice] : 10));
}

// A word of a table is overwritten, near its start or anywhere; registers often. Now and then a whole table is any bytes.
static void spoil(void) {
    static const int tables[] = { REGISTERS, REGISTERS, FRAMES, BOUNDS, POINTERS, VARIABLES };
    int slice = tables[below(6)];
    lend(slice, right[slice]);
    uint64_t *words = lent[slice].at;
    size_t near = right[slice] < 40 ? right[slice] : 40;
    words[below(below(4) == 0 ? right[slice] : near)] = number();
    if (below(200) == 0) for (size_t k = 0; k < right[slice]; k++) words[k] = any();
}

// The machine runs at any place, with small values of any kind in its variables: a step is defined for any sound state.
static void force(void) {
    lend(REGISTERS, right[REGISTERS]);
    lend(VARIABLES, right[VARIABLES]);
    uint64_t *registers = lent[REGISTERS].at, *variables = lent[VARIABLES].at;
    registers[0] = 1;
    registers[1] = below(30);
    for (int k = 0; k < 24; k++) {
        int pointer = below(2) == 0;
        variables[2 * k] = pointer ? 14 : 1 + below(14);
        variables[2 * k + 1] = below(pointer ? 8 : 2);
    }
}

#define S(slice) lent[slice].at, lent[slice].count
#define MACHINE S(REGISTERS), S(ANSWER), S(STORE), S(FRAMES), S(BOUNDS), S(POINTERS)
#define READ_TABLES S(FRAMES), S(BOUNDS), S(POINTERS), S(VARIABLES)

static uint64_t call(int function) {
    switch (function) {
    case FRESH: return lir_fresh(MACHINE, S(VARIABLES));
    case START: return lir_start(S(IMAGE), below(4), below(16), number(), S(TAGS), S(BITS), MACHINE, S(VARIABLES));
    case STEP: return lir_step(S(IMAGE), MACHINE, S(VARIABLES));
    case RUN: return lir_run(S(IMAGE), (uint32_t)below(60), MACHINE, S(VARIABLES));
    case ALLOCATE: return lir_allocate(number(), MACHINE, S(VARIABLES));
    case WRITE: return lir_write(number(), S(BYTES), S(REGISTERS), S(STORE), READ_TABLES);
    case READ: return lir_read(S(IMAGE), number(), S(BYTES), S(REGISTERS), S(ANSWER), S(STORE), READ_TABLES);
    case LIST: return lir_list(S(REGISTERS), S(STORE), READ_TABLES, S(LIVE), S(FRAME), S(ALLOCATION), S(OFFSET));
    default: return lir_write_image(S(IMAGE), S(BYTES), S(ANSWER));
    }
}

static int is_known(uint64_t n) { return n <= LIR_LEFT_OVER || (n >= LIR_NOT_SOUND && n <= LIR_NOT_SCALAR) || (n >= LIR_NO_INSTRUCTION && n <= LIR_SHORT_BUFFER); }

// Which slices a call may have changed, by its answer: one that is refused, only the answer; a run that was stopped, all.
static unsigned may_change(int function, uint64_t n) {
    if (n == 0 || (function == RUN && n >= LIR_NO_INSTRUCTION)) return changed[function];
    return changed[function] & BIT(ANSWER);
}

static void try(int function) {
    int compare = below(COMPARED) == 0;
    lend_all();
    for (int slice = 0; compare && slice < SLICES; slice++)
        memcpy(pages[slice].shadow, pages[slice].first, (size_t)(pages[slice].end - pages[slice].first));
    uint64_t n = call(function);
    if (!is_known(n)) fail("no answer", (uint64_t)function, n);
    unsigned may = may_change(function, n);
    for (int slice = 0; compare && slice < SLICES; slice++)
        if (!(may & BIT(slice)) && memcmp(pages[slice].shadow, pages[slice].first, (size_t)(pages[slice].end - pages[slice].first)) != 0)
            fail("changed", (uint64_t)function, (uint64_t)slice);
    tally[n]++;
    calls++;
}

// Fresh memory at another end of its pages, and an image to run.
static void begin(void) {
    for (int slice = 0; slice < SLICES; slice++) pages[slice].low = (int)below(2);
    for (int slice = REGISTERS; slice <= VARIABLES; slice++) lend(slice, right[slice]);
    if (call(FRESH) != 0) fail("no fresh memory", FRESH, 0);
    image_now = below(image_count);
}

static void read_images(void) {
    char *line = NULL;
    size_t room = 0;
    for (ssize_t length; image_count < IMAGES && (length = getline(&line, &room, stdin)) > 1; image_count++) {
        size_t count = (size_t)length / 2;
        if (count > LONGEST) fail("too long an image", 0, count);
        images[image_count].bytes = malloc(count);
        images[image_count].count = count;
        for (size_t k = 0; k < count; k++) {
            unsigned byte;
            if (sscanf(line + 2 * k, "%2x", &byte) != 1) fail("no image", 0, image_count);
            images[image_count].bytes[k] = (uint8_t)byte;
        }
    }
    if (image_count == 0) fail("no images", 0, 0);
}

int main(int count, char **words) {
    uint64_t rounds = count > 1 ? strtoull(words[1], NULL, 10) : 20000;
    chance = count > 2 ? strtoull(words[2], NULL, 10) : 1;
    chance = chance * 2 + 0x9e3779b97f4a7c15;
    read_images();
    for (int slice = 0; slice < SLICES; slice++) make_pages(slice);
    begin();
    for (uint64_t round = 0; round < rounds; round++) {
        if (below(6) == 0) begin();
        if (below(3) == 0) force();
        if (below(12) == 0) spoil();
        for (int function = FRESH + (below(12) != 0); function < FUNCTIONS; function++) try(function);
    }
    printf("misuse: %" PRIu64 " calls over %zu images, answers and refusals alone:", calls, image_count);
    for (int n = 0; n < 64; n++)
        if (tally[n]) printf(" %d: %" PRIu64, n, tally[n]);
    putchar('\n');
    return 0;
}
