// Plays cases on the compiled evaluator, through its C functions, and tells every state: a case a line in, see oracle/README.md.
// With the word `whole` it tells no state but the last, as the stored lists do.
#include <inttypes.h>
#include <stdio.h>
#include <stdlib.h>
#include <string.h>

#include "../../include/lir.h"

enum { IMAGE_ROOM = 65536, FRAME = 4, POINTER = 5 };

typedef struct {
    uint64_t registers[LIR_REGISTERS];
    uint64_t answer[LIR_ANSWER];
    uint8_t store[LIR_STORE];
    uint64_t frames[LIR_FRAMES];
    uint64_t bounds[LIR_BOUNDS];
    uint64_t pointers[LIR_POINTERS];
    uint64_t variables[LIR_VARIABLES];
} Machine;

// The slices of a machine, as the functions take them.
#define CHANGED(m) (m)->registers, LIR_REGISTERS, (m)->answer, LIR_ANSWER, (m)->store, LIR_STORE, (m)->frames, LIR_FRAMES, \
    (m)->bounds, LIR_BOUNDS, (m)->pointers, LIR_POINTERS, (m)->variables, LIR_VARIABLES
#define TABLES(m) (m)->frames, LIR_FRAMES, (m)->bounds, LIR_BOUNDS, (m)->pointers, LIR_POINTERS, (m)->variables, LIR_VARIABLES

// The machine, what was told of it last, and a second one that runs without pauses.
static Machine now, told, straight;
static uint64_t told_depth, told_pointers, told_counter;
static uint8_t image[IMAGE_ROOM], bytes[IMAGE_ROOM];
static size_t image_count;
static int whole;

static void fail(const char *why, const char *word) {
    fprintf(stderr, "player: %s: %.200s\n", why, word);
    exit(1);
}

// ---- the state

static uint64_t first_of(const Machine *m, uint64_t frame) { return m->frames[frame * FRAME + 3]; }
static uint64_t count_of(const Machine *m, uint64_t frame) { return first_of(m, frame + 1) - first_of(m, frame); }

static void say_hex(const uint8_t *at, uint64_t count) {
    static const char digits[] = "0123456789abcdef";
    for (uint64_t k = 0; k < count; k++) {
        putchar_unlocked(digits[at[k] >> 4]);
        putchar_unlocked(digits[at[k] & 15]);
    }
}

static void say_value(uint64_t tag, uint64_t bits) {
    if (tag == 0) putchar_unlocked('-');
    else printf("%" PRIu64 ":%" PRIu64, tag, bits);
}

static int same_frame(uint64_t i) {
    return memcmp(now.frames + i * FRAME, told.frames + i * FRAME, 3 * sizeof(uint64_t)) == 0 && count_of(&now, i) == count_of(&told, i);
}

static void tell_frame(uint64_t i, int known) {
    const uint64_t *frame = now.frames + i * FRAME;
    if (!known || !same_frame(i)) {
        printf(" f%" PRIu64 "=%" PRIu64 ",%" PRIu64 ",", i, frame[0], frame[1]);
        if (frame[2] == 0) putchar_unlocked('-');
        else printf("%" PRIu64, frame[2] - 1);
        printf(",%" PRIu64, count_of(&now, i));
    }
    uint64_t before = known ? count_of(&told, i) : 0;
    for (uint64_t j = 0; j < count_of(&now, i); j++) {
        const uint64_t *bound = now.bounds + first_of(&now, i) + j, *old = told.bounds + first_of(&told, i) + j;
        uint64_t length = bound[1] - bound[0];
        if (j < before && length == old[1] - old[0] && memcmp(now.store + bound[0], told.store + old[0], length) == 0) continue;
        printf(" m%" PRIu64 ".%" PRIu64 "=", i, j);
        say_hex(now.store + bound[0], length);
    }
}

static void tell_pointers(void) {
    uint64_t count = now.registers[4];
    if (count != told_pointers) printf(" n%" PRIu64, count);
    for (uint64_t k = 0; k < count; k++) {
        const uint64_t *p = now.pointers + k * POINTER;
        if (k < told_pointers && memcmp(p, told.pointers + k * POINTER, POINTER * sizeof *p) == 0) continue;
        if (p[0] == 1) printf(" l%" PRIu64 "=c%" PRIu64, k, p[1]);
        else printf(" l%" PRIu64 "=%" PRIu64 ",%" PRIu64 ",%" PRIu64 ",%" PRIu64, k, p[1], p[2], p[3], p[4]);
    }
}

static void tell_variables(void) {
    if (memcmp(now.variables, told.variables, sizeof now.variables) == 0) return;
    for (uint64_t k = 0; k < LIR_VARIABLES / 2; k++) {
        const uint64_t *v = now.variables + k * 2;
        if (memcmp(v, told.variables + k * 2, 2 * sizeof *v) == 0) continue;
        printf(" v%" PRIu64 "=", k);
        say_value(v[0], v[1]);
    }
}

// The parts that a state shows, as they are now.
static void remember(void) {
    told_counter = now.registers[2];
    told_depth = now.registers[3];
    told_pointers = now.registers[4];
    uint64_t allocations = first_of(&now, told_depth);
    memcpy(told.frames, now.frames, sizeof now.frames);
    memcpy(told.bounds, now.bounds, (allocations + 1) * sizeof *now.bounds);
    memcpy(told.store, now.store, now.bounds[allocations]);
    memcpy(told.pointers, now.pointers, told_pointers * POINTER * sizeof *now.pointers);
    memcpy(told.variables, now.variables, sizeof now.variables);
}

static void forget(void) {
    told_counter = told_depth = told_pointers = 0;
    memset(told.variables, 0, sizeof told.variables);
}

// The next place, and what changed since the state told before.
static void tell(const char *kind) {
    printf("%s %" PRIu64, kind, now.registers[1]);
    if (now.registers[2] != told_counter) printf(" c%" PRIu64, now.registers[2]);
    if (now.registers[3] != told_depth) printf(" d%" PRIu64, now.registers[3]);
    for (uint64_t i = 0; i < now.registers[3]; i++) tell_frame(i, i < told_depth);
    tell_pointers();
    tell_variables();
    putchar_unlocked('\n');
    remember();
}

static void tell_unless_whole(const char *kind) {
    if (!whole) tell(kind);
}

// ---- words

static size_t bytes_in(const char *text, const char *end, uint8_t *out) {
    size_t count = (size_t)(end - text) / 2;
    if (count > IMAGE_ROOM) fail("too many bytes", text);
    for (size_t k = 0; k < count; k++) {
        unsigned byte;
        if (sscanf(text + 2 * k, "%2x", &byte) != 1) fail("no bytes", text);
        out[k] = (uint8_t)byte;
    }
    return count;
}

static const char *number_in(const char *text, uint64_t *number) {
    char *end;
    *number = strtoull(text, &end, 10);
    if (end == text) fail("no number", text);
    return end;
}

// Whether the answer is told of a refused image: then with its place.
static void say_refused(const char *kind, uint64_t number) {
    printf("%s refused %" PRIu64, kind, number);
    if (number <= LIR_LEFT_OVER) printf(" at %" PRIu64, now.answer[LIR_COUNT]);
    putchar_unlocked('\n');
}

static uint64_t start(const char *text, const char **rest) {
    uint64_t function, tags[64], bits[64], count = 0;
    text = number_in(text, &function);
    do {
        if (count == 64) fail("too many arguments", text);
        text = number_in(text + 1, &tags[count]);
        text = number_in(text + 1, &bits[count]);
        count++;
    } while (*text == ',');
    *rest = text;
    return lir_start(image, image_count, function, tags[0], bits[0], tags + 1, count - 1, bits + 1, count - 1, CHANGED(&now));
}

static void say_ran(uint64_t number, const Machine *m, uint64_t steps) {
    if (number != 0) {
        printf("A refused %" PRIu64 " %" PRIu64 "\n", number, steps);
    } else if (m->answer[LIR_ENDED]) {
        printf("A returned ");
        say_value(m->answer[LIR_TAG], m->answer[LIR_BITS]);
        printf(" %" PRIu64 "\n", steps);
    } else {
        printf("A paused %" PRIu64 "\n", steps);
    }
}

// The run from the same state in one call must give what the steps gave, to the last element.
static void compare_with_run(uint64_t budget, uint64_t number, uint64_t steps, const char *line) {
    uint64_t ran = lir_run(image, image_count, (uint32_t)budget, CHANGED(&straight));
    int same = ran == number && straight.answer[LIR_COUNT] == steps && straight.answer[LIR_ENDED] == now.answer[LIR_ENDED]
        && straight.answer[LIR_TAG] == now.answer[LIR_TAG] && straight.answer[LIR_BITS] == now.answer[LIR_BITS];
    memcpy(straight.answer, now.answer, sizeof now.answer);
    if (!same || memcmp(&straight, &now, sizeof now) != 0) fail("a run and its steps differ", line);
}

// A run step by step: the state is told before each instruction.
static uint64_t run(uint64_t budget, const char *line) {
    uint64_t steps = 0, number = 0;
    straight = now;
    memset(now.answer, 0, sizeof now.answer);
    for (;;) {
        tell_unless_whole("S");
        if (steps == budget) break;
        number = lir_step(image, image_count, CHANGED(&now));
        if (number != 0) break;
        steps++;
        if (now.answer[LIR_ENDED]) break;
    }
    say_ran(number, &now, steps);
    compare_with_run(budget, number, steps, line);
    return number;
}

static void host(const char *word, const char *end) {
    uint64_t first, size, number;
    const char *rest = number_in(word + 1, &first);
    if (*word == 'a') {
        number = lir_allocate(first, CHANGED(&now));
        if (number == 0) printf("H ok %" PRIu64 "\n", now.answer[LIR_COUNT]);
    } else if (*word == 'w') {
        size = bytes_in(rest + 1, end, bytes);
        number = lir_write(first, bytes, size, now.registers, LIR_REGISTERS, now.store, LIR_STORE, TABLES(&now));
        if (number == 0) printf("H ok\n");
    } else {
        number_in(rest + 1, &size);
        if (size > IMAGE_ROOM) fail("too many bytes", word);
        number = lir_read(image, image_count, first, bytes, size, now.registers, LIR_REGISTERS, now.answer, LIR_ANSWER, now.store, LIR_STORE, TABLES(&now));
        if (number == 0) {
            printf(size ? "H ok " : "H ok");
            say_hex(bytes, size);
            putchar_unlocked('\n');
        }
    }
    if (number != 0) say_refused("H", number);
}

static void list(uint64_t room) {
    static uint64_t live[4][LIR_POINTERS];
    if (room > LIR_POINTERS) fail("too long a list", "");
    uint64_t number = lir_list(now.registers, LIR_REGISTERS, now.store, LIR_STORE, TABLES(&now), live[0], room, live[1], room, live[2], room, live[3], room);
    if (number != 0) {
        say_refused("H", number);
        return;
    }
    printf("H ok");
    for (uint64_t k = 0; k < now.registers[4]; k++)
        printf(" %" PRIu64 ",%" PRIu64 ",%" PRIu64 ",%" PRIu64, live[0][k], live[1][k], live[2][k], live[3][k]);
    putchar_unlocked('\n');
}

static void write_image(uint64_t room) {
    if (room > IMAGE_ROOM) fail("too long an image", "");
    uint64_t number = lir_write_image(image, image_count, bytes, room, now.answer, LIR_ANSWER);
    if (number != 0) {
        say_refused("H", number);
        return;
    }
    printf("H ok ");
    say_hex(bytes, now.answer[LIR_COUNT]);
    putchar_unlocked('\n');
}

// ---- a case

// A word of a case. 0 where the case ends: after a refused start or run.
static int play_word(const char *word, const char *end, const char *line) {
    const char *rest;
    uint64_t budget;
    if (*word != 's') {
        host(word, end);
        return 1;
    }
    if (now.registers[0]) return 1;
    uint64_t number = start(word + 1, &rest);
    number_in(rest + 1, &budget);
    if (number != 0) printf("A refused %" PRIu64 " 0\n", number);
    else number = run(budget, line);
    tell_unless_whole("F");
    return number == 0;
}

// A word of a sequence of entries: each is done, whatever those before it gave.
static void enter_word(const char *word, const char *end) {
    const char *rest;
    uint64_t count, number;
    if (*word == 'i') {
        image_count = bytes_in(word + 1, end, image);
    } else if (*word == 's') {
        number = start(word + 1, &rest);
        if (number != 0) say_refused("A", number);
        else puts("A started");
    } else if (*word == 'g') {
        number_in(word + 1, &count);
        number = lir_run(image, image_count, (uint32_t)count, CHANGED(&now));
        if (number != 0 && number <= LIR_LEFT_OVER) say_refused("A", number);
        else say_ran(number, &now, now.answer[LIR_COUNT]);
    } else if (*word == 'k') {
        number_in(word + 1, &count);
        list(count);
    } else if (*word == 'x') {
        number_in(word + 1, &count);
        write_image(count);
    } else {
        host(word, end);
    }
}

static void play(const char *line) {
    int entries = *line == 'i', on = 1;
    if (lir_fresh(CHANGED(&now)) != 0) fail("no fresh memory", line);
    forget();
    image_count = 0;
    for (const char *word = line; on && *word; ) {
        const char *end = word + strcspn(word, " ");
        if (entries) enter_word(word, end);
        else if (word == line) image_count = bytes_in(word, end, image);
        else on = play_word(word, end, line);
        word = *end ? end + 1 : end;
    }
    forget();
    if (whole) tell("Z");
    else puts(".");
}

int main(int count, char **words) {
    whole = count > 1 && strcmp(words[1], "whole") == 0;
    char *line = NULL;
    size_t room = 0;
    ssize_t length;
    setvbuf(stdout, NULL, _IOFBF, 1 << 20);
    while ((length = getline(&line, &room, stdin)) > 0) {
        if (line[length - 1] == '\n') line[length - 1] = 0;
        play(line);
    }
    return ferror(stdout) || fflush(stdout) ? 1 : 0;
}
