// Times the compiled evaluator, by processor time. A line in: a word and images in hexadecimal. A line out: steps, and nanoseconds a step or a call.
//   run IMAGE            function 0 from fresh memory to its end
//   filled FILL IMAGE    the same after 500 allocations and a run of FILL
//   load IMAGE           a run of no step
#include <stdio.h>
#include <stdlib.h>
#include <string.h>
#include <time.h>

#include "../include/lir.h"

enum { ROUNDS = 40, LOADS = 200, IMAGE_ROOM = 40000 };

typedef struct {
    uint64_t registers[LIR_REGISTERS], answer[LIR_ANSWER];
    uint8_t store[LIR_STORE];
    uint64_t frames[LIR_FRAMES], bounds[LIR_BOUNDS], pointers[LIR_POINTERS], variables[LIR_VARIABLES];
} Machine;

#define CHANGED(m) (m)->registers, LIR_REGISTERS, (m)->answer, LIR_ANSWER, (m)->store, LIR_STORE, (m)->frames, LIR_FRAMES, \
    (m)->bounds, LIR_BOUNDS, (m)->pointers, LIR_POINTERS, (m)->variables, LIR_VARIABLES

static Machine machine, begun;
static uint8_t image[IMAGE_ROOM];

static double now(void) {
    struct timespec t;
    clock_gettime(CLOCK_PROCESS_CPUTIME_ID, &t);
    return (double)t.tv_sec * 1e9 + (double)t.tv_nsec;
}

static void need(uint64_t number, uint64_t wanted, const char *what) {
    if (number == wanted) return;
    fprintf(stderr, "bench: %s: %llu\n", what, (unsigned long long)number);
    exit(1);
}

static size_t image_in(const char *text) {
    size_t count = 0;
    unsigned byte;
    while (count < IMAGE_ROOM && sscanf(text + 2 * count, "%2x", &byte) == 1) image[count++] = (uint8_t)byte;
    return count;
}

static void start(size_t count) {
    static const uint64_t none[1];
    need(lir_start(image, count, 0, 14, 0, none, 0, none, 0, CHANGED(&machine)), 0, "start");
}

// The least time of several runs to the end from the state `machine`.
static void time_run(size_t count) {
    double least = 1e30;
    begun = machine;
    for (int round = 0; round < ROUNDS; round++) {
        machine = begun;
        double from = now();
        need(lir_run(image, count, UINT32_MAX, CHANGED(&machine)), 0, "run");
        double took = now() - from;
        need(machine.answer[LIR_ENDED], 1, "end");
        if (took < least) least = took;
    }
    double steps = (double)machine.answer[LIR_COUNT];
    printf("%.0f %.2f\n", steps, least / steps);
}

static void time_load(size_t count) {
    double least = 1e30;
    for (int round = 0; round < LOADS; round++) {
        double from = now();
        need(lir_run(image, count, 0, CHANGED(&machine)), 0, "load");
        double took = now() - from;
        if (took < least) least = took;
    }
    printf("%zu %.0f\n", count, least);
}

int main(void) {
    static char line[4 * IMAGE_ROOM], word[16], first[2 * IMAGE_ROOM + 1], second[2 * IMAGE_ROOM + 1];
    while (fgets(line, sizeof line, stdin)) {
        int words = sscanf(line, "%15s %80000s %80000s", word, first, second);
        need(lir_fresh(CHANGED(&machine)), 0, "fresh");
        size_t count = image_in(first);
        if (words == 3) {
            for (int k = 0; k < 500; k++) need(lir_allocate(32, CHANGED(&machine)), 0, "allocate");
            start(count);
            need(lir_run(image, count, UINT32_MAX, CHANGED(&machine)), 0, "fill");
            memset(image, 0, count);
            count = image_in(second);
        }
        start(count);
        if (word[0] == 'l') time_load(count);
        else time_run(count);
        fflush(stdout);
    }
    return 0;
}
