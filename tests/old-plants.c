/* Times the calls of two libraries on the same plants in one run: the one that is linked and the one of an earlier landing, whose names
 * begin with `old_` (tests/old-plants.sh). Of each call the least of many rounds, the two libraries in turn, in nanoseconds. */
#include <stdint.h>
#include <stdio.h>
#include <stdlib.h>
#include <string.h>
#include <time.h>

#include "../bindings/c/effbd.h"

uint64_t old_effbd_read(const uint8_t *, size_t);
uint64_t old_effbd_fresh(const uint8_t *, size_t, uint16_t *, size_t);
uint64_t old_effbd_step(const uint8_t *, size_t, uint16_t *, size_t, uint16_t, uint16_t);
uint64_t old_effbd_translate(const uint8_t *, size_t, uint8_t *, size_t);
uint64_t old_tpn_read(const uint8_t *, size_t);
uint64_t old_tpn_fresh(const uint8_t *, size_t, uint16_t *, size_t);
uint64_t old_tpn_step(const uint8_t *, size_t, uint16_t *, size_t, uint16_t, uint16_t);

enum { ROUNDS = 100, CALLS = 200, FUNCTION = 16, AND_OPEN = 17, BRANCH = 18, AND_CLOSE = 19, OR_OPEN = 20, OR_CLOSE = 21, LP_OPEN = 24, LP_CLOSE = 25, LE = 26, END = 27 };

/* A plant, its fresh states, and its net by the old library. */
static uint8_t file[8192], net[EFFBD_NET_ROOM], area[EFFBD_NET_ROOM];
static size_t file_count, net_count, state_count, net_state_count;
static uint16_t fresh[EFFBD_MOST_STATE_WORDS], net_fresh[EFFBD_MOST_NET_STATE_WORDS], state[EFFBD_MOST_NET_STATE_WORDS];
static uint16_t first_step;

static void put(uint16_t word) {
    file[file_count++] = (uint8_t)word;
    file[file_count++] = (uint8_t)(word >> 8);
}

static void head(int rows, int items) {
    file_count = 0;
    put(10), put(1), put(1), put((uint16_t)rows), put((uint16_t)items);
    for (int item = 0; item < items; item++) put(6), put(2), put(9);
}

static void row(uint16_t kind) { put(4), put(kind); }

static void function(int uses) {
    put((uint16_t)(8 + 6 * uses)), put(FUNCTION), put(1), put(9);
    for (int item = 0; item < uses; item++) put((uint16_t)item), put(1), put(1);
}

/* FUNCTIONs one after another, each of which uses all items. */
static void chain(int rows, int items) {
    head(rows, items);
    for (int number = 1; number < rows; number++) function(items);
    row(END);
    first_step = 0;
}

/* An AND of so many branches, each a FUNCTION that uses two items. */
static void branches(int count) {
    head(2 * count + 3, 2);
    row(AND_OPEN);
    for (int number = 0; number < count; number++) row(BRANCH), function(2);
    row(AND_CLOSE);
    row(END);
    first_step = 0;
}

/* So many LPs, one in the other, around so many FUNCTIONs that use two items. */
static void loops(int count, int functions) {
    head(2 * count + functions + 1, 2);
    for (int number = 0; number < count; number++) row(LP_OPEN);
    for (int number = 0; number < functions; number++) function(2);
    for (int number = 0; number < count; number++) row(LP_CLOSE);
    row(END);
    first_step = 0;
}

/* An LP around an OR of so many branches, each a FUNCTION that uses two items and an LE. */
static void left_loop(int count) {
    head(3 * count + 5, 2);
    row(LP_OPEN), row(OR_OPEN);
    for (int number = 0; number < count; number++) row(BRANCH), function(2), row(LE);
    row(OR_CLOSE), row(LP_CLOSE), row(END);
    first_step = 0;
}

static double now(void) {
    struct timespec time;
    clock_gettime(CLOCK_MONOTONIC, &time);
    return 1e9 * (double)time.tv_sec + (double)time.tv_nsec;
}

typedef uint64_t call(int old);

static uint64_t sink;

static double one_round(call *called, int old) {
    double start = now();
    for (int number = 0; number < CALLS; number++) sink += called(old);
    return (now() - start) / CALLS;
}

static void compare(const char *plant, const char *name, call *called) {
    double least[2] = {1e18, 1e18};
    for (int number = 0; number < 2 * ROUNDS; number++) {
        int old = number % 2;
        double time = one_round(called, old);
        if (time < least[old]) least[old] = time;
    }
    printf("%s, %s\t%.2f\t%.2f\n", plant, name, least[1], least[0]);
}

static uint64_t read_file(int old) { return old ? old_effbd_read(file, file_count) : effbd_read(file, file_count); }

static uint64_t translate(int old) {
    return old ? old_effbd_translate(file, file_count, area, sizeof area) : effbd_translate(file, file_count, area, sizeof area);
}

static uint64_t make_fresh(int old) {
    return old ? old_effbd_fresh(file, file_count, state, state_count) : effbd_fresh(file, file_count, state, state_count);
}

static uint64_t step(int old) {
    memcpy(state, fresh, sizeof fresh);
    return old ? old_effbd_step(file, file_count, state, state_count, EFFBD_STEP, first_step)
               : effbd_step(file, file_count, state, state_count, EFFBD_STEP, first_step);
}

/* Refused: the first row is ready. */
static uint64_t wait_held(int old) {
    return old ? old_effbd_step(file, file_count, fresh, state_count, EFFBD_WAIT, 1)
               : effbd_step(file, file_count, fresh, state_count, EFFBD_WAIT, 1);
}

static uint64_t read_net(int old) { return old ? old_tpn_read(net, net_count) : tpn_read(net, net_count); }

static uint64_t step_net(int old) {
    memcpy(state, net_fresh, sizeof net_fresh);
    return old ? old_tpn_step(net, net_count, state, net_state_count, EFFBD_STEP, first_step)
               : tpn_step(net, net_count, state, net_state_count, EFFBD_STEP, first_step);
}

static void compare_plant(const char *plant) {
    state_count = effbd_value(old_effbd_read(file, file_count));
    /* A plant that only one of them accepts says nothing. */
    if (effbd_read(file, file_count) != old_effbd_read(file, file_count)) fprintf(stderr, "%s: read otherwise\n", plant), exit(1);
    if (old_effbd_fresh(file, file_count, fresh, state_count) != 0) fprintf(stderr, "%s: refused\n", plant);
    net_count = effbd_value(old_effbd_translate(file, file_count, net, sizeof net));
    net_state_count = effbd_value(old_tpn_read(net, net_count));
    if (old_tpn_fresh(net, net_count, net_fresh, net_state_count) != 0) fprintf(stderr, "%s: net refused\n", plant);
    compare(plant, "read", read_file);
    compare(plant, "translate", translate);
    compare(plant, "fresh", make_fresh);
    compare(plant, "step", step);
    compare(plant, "wait held", wait_held);
    compare(plant, "read net", read_net);
    compare(plant, "step net", step_net);
}

int main(void) {
    chain(1, 0), compare_plant("1 x 0");
    chain(2, 0), compare_plant("2 x 0");
    chain(5, 2), compare_plant("5 x 2");
    chain(23, 3), compare_plant("23 x 3");
    chain(64, 2), compare_plant("64 x 2");
    chain(64, 16), compare_plant("64 x 16");
    branches(14), compare_plant("AND of 14");
    branches(30), compare_plant("AND of 30");
    loops(3, 4), compare_plant("3 loops");
    loops(12, 39), compare_plant("12 loops");
    left_loop(3), compare_plant("OR of 3 LE");
    left_loop(19), compare_plant("OR of 19 LE");
    return sink == 1;
}
