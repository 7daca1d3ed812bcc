/* Example A of document 01 from C: the net in an area of just its length, a move over the bus and its transition, what a caller does where it
 * is turned away, the starts of a log, and telegrams of the old edition. */
#include "effbd.h"
#include <stdio.h>
#include <stdlib.h>
#include <string.h>

#define STATION 9

/* Says the answer; its value where it was accepted or refused with `foreseen`. Any other refusal ends the program. */
static uint32_t value_of(const char *what, uint64_t answer, uint32_t foreseen) {
    uint32_t number = effbd_number(answer);
    printf("%s: %s, %u\n", what, effbd_words(number), effbd_value(answer));
    if (number != EFFBD_ACCEPTED && number != foreseen) {
        exit(EXIT_FAILURE);
    }
    return effbd_value(answer);
}

/* Memory for so many elements. */
static void *room(size_t elements, size_t size) {
    void *memory = calloc(elements, size);
    if (memory == NULL) {
        exit(EXIT_FAILURE);
    }
    return memory;
}

int main(void) {
    static const uint8_t file[34] = {10, 0, 1, 0, 1, 0, 2, 0, 1, 0, 6, 0, 2, 0, 3, 0, 14, 0, 16, 0, 2, 0, 5, 0, 0, 0, 1, 0, 0, 0, 4, 0, 27, 0};

    uint64_t part = effbd_uses(file, sizeof file, 0);
    printf("uses of row 0: %u bytes from %u on\n", effbd_uses_size(part), effbd_uses_start(part));

    /* No area yet: the refusal says how many bytes to lend. */
    size_t length = value_of("translate into nothing", effbd_translate(file, sizeof file, NULL, 0), EFFBD_AREA_SHORT);
    uint8_t *net = room(length, sizeof *net);
    value_of("translate", effbd_translate(file, sizeof file, net, length), EFFBD_ACCEPTED);

    size_t leader_words = value_of("read the diagram", effbd_read(file, sizeof file), EFFBD_ACCEPTED);
    size_t follower_words = value_of("read the net", tpn_read(net, length), EFFBD_ACCEPTED);
    uint16_t *leader = room(leader_words, sizeof *leader);
    uint16_t *follower = room(follower_words, sizeof *follower);
    value_of("fresh diagram", effbd_fresh(file, sizeof file, leader, leader_words), EFFBD_ACCEPTED);
    value_of("fresh net", tpn_fresh(net, length, follower, follower_words), EFFBD_ACCEPTED);

    /* Which transition of the net a step of row 0 fires: ready, its first one. */
    value_of("transition of row 0, ready", effbd_transition(file, sizeof file, leader, leader_words, 0), EFFBD_ACCEPTED);

    uint8_t telegram[EFFBD_TELEGRAM_LENGTH];
    uint64_t offered = leader_offer(file, sizeof file, leader, leader_words, 0, STATION, EFFBD_STEP, 0, telegram, sizeof telegram);
    value_of("offer step 0", offered, EFFBD_ACCEPTED);
    uint64_t taken = follower_take(net, length, follower, follower_words, 0, STATION, telegram, sizeof telegram);
    uint32_t count = value_of("take it", taken, EFFBD_ACCEPTED);
    value_of("transition of row 0, running", effbd_transition(file, sizeof file, leader, leader_words, 0), EFFBD_ACCEPTED);
    value_of("transition of row 1", effbd_transition(file, sizeof file, leader, leader_words, 1), EFFBD_NOT_STANDING);

    /* The bus repeats it: the refusal's value is the follower's count, which stays. */
    taken = follower_take(net, length, follower, follower_words, count, STATION, telegram, sizeof telegram);
    count = value_of("take it again", taken, EFFBD_NUMBER_PAST);
    printf("taken so far: %u\n", count);

    /* Too long a wait is held; as many ticks as lack to the earliest end are not. */
    uint64_t waited = effbd_step(file, sizeof file, leader, leader_words, EFFBD_WAIT, 6);
    value_of("wait 6", waited, EFFBD_WAIT_HELD);
    if (effbd_number(waited) == EFFBD_WAIT_HELD) {
        uint32_t lacking = value_of("step 0", effbd_step(file, sizeof file, leader, leader_words, EFFBD_STEP, 0), EFFBD_TICKS_LACKING);
        value_of("wait that long", effbd_step(file, sizeof file, leader, leader_words, EFFBD_WAIT, (uint16_t)lacking), EFFBD_ACCEPTED);
        value_of("step 0", effbd_step(file, sizeof file, leader, leader_words, EFFBD_STEP, 0), EFFBD_ACCEPTED);
    }
    value_of("wait 6 of the net", tpn_step(net, length, follower, follower_words, EFFBD_WAIT, 6), EFFBD_WAIT_HELD);

    /* The leader's moves as a log: step 0, wait 2, step 0. Without the wait its last one, of index 1, is refused. */
    static const uint8_t log[3 * EFFBD_SETPOINT_LENGTH] = {EFFBD_STEP, 0, 0, 0, EFFBD_WAIT, 0, 2, 0, EFFBD_STEP, 0, 0, 0};
    static const uint8_t early[2 * EFFBD_SETPOINT_LENGTH] = {EFFBD_STEP, 0, 0, 0, EFFBD_STEP, 0, 0, 0};
    uint32_t at = 0;
    value_of("starts of an early log", log_starts(file, sizeof file, early, sizeof early, 0, &at), EFFBD_MOVE_REFUSED);
    uint32_t most = value_of("starts of the log", log_starts(file, sizeof file, log, sizeof log, 0, &at), EFFBD_ACCEPTED);
    printf("most starts in an hour: %u, from tick %u on\n", most, at);

    /* The telegram for a panel of the old edition, and what the panel repeats back to this bus. */
    uint8_t old[EFFBD_OLD_TELEGRAM_LENGTH], again[EFFBD_TELEGRAM_LENGTH];
    uint16_t station;
    uint32_t first;
    value_of("down to an old panel", telegrams_down(telegram, sizeof telegram, old, sizeof old, &station, &first), EFFBD_ACCEPTED);
    value_of("up again", telegrams_up(old, sizeof old, station, first, again, sizeof again), EFFBD_ACCEPTED);
    printf("station %u, number %u, %s\n", station, first, memcmp(again, telegram, sizeof again) == 0 ? "the same bytes" : "other bytes");

    free(follower);
    free(leader);
    free(net);
    return EXIT_SUCCESS;
}
