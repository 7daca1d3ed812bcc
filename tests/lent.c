/* What bindings/c/effbd.h says of lent memory, tried: empty lists as (NULL, 0), bytes beyond a result, texts, a wrong number of words,
 * words that are only read, boxes, single numbers, runs of telegrams, of gigabytes too, and that the constants have room for the largest diagrams, nets, texts and logs. Says
 * what does not hold; exit status 1 then. */
#define _GNU_SOURCE /* memfd_create */
#include "../bindings/c/effbd.h"
#include <stdio.h>
#include <string.h>
#include <sys/mman.h>
#include <unistd.h>

static int wrong = 0;

static void is(const char *what, uint64_t answer, uint32_t number, uint32_t value) {
    if (effbd_number(answer) != number || effbd_value(answer) != value) {
        printf("lent.c: %s: %u %u, not %u %u\n", what, effbd_number(answer), effbd_value(answer), number, value);
        wrong = 1;
    }
}
#define IS(call, number, value) is(#call, call, number, value)

static void holds(const char *what, int it_does) {
    if (!it_does) {
        printf("lent.c: not so: %s\n", what);
        wrong = 1;
    }
}
#define HOLDS(condition) holds(#condition, condition)

/* Example B of document 01, END alone, with its annex text, its net and both states. */
static const uint8_t file[14] = {10, 0, 1, 0, 1, 0, 1, 0, 0, 0, 4, 0, 27, 0};
static const char annex[] = "net 3 0\nmarks 1 0 0\n";
enum { NET = 26, TEXT = sizeof annex - 1, WORDS = 3, STATION = 9, BEYOND = 6, FILLED = 7 };
static uint8_t net[NET];
static uint16_t state[WORDS], marks[WORDS];

static void fresh(void) {
    IS(effbd_translate(file, sizeof file, net, NET), EFFBD_ACCEPTED, NET);
    IS(effbd_fresh(file, sizeof file, state, WORDS), EFFBD_ACCEPTED, 0);
    IS(tpn_fresh(net, NET, marks, WORDS), EFFBD_ACCEPTED, 0);
}

static void empty_lists(void) {
    uint8_t telegram[EFFBD_TELEGRAM_LENGTH];
    IS(effbd_read(NULL, 0), EFFBD_CUT_SHORT, 0);
    HOLDS(effbd_uses(NULL, 0, 0) == 0);
    IS(effbd_fresh(NULL, 0, NULL, 0), EFFBD_CUT_SHORT, 0);
    IS(effbd_fresh(file, sizeof file, NULL, 0), EFFBD_STATE_OFF, 0);
    IS(effbd_step(NULL, 0, NULL, 0, EFFBD_WAIT, 1), EFFBD_CUT_SHORT, 0);
    IS(effbd_step(file, sizeof file, NULL, 0, EFFBD_WAIT, 1), EFFBD_STATE_OFF, 0);
    IS(effbd_transition(NULL, 0, NULL, 0, 0), EFFBD_CUT_SHORT, 0);
    IS(effbd_transition(NULL, 0, state, WORDS, UINT16_MAX), EFFBD_CUT_SHORT, 0);
    IS(effbd_transition(file, sizeof file, NULL, 0, 0), EFFBD_STATE_OFF, 0);
    IS(effbd_transition(file, sizeof file, NULL, 0, UINT16_MAX), EFFBD_STATE_OFF, 0);
    IS(effbd_translate(NULL, 0, NULL, 0), EFFBD_CUT_SHORT, 0);
    IS(effbd_translate(file, sizeof file, NULL, 0), EFFBD_AREA_SHORT, NET);
    HOLDS(effbd_annex(NULL, 0, NULL, 0, NULL, 0) == strlen("refused 1 0\n"));
    HOLDS(effbd_annex(file, sizeof file, NULL, 0, NULL, 0) == strlen("refused 10 26\n"));
    HOLDS(effbd_annex(file, sizeof file, net, NET, NULL, 0) == TEXT);
    IS(tpn_read(NULL, 0), EFFBD_CUT_SHORT, 0);
    IS(tpn_fresh(NULL, 0, NULL, 0), EFFBD_CUT_SHORT, 0);
    IS(tpn_fresh(net, NET, NULL, 0), EFFBD_STATE_OFF, 0);
    IS(tpn_step(NULL, 0, NULL, 0, EFFBD_WAIT, 1), EFFBD_CUT_SHORT, 0);
    IS(tpn_step(net, NET, NULL, 0, EFFBD_WAIT, 1), EFFBD_STATE_OFF, 0);
    IS(leader_offer(NULL, 0, NULL, 0, 0, STATION, EFFBD_WAIT, 1, NULL, 0), EFFBD_CUT_SHORT, 0);
    IS(leader_offer(file, sizeof file, NULL, 0, 0, STATION, EFFBD_WAIT, 1, NULL, 0), EFFBD_STATE_OFF, 0);
    IS(leader_offer(file, sizeof file, state, WORDS, 0, STATION, EFFBD_WAIT, 1, NULL, 0), EFFBD_AREA_SHORT, EFFBD_TELEGRAM_LENGTH);
    IS(leader_offer(file, sizeof file, state, WORDS, UINT32_MAX, STATION, EFFBD_WAIT, 1, NULL, 0), EFFBD_COUNT_FULL, UINT32_MAX);
    IS(leader_offer(file, sizeof file, state, WORDS, 0, STATION, EFFBD_WAIT, 1, telegram, sizeof telegram), EFFBD_ACCEPTED, 1);
    IS(follower_take(NULL, 0, NULL, 0, 0, STATION, NULL, 0), EFFBD_NO_TELEGRAM, 0);
    IS(follower_take(net, NET, marks, WORDS, 0, STATION, NULL, 0), EFFBD_NO_TELEGRAM, 0);
    IS(follower_take(NULL, 0, NULL, 0, 0, STATION, telegram, sizeof telegram), EFFBD_CUT_SHORT, 0);
    IS(follower_take(net, NET, NULL, 0, 0, STATION, telegram, sizeof telegram), EFFBD_STATE_OFF, 0);
}

/* So many bytes from here on have the value that they were filled with. */
static int kept(const uint8_t *bytes, size_t count) {
    for (size_t at = 0; at < count; at++) {
        if (bytes[at] != FILLED) {
            return 0;
        }
    }
    return 1;
}

static void beyond_the_result(void) {
    uint8_t area[NET + BEYOND];
    memset(area, FILLED, sizeof area);
    IS(effbd_translate(file, sizeof file, area, NET - 1), EFFBD_AREA_SHORT, NET);
    IS(effbd_translate(file, sizeof file - 1, area, sizeof area), EFFBD_CUT_SHORT, 10);
    HOLDS(kept(area, sizeof area));
    IS(effbd_translate(file, sizeof file, area, sizeof area), EFFBD_ACCEPTED, NET);
    HOLDS(memcmp(area, net, NET) == 0 && kept(area + NET, BEYOND));

    memset(area, FILLED, sizeof area);
    IS(leader_offer(file, sizeof file, state, WORDS, 0, STATION, EFFBD_WAIT, 1, area, EFFBD_TELEGRAM_LENGTH - 1), EFFBD_AREA_SHORT,
       EFFBD_TELEGRAM_LENGTH);
    IS(leader_offer(file, sizeof file, state, WORDS, 0, STATION, EFFBD_STEP, 0, area, sizeof area), EFFBD_NOT_STANDING, 0);
    HOLDS(kept(area, sizeof area));
    IS(leader_offer(file, sizeof file, state, WORDS, 0, STATION, EFFBD_WAIT, 1, area, sizeof area), EFFBD_ACCEPTED, 1);
    HOLDS(area[0] == EFFBD_TELEGRAM_LENGTH && kept(area + EFFBD_TELEGRAM_LENGTH, sizeof area - EFFBD_TELEGRAM_LENGTH));
}

/* So many bytes are the first of this text, and those behind them have the value that they were filled with. */
static int text_in(const uint8_t *lent, size_t lent_count, const char *text, size_t count) {
    return memcmp(lent, text, count) == 0 && kept(lent + count, lent_count - count);
}

/* A text is written as far as its area reaches; its answer is the whole length all the same. */
static void texts(void) {
    static const char short_area[] = "refused 10 26\n", short_file[] = "refused 1 10\n";
    uint8_t area[NET + BEYOND], text[TEXT + BEYOND];
    for (size_t count = 0; count <= sizeof text; count++) {
        size_t written = count < TEXT ? count : TEXT;
        memset(area, FILLED, sizeof area);
        memset(text, FILLED, sizeof text);
        HOLDS(effbd_annex(file, sizeof file, area, sizeof area, text, count) == TEXT);
        HOLDS(text_in(text, sizeof text, annex, written));
        HOLDS(memcmp(area, net, NET) == 0 && kept(area + NET, BEYOND));
    }
    memset(area, FILLED, sizeof area);
    memset(text, FILLED, sizeof text);
    HOLDS(effbd_annex(file, sizeof file, area, NET - 1, text, sizeof text) == strlen(short_area));
    HOLDS(text_in(text, sizeof text, short_area, strlen(short_area)) && kept(area, sizeof area));
    memset(text, FILLED, sizeof text);
    HOLDS(effbd_annex(file, sizeof file - 1, area, sizeof area, text, 5) == strlen(short_file));
    HOLDS(text_in(text, sizeof text, short_file, 5) && kept(area, sizeof area));
}

static void wrong_number_of_words(void) {
    uint16_t words[WORDS + 1] = {FILLED, FILLED, FILLED, FILLED};
    uint8_t telegram[EFFBD_TELEGRAM_LENGTH];
    IS(leader_offer(file, sizeof file, state, WORDS, 0, STATION, EFFBD_WAIT, 1, telegram, sizeof telegram), EFFBD_ACCEPTED, 1);
    for (size_t count = WORDS - 1; count <= WORDS + 1; count += 2) {
        IS(effbd_fresh(file, sizeof file, words, count), EFFBD_STATE_OFF, 0);
        IS(effbd_step(file, sizeof file, words, count, EFFBD_WAIT, 1), EFFBD_STATE_OFF, 0);
        IS(effbd_transition(file, sizeof file, words, count, 0), EFFBD_STATE_OFF, 0);
        IS(tpn_fresh(net, NET, words, count), EFFBD_STATE_OFF, 0);
        IS(tpn_step(net, NET, words, count, EFFBD_WAIT, 1), EFFBD_STATE_OFF, 0);
        IS(leader_offer(file, sizeof file, words, count, 0, STATION, EFFBD_WAIT, 1, telegram, sizeof telegram), EFFBD_STATE_OFF, 0);
        IS(follower_take(net, NET, words, count, 0, STATION, telegram, sizeof telegram), EFFBD_STATE_OFF, 0);
    }
    for (size_t at = 0; at <= WORDS; at++) {
        HOLDS(words[at] == FILLED);
    }
}

/* Example A of document 01, whose row 0 is a FUNCTION of 2 to 5 ticks, and its moves from beginning to end; then only waits. */
static const uint8_t one_function[34] = {10, 0, 1, 0, 1, 0, 2, 0, 1, 0, 6, 0, 2, 0, 3, 0, 14, 0, 16, 0, 2, 0, 5, 0, 0, 0, 1, 0, 0, 0, 4, 0, 27, 0};
static const uint8_t one_start[3 * EFFBD_SETPOINT_LENGTH] = {EFFBD_STEP, 0, 0, 0, EFFBD_WAIT, 0, 2, 0, EFFBD_STEP, 0, 0, 0};

/* A refusal leaves a number, whatever it is; an accepted call writes it, also where there is no start. */
static void single_numbers(void) {
    uint32_t at = FILLED;
    IS(log_starts(NULL, 0, NULL, 0, 0, &at), EFFBD_CUT_SHORT, 0);
    IS(log_starts(one_function, sizeof one_function, one_start, sizeof one_start - 1, 1, &at), EFFBD_LOG_OFF, 0);
    IS(log_starts(one_function, sizeof one_function, NULL, 0, 1, &at), EFFBD_NOT_FUNCTION, 0);
    IS(log_starts(one_function, sizeof one_function, one_start + EFFBD_SETPOINT_LENGTH, EFFBD_SETPOINT_LENGTH, 0, &at), EFFBD_MOVE_REFUSED, 0);
    HOLDS(at == FILLED);
    IS(log_starts(one_function, sizeof one_function, NULL, 0, 0, &at), EFFBD_ACCEPTED, 0);
    HOLDS(at == 0);
    at = FILLED;
    IS(log_starts(one_function, sizeof one_function, one_start, sizeof one_start, 0, &at), EFFBD_ACCEPTED, 1);
    HOLDS(at == 0);
}

/* A state that is lent for reading stays, and the words beside it: accepted, of an idle row, another kind, no row, off, of a refused file. */
static void words_only_read(void) {
    enum { A_WORDS = 7 };
    static const uint16_t ready[A_WORDS] = {1, 0, 0, 0, 0, 0, 3}, running[A_WORDS] = {2, 0, 1, 0, 0, 0, 2}, idle[A_WORDS] = {0, 0, 0, 1, 0, 0, 2},
                          off[A_WORDS] = {2, 0, 6, 0, 0, 0, 2}, longer[A_WORDS + 1] = {1, 0, 0, 0, 0, 0, 3, 0};
    static const struct {
        const uint16_t *words;
        size_t file_count;
        uint16_t row;
        uint32_t number, value;
    } cases[] = {
        {ready, sizeof one_function, 0, EFFBD_ACCEPTED, 0},
        {running, sizeof one_function, 0, EFFBD_ACCEPTED, 1},
        {idle, sizeof one_function, 0, EFFBD_NOT_STANDING, 0},
        {idle, sizeof one_function, 1, EFFBD_NOT_STANDING, 1},
        {running, sizeof one_function, EFFBD_MOST_ROWS, EFFBD_NOT_STANDING, EFFBD_MOST_ROWS},
        {running, sizeof one_function, UINT16_MAX, EFFBD_NOT_STANDING, UINT16_MAX},
        {off, sizeof one_function, 0, EFFBD_STATE_OFF, 0},
        {off, sizeof one_function, UINT16_MAX, EFFBD_STATE_OFF, 0},
        {off, sizeof one_function - 1, 0, EFFBD_CUT_SHORT, 30},
    };
    for (size_t at = 0; at < sizeof cases / sizeof *cases; at++) {
        uint16_t lent[A_WORDS + 2] = {FILLED};
        memcpy(lent + 1, cases[at].words, A_WORDS * sizeof *lent);
        lent[A_WORDS + 1] = FILLED;
        is("transition of a row", effbd_transition(one_function, cases[at].file_count, lent + 1, A_WORDS, cases[at].row), cases[at].number,
           cases[at].value);
        HOLDS(memcmp(lent + 1, cases[at].words, A_WORDS * sizeof *lent) == 0 && lent[0] == FILLED && lent[A_WORDS + 1] == FILLED);
    }
    IS(effbd_transition(one_function, sizeof one_function, longer, A_WORDS + 1, 0), EFFBD_STATE_OFF, 0);
    IS(effbd_transition(one_function, sizeof one_function, longer, A_WORDS, 0), EFFBD_ACCEPTED, 0);
    IS(effbd_transition(one_function, sizeof one_function, longer, A_WORDS - 1, 0), EFFBD_STATE_OFF, 0);
}

/* A box: 29, an OR of two EXITs, two outlets with nothing in them, 30; then END. */
static const uint8_t one_box[58] = {10, 0, 1, 0, 1, 0, 11, 0, 0, 0, 4, 0, 29, 0, 4, 0, 20, 0, 4, 0, 18, 0, 6, 0, 31, 0, 0, 0, 4,
                                    0,  18, 0, 6, 0, 31, 0, 1, 0, 4, 0, 21, 0, 4, 0, 18, 0, 4, 0, 18, 0, 4, 0, 30, 0, 4, 0, 27, 0};
enum { BOX_WORDS = 33, BOX_NET = 404, FIELD = 26, LAST_OUTLET = 48, ROW_30 = 9, BOX_END = 10 };

/* The file with one word another one is refused so by a call that is lent an area and by one that is lent a state, and both keep what they had. */
static void box_off(size_t at, uint8_t low, uint8_t high, uint32_t number, uint32_t row) {
    uint8_t off[sizeof one_box], area[BOX_NET];
    uint16_t words[BOX_WORDS] = {FILLED};
    memcpy(off, one_box, sizeof one_box);
    off[at] = low, off[at + 1] = high;
    memset(area, FILLED, sizeof area);
    IS(effbd_read(off, sizeof off), number, row);
    IS(effbd_translate(off, sizeof off, area, sizeof area), number, row);
    IS(effbd_fresh(off, sizeof off, words, BOX_WORDS), number, row);
    HOLDS(kept(area, sizeof area) && words[0] == FILLED && words[BOX_WORDS - 1] == 0);
}

/* The EXIT of row 3 clears words before it and writes one far behind it, and none beyond the state's. */
static void boxes(void) {
    uint8_t area[BOX_NET + BEYOND];
    uint16_t words[BOX_WORDS + 2];
    static const uint16_t steps[] = {0, 2, 3};
    for (size_t at = 0; at < sizeof words / sizeof *words; at++) {
        words[at] = FILLED;
    }
    memset(area, FILLED, sizeof area);
    IS(effbd_read(one_box, sizeof one_box), EFFBD_ACCEPTED, BOX_WORDS);
    IS(effbd_translate(one_box, sizeof one_box, area, BOX_NET - 1), EFFBD_AREA_SHORT, BOX_NET);
    HOLDS(kept(area, sizeof area));
    IS(effbd_translate(one_box, sizeof one_box, area, sizeof area), EFFBD_ACCEPTED, BOX_NET);
    HOLDS(kept(area + BOX_NET, BEYOND));
    IS(effbd_fresh(one_box, sizeof one_box, words + 1, BOX_WORDS), EFFBD_ACCEPTED, 0);
    for (size_t at = 0; at < sizeof steps / sizeof *steps; at++) {
        IS(effbd_step(one_box, sizeof one_box, words + 1, BOX_WORDS, EFFBD_WAIT, 1), EFFBD_WAIT_HELD, 0);
        IS(effbd_step(one_box, sizeof one_box, words + 1, BOX_WORDS, EFFBD_STEP, steps[at]), EFFBD_ACCEPTED, 0);
    }
    for (size_t at = 0; at < BOX_WORDS; at++) {
        HOLDS(words[at + 1] == (at == 3 * ROW_30 ? 1 : 0));
    }
    IS(effbd_step(one_box, sizeof one_box, words + 1, BOX_WORDS, EFFBD_STEP, ROW_30), EFFBD_ACCEPTED, 0);
    HOLDS(words[1 + 3 * BOX_END] == 1 && words[0] == FILLED && words[BOX_WORDS + 1] == FILLED);
    words[1 + 3 * 8] = 1; /* an outlet's BRANCH is never ready */
    IS(effbd_step(one_box, sizeof one_box, words + 1, BOX_WORDS, EFFBD_STEP, ROW_30), EFFBD_STATE_OFF, 0);
    box_off(FIELD, 1, 0, EFFBD_OUTLETS_UNMATCHED, 0);
    box_off(FIELD, 0, 1, EFFBD_OUTLETS_UNMATCHED, 0);
    box_off(LAST_OUTLET - 4, 28, 0, EFFBD_NESTING_BROKEN, 7);
    box_off(LAST_OUTLET, 19, 0, EFFBD_NESTING_BROKEN, 8);
}

/* Step 0 and wait 300, of the old edition, and of this one from a station, numbered from the first. */
enum { FIRST = 5 };
static const uint8_t old_run[2 * EFFBD_OLD_TELEGRAM_LENGTH] = {8, 0, 47, 0, 1, 0, 0, 0, 8, 0, 47, 0, 2, 0, 44, 1};
static const uint8_t run[2 * EFFBD_TELEGRAM_LENGTH] = {14, 0, 48, 0, FIRST,     0, 0, 0, STATION, 0, 1, 0, 0,  0,
                                                        14, 0, 48, 0, FIRST + 1, 0, 0, 0, STATION, 0, 2, 0, 44, 1};

static void runs_upward(void) {
    uint8_t area[sizeof run + BEYOND];
    memset(area, FILLED, sizeof area);
    IS(telegrams_up(NULL, 0, STATION, UINT32_MAX, NULL, 0), EFFBD_ACCEPTED, 0);
    IS(telegrams_up(NULL, 0, STATION, UINT32_MAX, area, sizeof area), EFFBD_ACCEPTED, 0);
    IS(telegrams_up(old_run, sizeof old_run, STATION, FIRST, NULL, 0), EFFBD_AREA_SHORT, sizeof run);
    IS(telegrams_up(old_run, sizeof old_run, STATION, FIRST, area, sizeof run - 1), EFFBD_AREA_SHORT, sizeof run);
    IS(telegrams_up(old_run, sizeof old_run - 1, STATION, FIRST, area, sizeof area), EFFBD_NO_TELEGRAM, 1);
    IS(telegrams_up(old_run, sizeof old_run, STATION, UINT32_MAX, area, sizeof area), EFFBD_NUMBER_NOT_NEXT, 1);
    HOLDS(kept(area, sizeof area));
    IS(telegrams_up(old_run, sizeof old_run, STATION, FIRST, area, sizeof area), EFFBD_ACCEPTED, sizeof run);
    HOLDS(memcmp(area, run, sizeof run) == 0 && kept(area + sizeof run, BEYOND));
}

/* Station and first number are single numbers: a refusal leaves both, an accepted call writes both, also of an empty run. */
static void runs_downward(void) {
    uint8_t area[sizeof old_run + BEYOND], off[sizeof run];
    uint16_t station = FILLED;
    uint32_t first = FILLED;
    memset(area, FILLED, sizeof area);
    IS(telegrams_down(run, sizeof run, NULL, 0, &station, &first), EFFBD_AREA_SHORT, sizeof old_run);
    IS(telegrams_down(run, sizeof run, area, sizeof old_run - 1, &station, &first), EFFBD_AREA_SHORT, sizeof old_run);
    IS(telegrams_down(run, sizeof run - 1, area, sizeof area, &station, &first), EFFBD_NO_TELEGRAM, 1);
    memcpy(off, run, sizeof run);
    off[EFFBD_TELEGRAM_LENGTH + 8]++;
    IS(telegrams_down(off, sizeof off, area, sizeof area, &station, &first), EFFBD_STATION_DIFFERS, 1);
    off[EFFBD_TELEGRAM_LENGTH + 4]++;
    IS(telegrams_down(off, sizeof off, area, sizeof area, &station, &first), EFFBD_NUMBER_NOT_NEXT, 1);
    HOLDS(kept(area, sizeof area) && station == FILLED && first == FILLED);
    IS(telegrams_down(NULL, 0, NULL, 0, &station, &first), EFFBD_ACCEPTED, 0);
    HOLDS(station == 0 && first == 0);
    IS(telegrams_down(run, sizeof run, area, sizeof area, &station, &first), EFFBD_ACCEPTED, sizeof old_run);
    HOLDS(memcmp(area, old_run, sizeof old_run) == 0 && kept(area + sizeof old_run, BEYOND));
    HOLDS(station == STATION && first == FIRST);
    station = first = FILLED;
    memset(area, FILLED, sizeof area);
    IS(telegrams_down(NULL, 0, area, sizeof area, &station, &first), EFFBD_ACCEPTED, 0);
    HOLDS(kept(area, sizeof area) && station == 0 && first == 0);
}

/* So many MiB of telegrams upward, with no area. Every MiB is the same memory, so that gigabytes are there to read and none to keep. */
static uint64_t large_run(size_t pieces) {
    enum { PIECE = 1 << 20 };
    int memory = memfd_create("a piece of a run", 0);
    uint8_t *pieced = mmap(NULL, pieces * PIECE, PROT_NONE, MAP_PRIVATE | MAP_ANONYMOUS | MAP_NORESERVE, -1, 0);
    int made = memory >= 0 && ftruncate(memory, PIECE) == 0 && pieced != MAP_FAILED;
    for (size_t piece = 0; made && piece < pieces; piece++) {
        made = mmap(pieced + piece * PIECE, PIECE, PROT_READ | PROT_WRITE, MAP_SHARED | MAP_FIXED, memory, 0) != MAP_FAILED;
    }
    holds("a run of gigabytes can be made", made);
    uint64_t answer = 0;
    if (made) {
        for (size_t at = 0; at < PIECE; at += sizeof old_run) {
            memcpy(pieced + at, old_run, sizeof old_run);
        }
        answer = telegrams_up(pieced, pieces * PIECE, STATION, 0, NULL, 0);
        munmap(pieced, pieces * PIECE);
    }
    close(memory);
    return answer;
}

static uint64_t large_log(size_t moves) {
    static uint8_t log[(EFFBD_MOST_LOG_MOVES + 1) * EFFBD_SETPOINT_LENGTH];
    uint32_t at;
    for (size_t move = 0; move < moves; move++) {
        memcpy(log + move * EFFBD_SETPOINT_LENGTH, one_start + (move < 3 ? move : 1) * EFFBD_SETPOINT_LENGTH, EFFBD_SETPOINT_LENGTH);
    }
    return log_starts(one_function, sizeof one_function, log, moves * EFFBD_SETPOINT_LENGTH, 0, &at);
}

/* Writes a record behind those that end at *end: its length, its kind, and as many fields as the length leaves. */
static void put(uint8_t *bytes, size_t *end, uint16_t length, uint16_t kind, const uint16_t *fields) {
    for (uint16_t at = 0; at < length; at += 2) {
        uint16_t word = at == 0 ? length : at == 2 ? kind : fields[at / 2 - 2];
        bytes[(*end)++] = (uint8_t)word;
        bytes[(*end)++] = (uint8_t)(word >> 8);
    }
}

static uint8_t large[10000];

/* Into `large` a diagram of so many rows, FUNCTIONs that take and give of each item and END, and so many items of a kind, 2 plain or 3
 * triggers; its length. */
static size_t large_diagram(uint16_t rows, uint16_t items, uint16_t kind) {
    size_t end = 0;
    uint16_t head[3] = {1, rows, items}, count[1] = {1}, function[2 + 3 * (EFFBD_MOST_ITEMS + 1)] = {0, 0};
    put(large, &end, 10, 1, head);
    for (uint16_t item = 0; item < items; item++) {
        put(large, &end, 6, kind, count);
        function[2 + 3 * item] = item;
        function[3 + 3 * item] = function[4 + 3 * item] = 1;
    }
    for (uint16_t row = 1; row < rows; row++) {
        put(large, &end, (uint16_t)(8 + 6 * items), 16, function);
    }
    put(large, &end, 4, 27, NULL);
    return end;
}

static uint64_t large_net(uint16_t places, uint16_t transitions) {
    static uint8_t bytes[10000];
    size_t end = 0;
    uint16_t head[2] = {places, transitions}, none[3] = {0, 0, 0};
    put(bytes, &end, 8, 32, head);
    for (uint16_t place = 0; place < places; place++) {
        put(bytes, &end, 6, 33, none);
    }
    for (uint16_t transition = 0; transition < transitions; transition++) {
        put(bytes, &end, 10, 34, none);
    }
    return tpn_read(bytes, end);
}

static void largest(void) {
    enum { PLAIN = 2, TRIGGER = 3, PLAIN_NET = 20660, LONGEST_NET = 526676 };
    static const char refused[] = "refused 10 526676\n";
    static uint8_t area[EFFBD_NET_ROOM], text[EFFBD_ANNEX_ROOM];
    IS(effbd_read(large, large_diagram(EFFBD_MOST_ROWS + 1, EFFBD_MOST_ITEMS, TRIGGER)), EFFBD_HEAD_VALUE_OFF, 0);
    IS(effbd_read(large, large_diagram(EFFBD_MOST_ROWS, EFFBD_MOST_ITEMS + 1, TRIGGER)), EFFBD_HEAD_VALUE_OFF, 0);
    size_t length = large_diagram(EFFBD_MOST_ROWS, EFFBD_MOST_ITEMS, PLAIN);
    IS(effbd_read(large, length), EFFBD_ACCEPTED, 3 * EFFBD_MOST_ROWS + EFFBD_MOST_ITEMS);
    IS(effbd_translate(large, length, area, sizeof area), EFFBD_ACCEPTED, PLAIN_NET);
    HOLDS(effbd_annex(large, length, area, EFFBD_ANNEX_NET_ROOM, text, sizeof text) == 28508);
    length = large_diagram(EFFBD_MOST_ROWS, EFFBD_MOST_ITEMS, TRIGGER);
    IS(effbd_read(large, length), EFFBD_ACCEPTED, EFFBD_MOST_STATE_WORDS);
    IS(effbd_translate(large, length, area, LONGEST_NET - 1), EFFBD_AREA_SHORT, LONGEST_NET);
    IS(effbd_translate(large, length, area, sizeof area), EFFBD_ACCEPTED, LONGEST_NET);
    IS(tpn_read(area, LONGEST_NET), EFFBD_ACCEPTED, EFFBD_MOST_PLACES + 2 * (EFFBD_MOST_ROWS - 1));
    HOLDS(effbd_annex(large, length, area, EFFBD_ANNEX_NET_ROOM, text, sizeof text) == strlen(refused));
    HOLDS(memcmp(text, refused, strlen(refused)) == 0);
    static uint16_t words[EFFBD_MOST_STATE_WORDS];
    words[3 * (EFFBD_MOST_ROWS - 2)] = 2;
    IS(effbd_transition(large, length, words, EFFBD_MOST_STATE_WORDS, EFFBD_MOST_ROWS - 2), EFFBD_ACCEPTED, 125);
    IS(large_net(EFFBD_MOST_PLACES, EFFBD_MOST_TRANSITIONS), EFFBD_ACCEPTED, EFFBD_MOST_NET_STATE_WORDS);
    IS(large_net(EFFBD_MOST_PLACES + 1, EFFBD_MOST_TRANSITIONS), EFFBD_HEAD_VALUE_OFF, 0);
    IS(large_net(EFFBD_MOST_PLACES, EFFBD_MOST_TRANSITIONS + 1), EFFBD_HEAD_VALUE_OFF, 0);
    IS(large_log(EFFBD_MOST_LOG_MOVES), EFFBD_ACCEPTED, 1);
    IS(large_log(EFFBD_MOST_LOG_MOVES + 1), EFFBD_LOG_OFF, 0);
    /* 1,835,008 bytes more are needed for each MiB: 2,340 of them have a value of 32 bits, 2,341 have none. */
    IS(large_run(2340), EFFBD_AREA_SHORT, 4293918720);
    IS(large_run(2341), EFFBD_AREA_SHORT, UINT32_MAX);
}

int main(void) {
    fresh();
    empty_lists();
    beyond_the_result();
    texts();
    wrong_number_of_words();
    single_numbers();
    words_only_read();
    boxes();
    runs_upward();
    runs_downward();
    largest();
    return wrong;
}
