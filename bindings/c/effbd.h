/* Flow diagrams, their nets, both bus ends, runs of telegrams and logs: the proved functions, for C.
 *
 * Link crates/effbd_c/out/libeffbd_c.a, which `rt lib` writes in crates/effbd_c (x86-64). bindings/c/example.c has a whole program.
 *
 * Lists. A list is a pointer and its number of ELEMENTS: bytes of files, areas, telegrams and logs, 16-bit words of states (aligned as
 * uint16_t). Any bytes, words and numbers may be given. An empty list may be (NULL, 0): nothing is read or written through its pointer. A
 * single number that is lent, as `uint32_t *at`, is never NULL, and aligned. Lists and numbers that are lent to one call must not overlap
 * where one of them is written. No call keeps a pointer, allocates, or has memory of its own.
 *
 * Answers. An answer is number * 2^32 + value. Number 0: accepted. Else it is a refusal of the table of documents 01 and 02, the value is
 * what the table returns with it, and nothing that was lent is altered. An accepted call writes every single number that it is lent.
 *
 *     uint64_t answer = effbd_step(file, file_count, state, state_count, EFFBD_WAIT, 20);
 *     if (effbd_number(answer) == EFFBD_WAIT_HELD) { .. a step is due before time may pass .. }
 *
 * Order of refusals. A file is looked at first (1 to 9; 43 right after 5 at the same record, 44 between 7 and 8 and 48 between 8 and 9 at the
 * same row; where no row is refused 49, 50, 45), then the number of words of a state (20), its words (20), the move (21 to 26), the leader's
 * count (27), the area (10). The follower looks at the telegram (30 to 33) before all of these. Of a log, after the file: its length (40),
 * the row (41), its moves (42). Of a run of telegrams each telegram in its turn (30, 46, 47), then the area (10).
 */
#ifndef EFFBD_H
#define EFFBD_H

#include <stddef.h>
#include <stdint.h>

#ifdef __cplusplus
extern "C" {
#endif

/* Move codes; any other is refused with EFFBD_CODE_OFF. */
#define EFFBD_STEP 1 /* of a row or label */
#define EFFBD_WAIT 2 /* of 1 to 65,535 ticks of 0.1 s */

/* What to lend where nothing was read yet. */
#define EFFBD_MOST_ROWS 64              /* of a diagram */
#define EFFBD_MOST_ITEMS 16             /* of a diagram */
#define EFFBD_MOST_PLACES 1216          /* of a net */
#define EFFBD_MOST_TRANSITIONS 128      /* of a net */
#define EFFBD_MOST_STATE_WORDS 1216     /* of a diagram: 3 for each row, 1 for each item, 1 for each copy of a trigger */
#define EFFBD_MOST_NET_STATE_WORDS 1344 /* of a net: 1 for each place, 1 for each transition */
#define EFFBD_NET_ROOM 584072           /* bytes that have room for the net of any diagram, by proof */
#define EFFBD_ANNEX_NET_ROOM 65536      /* bytes that the annex program lends for the net */
#define EFFBD_ANNEX_ROOM 393216         /* bytes that have room for the annex text of any file, the net lent EFFBD_ANNEX_NET_ROOM */
#define EFFBD_TELEGRAM_LENGTH 14        /* bytes */
#define EFFBD_OLD_TELEGRAM_LENGTH 8     /* bytes of a telegram of the old edition */
#define EFFBD_SETPOINT_LENGTH 4         /* bytes of one move of a log: code, then row or ticks, 16 bits each, low byte first */
#define EFFBD_MOST_LOG_MOVES 65535      /* of a log */

/* The refusals' numbers. */
#define EFFBD_ACCEPTED 0
enum effbd_refusal {
    EFFBD_CUT_SHORT = 1,
    EFFBD_KIND_NOT_DUE = 2,
    EFFBD_LENGTH_WRONG = 3,
    EFFBD_HEAD_VALUE_OFF = 4,
    EFFBD_FIELD_OFF = 5,
    EFFBD_BYTES_AFTER_LAST = 6,
    EFFBD_NESTING_BROKEN = 7,
    EFFBD_LOOP_EXIT_MISPLACED = 8,
    EFFBD_TOO_MANY_OPEN = 9,
    EFFBD_AREA_SHORT = 10,
    EFFBD_STATE_OFF = 20,
    EFFBD_CODE_OFF = 21,
    EFFBD_NOT_STANDING = 22,
    EFFBD_ITEM_SHORT = 23,
    EFFBD_TICKS_LACKING = 24,
    EFFBD_SUM_TOO_LARGE = 25,
    EFFBD_WAIT_HELD = 26,
    EFFBD_COUNT_FULL = 27,
    EFFBD_NO_TELEGRAM = 30,
    EFFBD_OTHER_STATION = 31,
    EFFBD_NUMBER_PAST = 32,
    EFFBD_NUMBER_AHEAD = 33,
    EFFBD_LOG_OFF = 40,
    EFFBD_NOT_FUNCTION = 41,
    EFFBD_MOVE_REFUSED = 42,
    EFFBD_TRIGGER_OFF = 43,
    EFFBD_KILLING_BRANCH_EMPTY = 44,
    EFFBD_LOOP_SPENDS_NO_TIME = 45,
    EFFBD_NUMBER_NOT_NEXT = 46,
    EFFBD_STATION_DIFFERS = 47,
    EFFBD_BOX_EXIT_MISPLACED = 48,
    EFFBD_OUTLETS_UNMATCHED = 49,
    EFFBD_SCENARIO_FALLS_THROUGH = 50,
};

/* Number (EFFBD_ACCEPTED or a refusal) and value of an answer. */
static inline uint32_t effbd_number(uint64_t answer) { return (uint32_t)(answer >> 32); }
static inline uint32_t effbd_value(uint64_t answer) { return (uint32_t)answer; }

/* A diagram file. Accepted: the number of words of its state, 3 for each row, 1 for each item, 1 for each copy of a trigger: there is one
 * for each FUNCTION row that takes it. */
uint64_t effbd_read(const uint8_t *file, size_t file_count);

/* The part of a diagram file that has the uses of FUNCTION row `row`, 6 bytes a use (item, take, give). Never refuses: answers
 * start * 2^32 + size, in bytes; see effbd_uses_start and effbd_uses_size. A FUNCTION without uses has size 0 at the start where its uses
 * would stand. A refused file, a row of another kind and a row that the file does not have: start 0, size 0. */
uint64_t effbd_uses(const uint8_t *file, size_t file_count, uint16_t row);

static inline uint32_t effbd_uses_start(uint64_t part) { return (uint32_t)(part >> 32); }
static inline uint32_t effbd_uses_size(uint64_t part) { return (uint32_t)part; }

/* The fresh state of a diagram, into all words of `state`, whatever they were. Accepted: 0.
 * EFFBD_STATE_OFF where state_count is not the number of words that effbd_read answers. */
uint64_t effbd_fresh(const uint8_t *file, size_t file_count, uint16_t *state, size_t state_count);

/* EFFBD_STEP steps row `argument`, EFFBD_WAIT waits `argument` ticks; the state becomes the one after the move. Accepted: 0.
 * EFFBD_STATE_OFF where state_count is not the number of words that effbd_read answers, or where the words are no state of this diagram. */
uint64_t effbd_step(const uint8_t *file, size_t file_count, uint16_t *state, size_t state_count, uint16_t code, uint16_t argument);

/* Which transition of the net a ready or running FUNCTION's step fires: the row's first transition's number plus activity less 1. That is the
 * number behind `t` in the annex. Accepted: the number. It does not ask whether the step would be accepted now. Where it is, at any state that
 * moves have reached, the net of the diagram fires just this transition.
 * EFFBD_STATE_OFF as effbd_step; EFFBD_NOT_STANDING, with the row, where it is no FUNCTION, is idle, or the file does not have it. */
uint64_t effbd_transition(const uint8_t *file, size_t file_count, const uint16_t *state, size_t state_count, uint16_t row);

/* The net of a diagram, into the first bytes of an area; those beyond the net keep their values. Accepted: the net's length, at most
 * EFFBD_NET_ROOM.
 * EFFBD_AREA_SHORT returns the bytes needed, so that an area (NULL, 0) asks for them. */
uint64_t effbd_translate(const uint8_t *file, size_t file_count, uint8_t *area, size_t area_count);

/* What the annex program prints of a diagram, into the first bytes of `text`, and its net into the first bytes of `net`; those beyond keep
 * their values. Never refuses: answers the length of the text, which no zero byte ends. Where that is above text_count, the first
 * text_count bytes of the text are written, so that a text (NULL, 0) asks for the length. Where effbd_translate would refuse the file, or
 * the net's area with EFFBD_AREA_SHORT, the text is the one line `refused NUMBER VALUE` and `net` keeps its bytes. The annex program lends
 * EFFBD_ANNEX_NET_ROOM bytes for the net; EFFBD_ANNEX_ROOM bytes then hold every text. */
uint64_t effbd_annex(const uint8_t *file, size_t file_count, uint8_t *net, size_t net_count, uint8_t *text, size_t text_count);

/* A net file: just the net's bytes, without the rest of the area. Accepted: the number of words of its state, places and transitions. */
uint64_t tpn_read(const uint8_t *net, size_t net_count);

/* The fresh state of a net, into all words of `state`, whatever they were. Accepted: 0.
 * EFFBD_STATE_OFF where state_count is not the number of words that tpn_read answers. */
uint64_t tpn_fresh(const uint8_t *net, size_t net_count, uint16_t *state, size_t state_count);

/* EFFBD_STEP steps label `argument`, EFFBD_WAIT waits `argument` ticks; the state becomes the one after the move. Accepted: 0.
 * EFFBD_STATE_OFF where state_count is not the number of words that tpn_read answers; any words of that number are a state of the net. */
uint64_t tpn_step(const uint8_t *net, size_t net_count, uint16_t *state, size_t state_count, uint16_t code, uint16_t argument);

/* The leader: makes the move as effbd_step does, with its refusals, and writes its telegram, numbered count + 1, into the first
 * EFFBD_TELEGRAM_LENGTH bytes of the area; those beyond keep their values. Accepted: the new count, count + 1.
 * EFFBD_COUNT_FULL where count is 4,294,967,295, EFFBD_AREA_SHORT where the area has fewer bytes; the move is then not made. */
uint64_t leader_offer(const uint8_t *file, size_t file_count, uint16_t *state, size_t state_count, uint32_t count, uint16_t station,
                      uint16_t code, uint16_t argument, uint8_t *area, size_t area_count);

/* The follower: bytes that came over the bus. A telegram of this station numbered count + 1 makes its move as tpn_step does, with its
 * refusals. Accepted: the new count, count + 1. Other bytes are refused before net and state are looked at: EFFBD_NO_TELEGRAM also where
 * telegram_count is not EFFBD_TELEGRAM_LENGTH, EFFBD_OTHER_STATION, EFFBD_NUMBER_PAST (a repeat), EFFBD_NUMBER_AHEAD (one was lost). */
uint64_t follower_take(const uint8_t *net, size_t net_count, uint16_t *state, size_t state_count, uint32_t count, uint16_t station,
                       const uint8_t *telegram, size_t telegram_count);

/* The most starts of FUNCTION row `row` in an hour, 36,000 ticks, of a log: the moves from the fresh state on, EFFBD_SETPOINT_LENGTH bytes
 * each. A start's time is the sum of the waits before it. Accepted: the most starts whose times are in one span from t up to but not
 * including t + 36,000; `*at` becomes the earliest such t that is itself the time of a start. 0 and 0 where there is no start.
 * EFFBD_LOG_OFF where the log has more than EFFBD_MOST_LOG_MOVES moves, or log_count is no whole number of setpoints; EFFBD_NOT_FUNCTION
 * where the row is of another kind, or the file does not have it; EFFBD_MOVE_REFUSED returns the index of the first move that is refused. */
uint64_t log_starts(const uint8_t *file, size_t file_count, const uint8_t *log, size_t log_count, uint16_t row, uint32_t *at);

/* A run of telegrams of the old edition (length 8, kind 47, setpoint), one after another, as telegrams of this one, into the first bytes of
 * an area; those beyond keep their values. They get `station`, and numbers from `first` on. Accepted: the bytes written,
 * EFFBD_TELEGRAM_LENGTH for each EFFBD_OLD_TELEGRAM_LENGTH of the run; an empty run is 0 bytes.
 * At the first telegram that is off, with its index: EFFBD_NO_TELEGRAM where its size, length or kind is off, also where fewer bytes are
 * left; EFFBD_NUMBER_NOT_NEXT where its number would be past 4,294,967,295. Then EFFBD_AREA_SHORT returns the bytes needed, so that an area
 * (NULL, 0) asks for them. A value that 32 bits cannot hold, of runs of gigabytes, is returned as 4,294,967,295. */
uint64_t telegrams_up(const uint8_t *old, size_t old_count, uint16_t station, uint32_t first, uint8_t *area, size_t area_count);

/* The other way: a run of telegrams as telegrams of the old edition, into the first bytes of an area; those beyond keep their values.
 * Accepted: the bytes written; `*station` and `*first` become the station and the number of the first telegram, with which telegrams_up gives
 * the run back; of an empty run both 0.
 * At the first telegram that is off, with its index: EFFBD_NO_TELEGRAM; EFFBD_NUMBER_NOT_NEXT where its number is not one above the last;
 * EFFBD_STATION_DIFFERS where its station is not the first one's. Then EFFBD_AREA_SHORT as above. */
uint64_t telegrams_down(const uint8_t *run, size_t run_count, uint8_t *area, size_t area_count, uint16_t *station, uint32_t *first);

/* The number of an answer in words. */
static inline const char *effbd_words(uint32_t number) {
    switch (number) {
    case EFFBD_ACCEPTED: return "accepted";
    case EFFBD_CUT_SHORT: return "cut short";
    case EFFBD_KIND_NOT_DUE: return "kind not due here";
    case EFFBD_LENGTH_WRONG: return "length wrong for kind";
    case EFFBD_HEAD_VALUE_OFF: return "head value off";
    case EFFBD_FIELD_OFF: return "field off";
    case EFFBD_BYTES_AFTER_LAST: return "bytes after the last record";
    case EFFBD_NESTING_BROKEN: return "nesting broken";
    case EFFBD_LOOP_EXIT_MISPLACED: return "LE misplaced";
    case EFFBD_TOO_MANY_OPEN: return "a 13th open";
    case EFFBD_AREA_SHORT: return "area too short";
    case EFFBD_STATE_OFF: return "state off";
    case EFFBD_CODE_OFF: return "no move";
    case EFFBD_NOT_STANDING: return "step not standing";
    case EFFBD_ITEM_SHORT: return "item short";
    case EFFBD_TICKS_LACKING: return "ticks lacking";
    case EFFBD_SUM_TOO_LARGE: return "sum above 65,535";
    case EFFBD_WAIT_HELD: return "wait held";
    case EFFBD_COUNT_FULL: return "leader's count full";
    case EFFBD_NO_TELEGRAM: return "no telegram";
    case EFFBD_OTHER_STATION: return "other station";
    case EFFBD_NUMBER_PAST: return "number at or below count";
    case EFFBD_NUMBER_AHEAD: return "number above count + 1";
    case EFFBD_LOG_OFF: return "log too long or not whole";
    case EFFBD_NOT_FUNCTION: return "row is no FUNCTION";
    case EFFBD_MOVE_REFUSED: return "a move of the log refused";
    case EFFBD_TRIGGER_OFF: return "trigger's take or give above 1";
    case EFFBD_KILLING_BRANCH_EMPTY: return "killing branch empty";
    case EFFBD_LOOP_SPENDS_NO_TIME: return "loop spends no time";
    case EFFBD_NUMBER_NOT_NEXT: return "number not one above the last, or past 4,294,967,295";
    case EFFBD_STATION_DIFFERS: return "station differs from the first";
    case EFFBD_BOX_EXIT_MISPLACED: return "EXIT misplaced";
    case EFFBD_OUTLETS_UNMATCHED: return "outlets and EXIT rows not one to one";
    case EFFBD_SCENARIO_FALLS_THROUGH: return "a scenario falls through";
    default: return "no number of the table";
    }
}

#ifdef __cplusplus
}
#endif
#endif
