/*
 * The calls whose reads are compared: docs/TRACE.md. It is run under valgrind's lackey, which prints every load and store, by
 * `slavotuk-trace run`, which cuts what is printed into cases at the stores to a page of marks. A line on standard output says
 * what a case is, before the case begins; the first lines say where the lent buffers lie.
 *
 * A case is one call on names that agree up to a byte and differ there. All cases of a group get the same answer, and the same
 * processes stand in them, but for their names. With --short there are fewer: every byte, at few places. Words behind it are the
 * beginnings of groups' names, and only these are tried.
 */
#define _GNU_SOURCE
#include <inttypes.h>
#include <stdint.h>
#include <stdio.h>
#include <stdlib.h>
#include <string.h>
#include <sys/mman.h>

#include "slavotuk.h"
#include "old_layout.h"

/* Where the page of marks lies, and which byte of it is stored to; trace/src/marks.rs has the same. */
#define MARKS ((volatile uint8_t *)0x30000000)
enum { BEGINS = 0, ENDS = 1, MARKS_SIZE = 4096 };

enum { PLACES = SLAVOTUK_PROCESSES, NAME = SLAVOTUK_NAME_SIZE, PAIRS = PLACES * (PLACES - 1) / 2 };

/* Where names lie in a state (docs/STATE.md) and in an image (docs/IMAGE.md): last in a place, and places last; last in a row. */
enum { NAME_IN_PLACE = 5, PLACE_SIZE = NAME_IN_PLACE + NAME, PLACES_AT = SLAVOTUK_STATE_SIZE - PLACE_SIZE * PLACES };
enum { ROWS_AT = SLAVOTUK_IMAGE_HEADER_SIZE, ROW_SIZE = SLAVOTUK_IMAGE_ROW_SIZE, NAME_IN_ROW = ROW_SIZE - NAME };
enum { LAST_ROW = PLACES - 1 };
enum { OLD_ROWS_AT = SLAVOTUK_IMAGE_OLD_HEADER_SIZE, OLD_IMAGE_SIZE = SLAVOTUK_IMAGE_SIZE - SECOND_WORDS_SIZE };

/* Drawn names differ from their first byte on. On the board of the accident all began with 16 bytes of zero. */
enum { DRAWN, ZEROS_IN_FRONT, SETS };
enum { ALIKE, DIFFERENT, TAILS };

static const char *const set_names[SETS] = {"drawn", "zeros in front"};
static const char *const tail_names[TAILS] = {"tail alike", "tail different"};

/* What the calls are lent, in the same place in every case. */
static uint8_t state[SLAVOTUK_STATE_SIZE];
static uint8_t name[NAME];
static uint8_t image[SLAVOTUK_IMAGE_SIZE];
static uint8_t old_image[OLD_IMAGE_SIZE];
static uint8_t rescued[SLAVOTUK_IMAGE_SIZE];

/* What a rescue hands out. */
static size_t rescued_length;
static uint16_t cleared, kept, dropped;

/* What a case begins with, of each set of names. */
static uint8_t names[SETS][PLACES][NAME];
static uint8_t full[SETS][SLAVOTUK_STATE_SIZE];
static uint8_t own_reach[SETS][SLAVOTUK_STATE_SIZE];
static uint8_t with_room[SETS][SLAVOTUK_STATE_SIZE];
static uint8_t all_saved[SETS][SLAVOTUK_STATE_SIZE];
static uint8_t saved_image[SETS][SLAVOTUK_IMAGE_SIZE];
static struct pair { unsigned one, other; } pairs[PAIRS];

/* Places and bytes as text: a line is made of pieces, since printf would take as much of the trace as a call does. */
static char numbers[NAME][3];

/* What is asked for: the short form, and the groups whose names begin with one of these words. */
static int is_short;
static char **asked, **asked_end;

static void stop(const char *what, uint32_t answer)
{
    fprintf(stderr, "trace: %s: the answer is %" PRIu32 " %s\n", what, answer, slavotuk_number_name(answer));
    exit(1);
}

static void done(const char *what, uint32_t answer)
{
    if (answer != SLAVOTUK_DONE) {
        stop(what, answer);
    }
}

/* ---- names */

/* SplitMix64: numbers that look random and are always the same. */
static uint64_t drawn_number(void)
{
    static uint64_t seed = 1;
    uint64_t mixed = seed += UINT64_C(0x9e3779b97f4a7c15);
    mixed = (mixed ^ mixed >> 30) * UINT64_C(0xbf58476d1ce4e5b9);
    mixed = (mixed ^ mixed >> 27) * UINT64_C(0x94d049bb133111eb);
    return mixed ^ mixed >> 31;
}

static void draw_name(uint8_t *drawn)
{
    for (unsigned at = 0; at < NAME; at++) {
        drawn[at] = (uint8_t)drawn_number();
    }
}

static void draw_names(void)
{
    for (unsigned place = 0; place < PLACES; place++) {
        draw_name(names[DRAWN][place]);
        draw_name(names[ZEROS_IN_FRONT][place]);
        memset(names[ZEROS_IN_FRONT][place], 0, 16);
    }
}

/* One of the cases: which names, about which place or pair of places, and where and how they differ. */
struct spot { unsigned set, place, byte, tail; };

/* The name `from` with that byte different, and with the bytes behind it as they are or all different. */
static void differing(uint8_t *made, const uint8_t *from, const struct spot *spot, unsigned difference)
{
    memcpy(made, from, NAME);
    made[spot->byte] ^= (uint8_t)difference;
    for (unsigned at = spot->byte + 1; spot->tail == DIFFERENT && at < NAME; at++) {
        made[at] ^= 0xff;
    }
}

/*
 * The digest by which the test of a state tells names apart, from their words of 8 bytes: crates/names/specs/Words.antt. Names that
 * share it are made by a last word that makes good for the others.
 */
enum { WORD = 8, BEFORE_LAST = NAME - WORD };

static uint64_t stirred(uint64_t digest, uint64_t word) { return 9 * (digest << 19 | digest >> 45) + word; }

static uint64_t word_at(const uint8_t *from)
{
    uint64_t word = 0;
    for (unsigned at = WORD; at > 0; at--) {
        word = word << 8 | from[at - 1];
    }
    return word;
}

static void put_word(uint8_t *to, uint64_t word)
{
    for (unsigned at = 0; at < WORD; at++) {
        to[at] = (uint8_t)(word >> 8 * at);
    }
}

static uint64_t digest(const uint8_t *from, unsigned length)
{
    uint64_t digest = 0;
    for (unsigned at = 0; at < length; at += WORD) {
        digest = stirred(digest, word_at(from + at));
    }
    return digest;
}

static uint8_t *name_at(uint8_t *in, unsigned place) { return in + PLACES_AT + PLACE_SIZE * place + NAME_IN_PLACE; }
static uint8_t *name_in_row(uint8_t *in, unsigned row) { return in + ROWS_AT + ROW_SIZE * row + NAME_IN_ROW; }

/* ---- states */

/*
 * What stands, in the table's order, on both ports. The first is whose claim a kill carries, and the fourth is its credential's in the
 * same session of the other port; session 3 of either and credential 7 have no process. From place STRANGERS on all are others'.
 */
enum { STRANGERS = 7 };
static const struct standing { uint8_t type, port, session, credential; } standing[PLACES] = {
    {SLAVOTUK_TYPE_ACTIVE_USER, 0, 0, 0},      {SLAVOTUK_TYPE_ACTIVE_ELEVATION, 0, 0, 1}, {SLAVOTUK_TYPE_SAVED_USER, 0, 0, 2},
    {SLAVOTUK_TYPE_ACTIVE_USER, 1, 0, 0},      {SLAVOTUK_TYPE_SAVED_USER, 1, 0, 3},       {SLAVOTUK_TYPE_ACTIVE_ELEVATION, 1, 0, 0},
    {SLAVOTUK_TYPE_SAVED_USER, 1, 2, 0},       {SLAVOTUK_TYPE_ACTIVE_USER, 1, 2, 4},      {SLAVOTUK_TYPE_ACTIVE_USER, 0, 0, 5},
    {SLAVOTUK_TYPE_ACTIVE_ELEVATION, 0, 2, 6}, {SLAVOTUK_TYPE_SAVED_USER, 0, 0, 6},       {SLAVOTUK_TYPE_ACTIVE_USER, 1, 1, 2},
};

#define MODULE state, sizeof state
#define NAMED name, sizeof name

/* Every credential has every class, or every one but that of killing others' processes. */
static const uint32_t EVERY_CLASS = UINT32_MAX, KILLS_ITS_OWN = UINT32_MAX & ~(UINT32_C(1) << SLAVOTUK_CLASS_KILL_OTHERS);

static void open_sessions(uint32_t word)
{
    const uint8_t provisioned[SLAVOTUK_CREDENTIALS] = {1, 1, 1, 1, 1, 1, 1, 1};
    const uint32_t words[SLAVOTUK_CREDENTIALS] = {word, word, word, word, word, word, word, word};
    const uint32_t seconds[SLAVOTUK_CREDENTIALS] = {0};
    done("fresh", slavotuk_fresh(MODULE, provisioned, SLAVOTUK_CREDENTIALS, words, SLAVOTUK_CREDENTIALS, seconds,
                                 SLAVOTUK_CREDENTIALS));
    for (unsigned port = 0; port < SLAVOTUK_PORTS; port++) {
        for (unsigned session = 0; session < SLAVOTUK_SESSIONS; session++) {
            done("open", slavotuk_open(MODULE, port, session));
            done("select", slavotuk_select(MODULE, port, session, SLAVOTUK_VERSION_1_0));
        }
    }
}

static void stand(const struct standing *process)
{
    if (process->type == SLAVOTUK_TYPE_ACTIVE_ELEVATION) {
        done("elevate", slavotuk_elevate(MODULE, process->port, process->session, process->credential, NAMED, 1));
        return;
    }
    done("start", slavotuk_start(MODULE, process->port, process->session, process->credential, NAMED));
    if (process->type == SLAVOTUK_TYPE_SAVED_USER) {
        done("end", slavotuk_end(MODULE, process->port, process->session, process->credential, 0, 1, 1));
    }
}

/* The first so many of those that stand, or that many saved ones of credential 0. */
static void make_state(uint8_t *made, unsigned set, unsigned count, int saved, uint32_t word)
{
    static const struct standing saved_one = {SLAVOTUK_TYPE_SAVED_USER, 0, 0, 0};
    open_sessions(word);
    for (unsigned place = 0; place < count; place++) {
        memcpy(name, names[set][place], NAME);
        stand(saved ? &saved_one : &standing[place]);
    }
    memcpy(made, state, sizeof state);
}

static void make_states(void)
{
    for (unsigned set = 0; set < SETS; set++) {
        size_t length;
        make_state(own_reach[set], set, PLACES, 0, KILLS_ITS_OWN);
        make_state(full[set], set, PLACES, 0, EVERY_CLASS);
        make_state(with_room[set], set, PLACES - 1, 0, EVERY_CLASS);
        make_state(all_saved[set], set, PLACES, 1, EVERY_CLASS);
        done("image", slavotuk_image(MODULE, saved_image[set], SLAVOTUK_IMAGE_SIZE, &length));
    }
}

static void make_pairs(void)
{
    struct pair pair = {0, 1};
    for (unsigned at = 0; at < PAIRS; at++) {
        pairs[at] = pair;
        if (++pair.other == PLACES) {
            pair.other = ++pair.one + 1;
        }
    }
}

/* ---- calls: each finds names of both ports, and a continue what was saved on the other one */

static uint32_t kill_it(void) { return slavotuk_kill(MODULE, 0, 0, SLAVOTUK_CLAIM_USER, 0, 0, 1, NAMED); }
static uint32_t start_it(void) { return slavotuk_start(MODULE, 1, 3, 7, NAMED); }
static uint32_t continue_it(void) { return slavotuk_continue(MODULE, 1, 3, 0, NAMED); }
static uint32_t elevate_it(void) { return slavotuk_elevate(MODULE, 1, 3, 7, NAMED, 1); }
static uint32_t holds_it(void) { return slavotuk_holds(MODULE); }
static uint32_t restore_it(void) { return slavotuk_restore(MODULE, image, sizeof image); }
static uint32_t restore_old_it(void) { return slavotuk_restore(MODULE, old_image, sizeof old_image); }

static uint32_t rescue(const uint8_t *bytes, size_t length)
{
    return slavotuk_rescue(bytes, length, rescued, sizeof rescued, &rescued_length, &cleared, &kept, &dropped);
}

static uint32_t rescue_it(void) { return rescue(image, sizeof image); }
static uint32_t rescue_old_it(void) { return rescue(old_image, sizeof old_image); }

/* ---- groups */

struct group {
    const char *name;
    uint8_t (*begin)[SLAVOTUK_STATE_SIZE];
    void (*prepare)(const struct spot *);
    uint32_t (*call)(void);
    uint32_t answer;
    uint16_t dropped;      /* by a rescue, bit i for row i: it is answered with 0 also where two names are equal */
    int of_pairs;          /* of places, and not of places */
    unsigned first, count; /* these places or pairs */
    unsigned bytes;        /* of a name, at which two differ */
    int in_turn;           /* sets and tails come in turn also in the whole form: a long call, with all pairs, would take half of it */
};

/* In which bit of the byte two names differ. */
static unsigned one_bit(const struct spot *spot) { return 1u << spot->byte % 8; }

/* The name that a call is handed differs from that of the place, and stands nowhere. */
static void ask(const struct spot *spot) { differing(name, names[spot->set][spot->place], spot, one_bit(spot)); }

/* The name that a call is handed is that of the place. */
static void ask_by_name(const struct spot *spot) { memcpy(name, names[spot->set][spot->place], NAME); }

/* The later name of a pair differs from the other. */
static void pair_up(const struct spot *spot)
{
    const struct pair *pair = &pairs[spot->place];
    differing(name_at(state, pair->other), names[spot->set][pair->one], spot, one_bit(spot));
}

/* The same, but for the last word, by which both have one digest. */
static void share_digest(const struct spot *spot)
{
    const struct pair *pair = &pairs[spot->place];
    uint8_t *other = name_at(state, pair->other);
    pair_up(spot);
    put_word(other + BEFORE_LAST, digest(names[spot->set][pair->one], NAME) - stirred(digest(other, BEFORE_LAST), 0));
}

static void pair_up_rows(const struct spot *spot)
{
    const struct pair *pair = &pairs[spot->place];
    memcpy(image, saved_image[spot->set], sizeof image);
    differing(name_in_row(image, pair->other), names[spot->set][pair->one], spot, one_bit(spot));
}

static void pair_up_old_rows(const struct spot *spot)
{
    pair_up_rows(spot);
    to_old_layout(old_image, image, sizeof image);
}

/* The name that a call is handed stands at the place, and all others differ from it, and from each other, at the byte. */
static void surround(const struct spot *spot)
{
    memcpy(name, names[spot->set][spot->place], NAME);
    for (unsigned place = 0; place < PLACES; place++) {
        if (place != spot->place) {
            differing(name_at(state, place), name, spot, place + 1);
        }
    }
}

/* The last row of an image has the name of the one at the place, and all others differ from it, and from each other, at the byte. */
static void surround_rows(const struct spot *spot)
{
    const uint8_t *twice = names[spot->set][spot->place];
    memcpy(image, saved_image[spot->set], sizeof image);
    for (unsigned row = 0; row < LAST_ROW; row++) {
        if (row != spot->place) {
            differing(name_in_row(image, row), twice, spot, row + 1);
        }
    }
    memcpy(name_in_row(image, LAST_ROW), twice, NAME);
}

static const struct group groups[] = {
    {"kill, no such name, 12 standing", full, ask, kill_it, SLAVOTUK_REFUSED_NO_PROCESS, 0, 0, 0, PLACES, NAME, 0},
    {"kill, no such name of its own, 12 standing", own_reach, ask, kill_it, SLAVOTUK_REFUSED_NO_PROCESS, 0, 0, 0, PLACES, NAME, 0},
    {"kill, a stranger's name, 12 standing", own_reach, ask_by_name, kill_it, SLAVOTUK_REFUSED_NO_PROCESS, 0, 0, STRANGERS, PLACES - STRANGERS, 1, 0},
    {"start, done, 11 standing", with_room, ask, start_it, SLAVOTUK_DONE, 0, 0, 0, PLACES - 1, NAME, 0},
    {"start, full, 12 standing", full, ask, start_it, SLAVOTUK_REFUSED_FULL, 0, 0, 0, PLACES, NAME, 0},
    {"continue, no such name, 12 saved", all_saved, ask, continue_it, SLAVOTUK_REFUSED_NO_PROCESS, 0, 0, 0, PLACES, NAME, 0},
    {"elevate, done, 11 standing", with_room, ask, elevate_it, SLAVOTUK_DONE, 0, 0, 0, PLACES - 1, NAME, 0},
    {"holds, 12 standing", full, pair_up, holds_it, SLAVOTUK_DONE, 0, 1, 0, PAIRS, NAME, 0},
    {"holds, two share a digest", full, share_digest, holds_it, SLAVOTUK_DONE, 0, 1, 0, 1, BEFORE_LAST, 0},
    {"restore, 12 rows", full, pair_up_rows, restore_it, SLAVOTUK_DONE, 0, 1, 0, PAIRS, NAME, 1},
    {"restore, 12 rows in the old layout", full, pair_up_old_rows, restore_old_it, SLAVOTUK_DONE, 0, 1, 0, PAIRS, NAME, 1},
    {"rescue, 12 rows", full, pair_up_rows, rescue_it, SLAVOTUK_DONE, 0, 1, 0, PAIRS, NAME, 1},
    {"rescue, 12 rows in the old layout", full, pair_up_old_rows, rescue_old_it, SLAVOTUK_DONE, 0, 1, 0, PAIRS, NAME, 1},
};

/* ---- cases */

static char *piece(char *at, const char *text)
{
    size_t length = strlen(text);
    memcpy(at, text, length + 1);
    return at + length;
}

static void say(const struct group *group, const struct spot *spot)
{
    static char line[160];
    char *at = piece(piece(line, "case\t"), group->name);
    at = piece(piece(at, "\t"), set_names[spot->set]);
    if (group->of_pairs) {
        at = piece(piece(at, ", places "), numbers[pairs[spot->place].one]);
        at = piece(piece(at, " and "), numbers[pairs[spot->place].other]);
    } else {
        at = piece(piece(at, ", place "), numbers[spot->place]);
    }
    at = piece(piece(at, ", byte "), numbers[spot->byte]);
    piece(piece(piece(at, ", "), tail_names[spot->tail]), "\n");
    fputs(line, stdout);
}

static void try_case(const struct group *group, const struct spot *spot)
{
    uint32_t answer;
    memcpy(state, group->begin[spot->set], sizeof state);
    dropped = 0;
    group->prepare(spot);
    say(group, spot);
    MARKS[BEGINS] = 1;
    answer = group->call();
    MARKS[ENDS] = 1;
    if (answer != group->answer) {
        stop(group->name, answer);
    }
    if (dropped != group->dropped) {
        fprintf(stderr, "trace: %s: the rows dropped are 0x%x\n", group->name, dropped);
        exit(1);
    }
}

/* In the short form sets and tails come in turn, from byte to byte and from place to place. */
static int is_its_turn(const struct spot *spot)
{
    return (spot->byte + spot->place) % TAILS == spot->tail && (spot->byte / TAILS + spot->place) % SETS == spot->set;
}

static void try_tails(const struct group *group, struct spot spot)
{
    for (spot.tail = 0; spot.tail < TAILS; spot.tail++) {
        if ((!is_short && !group->in_turn) || is_its_turn(&spot)) {
            try_case(group, &spot);
        }
    }
}

static void try_bytes(const struct group *group, struct spot spot)
{
    for (spot.byte = 0; spot.byte < group->bytes; spot.byte++) {
        try_tails(group, spot);
    }
}

/* In the short form: the first place, one in the middle and the last. */
static int is_chosen(unsigned at, unsigned count)
{
    return !is_short || at == 0 || at == count / 2 || at == count - 1;
}

static void try_places(const struct group *group, struct spot spot)
{
    for (unsigned at = 0; at < group->count; at++) {
        if (is_chosen(at, group->count)) {
            spot.place = group->first + at;
            try_bytes(group, spot);
        }
    }
}

static void try_sets(const struct group *group)
{
    struct spot spot = {0, 0, 0, 0};
    for (; spot.set < SETS; spot.set++) {
        try_places(group, spot);
    }
}

/* Without a word every group is. */
static int is_asked_for(const struct group *group)
{
    char **word = asked;
    while (word < asked_end && strncmp(group->name, *word, strlen(*word)) != 0) {
        word++;
    }
    return asked == asked_end || word < asked_end;
}

static void try_group(const struct group *group)
{
    if (is_asked_for(group)) {
        try_sets(group);
    }
}

/* Calls that find the name which they are handed, and a rescue that finds a row's name among those before it. */
static const struct finding {
    const char *what;
    uint8_t (*begin)[SLAVOTUK_STATE_SIZE];
    void (*prepare)(const struct spot *);
    uint32_t (*call)(void);
    uint32_t answer;
    uint16_t dropped;
    unsigned places; /* at which it can be found */
} findings[] = {
    {"kill, found", full, surround, kill_it, SLAVOTUK_DONE, 0, PLACES},
    {"start, name taken", full, surround, start_it, SLAVOTUK_REFUSED_NAME_TAKEN, 0, PLACES},
    {"elevate, name taken", full, surround, elevate_it, SLAVOTUK_REFUSED_NAME_TAKEN, 0, PLACES},
    {"continue, found", all_saved, surround, continue_it, SLAVOTUK_DONE, 0, PLACES},
    {"rescue, name taken", full, surround_rows, rescue_it, SLAVOTUK_DONE, 1u << LAST_ROW, LAST_ROW},
};

/* A search ends at the place that matches, so each place is a group. */
static void try_found(const struct finding *finding)
{
    static char text[40];
    for (unsigned place = 0; place < finding->places; place++) {
        const struct group group = {text, finding->begin, finding->prepare, finding->call, finding->answer, finding->dropped,
                                    0, place, 1, NAME, 0};
        snprintf(text, sizeof text, "%s at place %u", finding->what, place);
        if (is_chosen(place, finding->places)) {
            try_group(&group);
        }
    }
}

static void try_groups(void)
{
    for (size_t at = 0; at < sizeof groups / sizeof groups[0]; at++) {
        try_group(&groups[at]);
    }
    for (size_t at = 0; at < sizeof findings / sizeof findings[0]; at++) {
        try_found(&findings[at]);
    }
}

/* ---- the whole */

/* What it is called, where it lies and how long it is; of one with names in it also what has one, where the first is, how far apart. */
static void say_buffers(void)
{
    printf("buffer\tstate\t%p\t%zu\tplace\t%u\t%u\n", (void *)state, sizeof state, PLACES_AT + NAME_IN_PLACE, PLACE_SIZE);
    printf("buffer\tname\t%p\t%zu\n", (void *)name, sizeof name);
    printf("buffer\timage\t%p\t%zu\trow\t%u\t%u\n", (void *)image, sizeof image, ROWS_AT + NAME_IN_ROW, ROW_SIZE);
    printf("buffer\told image\t%p\t%zu\trow\t%u\t%u\n", (void *)old_image, sizeof old_image, OLD_ROWS_AT + NAME_IN_ROW,
           ROW_SIZE);
    printf("buffer\trescued image\t%p\t%zu\trow\t%u\t%u\n", (void *)rescued, sizeof rescued, ROWS_AT + NAME_IN_ROW, ROW_SIZE);
}

static void make_numbers(void)
{
    for (unsigned number = 0; number < NAME; number++) {
        snprintf(numbers[number], sizeof numbers[number], "%u", number);
    }
}

static void map_marks(void)
{
    void *page = mmap((void *)MARKS, MARKS_SIZE, PROT_READ | PROT_WRITE,
                      MAP_PRIVATE | MAP_ANONYMOUS | MAP_FIXED_NOREPLACE, -1, 0);
    if (page != (void *)MARKS) {
        perror("trace: no page of marks");
        exit(1);
    }
}

int main(int count, char **arguments)
{
    is_short = count > 1 && strcmp(arguments[1], "--short") == 0;
    asked = arguments + 1 + is_short;
    asked_end = arguments + count;
    if (asked < asked_end && asked[0][0] == '-') {
        fprintf(stderr, "usage: trace [--short] [GROUP..]\n");
        return 2;
    }
    /* whoever reads the trace has the line of a case before the case */
    setvbuf(stdout, NULL, _IOLBF, BUFSIZ);
    map_marks();
    make_numbers();
    draw_names();
    make_states();
    make_pairs();
    say_buffers();
    try_groups();
    return 0;
}
