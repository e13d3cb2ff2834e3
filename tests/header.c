/*
 * Does the header say what the archive does? Each constant is tried at its bound and one past it, each of the header's numbers
 * is met, and every slice is handed in as null with length 0. Slices are allocated with just their length, so that valgrind
 * sees a byte read or written past them. Also compiled as C++. Exit code: 0 where all agree, else 1.
 */
#include <stdint.h>
#include <stdio.h>
#include <stdlib.h>
#include <string.h>

#include "slavotuk.h"

#define USER(credential, number) SLAVOTUK_CLAIM_USER, credential, number, 1
#define ELEVATED SLAVOTUK_CLAIM_ELEVATED, 99, 99, 99
#define MODULE state, SLAVOTUK_STATE_SIZE
#define NAMED(last) named(last), SLAVOTUK_NAME_SIZE
#define VALUES values, SLAVOTUK_MESSAGE_VALUES
#define WORDS words, SLAVOTUK_CREDENTIALS

/* A port and a session of it: session 0 of either, and the last session that there is. */
#define HERE 0, 0
#define ACROSS 1, 0
#define LAST SLAVOTUK_PORTS - 1, SLAVOTUK_SESSIONS - 1

/* Where docs/STATE.md has the next number of the process at a place: the places are last, and a name is last in each. */
#define PLACE_SIZE (5 + SLAVOTUK_NAME_SIZE)
#define NEXT_NUMBER(place) (SLAVOTUK_STATE_SIZE - PLACE_SIZE * (SLAVOTUK_PROCESSES - (place)) + 3)

#define EXPECT(value, expected) expect(__LINE__, #value, (unsigned long)(value), (unsigned long)(expected))

/*
 * A call that is refused after the tests of its claim, the process standing at that place: its next number is one more, and no
 * other byte of the state has changed. The same call is then out of turn.
 */
#define SPENDS(place, call, refusal)                                                                                           \
    do {                                                                                                                       \
        memcpy(kept, state, SLAVOTUK_STATE_SIZE);                                                                              \
        EXPECT(call, refusal);                                                                                                 \
        kept[NEXT_NUMBER(place)]++;                                                                                            \
        EXPECT(memcmp(kept, state, SLAVOTUK_STATE_SIZE), 0);                                                                   \
        EXPECT(call, SLAVOTUK_REFUSED_OUT_OF_TURN);                                                                            \
        EXPECT(memcmp(kept, state, SLAVOTUK_STATE_SIZE), 0);                                                                   \
    } while (0)

static int disagreements = 0;
static uint8_t kept[SLAVOTUK_STATE_SIZE];
static uint8_t *state;
static uint8_t *name;
static uint8_t *listing;

static void expect(int line, const char *text, unsigned long value, unsigned long expected)
{
    if (value != expected) {
        printf("header.c:%d: %s is %lu, not %lu\n", line, text, value, expected);
        disagreements++;
    }
}

static uint8_t *allocate(size_t length)
{
    uint8_t *bytes = (uint8_t *)malloc(length);
    if (bytes == NULL) {
        fputs("header: no memory\n", stderr);
        exit(EXIT_FAILURE);
    }
    return bytes;
}

/* The one name, with this last byte. */
static const uint8_t *named(unsigned last)
{
    memset(name, 0, SLAVOTUK_NAME_SIZE);
    name[SLAVOTUK_NAME_SIZE - 1] = (uint8_t)last;
    return name;
}

/* Tries a fresh module in a slice of its own of this length, of this many flags, grant words and second words. */
static uint32_t fresh_of(size_t state_length, size_t flags, size_t words, size_t seconds)
{
    uint8_t provisioned[SLAVOTUK_CREDENTIALS + 1] = {0};
    uint32_t zeros[SLAVOTUK_CREDENTIALS + 1] = {0};
    uint8_t *bytes = allocate(state_length);
    uint32_t number = slavotuk_fresh(bytes, state_length, provisioned, flags, zeros, words, zeros, seconds);
    free(bytes);
    return number;
}

static void check_fresh(void)
{
    const size_t all = SLAVOTUK_CREDENTIALS;
    EXPECT(fresh_of(SLAVOTUK_STATE_SIZE - 1, all, all, all), SLAVOTUK_REFUSED_ARGUMENT);
    EXPECT(fresh_of(SLAVOTUK_STATE_SIZE, all, all, all), SLAVOTUK_DONE);
    EXPECT(fresh_of(SLAVOTUK_STATE_SIZE + 1, all, all, all), SLAVOTUK_REFUSED_ARGUMENT);
    for (size_t other = all - 1; other <= all + 1; other += 2) {
        EXPECT(fresh_of(SLAVOTUK_STATE_SIZE, other, all, all), SLAVOTUK_REFUSED_ARGUMENT);
        EXPECT(fresh_of(SLAVOTUK_STATE_SIZE, all, other, all), SLAVOTUK_REFUSED_ARGUMENT);
        EXPECT(fresh_of(SLAVOTUK_STATE_SIZE, all, all, other), SLAVOTUK_REFUSED_ARGUMENT);
    }
}

/*
 * Credentials 0 to 3 have the module's class of that number alone, 4 the first device class, 5 the last; 7 is not provisioned.
 * The second words mark no class of these.
 */
static void make_module(void)
{
    const uint8_t provisioned[SLAVOTUK_CREDENTIALS] = {1, 1, 1, 1, 1, 1, 1, 0};
    const uint32_t words[SLAVOTUK_CREDENTIALS] = {
        UINT32_C(1) << SLAVOTUK_CLASS_LIST_OTHERS,  UINT32_C(1) << SLAVOTUK_CLASS_KILL_OTHERS,
        UINT32_C(1) << SLAVOTUK_CLASS_SAVE_OWN,     UINT32_C(1) << SLAVOTUK_CLASS_SET_WORDS,
        UINT32_C(1) << SLAVOTUK_CLASS_DEVICE_FIRST, UINT32_C(1) << SLAVOTUK_CLASS_DEVICE_LAST,
    };
    const uint32_t seconds[SLAVOTUK_CREDENTIALS] = {~words[0], ~words[1], ~words[2], ~words[3],
                                                    ~words[4], ~words[5], 0,         UINT32_MAX};
    EXPECT(slavotuk_fresh(MODULE, provisioned, SLAVOTUK_CREDENTIALS, words, SLAVOTUK_CREDENTIALS, seconds,
                          SLAVOTUK_CREDENTIALS), SLAVOTUK_DONE);
}

/* What lies in read-only memory: a write would end the program. All zero is a fresh module without credentials. */
static const uint8_t read_only[SLAVOTUK_STATE_SIZE] = {0};

/* The module is a state; a byte more or less of it is none. */
static void check_holds(void)
{
    EXPECT(slavotuk_holds(read_only, SLAVOTUK_STATE_SIZE), SLAVOTUK_DONE);
    uint8_t *longer = allocate(SLAVOTUK_STATE_SIZE + 1);
    memcpy(longer, state, SLAVOTUK_STATE_SIZE);
    longer[SLAVOTUK_STATE_SIZE] = 0;
    EXPECT(slavotuk_holds(MODULE), SLAVOTUK_DONE);
    EXPECT(slavotuk_holds(longer, SLAVOTUK_STATE_SIZE + 1), SLAVOTUK_REFUSED_ARGUMENT);
    EXPECT(slavotuk_holds(longer + 1, SLAVOTUK_STATE_SIZE), SLAVOTUK_REFUSED_ARGUMENT);
    EXPECT(slavotuk_holds(longer, SLAVOTUK_STATE_SIZE - 1), SLAVOTUK_REFUSED_ARGUMENT);
    free(longer);
}

static void check_version(void)
{
    EXPECT(slavotuk_version(), SLAVOTUK_VERSION_NUMBER);
}

/* As document 01's table of numbers has them, and document 02's 18. */
static void check_names(void)
{
    static const char *const names[] = {
        "done",          "argument",       "session", "no version",  "version",     "credential",
        "no process",    "already active", "verdict", "out of turn", "not granted", "full",
        "name taken",    "spent",          "message", "room",        "unknown",     "unknown",
        "only elevated", "unknown",
    };
    for (uint32_t number = 0; number <= SLAVOTUK_REFUSED_ONLY_ELEVATED + 1; number++) {
        EXPECT(strcmp(slavotuk_number_name(number), names[number]), 0);
    }
    EXPECT(strcmp(slavotuk_number_name(UINT32_MAX), "unknown"), 0);
}

/* The shortest image, in read-only memory as well. */
static const uint8_t no_credentials[SLAVOTUK_IMAGE_OLD_HEADER_SIZE] = {0, 0, SLAVOTUK_CREDENTIALS, 0, 10, 0, 0, 0,
                                                                       SLAVOTUK_IMAGE_OLD_HEADER_SIZE};

/* What a rescue hands out beside the image. */
static struct {
    size_t length;
    uint16_t cleared, kept, dropped;
} report;

/* Stands there before each: no rescue hands it out. */
#define UNREPORTED 0xeeee

#define EXPECT_REPORT(bytes, words, rows, places)                                                                              \
    do {                                                                                                                       \
        EXPECT(report.length, bytes);                                                                                          \
        EXPECT(report.cleared, words);                                                                                         \
        EXPECT(report.kept, rows);                                                                                             \
        EXPECT(report.dropped, places);                                                                                        \
    } while (0)

static uint32_t rescue(const uint8_t *bytes, size_t bytes_length, uint8_t *image, size_t image_length)
{
    report.length = report.cleared = report.kept = report.dropped = UNREPORTED;
    return slavotuk_rescue(bytes, bytes_length, image, image_length, &report.length, &report.cleared, &report.kept,
                           &report.dropped);
}

/* Each slice that a call is lent, as null with length 0: the number that its length gets, and nothing is touched. */
static void check_nulls(void)
{
    uint8_t flags[SLAVOTUK_CREDENTIALS] = {0};
    uint32_t words[SLAVOTUK_CREDENTIALS] = {0};
    size_t length = 1;
    uint16_t number = 1;
    uint8_t type = 1;
    const uint8_t one_row[SLAVOTUK_HEADER_SIZE + SLAVOTUK_ROW_SIZE] = {0x0e, 0, 1};
    EXPECT(slavotuk_fresh(NULL, 0, flags, sizeof flags, WORDS, WORDS), SLAVOTUK_REFUSED_ARGUMENT);
    EXPECT(slavotuk_fresh(MODULE, NULL, 0, WORDS, WORDS), SLAVOTUK_REFUSED_ARGUMENT);
    EXPECT(slavotuk_fresh(MODULE, flags, sizeof flags, NULL, 0, WORDS), SLAVOTUK_REFUSED_ARGUMENT);
    EXPECT(slavotuk_fresh(MODULE, flags, sizeof flags, WORDS, NULL, 0), SLAVOTUK_REFUSED_ARGUMENT);
    EXPECT(slavotuk_holds(NULL, 0), SLAVOTUK_REFUSED_ARGUMENT);
    EXPECT(slavotuk_open(NULL, 0, HERE), SLAVOTUK_REFUSED_ARGUMENT);
    EXPECT(slavotuk_close(NULL, 0, HERE), SLAVOTUK_REFUSED_ARGUMENT);
    EXPECT(slavotuk_select(NULL, 0, HERE, SLAVOTUK_VERSION_1_0), SLAVOTUK_REFUSED_ARGUMENT);
    EXPECT(slavotuk_drop(NULL, 0, HERE), SLAVOTUK_REFUSED_ARGUMENT);
    EXPECT(slavotuk_start(NULL, 0, HERE, 0, NAMED(0)), SLAVOTUK_REFUSED_ARGUMENT);
    EXPECT(slavotuk_start(MODULE, HERE, 0, NULL, 0), SLAVOTUK_REFUSED_ARGUMENT);
    EXPECT(slavotuk_continue(NULL, 0, HERE, 0, NAMED(0)), SLAVOTUK_REFUSED_ARGUMENT);
    EXPECT(slavotuk_continue(MODULE, HERE, 0, NULL, 0), SLAVOTUK_REFUSED_ARGUMENT);
    EXPECT(slavotuk_elevate(NULL, 0, HERE, 0, NAMED(0), 1), SLAVOTUK_REFUSED_ARGUMENT);
    EXPECT(slavotuk_elevate(MODULE, HERE, 0, NULL, 0, 1), SLAVOTUK_REFUSED_ARGUMENT);
    EXPECT(slavotuk_end(NULL, 0, HERE, 0, 0, 1, 0), SLAVOTUK_REFUSED_ARGUMENT);
    EXPECT(slavotuk_record(NULL, 0, HERE, USER(0, 0), SLAVOTUK_CLASS_DEVICE_FIRST), SLAVOTUK_REFUSED_ARGUMENT);
    EXPECT(slavotuk_list(NULL, 0, HERE, USER(0, 0), 0, listing, SLAVOTUK_LISTING_SIZE, &length), SLAVOTUK_REFUSED_ARGUMENT);
    SPENDS(0, slavotuk_list(MODULE, HERE, USER(0, 0), 0, NULL, 0, &length), SLAVOTUK_REFUSED_ROOM);
    EXPECT(length, 0);
    EXPECT(slavotuk_kill(NULL, 0, HERE, USER(0, 0), NAMED(0)), SLAVOTUK_REFUSED_ARGUMENT);
    EXPECT(slavotuk_kill(MODULE, HERE, USER(0, 0), NULL, 0), SLAVOTUK_REFUSED_ARGUMENT);
    EXPECT(slavotuk_set_word(NULL, 0, HERE, USER(0, 0), 0, 0, 0), SLAVOTUK_REFUSED_ARGUMENT);
    length = 1;
    EXPECT(slavotuk_image(NULL, 0, listing, SLAVOTUK_LISTING_SIZE, &length), SLAVOTUK_REFUSED_ARGUMENT);
    EXPECT(length, 0);
    length = 1;
    EXPECT(slavotuk_image(MODULE, NULL, 0, &length), SLAVOTUK_REFUSED_ROOM);
    EXPECT(length, 0);
    EXPECT(slavotuk_restore(NULL, 0, one_row, sizeof one_row), SLAVOTUK_REFUSED_ARGUMENT);
    EXPECT(slavotuk_restore(MODULE, NULL, 0), SLAVOTUK_REFUSED_MESSAGE);
    EXPECT(rescue(NULL, 0, listing, SLAVOTUK_LISTING_SIZE), SLAVOTUK_REFUSED_MESSAGE);
    EXPECT_REPORT(0, UNREPORTED, UNREPORTED, UNREPORTED);
    EXPECT(rescue(no_credentials, sizeof no_credentials, NULL, 0), SLAVOTUK_REFUSED_ROOM);
    EXPECT_REPORT(0, UNREPORTED, UNREPORTED, UNREPORTED);
    EXPECT(slavotuk_read_request(NULL, 0, &number), SLAVOTUK_REFUSED_MESSAGE);
    EXPECT(slavotuk_write_request(NULL, 0, 0), SLAVOTUK_REFUSED_ROOM);
    EXPECT(slavotuk_read_count(NULL, 0, &number), SLAVOTUK_REFUSED_MESSAGE);
    EXPECT(slavotuk_read_row(NULL, 0, 0, &number, &type, name, SLAVOTUK_NAME_SIZE), SLAVOTUK_REFUSED_MESSAGE);
    EXPECT(slavotuk_read_row(one_row, sizeof one_row, 0, &number, &type, NULL, 0), SLAVOTUK_REFUSED_ARGUMENT);
    EXPECT(number, 1);
    EXPECT(type, 1);
}

/* The same of what reads and writes all messages. */
static void check_message_nulls(void)
{
    uint64_t values[SLAVOTUK_MESSAGE_VALUES] = {0};
    uint8_t message[2] = {SLAVOTUK_TAKE_OWNERSHIP, 0};
    size_t rest = 9, next = 9;
    EXPECT(slavotuk_read_message(NULL, 0, VALUES, &rest), SLAVOTUK_REFUSED_MESSAGE);
    EXPECT(slavotuk_read_message(message, sizeof message, NULL, 0, &rest), SLAVOTUK_REFUSED_ARGUMENT);
    EXPECT(slavotuk_write_message(NULL, 0, SLAVOTUK_TAKE_OWNERSHIP, VALUES, NULL, 0, &rest), SLAVOTUK_REFUSED_ROOM);
    EXPECT(slavotuk_write_message(message, sizeof message, SLAVOTUK_TAKE_OWNERSHIP, NULL, 0, NULL, 0, &rest),
           SLAVOTUK_REFUSED_ARGUMENT);
    EXPECT(slavotuk_read_piece(NULL, 0, SLAVOTUK_PIECE_VERSION, VALUES, &rest, &next), SLAVOTUK_REFUSED_MESSAGE);
    EXPECT(slavotuk_read_piece(message, sizeof message, SLAVOTUK_PIECE_VERSION, NULL, 0, &rest, &next),
           SLAVOTUK_REFUSED_ARGUMENT);
    EXPECT(slavotuk_write_piece(NULL, 0, SLAVOTUK_PIECE_VERSION, VALUES, NULL, 0, &rest), SLAVOTUK_REFUSED_ROOM);
    EXPECT(slavotuk_write_piece(message, sizeof message, SLAVOTUK_PIECE_VERSION, NULL, 0, NULL, 0, &rest),
           SLAVOTUK_REFUSED_ARGUMENT);
    EXPECT(rest, 9);
    EXPECT(next, 9);
    EXPECT(slavotuk_write_message(message, sizeof message, SLAVOTUK_OWNERSHIP_TAKEN, VALUES, NULL, 0, &rest), SLAVOTUK_DONE);
    EXPECT(rest, 2);
    EXPECT(message[0], SLAVOTUK_OWNERSHIP_TAKEN);
}

/* Both ports have as many sessions. Session 0 of each is left open, with a version. */
static void check_sessions(void)
{
    EXPECT(slavotuk_open(MODULE, SLAVOTUK_PORTS, 0), SLAVOTUK_REFUSED_ARGUMENT);
    for (uint32_t port = 0; port < SLAVOTUK_PORTS; port++) {
        EXPECT(slavotuk_open(MODULE, port, SLAVOTUK_SESSIONS), SLAVOTUK_REFUSED_ARGUMENT);
        EXPECT(slavotuk_open(MODULE, port, SLAVOTUK_SESSIONS - 1), SLAVOTUK_DONE);
        EXPECT(slavotuk_close(MODULE, port, SLAVOTUK_SESSIONS - 1), SLAVOTUK_DONE);
        EXPECT(slavotuk_close(MODULE, port, SLAVOTUK_SESSIONS - 1), SLAVOTUK_REFUSED_SESSION);
        EXPECT(slavotuk_open(MODULE, port, 0), SLAVOTUK_DONE);
        EXPECT(slavotuk_drop(MODULE, port, 0), SLAVOTUK_REFUSED_NO_VERSION);
        EXPECT(slavotuk_select(MODULE, port, 0, SLAVOTUK_VERSION_1_0 + 1), SLAVOTUK_REFUSED_VERSION);
        EXPECT(slavotuk_select(MODULE, port, 0, SLAVOTUK_VERSION_1_0), SLAVOTUK_DONE);
    }
}

/* Every call on a session, with a port or a session that is none: it is refused first, and nothing is touched. */
static void check_no_session(uint32_t port, uint32_t session)
{
    size_t length = 1;
    memcpy(kept, state, SLAVOTUK_STATE_SIZE);
    EXPECT(slavotuk_open(MODULE, port, session), SLAVOTUK_REFUSED_ARGUMENT);
    EXPECT(slavotuk_close(MODULE, port, session), SLAVOTUK_REFUSED_ARGUMENT);
    EXPECT(slavotuk_select(MODULE, port, session, SLAVOTUK_VERSION_1_0), SLAVOTUK_REFUSED_ARGUMENT);
    EXPECT(slavotuk_start(MODULE, port, session, 0, NAMED(50)), SLAVOTUK_REFUSED_ARGUMENT);
    EXPECT(slavotuk_continue(MODULE, port, session, 0, NAMED(50)), SLAVOTUK_REFUSED_ARGUMENT);
    EXPECT(slavotuk_elevate(MODULE, port, session, 0, NAMED(50), 1), SLAVOTUK_REFUSED_ARGUMENT);
    EXPECT(slavotuk_drop(MODULE, port, session), SLAVOTUK_REFUSED_ARGUMENT);
    EXPECT(slavotuk_end(MODULE, port, session, 0, 0, 1, 0), SLAVOTUK_REFUSED_ARGUMENT);
    EXPECT(slavotuk_record(MODULE, port, session, USER(0, 0), SLAVOTUK_CLASS_DEVICE_FIRST), SLAVOTUK_REFUSED_ARGUMENT);
    EXPECT(slavotuk_list(MODULE, port, session, USER(0, 0), 0, listing, SLAVOTUK_LISTING_SIZE, &length),
           SLAVOTUK_REFUSED_ARGUMENT);
    EXPECT(length, 0);
    EXPECT(slavotuk_kill(MODULE, port, session, USER(0, 0), NAMED(0)), SLAVOTUK_REFUSED_ARGUMENT);
    EXPECT(slavotuk_set_word(MODULE, port, session, USER(0, 0), 0, 0, 0), SLAVOTUK_REFUSED_ARGUMENT);
    EXPECT(memcmp(kept, state, SLAVOTUK_STATE_SIZE), 0);
}

/* No session of port 0 is one of port 1, also where that one is open. */
static void check_no_sessions(void)
{
    check_no_session(SLAVOTUK_PORTS, 0);
    check_no_session(UINT32_MAX, 0);
    for (uint32_t port = 0; port < SLAVOTUK_PORTS; port++) {
        for (uint32_t session = SLAVOTUK_SESSIONS; session <= SLAVOTUK_PORTS * SLAVOTUK_SESSIONS; session++) {
            check_no_session(port, session);
        }
        check_no_session(port, UINT32_MAX);
    }
}

/* Session 0 of port 0 gets a user process for each credential that is provisioned. A name of port 0 is taken on port 1. */
static void check_starts(void)
{
    EXPECT(slavotuk_start(MODULE, HERE, SLAVOTUK_CREDENTIALS, NAMED(0)), SLAVOTUK_REFUSED_ARGUMENT);
    EXPECT(slavotuk_start(MODULE, HERE, SLAVOTUK_CREDENTIALS - 1, NAMED(0)), SLAVOTUK_REFUSED_CREDENTIAL);
    EXPECT(slavotuk_start(MODULE, HERE, 0, named(0), SLAVOTUK_NAME_SIZE - 1), SLAVOTUK_REFUSED_ARGUMENT);
    for (uint32_t credential = 0; credential < SLAVOTUK_CREDENTIALS - 1; credential++) {
        EXPECT(slavotuk_start(MODULE, HERE, credential, NAMED(credential)), SLAVOTUK_DONE);
    }
    EXPECT(slavotuk_start(MODULE, HERE, 0, NAMED(90)), SLAVOTUK_REFUSED_ALREADY_ACTIVE);
    EXPECT(slavotuk_start(MODULE, ACROSS, 0, NAMED(1)), SLAVOTUK_REFUSED_NAME_TAKEN);
}

/* The device classes: credential 4 has the first, credential 5 the last. */
static void check_records(void)
{
    EXPECT(slavotuk_record(MODULE, HERE, USER(4, 0), SLAVOTUK_CLASS_DEVICE_FIRST - 1), SLAVOTUK_REFUSED_ARGUMENT);
    EXPECT(slavotuk_record(MODULE, HERE, USER(4, 0), SLAVOTUK_CLASS_DEVICE_FIRST), SLAVOTUK_DONE);
    EXPECT(slavotuk_record(MODULE, HERE, USER(4, 0), SLAVOTUK_CLASS_DEVICE_FIRST), SLAVOTUK_REFUSED_OUT_OF_TURN);
    SPENDS(4, slavotuk_record(MODULE, HERE, USER(4, 1), SLAVOTUK_CLASS_DEVICE_LAST), SLAVOTUK_REFUSED_NOT_GRANTED);
    EXPECT(slavotuk_record(MODULE, HERE, SLAVOTUK_CLAIM_USER, 4, 2, 0, SLAVOTUK_CLASS_DEVICE_FIRST), SLAVOTUK_REFUSED_VERDICT);
    EXPECT(slavotuk_record(MODULE, HERE, USER(4, 2), SLAVOTUK_CLASS_DEVICE_FIRST), SLAVOTUK_DONE);
    EXPECT(slavotuk_record(MODULE, HERE, USER(5, 0), SLAVOTUK_CLASS_DEVICE_LAST), SLAVOTUK_DONE);
    EXPECT(slavotuk_record(MODULE, HERE, USER(5, 1), SLAVOTUK_CLASS_DEVICE_LAST + 1), SLAVOTUK_REFUSED_ARGUMENT);
    EXPECT(slavotuk_record(MODULE, HERE, ELEVATED, SLAVOTUK_CLASS_DEVICE_FIRST), SLAVOTUK_REFUSED_NO_PROCESS);
    EXPECT(slavotuk_elevate(MODULE, HERE, 4, NAMED(7), 0), SLAVOTUK_REFUSED_VERDICT);
    EXPECT(slavotuk_elevate(MODULE, HERE, 4, NAMED(7), 1), SLAVOTUK_DONE);
    EXPECT(slavotuk_record(MODULE, HERE, ELEVATED, SLAVOTUK_CLASS_DEVICE_FIRST), SLAVOTUK_DONE);
    EXPECT(slavotuk_record(MODULE, HERE, SLAVOTUK_CLAIM_ELEVATED + 1, 4, 1, 1, SLAVOTUK_CLASS_DEVICE_FIRST),
           SLAVOTUK_REFUSED_ARGUMENT);
}

/* The module's own classes: each is granted to one credential, and another one is refused what it allows, its number spent. */
static void check_own_classes(void)
{
    size_t length = 0;
    SPENDS(3, slavotuk_list(MODULE, HERE, USER(3, 0), 0, listing, SLAVOTUK_LISTING_SIZE, &length),
           SLAVOTUK_REFUSED_NOT_GRANTED);
    EXPECT(slavotuk_list(MODULE, HERE, USER(0, 1), 3, listing, SLAVOTUK_LISTING_SIZE, &length), SLAVOTUK_DONE);
    SPENDS(3, slavotuk_kill(MODULE, HERE, USER(3, 1), NAMED(6)), SLAVOTUK_REFUSED_NO_PROCESS);
    EXPECT(slavotuk_kill(MODULE, HERE, USER(1, 0), NAMED(6)), SLAVOTUK_DONE);
    SPENDS(3, slavotuk_end(MODULE, HERE, 3, 2, 1, 1), SLAVOTUK_REFUSED_NOT_GRANTED);
    EXPECT(slavotuk_end(MODULE, HERE, 2, 0, 1, 1), SLAVOTUK_DONE);
    SPENDS(0, slavotuk_set_word(MODULE, HERE, USER(0, 2), 6, 0, 0), SLAVOTUK_REFUSED_NOT_GRANTED);
    SPENDS(3, slavotuk_set_word(MODULE, HERE, USER(3, 3), SLAVOTUK_CREDENTIALS - 1, 0, 0), SLAVOTUK_REFUSED_CREDENTIAL);
    EXPECT(slavotuk_set_word(MODULE, HERE, USER(3, 4), 6, 0, 0), SLAVOTUK_DONE);
}

/*
 * Credential 6 has every class, each only under elevation, and a process in the last session. A user claim is refused, ahead of
 * what follows, and an elevated one is not; a kill is refused as one of an unknown name is. In the end all is as before.
 */
static void check_only_elevated(void)
{
    const unsigned place = 7;
    size_t length = 0;
    uint8_t *before = allocate(SLAVOTUK_STATE_SIZE);
    memcpy(before, state, SLAVOTUK_STATE_SIZE);
    EXPECT(slavotuk_open(MODULE, LAST), SLAVOTUK_DONE);
    EXPECT(slavotuk_select(MODULE, LAST, SLAVOTUK_VERSION_1_0), SLAVOTUK_DONE);
    EXPECT(slavotuk_set_word(MODULE, HERE, USER(3, 5), 6, UINT32_MAX, UINT32_MAX), SLAVOTUK_DONE);
    EXPECT(slavotuk_start(MODULE, LAST, 6, NAMED(40)), SLAVOTUK_DONE);
    EXPECT(slavotuk_elevate(MODULE, LAST, 6, NAMED(41), 1), SLAVOTUK_DONE);
    SPENDS(place, slavotuk_record(MODULE, LAST, USER(6, 0), SLAVOTUK_CLASS_DEVICE_FIRST), SLAVOTUK_REFUSED_ONLY_ELEVATED);
    SPENDS(place, slavotuk_record(MODULE, LAST, USER(6, 1), SLAVOTUK_CLASS_DEVICE_LAST), SLAVOTUK_REFUSED_ONLY_ELEVATED);
    SPENDS(place, slavotuk_list(MODULE, LAST, USER(6, 2), SLAVOTUK_WANTED_ALL, NULL, 0, &length),
           SLAVOTUK_REFUSED_ONLY_ELEVATED);
    SPENDS(place, slavotuk_end(MODULE, LAST, 6, 3, 1, 1), SLAVOTUK_REFUSED_ONLY_ELEVATED);
    SPENDS(place, slavotuk_set_word(MODULE, LAST, USER(6, 4), 7, 0, 0), SLAVOTUK_REFUSED_ONLY_ELEVATED);
    SPENDS(place, slavotuk_kill(MODULE, LAST, USER(6, 5), NAMED(0)), SLAVOTUK_REFUSED_NO_PROCESS);
    EXPECT(slavotuk_record(MODULE, LAST, ELEVATED, SLAVOTUK_CLASS_DEVICE_FIRST), SLAVOTUK_DONE);
    EXPECT(slavotuk_list(MODULE, LAST, ELEVATED, SLAVOTUK_WANTED_ALL, listing, SLAVOTUK_LISTING_SIZE, &length), SLAVOTUK_DONE);
    EXPECT(slavotuk_set_word(MODULE, LAST, ELEVATED, 7, 0, 0), SLAVOTUK_REFUSED_CREDENTIAL);
    EXPECT(slavotuk_kill(MODULE, LAST, ELEVATED, NAMED(0)), SLAVOTUK_DONE);
    memcpy(state, before, SLAVOTUK_STATE_SIZE);
    free(before);
}

/* Seven processes stand: five users, the elevation, the saved one. Five more on port 1 fill the table, for both ports. */
static void check_full(void)
{
    for (uint32_t credential = 0; credential < 5; credential++) {
        EXPECT(slavotuk_start(MODULE, ACROSS, credential, NAMED(20 + credential)), SLAVOTUK_DONE);
    }
    EXPECT(slavotuk_start(MODULE, ACROSS, 5, NAMED(30)), SLAVOTUK_REFUSED_FULL);
    EXPECT(slavotuk_start(MODULE, HERE, 6, NAMED(30)), SLAVOTUK_REFUSED_FULL);
}

static uint8_t type_at(size_t length, size_t at)
{
    uint16_t credential = 0;
    uint8_t type = 0xff;
    uint8_t read[SLAVOTUK_NAME_SIZE];
    EXPECT(slavotuk_read_row(listing, length, at, &credential, &type, read, sizeof read), SLAVOTUK_DONE);
    return type;
}

static void check_listing(void)
{
    size_t length = 0;
    uint16_t count = 0;
    EXPECT(slavotuk_list(MODULE, HERE, USER(0, 3), SLAVOTUK_WANTED_ALL - 1, listing, SLAVOTUK_LISTING_SIZE, &length),
           SLAVOTUK_REFUSED_ARGUMENT);
    memset(listing, 0xee, SLAVOTUK_LISTING_SIZE);
    SPENDS(0, slavotuk_list(MODULE, HERE, USER(0, 3), SLAVOTUK_WANTED_ALL, listing, SLAVOTUK_LISTING_SIZE - 1, &length),
           SLAVOTUK_REFUSED_ROOM);
    EXPECT(length == 0 && listing[0] == 0xee && listing[SLAVOTUK_LISTING_SIZE - 1] == 0xee, 1);
    EXPECT(slavotuk_list(MODULE, HERE, USER(0, 4), SLAVOTUK_WANTED_ALL, listing, SLAVOTUK_LISTING_SIZE, &length),
           SLAVOTUK_DONE);
    EXPECT(length, SLAVOTUK_LISTING_SIZE);
    EXPECT(slavotuk_read_count(listing, length, &count), SLAVOTUK_DONE);
    EXPECT(count, SLAVOTUK_PROCESSES);
    EXPECT(type_at(length, 0), SLAVOTUK_TYPE_ACTIVE_USER);
    EXPECT(type_at(length, 2), SLAVOTUK_TYPE_SAVED_USER);
    EXPECT(type_at(length, 6), SLAVOTUK_TYPE_ACTIVE_ELEVATION);
    SPENDS(0, slavotuk_list(MODULE, HERE, USER(0, 5), 7, listing, SLAVOTUK_HEADER_SIZE - 1, &length), SLAVOTUK_REFUSED_ROOM);
    EXPECT(slavotuk_list(MODULE, HERE, USER(0, 6), 7, listing, SLAVOTUK_HEADER_SIZE, &length), SLAVOTUK_DONE);
    EXPECT(length, SLAVOTUK_HEADER_SIZE);
}

/*
 * What stands in session 0 of port 0 serves no claim in that of port 1, is killed from there, and stays when that is closed. In
 * the end all is as before.
 */
static void check_ports(void)
{
    uint8_t *before = allocate(SLAVOTUK_STATE_SIZE);
    memcpy(before, state, SLAVOTUK_STATE_SIZE);
    EXPECT(slavotuk_record(MODULE, ACROSS, USER(5, 1), SLAVOTUK_CLASS_DEVICE_LAST), SLAVOTUK_REFUSED_NO_PROCESS);
    EXPECT(slavotuk_record(MODULE, ACROSS, ELEVATED, SLAVOTUK_CLASS_DEVICE_FIRST), SLAVOTUK_REFUSED_NO_PROCESS);
    EXPECT(slavotuk_kill(MODULE, ACROSS, USER(1, 0), NAMED(3)), SLAVOTUK_DONE);
    EXPECT(slavotuk_elevate(MODULE, ACROSS, 4, NAMED(7), 1), SLAVOTUK_REFUSED_NAME_TAKEN);
    EXPECT(slavotuk_elevate(MODULE, ACROSS, 4, NAMED(31), 1), SLAVOTUK_DONE);
    EXPECT(slavotuk_continue(MODULE, ACROSS, 2, NAMED(2)), SLAVOTUK_REFUSED_ALREADY_ACTIVE);
    EXPECT(slavotuk_close(MODULE, ACROSS), SLAVOTUK_DONE);
    EXPECT(slavotuk_record(MODULE, HERE, USER(3, 6), SLAVOTUK_CLASS_DEVICE_FIRST), SLAVOTUK_REFUSED_NO_PROCESS);
    EXPECT(slavotuk_record(MODULE, HERE, USER(5, 1), SLAVOTUK_CLASS_DEVICE_LAST), SLAVOTUK_DONE);
    EXPECT(slavotuk_record(MODULE, HERE, ELEVATED, SLAVOTUK_CLASS_DEVICE_FIRST), SLAVOTUK_DONE);
    EXPECT(slavotuk_open(MODULE, ACROSS), SLAVOTUK_DONE);
    EXPECT(slavotuk_continue(MODULE, ACROSS, 2, NAMED(2)), SLAVOTUK_REFUSED_NO_VERSION);
    EXPECT(slavotuk_select(MODULE, ACROSS, SLAVOTUK_VERSION_1_0), SLAVOTUK_DONE);
    EXPECT(slavotuk_continue(MODULE, ACROSS, 2, NAMED(2)), SLAVOTUK_DONE);
    memcpy(state, before, SLAVOTUK_STATE_SIZE);
    free(before);
}

static void check_request(void)
{
    uint8_t *request = allocate(SLAVOTUK_REQUEST_SIZE);
    uint16_t wanted = 0;
    EXPECT(slavotuk_write_request(request, SLAVOTUK_REQUEST_SIZE - 1, SLAVOTUK_WANTED_ALL), SLAVOTUK_REFUSED_ROOM);
    EXPECT(slavotuk_write_request(request, SLAVOTUK_REQUEST_SIZE, SLAVOTUK_WANTED_ALL), SLAVOTUK_DONE);
    EXPECT(slavotuk_read_request(request, SLAVOTUK_REQUEST_SIZE - 1, &wanted), SLAVOTUK_REFUSED_MESSAGE);
    EXPECT(slavotuk_read_request(request, SLAVOTUK_REQUEST_SIZE, &wanted), SLAVOTUK_DONE);
    EXPECT(wanted, SLAVOTUK_WANTED_ALL);
    free(request);
}

/* A message of each code: its first values, and how many bytes it has with so many bytes of rest, which are all zero. */
static const struct {
    uint32_t code;
    uint64_t values[SLAVOTUK_MESSAGE_VALUES];
    size_t fields, rest;
} samples[] = {
    {SLAVOTUK_GET_AUTH_VERSION, {0}, 0, 0},
    {SLAVOTUK_SELECT_AUTH_VERSION, {0x10}, 1, 0},
    {SLAVOTUK_SET_CRED_ID_PARAMS, {1, 2, 1, 0x800, 0x40, 0, 5}, 28, 5},
    {SLAVOTUK_GET_CRED_ID_PARAMS, {65535}, 2, 0},
    {SLAVOTUK_SET_AUTH_POLICY, {1, 2, 3}, 5, 24},
    {SLAVOTUK_GET_AUTH_POLICY, {1}, 2, 0},
    {SLAVOTUK_START_AUTH, {1, 1, 32}, 4, 32},
    {SLAVOTUK_END_AUTH, {1, 2}, 3, 0},
    {SLAVOTUK_ELEVATE_PRIVILEGE, {0}, 0, 0},
    {SLAVOTUK_END_ELEVATED_PRIVILEGE, {0}, 0, 0},
    {SLAVOTUK_GET_AUTH_CAPABILITIES, {0}, 0, 0},
    {SLAVOTUK_AUTH_RESET_TO_DEFAULT, {3, 65535, 2}, 6, 6},
    {SLAVOTUK_TAKE_OWNERSHIP, {0}, 0, 0},
    {SLAVOTUK_GET_AUTH_PROCESSES, {SLAVOTUK_WANTED_ALL}, 2, 0},
    {SLAVOTUK_KILL_AUTH_PROCESS, {7}, 2, SLAVOTUK_NAME_SIZE},
    {SLAVOTUK_AUTH_VERSION, {2}, 1, 4},
    {SLAVOTUK_SELECT_AUTH_VERSION_RSP, {0}, 0, 0},
    {SLAVOTUK_SET_CRED_ID_PARAMS_DONE, {0}, 0, 0},
    {SLAVOTUK_CRED_ID_PARAMS, {7, 65535, 1, 1, 1, 0, 0}, 29, 0},
    {SLAVOTUK_SET_AUTH_POLICY_DONE, {0}, 0, 0},
    {SLAVOTUK_AUTH_POLICY, {7, 2, 1}, 6, 8},
    {SLAVOTUK_START_AUTH_RSP, {1, 32}, 3, 32},
    {SLAVOTUK_END_AUTH_RSP, {1}, 2, 0},
    {SLAVOTUK_PRIVILEGE_ELEVATED, {0}, 0, 0},
    {SLAVOTUK_ELEVATED_PRIVILEGE_ENDED, {0}, 0, 0},
    {SLAVOTUK_AUTH_CAPABILITIES, {63, 15, 2, 31, 0xfff, 0x7f, 3}, 24, 6},
    {SLAVOTUK_AUTH_DEFAULTS_APPLIED, {0}, 0, 0},
    {SLAVOTUK_OWNERSHIP_TAKEN, {0}, 0, 0},
    {SLAVOTUK_AUTH_PROCESSES, {2}, 2, 2 * SLAVOTUK_ROW_SIZE},
    {SLAVOTUK_PROCESS_KILLED, {0}, 0, SLAVOTUK_NAME_SIZE},
    {SLAVOTUK_AUTH_ERROR, {0xff, 3, 31}, 3, 31},
};

/* Each code: written into just the room that it takes, read back, and refused in a byte less of both. */
static void check_messages(void)
{
    for (size_t at = 0; at < sizeof samples / sizeof *samples; at++) {
        const uint64_t *sent = samples[at].values;
        const size_t begins = 2 + samples[at].fields, length = begins + samples[at].rest;
        uint8_t *zeros = allocate(samples[at].rest + 1), *message = allocate(length);
        uint64_t values[SLAVOTUK_MESSAGE_VALUES] = {0};
        size_t written = 0, rest = 0;
        memset(zeros, 0, samples[at].rest + 1);
        EXPECT(slavotuk_write_message(message, length - 1, samples[at].code, sent, SLAVOTUK_MESSAGE_VALUES, zeros,
                                      samples[at].rest, &written), SLAVOTUK_REFUSED_ROOM);
        EXPECT(slavotuk_write_message(message, length, samples[at].code, sent, SLAVOTUK_MESSAGE_VALUES - 1, zeros,
                                      samples[at].rest, &written), SLAVOTUK_REFUSED_ARGUMENT);
        EXPECT(slavotuk_write_message(message, length, samples[at].code, sent, SLAVOTUK_MESSAGE_VALUES, zeros,
                                      samples[at].rest, &written), SLAVOTUK_DONE);
        EXPECT(written, length);
        EXPECT(message[0], samples[at].code);
        EXPECT(message[1], 0);
        EXPECT(slavotuk_read_message(message, length - 1, VALUES, &rest), SLAVOTUK_REFUSED_MESSAGE);
        EXPECT(slavotuk_read_message(message, length, values, SLAVOTUK_MESSAGE_VALUES - 1, &rest), SLAVOTUK_REFUSED_ARGUMENT);
        EXPECT(slavotuk_read_message(message, length, VALUES, &rest), SLAVOTUK_DONE);
        EXPECT(rest, begins);
        EXPECT(memcmp(values, sent, sizeof values), 0);
        free(zeros);
        free(message);
    }
}

/* The codes next to those of Tables 16 and 17, and one that has more than a byte. */
static void check_no_messages(void)
{
    const uint32_t codes[] = {0, SLAVOTUK_PROCESS_KILLED + 1, SLAVOTUK_AUTH_ERROR - 1, SLAVOTUK_AUTH_ERROR + 1,
                              SLAVOTUK_KILL_AUTH_PROCESS + 1, 0xff, 0x100 + SLAVOTUK_TAKE_OWNERSHIP};
    for (size_t at = 0; at < sizeof codes / sizeof *codes; at++) {
        uint64_t values[SLAVOTUK_MESSAGE_VALUES] = {0};
        uint8_t message[2] = {0xee, 0xee};
        size_t written = 9, rest = 9;
        EXPECT(slavotuk_write_message(message, 1, codes[at], VALUES, NULL, 0, &written), SLAVOTUK_REFUSED_ROOM);
        EXPECT(slavotuk_write_message(message, 2, codes[at], VALUES, NULL, 0, &written), SLAVOTUK_REFUSED_MESSAGE);
        EXPECT(message[0] == 0xee && message[1] == 0xee && written == 9, 1);
        message[0] = (uint8_t)codes[at];
        if (codes[at] < 0x100) {
            EXPECT(slavotuk_read_message(message, 2, VALUES, &rest), SLAVOTUK_REFUSED_MESSAGE);
            EXPECT(rest, 9);
        }
    }
}

/* A piece of each kind: its values, the bytes of its fields, and of its rest. */
static void check_pieces(void)
{
    static const struct {
        uint32_t kind;
        uint64_t values[SLAVOTUK_MESSAGE_VALUES];
        size_t fields, rest;
    } pieces[] = {
        {SLAVOTUK_PIECE_VERSION, {0x1000}, 2, 0},   {SLAVOTUK_PIECE_PROCESS, {65535, SLAVOTUK_TYPE_SAVED_USER}, 3, 48},
        {SLAVOTUK_PIECE_OWNER, {255, 255}, 2, 255}, {SLAVOTUK_PIECE_POLICY, {UINT32_MAX, 65535}, 6, 65535},
        {SLAVOTUK_PIECE_RESET, {32}, 1, 32},
    };
    for (size_t at = 0; at < sizeof pieces / sizeof *pieces; at++) {
        const uint64_t *sent = pieces[at].values;
        const size_t length = pieces[at].fields + pieces[at].rest;
        uint8_t *ones = allocate(pieces[at].rest + 1), *piece = allocate(length);
        uint64_t values[SLAVOTUK_MESSAGE_VALUES] = {0};
        size_t written = 0, rest = 0, next = 0;
        memset(ones, 1, pieces[at].rest + 1);
        EXPECT(slavotuk_write_piece(piece, length - 1, pieces[at].kind, sent, SLAVOTUK_MESSAGE_VALUES, ones, pieces[at].rest,
                                    &written), SLAVOTUK_REFUSED_ROOM);
        EXPECT(slavotuk_write_piece(piece, length, pieces[at].kind, sent, SLAVOTUK_MESSAGE_VALUES, ones, pieces[at].rest,
                                    &written), SLAVOTUK_DONE);
        EXPECT(written, length);
        EXPECT(slavotuk_read_piece(piece, length - 1, pieces[at].kind, VALUES, &rest, &next), SLAVOTUK_REFUSED_MESSAGE);
        EXPECT(slavotuk_read_piece(piece, length, pieces[at].kind, VALUES, &rest, &next), SLAVOTUK_DONE);
        EXPECT(rest, pieces[at].fields);
        EXPECT(next, length);
        EXPECT(memcmp(values, sent, sizeof values), 0);
        EXPECT(memcmp(piece + rest, ones, pieces[at].rest), 0);
        EXPECT(slavotuk_read_piece(piece, length, SLAVOTUK_PIECE_RESET + 1, VALUES, &rest, &next), SLAVOTUK_REFUSED_ARGUMENT);
        EXPECT(slavotuk_write_piece(piece, length, SLAVOTUK_PIECE_RESET + 1, VALUES, ones, pieces[at].rest, &written),
               SLAVOTUK_REFUSED_ARGUMENT);
        free(ones);
        free(piece);
    }
}

/*
 * An image of so many rows behind a header of this size, that of the new layout or the old. They all are credential 0's, differ
 * in their names and have next number 1.
 */
static uint8_t *image_of(unsigned header, unsigned rows, size_t *length)
{
    const uint8_t head[] = {1, 0, SLAVOTUK_CREDENTIALS, 0, 10, 0, (uint8_t)rows, 0, (uint8_t)header, 0};
    uint8_t *image;
    *length = header + SLAVOTUK_IMAGE_ROW_SIZE * rows;
    image = allocate(*length);
    memset(image, 0, *length);
    memcpy(image, head, sizeof head);
    for (unsigned at = 0; at < rows; at++) {
        uint8_t *row = image + header + SLAVOTUK_IMAGE_ROW_SIZE * at;
        row[2] = 1;
        memcpy(row + SLAVOTUK_IMAGE_ROW_SIZE - SLAVOTUK_NAME_SIZE, named(at), SLAVOTUK_NAME_SIZE);
    }
    return image;
}

/* The image of a state that one of so many rows has made, in either layout: the new one's, in just the room that it takes. */
static void check_written(const uint8_t *restored, unsigned rows)
{
    size_t room, length = 9;
    uint8_t *image = image_of(SLAVOTUK_IMAGE_HEADER_SIZE, rows, &room), *written = allocate(room);
    EXPECT(slavotuk_image(restored, SLAVOTUK_STATE_SIZE, written, room - 1, &length), SLAVOTUK_REFUSED_ROOM);
    EXPECT(length, 0);
    EXPECT(slavotuk_image(restored, SLAVOTUK_STATE_SIZE, written, room, &length), SLAVOTUK_DONE);
    EXPECT(length, room);
    EXPECT(memcmp(written, image, room), 0);
    free(image);
    free(written);
}

/* Images of no row to one more than there are places: restored, and written again. */
static void check_images_of(unsigned header)
{
    for (unsigned rows = 0; rows <= SLAVOTUK_PROCESSES + 1; rows++) {
        size_t room;
        uint8_t *image = image_of(header, rows, &room), *restored = allocate(SLAVOTUK_STATE_SIZE + 1);
        memset(restored, 0xee, SLAVOTUK_STATE_SIZE + 1);
        EXPECT(slavotuk_restore(restored, SLAVOTUK_STATE_SIZE - 1, image, room), SLAVOTUK_REFUSED_ARGUMENT);
        EXPECT(slavotuk_restore(restored, SLAVOTUK_STATE_SIZE + 1, image, room), SLAVOTUK_REFUSED_ARGUMENT);
        EXPECT(slavotuk_restore(restored, SLAVOTUK_STATE_SIZE, image, room - 1), SLAVOTUK_REFUSED_MESSAGE);
        EXPECT(restored[0] == 0xee && restored[SLAVOTUK_STATE_SIZE - 1] == 0xee, 1);
        EXPECT(slavotuk_restore(restored, SLAVOTUK_STATE_SIZE, image, room),
               rows <= SLAVOTUK_PROCESSES ? SLAVOTUK_DONE : SLAVOTUK_REFUSED_MESSAGE);
        EXPECT(restored[SLAVOTUK_STATE_SIZE], 0xee);
        if (rows <= SLAVOTUK_PROCESSES) {
            check_written(restored, rows);
        }
        free(image);
        free(restored);
    }
}

static void check_images(void)
{
    check_images_of(SLAVOTUK_IMAGE_HEADER_SIZE);
    check_images_of(SLAVOTUK_IMAGE_OLD_HEADER_SIZE);
}

/* The rows begin at one of the two offsets, and nowhere else. */
static void check_offsets(void)
{
    for (unsigned header = SLAVOTUK_IMAGE_OLD_HEADER_SIZE - 1; header <= SLAVOTUK_IMAGE_HEADER_SIZE + 1; header++) {
        const int is_layout = header == SLAVOTUK_IMAGE_OLD_HEADER_SIZE || header == SLAVOTUK_IMAGE_HEADER_SIZE;
        size_t length;
        uint8_t *image = image_of(header, 1, &length), *restored = allocate(SLAVOTUK_STATE_SIZE);
        EXPECT(slavotuk_restore(restored, SLAVOTUK_STATE_SIZE, image, length),
               is_layout ? SLAVOTUK_DONE : SLAVOTUK_REFUSED_MESSAGE);
        free(image);
        free(restored);
    }
}

/*
 * The module's own image has the one saved process, which goes on at the other port. The longest image has SLAVOTUK_IMAGE_SIZE
 * bytes.
 */
static void check_image(void)
{
    size_t length = 9, longest;
    uint8_t *image = allocate(SLAVOTUK_IMAGE_SIZE), *restored = allocate(SLAVOTUK_STATE_SIZE);
    free(image_of(SLAVOTUK_IMAGE_HEADER_SIZE, SLAVOTUK_PROCESSES, &longest));
    EXPECT(longest, SLAVOTUK_IMAGE_SIZE);
    EXPECT(slavotuk_image(read_only, SLAVOTUK_STATE_SIZE - 1, image, SLAVOTUK_IMAGE_SIZE, &length), SLAVOTUK_REFUSED_ARGUMENT);
    EXPECT(length, 0);
    EXPECT(slavotuk_image(read_only, SLAVOTUK_STATE_SIZE, image, SLAVOTUK_IMAGE_SIZE, &length), SLAVOTUK_DONE);
    EXPECT(length, SLAVOTUK_IMAGE_HEADER_SIZE);
    EXPECT(slavotuk_image(MODULE, image, SLAVOTUK_IMAGE_SIZE, &length), SLAVOTUK_DONE);
    EXPECT(length, SLAVOTUK_IMAGE_HEADER_SIZE + SLAVOTUK_IMAGE_ROW_SIZE);
    EXPECT(slavotuk_restore(restored, SLAVOTUK_STATE_SIZE, image, length), SLAVOTUK_DONE);
    EXPECT(slavotuk_open(restored, SLAVOTUK_STATE_SIZE, ACROSS), SLAVOTUK_DONE);
    EXPECT(slavotuk_select(restored, SLAVOTUK_STATE_SIZE, ACROSS, SLAVOTUK_VERSION_1_0), SLAVOTUK_DONE);
    EXPECT(slavotuk_continue(restored, SLAVOTUK_STATE_SIZE, ACROSS, 1, NAMED(1)), SLAVOTUK_REFUSED_NO_PROCESS);
    EXPECT(slavotuk_continue(restored, SLAVOTUK_STATE_SIZE, ACROSS, 2, NAMED(2)), SLAVOTUK_DONE);
    EXPECT(slavotuk_end(restored, SLAVOTUK_STATE_SIZE, ACROSS, 2, 0, 1, 1), SLAVOTUK_REFUSED_OUT_OF_TURN);
    EXPECT(slavotuk_end(restored, SLAVOTUK_STATE_SIZE, ACROSS, 2, 1, 1, 1), SLAVOTUK_DONE);
    free(image);
    free(restored);
}

/* These bytes, with nothing behind them, are refused so in that room, of which no byte is touched. */
static void expect_not_rescued(const uint8_t *bytes, size_t length, size_t room, uint32_t refusal)
{
    uint8_t *image = allocate(room), *untouched = allocate(room), *alone = allocate(length);
    memset(image, 0xee, room);
    memset(untouched, 0xee, room);
    memcpy(alone, bytes, length);
    EXPECT(rescue(alone, length, image, room), refusal);
    EXPECT_REPORT(0, UNREPORTED, UNREPORTED, UNREPORTED);
    EXPECT(memcmp(image, untouched, room), 0);
    free(image);
    free(untouched);
    free(alone);
}

/* These bytes, with nothing behind them, become that image in just its room: so many rows are kept, and these are dropped. */
static void expect_rescued(const uint8_t *bytes, size_t length, const uint8_t *image, size_t room, unsigned rows,
                           unsigned dropped)
{
    uint8_t *rescued = allocate(room), *alone = allocate(length);
    memcpy(alone, bytes, length);
    EXPECT(rescue(alone, length, rescued, room), SLAVOTUK_DONE);
    EXPECT_REPORT(room, 0, rows, dropped);
    EXPECT(memcmp(rescued, image, room), 0);
    expect_not_rescued(bytes, length, room - 1, SLAVOTUK_REFUSED_ROOM);
    free(rescued);
    free(alone);
}

/*
 * Images of no row to as many as there are places stay as they are. Without its last byte one loses the last row, and where it
 * states a row less, the last is ignored.
 */
static void check_rescues_of(unsigned header)
{
    size_t length, shorter;
    uint8_t *image = image_of(header, 0, &shorter), *longer;
    expect_rescued(image, shorter, image, shorter, 0, 0);
    expect_not_rescued(image, shorter - 1, SLAVOTUK_IMAGE_SIZE, SLAVOTUK_REFUSED_MESSAGE);
    for (unsigned rows = 1; rows <= SLAVOTUK_PROCESSES; rows++) {
        longer = image_of(header, rows, &length);
        expect_rescued(longer, length, longer, length, rows, 0);
        expect_rescued(longer, length - 1, image, shorter, rows - 1, 1u << (rows - 1));
        longer[6]--;
        expect_rescued(longer, length, image, shorter, rows - 1, 0);
        longer[6]++;
        free(image);
        image = longer;
        shorter = length;
    }
    free(image);
    image = image_of(header, SLAVOTUK_PROCESSES + 1, &length);
    expect_not_rescued(image, length, SLAVOTUK_IMAGE_SIZE, SLAVOTUK_REFUSED_MESSAGE);
    free(image);
}

/* The numbers in front, each one past what it may be. */
static void check_heads(unsigned header)
{
    static const struct {
        unsigned at, number;
    } damage[] = {{0, 1u << SLAVOTUK_CREDENTIALS}, {2, SLAVOTUK_CREDENTIALS - 1}, {2, SLAVOTUK_CREDENTIALS + 1},
                  {4, 9}, {4, 11}, {6, SLAVOTUK_PROCESSES + 1}, {8, SLAVOTUK_IMAGE_OLD_HEADER_SIZE - 1},
                  {8, SLAVOTUK_IMAGE_OLD_HEADER_SIZE + 1}, {8, SLAVOTUK_IMAGE_HEADER_SIZE - 1},
                  {8, SLAVOTUK_IMAGE_HEADER_SIZE + 1}};
    for (size_t at = 0; at < sizeof damage / sizeof *damage; at++) {
        size_t length;
        uint8_t *image = image_of(header, 1, &length);
        image[damage[at].at] = (uint8_t)damage[at].number;
        image[damage[at].at + 1] = (uint8_t)(damage[at].number >> 8);
        expect_not_rescued(image, length, SLAVOTUK_IMAGE_SIZE, SLAVOTUK_REFUSED_MESSAGE);
        expect_not_rescued(image, length, 1, SLAVOTUK_REFUSED_MESSAGE);
        free(image);
    }
}

/*
 * Credential 1 is not provisioned and has both words and row 1; row 2 has next number 0, row 3 the name of row 0, row 4 that of
 * row 2 and a number of two bytes, row 5 a credential of two bytes, and row 6 is cut. What is rescued is restored.
 */
static void check_report(void)
{
    enum { HEADER = SLAVOTUK_IMAGE_HEADER_SIZE, ROW = SLAVOTUK_IMAGE_ROW_SIZE, ROWS = 7 };
    size_t length;
    uint8_t *image = image_of(HEADER, ROWS, &length), *rescued = allocate(SLAVOTUK_IMAGE_SIZE), *row = image + HEADER;
    uint8_t restored[SLAVOTUK_STATE_SIZE];
    image[14] = image[SLAVOTUK_IMAGE_OLD_HEADER_SIZE + 4] = row[1 * ROW] = 1;
    row[2 * ROW + 2] = 0;
    row[3 * ROW + 2] = 9;
    memcpy(row + 3 * ROW + 4, row + 4, SLAVOTUK_NAME_SIZE);
    row[4 * ROW + 2] = 0;
    row[4 * ROW + 3] = 1;
    memcpy(row + 4 * ROW + 4, row + 2 * ROW + 4, SLAVOTUK_NAME_SIZE);
    row[5 * ROW + 1] = 1;
    memset(rescued, 0xee, SLAVOTUK_IMAGE_SIZE);
    EXPECT(slavotuk_restore(restored, sizeof restored, image, length), SLAVOTUK_REFUSED_MESSAGE);
    EXPECT(rescue(image, length - 1, rescued, SLAVOTUK_IMAGE_SIZE), SLAVOTUK_DONE);
    EXPECT_REPORT(HEADER + 2 * ROW, 2, 2, 1u << 1 | 1u << 2 | 1u << 3 | 1u << 5 | 1u << 6);
    EXPECT(memcmp(rescued + HEADER, row, ROW), 0);
    EXPECT(memcmp(rescued + HEADER + ROW, row + 4 * ROW, ROW), 0);
    EXPECT(rescued[HEADER + 2 * ROW], 0xee);
    EXPECT(slavotuk_restore(restored, sizeof restored, rescued, HEADER + 2 * ROW), SLAVOTUK_DONE);
    expect_rescued(rescued, HEADER + 2 * ROW, rescued, HEADER + 2 * ROW, 2, 0);
    free(image);
    free(rescued);
}

static void check_rescues(void)
{
    expect_rescued(no_credentials, sizeof no_credentials, no_credentials, sizeof no_credentials, 0, 0);
    check_rescues_of(SLAVOTUK_IMAGE_HEADER_SIZE);
    check_rescues_of(SLAVOTUK_IMAGE_OLD_HEADER_SIZE);
    check_heads(SLAVOTUK_IMAGE_HEADER_SIZE);
    check_heads(SLAVOTUK_IMAGE_OLD_HEADER_SIZE);
    check_report();
}

/* The next number of the first process, as 65534 claims would leave it. The last number is spent by a refused call. */
static void check_spent(void)
{
    state[NEXT_NUMBER(0)] = 0xfe;
    state[NEXT_NUMBER(0) + 1] = 0xff;
    EXPECT(slavotuk_kill(MODULE, HERE, USER(0, 65534), NAMED(90)), SLAVOTUK_REFUSED_NO_PROCESS);
    EXPECT(state[NEXT_NUMBER(0)] == 0xff && state[NEXT_NUMBER(0) + 1] == 0xff, 1);
    EXPECT(slavotuk_kill(MODULE, HERE, USER(0, 65534), NAMED(90)), SLAVOTUK_REFUSED_SPENT);
    EXPECT(slavotuk_end(MODULE, HERE, 0, 65535, 1, 0), SLAVOTUK_REFUSED_SPENT);
}

int main(void)
{
    state = allocate(SLAVOTUK_STATE_SIZE);
    name = allocate(SLAVOTUK_NAME_SIZE);
    listing = allocate(SLAVOTUK_LISTING_SIZE);
    check_fresh();
    make_module();
    check_holds();
    check_version();
    check_names();
    check_sessions();
    check_starts();
    check_no_sessions();
    check_nulls();
    check_records();
    check_own_classes();
    check_only_elevated();
    check_full();
    check_listing();
    check_ports();
    check_request();
    check_message_nulls();
    check_messages();
    check_no_messages();
    check_pieces();
    check_images();
    check_offsets();
    check_image();
    check_rescues();
    check_spent();
    free(state);
    free(name);
    free(listing);
    return disagreements == 0 ? EXIT_SUCCESS : EXIT_FAILURE;
}
