/*
 * How much stack an entry takes: each is called on a stack of its own that was painted before, and what is no longer paint
 * afterwards was used. Prints a line for each entry, the most over the calls below: accepted and refused, with an empty table
 * and with a full one. With an argument, a count of bytes, the exit code is 1 where an entry takes more.
 */
#define _XOPEN_SOURCE 700
#include <stdint.h>
#include <stdio.h>
#include <stdlib.h>
#include <string.h>
#include <ucontext.h>

#include "slavotuk.h"
#include "old_layout.h"

enum { STACK = 256 * 1024, PAINT = 0xa5, BEFORE = 6 };

#define MODULE state, SLAVOTUK_STATE_SIZE
#define HERE 1, 0 /* the port, and its session */
#define USER(credential, number) SLAVOTUK_CLAIM_USER, credential, number, 1

static uint8_t stack[STACK];
static uint8_t *top;
static ucontext_t outside, inside;
static void (*called)(void);

static uint8_t state[SLAVOTUK_STATE_SIZE];
static uint8_t name[SLAVOTUK_NAME_SIZE];
static uint8_t listing[SLAVOTUK_LISTING_SIZE];
static uint8_t image[SLAVOTUK_IMAGE_SIZE];
static size_t image_length;
static uint8_t rescued[SLAVOTUK_IMAGE_SIZE];
static uint16_t cleared, kept, dropped;
static uint8_t request[SLAVOTUK_REQUEST_SIZE];
static size_t length;
static uint16_t number;
static uint8_t type;
static uint8_t list[2 * (2 + 6 + 2 * SLAVOTUK_NAME_SIZE)];
static uint8_t message[8 + sizeof list];
static uint64_t values[SLAVOTUK_MESSAGE_VALUES], handed_out[SLAVOTUK_MESSAGE_VALUES];
static size_t rest, next;

/* Where the entry's use of the stack begins: below this function's own. */
static void enter(void)
{
    uint8_t here;
    top = &here;
    called();
}

static size_t use_of(void (*call)(void))
{
    size_t lowest = 0;
    memset(stack, PAINT, STACK);
    called = call;
    getcontext(&inside);
    inside.uc_stack.ss_sp = stack;
    inside.uc_stack.ss_size = STACK;
    inside.uc_link = &outside;
    makecontext(&inside, enter, 0);
    swapcontext(&outside, &inside);
    while (stack + lowest < top && stack[lowest] == PAINT) {
        lowest++;
    }
    return (size_t)(top - (stack + lowest));
}

static uint32_t word = UINT32_MAX, second = 0;

static void fresh(void)
{
    const uint8_t provisioned[SLAVOTUK_CREDENTIALS] = {1, 1, 1, 1, 1, 1, 1, 1};
    const uint32_t words[SLAVOTUK_CREDENTIALS] = {word, word, word, word};
    const uint32_t seconds[SLAVOTUK_CREDENTIALS] = {second, second, second, second};
    slavotuk_fresh(MODULE, provisioned, SLAVOTUK_CREDENTIALS, words, SLAVOTUK_CREDENTIALS, seconds, SLAVOTUK_CREDENTIALS);
}
static void holds(void) { slavotuk_holds(MODULE); }
static void open0(void) { slavotuk_open(MODULE, HERE); }
static void close0(void) { slavotuk_close(MODULE, HERE); }
static void select0(void) { slavotuk_select(MODULE, HERE, SLAVOTUK_VERSION_1_0); }
static void start0(void) { slavotuk_start(MODULE, HERE, 1, name, sizeof name); }
static void continue0(void) { slavotuk_continue(MODULE, HERE, 1, name, sizeof name); }
static void elevate0(void) { slavotuk_elevate(MODULE, HERE, 1, name, sizeof name, 1); }
static void drop0(void) { slavotuk_drop(MODULE, HERE); }
static void end0(void) { slavotuk_end(MODULE, HERE, 1, 0, 1, 1); }
static void record0(void) { slavotuk_record(MODULE, HERE, USER(0, 0), SLAVOTUK_CLASS_DEVICE_FIRST); }
static void list0(void) { slavotuk_list(MODULE, HERE, USER(0, 0), SLAVOTUK_WANTED_ALL, listing, sizeof listing, &length); }
static void kill0(void) { slavotuk_kill(MODULE, HERE, USER(0, 0), name, sizeof name); }
static void set_word0(void) { slavotuk_set_word(MODULE, HERE, USER(0, 0), 1, 0, 0); }
static void image0(void) { slavotuk_image(MODULE, image, sizeof image, &image_length); }
static void restore0(void) { slavotuk_restore(MODULE, image, image_length); }
static void rescue0(void)
{
    slavotuk_rescue(image, image_length, rescued, sizeof rescued, &length, &cleared, &kept, &dropped);
}
static void write_request0(void) { slavotuk_write_request(request, sizeof request, SLAVOTUK_WANTED_ALL); }
static void read_request0(void) { slavotuk_read_request(request, sizeof request, &number); }
static void read_count0(void) { slavotuk_read_count(listing, length, &number); }
static void read_row0(void) { slavotuk_read_row(listing, length, 0, &number, &type, name, sizeof name); }
#define VALUES values, SLAVOTUK_MESSAGE_VALUES
#define HANDED_OUT handed_out, SLAVOTUK_MESSAGE_VALUES
static void write_message0(void)
{
    slavotuk_write_message(message, sizeof message, SLAVOTUK_AUTH_POLICY, VALUES, list, sizeof list, &length);
}
static void read_message0(void) { slavotuk_read_message(message, sizeof message, HANDED_OUT, &rest); }
static void write_piece0(void)
{
    slavotuk_write_piece(list, sizeof list, SLAVOTUK_PIECE_OWNER, VALUES, name, sizeof name, &length);
}
static void read_piece0(void) { slavotuk_read_piece(list, sizeof list, SLAVOTUK_PIECE_OWNER, HANDED_OUT, &rest, &next); }
static void version0(void) { slavotuk_version(); }

/* What is called to come to a state, from which an entry is then measured. */
static void nothing(void) {}
static void without_version(void) { fresh(); open0(); }
static void opened(void) { without_version(); select0(); }

static void named(unsigned last) { name[SLAVOTUK_NAME_SIZE - 1] = (uint8_t)last; }

/* So many processes: credential 0 saves all but its last, which has next number 0. The name is that of none. */
static void standing(unsigned count)
{
    opened();
    for (unsigned at = 0; at < count; at++) {
        named(at);
        slavotuk_start(MODULE, HERE, 0, name, sizeof name);
        if (at + 1 < count) {
            slavotuk_end(MODULE, HERE, 0, 0, 1, 1);
        }
    }
    named(99);
}
static void one(void) { standing(1); }

/* Credentials 0 and 1 have a process each and no class: what they ask for is refused after the claim. */
static void not_granted(void)
{
    word = 0;
    one();
    start0();
    word = UINT32_MAX;
}

/* They have every class, each only under elevation: what they ask for is refused one test later. */
static void only_elevated(void)
{
    second = UINT32_MAX;
    one();
    start0();
    second = 0;
}
static void nearly_full(void) { standing(SLAVOTUK_PROCESSES - 1); }
static void full(void) { standing(SLAVOTUK_PROCESSES); }
static void killable(void) { full(); named(0); }
static void elevated(void) { nearly_full(); elevate0(); }
static void ending(void) { nearly_full(); start0(); }
static void saved(void) { ending(); end0(); }
static void all_saved(void) { saved(); slavotuk_end(MODULE, HERE, 0, 0, 1, 1); }
static void no_image(void)
{
    image_length = sizeof image;
    memset(image, 0, sizeof image);
}
static void imaged(void) { all_saved(); image0(); }

static void imaged_old(void)
{
    imaged();
    image_length = to_old_layout(image, image, image_length);
}
static void listed(void) { full(); list0(); write_request0(); }

/* The last name is then the first: of all that the image is asked, no more than this fails. */
static void damaged(void)
{
    imaged();
    memcpy(image + sizeof image - SLAVOTUK_NAME_SIZE,
           image + SLAVOTUK_IMAGE_HEADER_SIZE + SLAVOTUK_IMAGE_ROW_SIZE - SLAVOTUK_NAME_SIZE, SLAVOTUK_NAME_SIZE);
}

/* No credential is provisioned any more: all words are cleared, and all rows dropped. */
static void unmasked(void)
{
    imaged();
    image[0] = 0;
}

static void set_values(uint64_t first, uint64_t second, uint64_t third)
{
    values[0] = first;
    values[1] = second;
    values[2] = third;
}

/* The owner of a policy, as long as a name. */
static void owner(void) { set_values(0, sizeof name, 0); }

/* Two policies: in the list, and in a message. */
static void policies(void)
{
    size_t end = 0;
    for (uint32_t piece = 0; piece < 4; piece++) {
        owner();
        slavotuk_write_piece(list + end, sizeof list - end, SLAVOTUK_PIECE_OWNER + piece % 2, VALUES, name, sizeof name,
                             &length);
        end += length;
    }
    set_values(0, 1, 2);
    write_message0();
}

static const struct {
    const char *entry;
    void (*call)(void);
    void (*before[BEFORE])(void);
} measured[] = {
    {"slavotuk_fresh", fresh, {nothing, full}},
    {"slavotuk_holds", holds, {nothing, fresh, full}},
    {"slavotuk_open", open0, {nothing, fresh, full}},
    {"slavotuk_close", close0, {nothing, opened, full}},
    {"slavotuk_select", select0, {nothing, without_version, full}},
    {"slavotuk_start", start0, {nothing, opened, nearly_full, full}},
    {"slavotuk_continue", continue0, {nothing, opened, saved, full}},
    {"slavotuk_elevate", elevate0, {nothing, opened, nearly_full, full}},
    {"slavotuk_drop", drop0, {nothing, opened, elevated, full}},
    {"slavotuk_end", end0, {nothing, opened, ending, full, not_granted, only_elevated}},
    {"slavotuk_record", record0, {nothing, opened, one, full, not_granted, only_elevated}},
    {"slavotuk_list", list0, {nothing, opened, one, full, not_granted, only_elevated}},
    {"slavotuk_kill", kill0, {nothing, opened, full, killable, only_elevated}},
    {"slavotuk_set_word", set_word0, {nothing, opened, one, full, not_granted, only_elevated}},
    {"slavotuk_image", image0, {nothing, fresh, full, all_saved}},
    {"slavotuk_restore", restore0, {no_image, imaged, imaged_old, damaged}},
    {"slavotuk_rescue", rescue0, {no_image, imaged, imaged_old, damaged, unmasked}},
    {"slavotuk_read_request", read_request0, {nothing, listed}},
    {"slavotuk_write_request", write_request0, {nothing}},
    {"slavotuk_read_count", read_count0, {nothing, listed}},
    {"slavotuk_read_row", read_row0, {nothing, listed}},
    {"slavotuk_read_message", read_message0, {nothing, policies}},
    {"slavotuk_write_message", write_message0, {nothing, policies}},
    {"slavotuk_read_piece", read_piece0, {nothing, policies}},
    {"slavotuk_write_piece", write_piece0, {nothing, owner}},
    {"slavotuk_version", version0, {nothing}},
};

int main(int count, char **words)
{
    const unsigned long allowed = count > 1 ? strtoul(words[1], NULL, 10) : STACK;
    int within = 1;
    for (size_t at = 0; at < sizeof measured / sizeof *measured; at++) {
        size_t most = 0;
        for (size_t of = 0; of < BEFORE && measured[at].before[of] != NULL; of++) {
            size_t use;
            memset(state, 0xff, sizeof state);
            measured[at].before[of]();
            use = use_of(measured[at].call);
            most = use > most ? use : most;
        }
        printf("%-24s %6lu\n", measured[at].entry, (unsigned long)most);
        within = within && most <= allowed;
    }
    return within ? EXIT_SUCCESS : EXIT_FAILURE;
}
