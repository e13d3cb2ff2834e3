/*
 * A program of version 3, brought to version 4. It includes no header of ours and declares the entries that it calls as they
 * stood then, with its own names for the numbers; those on a session alone take its port as well, and it calls them on port 0.
 * Three things are asked:
 *
 * - the state that it kept, of 713 bytes, is none any more: every entry answers 1 and leaves it;
 * - the image that it wrote with its own library is restored and written as it was, and its process goes on at its number;
 * - it gets the answers that it got then, in document 01's steps 1 to 11 and a step for each other entry. Where it sends a
 *   number again that a refused call has had, as a program of version 1 does, that number is spent: it gets 9 and goes on with
 *   the next.
 *
 * Exit code: 0 where all is so, else 1.
 */
#include <stddef.h>
#include <stdint.h>
#include <stdio.h>
#include <string.h>

uint32_t slavotuk_fresh(uint8_t *state, size_t state_length, const uint8_t *provisioned, size_t provisioned_length,
                        const uint32_t *words, size_t words_length, const uint32_t *seconds, size_t seconds_length);
uint32_t slavotuk_open(uint8_t *state, size_t state_length, uint32_t port, uint32_t session);
uint32_t slavotuk_close(uint8_t *state, size_t state_length, uint32_t port, uint32_t session);
uint32_t slavotuk_select(uint8_t *state, size_t state_length, uint32_t port, uint32_t session, uint32_t version);
uint32_t slavotuk_start(uint8_t *state, size_t state_length, uint32_t port, uint32_t session, uint32_t credential,
                        const uint8_t *name, size_t name_length);
uint32_t slavotuk_continue(uint8_t *state, size_t state_length, uint32_t port, uint32_t session, uint32_t credential,
                           const uint8_t *name, size_t name_length);
uint32_t slavotuk_elevate(uint8_t *state, size_t state_length, uint32_t port, uint32_t session, uint32_t credential,
                          const uint8_t *name, size_t name_length, uint32_t verdict);
uint32_t slavotuk_drop(uint8_t *state, size_t state_length, uint32_t port, uint32_t session);
uint32_t slavotuk_end(uint8_t *state, size_t state_length, uint32_t port, uint32_t session, uint32_t credential,
                      uint16_t number, uint32_t verdict, uint32_t keep);
uint32_t slavotuk_record(uint8_t *state, size_t state_length, uint32_t port, uint32_t session, uint32_t kind,
                         uint32_t credential, uint16_t number, uint32_t verdict, uint32_t device_class);
uint32_t slavotuk_list(uint8_t *state, size_t state_length, uint32_t port, uint32_t session, uint32_t kind, uint32_t credential,
                       uint16_t number, uint32_t verdict, uint32_t wanted, uint8_t *response, size_t response_length,
                       size_t *length);
uint32_t slavotuk_kill(uint8_t *state, size_t state_length, uint32_t port, uint32_t session, uint32_t kind, uint32_t credential,
                       uint16_t number, uint32_t verdict, const uint8_t *name, size_t name_length);
uint32_t slavotuk_set_word(uint8_t *state, size_t state_length, uint32_t port, uint32_t session, uint32_t kind,
                           uint32_t credential, uint16_t number, uint32_t verdict, uint32_t target, uint32_t word,
                           uint32_t second);
uint32_t slavotuk_read_request(const uint8_t *message, size_t message_length, uint16_t *credential);
uint32_t slavotuk_write_request(uint8_t *buffer, size_t buffer_length, uint16_t credential);
uint32_t slavotuk_read_count(const uint8_t *message, size_t message_length, uint16_t *count);
uint32_t slavotuk_read_row(const uint8_t *message, size_t message_length, size_t at, uint16_t *credential, uint8_t *kind,
                           uint8_t *name, size_t name_length);
uint32_t slavotuk_holds(const uint8_t *state, size_t state_length);
uint32_t slavotuk_image(const uint8_t *state, size_t state_length, uint8_t *image, size_t image_length, size_t *length);
uint32_t slavotuk_restore(uint8_t *state, size_t state_length, const uint8_t *image, size_t image_length);

#define EXPECT(value, expected) expect(__LINE__, #value, (unsigned long)(value), (unsigned long)(expected))
#define MODULE state, sizeof state
#define PORT_0 MODULE, 0
#define USER(credential, number) 0, credential, number, 1

/* Where the next number of the first process lies, and how long an image's header and a row of it are. */
enum { NEXT = 84, HEADER = 74, ROW = 52 };

static int differences = 0;
static uint8_t state[717];
static uint8_t p[48], q[48], r[48];

static void expect(int line, const char *text, unsigned long value, unsigned long expected)
{
    if (value != expected) {
        printf("earlier.c:%d: %s is %lu, not %lu\n", line, text, value, expected);
        differences++;
    }
}

static void make_names(void)
{
    memset(p + 16, 0x11, 32);
    memset(q + 16, 0x22, 32);
    memcpy(r, p, sizeof r);
    r[47] = 0x12;
}

/* Credential 0 (word 15) has P active in session 0. */
static void its_state_is_none(void)
{
    const uint8_t provisioned[8] = {1};
    const uint32_t words[8] = {15};
    uint8_t old[713] = {2, 0, 0, 0, 1, 15}, kept[713], response[55], image[698] = {0, 0, 8, 0, 10, 0, 0, 0, HEADER};
    size_t length = 7;
    old[76] = 1;
    memcpy(old + 82, p, sizeof p);
    memcpy(kept, old, sizeof old);
#define OLD old, sizeof old
    EXPECT(slavotuk_holds(OLD), 1);
    EXPECT(slavotuk_fresh(OLD, provisioned, 8, words, 8, words, 8), 1);
    EXPECT(slavotuk_open(OLD, 0, 1), 1);
    EXPECT(slavotuk_close(OLD, 0, 0), 1);
    EXPECT(slavotuk_select(OLD, 0, 0, 0x10), 1);
    EXPECT(slavotuk_start(OLD, 0, 0, 0, q, 48), 1);
    EXPECT(slavotuk_continue(OLD, 0, 0, 0, p, 48), 1);
    EXPECT(slavotuk_elevate(OLD, 0, 0, 0, q, 48, 1), 1);
    EXPECT(slavotuk_drop(OLD, 0, 0), 1);
    EXPECT(slavotuk_end(OLD, 0, 0, 0, 0, 1, 1), 1);
    EXPECT(slavotuk_record(OLD, 0, 0, USER(0, 0), 4), 1);
    EXPECT(slavotuk_list(OLD, 0, 0, USER(0, 0), 0, response, 55, &length), 1);
    EXPECT(slavotuk_kill(OLD, 0, 0, USER(0, 0), p, 48), 1);
    EXPECT(slavotuk_set_word(OLD, 0, 0, USER(0, 0), 0, 0, 0), 1);
    EXPECT(slavotuk_restore(OLD, image, HEADER), 1);
    EXPECT(slavotuk_image(OLD, image, sizeof image, &length), 1);
#undef OLD
    EXPECT(memcmp(old, kept, sizeof old), 0);
}

/* Words 15 and 16, the second of which only under elevation, and P of credential 0 saved at number 4. */
static void its_image_is_restored(void)
{
    uint8_t old[HEADER + ROW] = {3, 0, 8, 0, 10, 0, 1, 0, HEADER, 0, 15, 0, 0, 0, 16}, image[698];
    size_t length = 7;
    old[46] = 16;
    old[HEADER + 2] = 4;
    memcpy(old + HEADER + 4, p, sizeof p);
    EXPECT(slavotuk_restore(MODULE, old, sizeof old), 0);
    EXPECT(slavotuk_image(MODULE, image, sizeof image, &length), 0);
    EXPECT(length, sizeof old);
    EXPECT(memcmp(image, old, sizeof old), 0);
    EXPECT(slavotuk_open(PORT_0, 1), 0);
    EXPECT(slavotuk_select(PORT_0, 1, 0x10), 0);
    EXPECT(slavotuk_continue(PORT_0, 1, 0, p, 48), 0);
    EXPECT(state[NEXT], 4);
    EXPECT(slavotuk_end(PORT_0, 1, 0, 3, 1, 1), 9);
    EXPECT(slavotuk_end(PORT_0, 1, 0, 4, 1, 1), 0);
}

static void steps_1_to_9(void)
{
    const uint8_t provisioned[8] = {1, 1};
    const uint32_t words[8] = {15, 16}, seconds[8] = {0};
    EXPECT(slavotuk_fresh(MODULE, provisioned, 8, words, 8, seconds, 8), 0);
    EXPECT(slavotuk_open(PORT_0, 4), 1);
    EXPECT(slavotuk_open(PORT_0, 0), 0);
    EXPECT(slavotuk_open(PORT_0, 0), 2);
    EXPECT(slavotuk_start(PORT_0, 0, 0, p, 48), 3);
    EXPECT(slavotuk_select(PORT_0, 0, 0x20), 4);
    EXPECT(slavotuk_select(PORT_0, 0, 0x10), 0);
    EXPECT(slavotuk_start(PORT_0, 0, 2, p, 48), 5);
    EXPECT(slavotuk_start(PORT_0, 0, 0, p, 48), 0);
    EXPECT(slavotuk_start(PORT_0, 0, 1, p, 48), 12);
    EXPECT(slavotuk_start(PORT_0, 0, 1, r, 48), 0);
    EXPECT(slavotuk_start(PORT_0, 0, 1, p, 48), 7);
    EXPECT(slavotuk_record(PORT_0, 0, USER(1, 0), 4), 0);
    EXPECT(slavotuk_record(PORT_0, 0, USER(1, 0), 4), 9);
    EXPECT(slavotuk_record(PORT_0, 0, 0, 1, 1, 0, 4), 8);
    EXPECT(slavotuk_record(PORT_0, 0, USER(1, 1), 5), 10);
    EXPECT(slavotuk_record(PORT_0, 0, USER(1, 1), 4), 9);
    EXPECT(slavotuk_record(PORT_0, 0, USER(1, 2), 4), 0);
    EXPECT(slavotuk_record(PORT_0, 0, USER(1, 3), 3), 1);
    EXPECT(slavotuk_kill(PORT_0, 0, USER(1, 3), p, 48), 6);
    EXPECT(slavotuk_kill(PORT_0, 0, USER(0, 0), r, 48), 0);
    EXPECT(slavotuk_record(PORT_0, 0, USER(1, 2), 4), 6);
}

static void steps_10_and_11(void)
{
    uint8_t response[55], name[48], type = 9;
    size_t length = 7;
    uint16_t count = 9, credential = 9;
    EXPECT(slavotuk_list(PORT_0, 0, USER(0, 1), 65535, response, 54, &length), 15);
    EXPECT(length, 0);
    EXPECT(slavotuk_list(PORT_0, 0, USER(0, 1), 65535, response, 55, &length), 9);
    EXPECT(slavotuk_list(PORT_0, 0, USER(0, 2), 65535, response, 55, &length), 0);
    EXPECT(length, 55);
    EXPECT(slavotuk_read_count(response, length, &count), 0);
    EXPECT(count, 1);
    EXPECT(slavotuk_read_row(response, length, 0, &credential, &type, name, 48), 0);
    EXPECT(credential + type + memcmp(name, p, 48), 0);
    EXPECT(slavotuk_end(PORT_0, 0, 0, 3, 1, 1), 0);
    EXPECT(slavotuk_open(PORT_0, 1), 0);
    EXPECT(slavotuk_select(PORT_0, 1, 0x10), 0);
    EXPECT(slavotuk_continue(PORT_0, 1, 0, q, 48), 6);
    EXPECT(slavotuk_continue(PORT_0, 1, 0, p, 48), 0);
    EXPECT(state[NEXT], 4);
}

static void the_other_entries(void)
{
    uint8_t request[4];
    uint16_t wanted = 9;
    EXPECT(slavotuk_set_word(PORT_0, 1, USER(0, 4), 1, 0x80000010, 0), 0);
    EXPECT(slavotuk_elevate(PORT_0, 1, 1, q, 48, 1), 0);
    EXPECT(slavotuk_record(PORT_0, 1, 1, 99, 99, 99, 31), 0);
    EXPECT(slavotuk_drop(PORT_0, 1), 0);
    EXPECT(slavotuk_close(PORT_0, 1), 0);
    EXPECT(slavotuk_write_request(request, 4, 65535), 0);
    EXPECT(slavotuk_read_request(request, 4, &wanted), 0);
    EXPECT(wanted, 65535);
}

int main(void)
{
    make_names();
    its_state_is_none();
    its_image_is_restored();
    steps_1_to_9();
    steps_10_and_11();
    the_other_entries();
    return differences != 0;
}
