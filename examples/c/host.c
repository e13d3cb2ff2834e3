/*
 * A small host of the module: it makes a fresh one, starts two processes, sends a record and its replay, one that is not
 * granted and one that is granted only under elevation. A second network comes in by the other port, and the list of processes
 * is printed as a console would get it. Then a process is saved, and goes on at that port after a power cycle; what would be
 * left of it if the flash had lost a byte is shown before. Every answer is printed as its number and name.
 *
 * All calls are made by one thread. A host with a thread for each network takes a lock before each call, and keeps it until the
 * call has returned and the image is written where it has changed: a state takes one call at a time.
 */
#include <stdint.h>
#include <stdio.h>
#include <stdlib.h>
#include <string.h>

#include "slavotuk.h"

enum { EXIT_USAGE = 2 };

/* The ports of the two networks, and the session that each of them uses. */
enum { FIRST_PORT, SECOND_PORT };
enum { SESSION = 0, VERDICT_YES = 1 };

/* This device's operations: which class is what is for the host to say. */
enum { READ_SENSORS = SLAVOTUK_CLASS_DEVICE_FIRST, WRITE_FLASH };

static const char *name_of_type(uint8_t type)
{
    static const char *const names[] = {"active user", "active elevation", "saved user"};
    return type <= SLAVOTUK_TYPE_SAVED_USER ? names[type] : "unknown";
}

/* Prints an answer, and ends the program where it is not the expected one. */
static void expect(const char *step, uint32_t answer, uint32_t expected)
{
    printf("%-36s %2u %s\n", step, (unsigned)answer, slavotuk_number_name(answer));
    if (answer != expected) {
        fprintf(stderr, "host: %s: expected %u %s, the answer is %u %s\n", step, (unsigned)expected,
                slavotuk_number_name(expected), (unsigned)answer, slavotuk_number_name(answer));
        exit(EXIT_FAILURE);
    }
}

/* A name is worked out by the hash unit. This stands in for it: the names differ in their last byte alone. */
static void make_name(uint8_t name[SLAVOTUK_NAME_SIZE], uint8_t last)
{
    memset(name, 0x00, 16);
    memset(name + 16, 0x11, SLAVOTUK_NAME_SIZE - 16);
    name[SLAVOTUK_NAME_SIZE - 1] = last;
}

/*
 * Credential 0 has the module's own four classes (word 15), credential 1 two device operations (word 0x30), the second of which
 * only under elevation (second word 0x20).
 */
static void make_module(uint8_t state[SLAVOTUK_STATE_SIZE])
{
    const uint8_t provisioned[SLAVOTUK_CREDENTIALS] = {1, 1};
    const uint32_t words[SLAVOTUK_CREDENTIALS] = {15, 1u << READ_SENSORS | 1u << WRITE_FLASH};
    const uint32_t seconds[SLAVOTUK_CREDENTIALS] = {0, 1u << WRITE_FLASH};
    expect("fresh module",
           slavotuk_fresh(state, SLAVOTUK_STATE_SIZE, provisioned, SLAVOTUK_CREDENTIALS, words, SLAVOTUK_CREDENTIALS, seconds,
                          SLAVOTUK_CREDENTIALS),
           SLAVOTUK_DONE);
}

static void open_session(uint8_t state[SLAVOTUK_STATE_SIZE], uint32_t port)
{
    static const char *const steps[SLAVOTUK_PORTS] = {"open session 0 of port 0", "open session 0 of port 1"};
    expect(steps[port], slavotuk_open(state, SLAVOTUK_STATE_SIZE, port, SESSION), SLAVOTUK_DONE);
    expect("select version 1.0", slavotuk_select(state, SLAVOTUK_STATE_SIZE, port, SESSION, SLAVOTUK_VERSION_1_0),
           SLAVOTUK_DONE);
}

static void start_processes(uint8_t state[SLAVOTUK_STATE_SIZE])
{
    uint8_t name[SLAVOTUK_NAME_SIZE];
    make_name(name, 0x11);
    expect("start, credential 0", slavotuk_start(state, SLAVOTUK_STATE_SIZE, FIRST_PORT, SESSION, 0, name, sizeof name),
           SLAVOTUK_DONE);
    make_name(name, 0x12);
    expect("start, credential 1", slavotuk_start(state, SLAVOTUK_STATE_SIZE, FIRST_PORT, SESSION, 1, name, sizeof name),
           SLAVOTUK_DONE);
}

/* A record of credential 1 on a port with a number and a class, and the answer that it is to get. */
static void send_record(uint8_t state[SLAVOTUK_STATE_SIZE], uint32_t port, const char *what, uint16_t number,
                        uint32_t class_number, uint32_t expected)
{
    expect(what,
           slavotuk_record(state, SLAVOTUK_STATE_SIZE, port, SESSION, SLAVOTUK_CLAIM_USER, 1, number, VERDICT_YES,
                           class_number),
           expected);
}

/*
 * Credential 1 sends a record with its number 0. Whoever sends the same bytes again is refused. A record that is not granted
 * spends its number as well, so that nobody can keep it for later: credential 1 goes on with number 2.
 */
static void send_records(uint8_t state[SLAVOTUK_STATE_SIZE])
{
    send_record(state, FIRST_PORT, "record, credential 1, number 0", 0, READ_SENSORS, SLAVOTUK_DONE);
    send_record(state, FIRST_PORT, "the same record again", 0, READ_SENSORS, SLAVOTUK_REFUSED_OUT_OF_TURN);
    send_record(state, FIRST_PORT, "number 1, a class not granted", 1, SLAVOTUK_CLASS_DEVICE_LAST,
                SLAVOTUK_REFUSED_NOT_GRANTED);
    send_record(state, FIRST_PORT, "the same record again", 1, SLAVOTUK_CLASS_DEVICE_LAST, SLAVOTUK_REFUSED_OUT_OF_TURN);
    send_record(state, FIRST_PORT, "record, credential 1, number 2", 2, READ_SENSORS, SLAVOTUK_DONE);
}

/* A plain claim may not write the flash, and its number is spent. An elevated claim may, and has no number. */
static void write_flash(uint8_t state[SLAVOTUK_STATE_SIZE])
{
    uint8_t name[SLAVOTUK_NAME_SIZE];
    send_record(state, FIRST_PORT, "number 3, write the flash", 3, WRITE_FLASH, SLAVOTUK_REFUSED_ONLY_ELEVATED);
    make_name(name, 0x13);
    expect("elevate, credential 1",
           slavotuk_elevate(state, SLAVOTUK_STATE_SIZE, FIRST_PORT, SESSION, 1, name, sizeof name, VERDICT_YES),
           SLAVOTUK_DONE);
    expect("elevated, write the flash",
           slavotuk_record(state, SLAVOTUK_STATE_SIZE, FIRST_PORT, SESSION, SLAVOTUK_CLAIM_ELEVATED, 0, 0, 0, WRITE_FLASH),
           SLAVOTUK_DONE);
    expect("drop the elevation", slavotuk_drop(state, SLAVOTUK_STATE_SIZE, FIRST_PORT, SESSION), SLAVOTUK_DONE);
}

/*
 * The second network has its own sessions, and all else is shared: a process of the first port serves no record here, its name
 * is taken here too, and credential 1 may have a process of its own in this session.
 */
static void enter_by_second_port(uint8_t state[SLAVOTUK_STATE_SIZE])
{
    uint8_t name[SLAVOTUK_NAME_SIZE];
    open_session(state, SECOND_PORT);
    send_record(state, SECOND_PORT, "number 4, sent to port 1", 4, READ_SENSORS, SLAVOTUK_REFUSED_NO_PROCESS);
    make_name(name, 0x12);
    expect("start on port 1, the same name",
           slavotuk_start(state, SLAVOTUK_STATE_SIZE, SECOND_PORT, SESSION, 1, name, sizeof name), SLAVOTUK_REFUSED_NAME_TAKEN);
    make_name(name, 0x14);
    expect("start on port 1, credential 1",
           slavotuk_start(state, SLAVOTUK_STATE_SIZE, SECOND_PORT, SESSION, 1, name, sizeof name), SLAVOTUK_DONE);
}

/* The console's request, as it goes over the wire and arrives: the wanted credential. */
static uint16_t pass_request(void)
{
    uint8_t request[SLAVOTUK_REQUEST_SIZE];
    uint16_t wanted = 0;
    expect("write GET_AUTH_PROCESSES, all", slavotuk_write_request(request, sizeof request, SLAVOTUK_WANTED_ALL),
           SLAVOTUK_DONE);
    expect("read GET_AUTH_PROCESSES", slavotuk_read_request(request, sizeof request, &wanted), SLAVOTUK_DONE);
    return wanted;
}

static void print_row(const uint8_t *listing, size_t length, size_t at)
{
    uint16_t credential = 0;
    uint8_t type = 0;
    uint8_t name[SLAVOTUK_NAME_SIZE];
    expect("read a row", slavotuk_read_row(listing, length, at, &credential, &type, name, sizeof name), SLAVOTUK_DONE);
    printf("    row %u: credential %u, %s, name %02x%02x..%02x%02x\n", (unsigned)at, (unsigned)credential,
           name_of_type(type), (unsigned)name[0], (unsigned)name[1], (unsigned)name[SLAVOTUK_NAME_SIZE - 2],
           (unsigned)name[SLAVOTUK_NAME_SIZE - 1]);
}

/* Credential 0 asks, under its number 0; it has class 0 and so may list the others' processes, those of both ports. */
static void print_list(uint8_t state[SLAVOTUK_STATE_SIZE])
{
    uint8_t listing[SLAVOTUK_LISTING_SIZE];
    size_t length = 0;
    uint16_t count = 0;
    uint16_t wanted = pass_request();
    expect("list, credential 0, number 0",
           slavotuk_list(state, SLAVOTUK_STATE_SIZE, FIRST_PORT, SESSION, SLAVOTUK_CLAIM_USER, 0, 0, VERDICT_YES, wanted,
                         listing, sizeof listing, &length),
           SLAVOTUK_DONE);
    expect("read the count", slavotuk_read_count(listing, length, &count), SLAVOTUK_DONE);
    printf("    %u bytes, %u rows\n", (unsigned)length, (unsigned)count);
    for (size_t at = 0; at < count; at++) {
        print_row(listing, length, at);
    }
}

/* Returns the length of the image. A host puts it into flash after each call that changes it, before it goes on. */
static size_t write_image(const uint8_t state[SLAVOTUK_STATE_SIZE], uint8_t flash[SLAVOTUK_IMAGE_SIZE])
{
    size_t length = 0;
    expect("write the image", slavotuk_image(state, SLAVOTUK_STATE_SIZE, flash, SLAVOTUK_IMAGE_SIZE, &length),
           SLAVOTUK_DONE);
    printf("    %u bytes\n", (unsigned)length);
    return length;
}

/* The places of the dropped rows, counted from 0 in the damaged image. */
static void print_dropped(uint16_t dropped)
{
    printf("dropped:");
    for (unsigned place = 0; place < SLAVOTUK_PROCESSES; place++) {
        if (dropped >> place & 1) {
            printf(" %u", place);
        }
    }
    printf("\n");
}

/*
 * The flash has lost the image's last byte, and so the module can't be restored from it. What is rescued makes a module again.
 * A host tells its operator what was dropped, and that what was kept may be wrong too: slavotuk_rescue has what to do then.
 */
static void rescue_module(const uint8_t *flash, size_t length)
{
    uint8_t state[SLAVOTUK_STATE_SIZE], image[SLAVOTUK_IMAGE_SIZE];
    size_t rescued = 0;
    uint16_t cleared = 0, kept = 0, dropped = 0;
    expect("restore without the last byte", slavotuk_restore(state, sizeof state, flash, length - 1), SLAVOTUK_REFUSED_MESSAGE);
    expect("rescue the image",
           slavotuk_rescue(flash, length - 1, image, sizeof image, &rescued, &cleared, &kept, &dropped), SLAVOTUK_DONE);
    printf("    %u bytes, %u words cleared, %u rows kept, ", (unsigned)rescued, (unsigned)cleared, (unsigned)kept);
    print_dropped(dropped);
    expect("restore what was rescued", slavotuk_restore(state, sizeof state, image, rescued), SLAVOTUK_DONE);
}

/* The memory comes back with anything in it. Sessions and active processes are lost. */
static void restore_module(uint8_t state[SLAVOTUK_STATE_SIZE], const uint8_t *flash, size_t length)
{
    memset(state, 0xff, SLAVOTUK_STATE_SIZE);
    expect("restore the module", slavotuk_restore(state, SLAVOTUK_STATE_SIZE, flash, length), SLAVOTUK_DONE);
    open_session(state, SECOND_PORT);
    send_record(state, SECOND_PORT, "record, credential 1, number 0", 0, READ_SENSORS, SLAVOTUK_REFUSED_NO_PROCESS);
}

/* Credential 0 saves its process under its number 1. After a power cycle it goes on with number 2, on the other port. */
static void cycle_power(uint8_t state[SLAVOTUK_STATE_SIZE])
{
    uint8_t flash[SLAVOTUK_IMAGE_SIZE];
    uint8_t name[SLAVOTUK_NAME_SIZE];
    size_t length;
    expect("end, credential 0, number 1, keep",
           slavotuk_end(state, SLAVOTUK_STATE_SIZE, FIRST_PORT, SESSION, 0, 1, VERDICT_YES, 1), SLAVOTUK_DONE);
    length = write_image(state, flash);
    rescue_module(flash, length);
    restore_module(state, flash, length);
    make_name(name, 0x11);
    expect("continue on port 1, credential 0",
           slavotuk_continue(state, SLAVOTUK_STATE_SIZE, SECOND_PORT, SESSION, 0, name, sizeof name), SLAVOTUK_DONE);
    write_image(state, flash);
    expect("the same end again", slavotuk_end(state, SLAVOTUK_STATE_SIZE, SECOND_PORT, SESSION, 0, 1, VERDICT_YES, 1),
           SLAVOTUK_REFUSED_OUT_OF_TURN);
    expect("end, credential 0, number 2", slavotuk_end(state, SLAVOTUK_STATE_SIZE, SECOND_PORT, SESSION, 0, 2, VERDICT_YES, 0),
           SLAVOTUK_DONE);
}

static void run(void)
{
    uint8_t state[SLAVOTUK_STATE_SIZE];
    make_module(state);
    open_session(state, FIRST_PORT);
    start_processes(state);
    send_records(state);
    write_flash(state);
    enter_by_second_port(state);
    print_list(state);
    cycle_power(state);
}

int main(int argc, char **argv)
{
    static const char usage[] = "usage: host [--help]\n"
                                "Runs the module through a session on each port and a power cycle and prints every answer.\n"
                                "Exit code: 0 all as expected, 1 another answer, 2 bad usage.\n";
    int wants_help = argc == 2 && strcmp(argv[1], "--help") == 0;
    if (argc > 1 && !wants_help) {
        fputs(usage, stderr);
        return EXIT_USAGE;
    }
    if (wants_help) {
        fputs(usage, stdout);
    } else {
        run();
    }
    if (fflush(stdout) != 0) {
        perror("host: standard output");
        return EXIT_FAILURE;
    }
    return EXIT_SUCCESS;
}
