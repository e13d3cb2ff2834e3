/*
 * Slavotuk, the management login module of machines that banks rent, for programs in C and C++.
 *
 * What holds of every function here, but for slavotuk_version and slavotuk_number_name:
 *
 * - It answers with a number: SLAVOTUK_DONE, or that of the first test that holds, a refusal. Each comment gives the tests in
 *   their order, under "Refused", and leaves SLAVOTUK_REFUSED_ out. A later library may refuse with a number that is not listed
 *   here: take every number but SLAVOTUK_DONE for a refusal.
 * - A slice is two parameters, a pointer and a size_t with the count of its elements. A pointer is valid for its length; with
 *   length 0 it may be null. What a call writes to overlaps with nothing else that it is lent. A pointer through which a number
 *   is handed out is not null.
 * - A refusal leaves the state and every buffer as they were, but for one number: a user claim that passes its tests is
 *   counted also where the call is refused after them, see below. What is handed out through a pointer is written where the
 *   answer is SLAVOTUK_DONE, and stays as it was otherwise. The one exception is the length of slavotuk_list, slavotuk_image
 *   and slavotuk_rescue, which a refusal sets to 0.
 * - state is a slice of SLAVOTUK_STATE_SIZE bytes that slavotuk_fresh or slavotuk_restore has filled and that only these
 *   functions write; docs/STATE.md draws it.
 * - Nothing is kept between calls but what stands there, nothing is locked, and nothing is allocated: threads, and a signal
 *   handler, may call at the same time on states of their own; a state that they share, or that lies in memory shared between
 *   programs, takes one call at a time, which is for the host to see to.
 * - ARGUMENT, wherever it is listed, is for a port over 1, a session over 3 on either port, a credential over 7, a flag (kind,
 *   verdict, keep, provisioned) other than 0 or 1, a name not of SLAVOTUK_NAME_SIZE bytes, and a slice that holds no state. A
 *   comment adds what else it is for.
 * - Where it compares names, it reads all bytes of both every time: what it reads does not tell at which byte two names differ.
 *   docs/TRACE.md says how that is checked, and what the reads still tell.
 * - Ports, sessions, credentials, classes, versions and flags are 32 bits wide, so that a wrong value arrives as one. A claim's
 *   number has 16 bits: C narrows a wider value before the call.
 *
 * Two ports, 0 and 1, lead two networks to one module. Each has SLAVOTUK_SESSIONS sessions of its own, 0 to 3. Every call on a
 * session names both, the port before the session, and wherever this header says session it is that session of that port:
 * session 0 of port 0 and session 0 of port 1 are two, and neither port has a session 4. Each selects its own version, and what
 * is active in one serves no claim in the other. A credential has at most one active user process for each port and session,
 * and there is at most one elevation for each port and session. Credentials, words, the table and its names are shared:
 *
 * - SLAVOTUK_PROCESSES processes stand on both ports together, and no two of them have one name: so one port can meet FULL or
 *   NAME_TAKEN because of the other.
 * - slavotuk_list has the processes of both ports, and a row does not tell its port. slavotuk_kill reaches both.
 * - slavotuk_close touches its own session alone.
 * - A saved process has no port: it may be continued on either.
 *
 * Two ports are two networks, and so most likely two threads. Calls on one state are made one at a time, and nothing here sees
 * to that: the host needs a lock, which a thread takes before a call and keeps until the call has returned and, where the image
 * is to be written after it, until that is done.
 *
 * A protected call carries a claim of four parameters: kind, credential, number and verdict, the key unit's on the signature.
 * Of an elevated claim the credential, number and verdict are ignored, whatever they hold. The claim's tests, in their order:
 *
 *   elevated  NO_PROCESS unless the session has an active elevation, whose credential is then the claim's
 *   user      CREDENTIAL where it is not provisioned
 *             NO_PROCESS unless it has an active user process in the session
 *             SPENT where that process's next number is 65535
 *             OUT_OF_TURN where the number is not the next
 *             VERDICT where the verdict is 0
 *
 * A credential has two words, the grant word and the second word. A class is granted where its bit is set in the grant word;
 * where its bit in the second word is set too, it is granted only under elevation, that is to an elevated claim. A bit of the
 * second word alone says nothing. NOT_GRANTED, wherever it is listed, is for a claim whose credential lacks the class in its
 * grant word. ONLY_ELEVATED, directly behind it, is for a user claim whose credential has the class only under elevation, also
 * while an elevation stands in the session.
 *
 * A user claim that passes its tests adds one to that process's next number, whatever the call is answered afterwards; no other
 * byte of the state changes with a refusal. A claim that fails one adds nothing, nor does an elevated claim. The refusals after
 * a claim are NOT_GRANTED, ONLY_ELEVATED, ROOM in slavotuk_list, NO_PROCESS in slavotuk_kill and CREDENTIAL in
 * slavotuk_set_word; each comment has them behind "the claim's tests". So no number passes twice while its process stands, and
 * whoever tries again after such a refusal, say with a longer buffer or under elevation, signs anew: the old number is
 * OUT_OF_TURN.
 *
 * In short: after DONE, NOT_GRANTED, ONLY_ELEVATED, ROOM, NO_PROCESS and CREDENTIAL the next user claim has the next number,
 * after any other answer of this header the same. Where NO_PROCESS or CREDENTIAL came of the claim's own tests, there is no
 * process to go on with. A process that is spent, by an accepted call or by a refused one, can't end itself: a kill under
 * another claim or the closing of its session removes it.
 */
#ifndef SLAVOTUK_H
#define SLAVOTUK_H

#include <stddef.h>
#include <stdint.h>

/* On what a call writes to, where it is lent something else too: they may not overlap. C++ has no word for it. */
#ifdef __cplusplus
#define SLAVOTUK_RESTRICT
#else
#define SLAVOTUK_RESTRICT restrict
#endif

#ifdef __cplusplus
extern "C" {
#endif

/*
 * The library's version. Where a call, what it leaves or the state's bytes change, the major number does, and with it the
 * soname. With version 2 a refusal after the claim's tests spends the number: see to a host of version 1 that sends the same
 * number again after NOT_GRANTED or ROOM. Since 2.0.1 the reads do not tell where names differ. With version 3 each credential
 * has a second word, the state has 713 bytes, not 681, and slavotuk_fresh and slavotuk_set_word take second words: a host comes
 * from version 2 by writing an image with the old library and restoring it with the new; active processes end; an old library
 * refuses a new image (14). With version 4 there is a second port: every call on a session takes the port before it, and the
 * state has 717 bytes, for four sessions more. A host comes from version 3 by writing an image with the old library and
 * restoring it with the new; active processes end, and a slice of 713 bytes holds no state. Images are those of version 3, and
 * on port 0 the answers are those of version 3 while nothing is called on port 1. Since 4.1.0 there is slavotuk_rescue.
 */
#define SLAVOTUK_VERSION_MAJOR 4
#define SLAVOTUK_VERSION_MINOR 1
#define SLAVOTUK_VERSION_PATCH 0

/* The same as one number, in which a later version is larger. */
#define SLAVOTUK_VERSION_NUMBER (SLAVOTUK_VERSION_MAJOR * 65536 + SLAVOTUK_VERSION_MINOR * 256 + SLAVOTUK_VERSION_PATCH)

/* What a call can answer. */
enum slavotuk_number {
    SLAVOTUK_DONE = 0,                   /* accepted */
    SLAVOTUK_REFUSED_ARGUMENT = 1,       /* a value out of its range, or a slice that holds no state */
    SLAVOTUK_REFUSED_SESSION = 2,        /* closed; for open: already open */
    SLAVOTUK_REFUSED_NO_VERSION = 3,     /* the session has no version yet */
    SLAVOTUK_REFUSED_VERSION = 4,        /* a version other than SLAVOTUK_VERSION_1_0 */
    SLAVOTUK_REFUSED_CREDENTIAL = 5,     /* not provisioned */
    SLAVOTUK_REFUSED_NO_PROCESS = 6,     /* none of the stated kind */
    SLAVOTUK_REFUSED_ALREADY_ACTIVE = 7, /* such a process is active already */
    SLAVOTUK_REFUSED_VERDICT = 8,        /* the key unit said no */
    SLAVOTUK_REFUSED_OUT_OF_TURN = 9,    /* the number is not the next */
    SLAVOTUK_REFUSED_NOT_GRANTED = 10,   /* the class bit is clear in the grant word */
    SLAVOTUK_REFUSED_FULL = 11,          /* SLAVOTUK_PROCESSES processes stand, on both ports together */
    SLAVOTUK_REFUSED_NAME_TAKEN = 12,    /* equals a name in the table, on either port */
    SLAVOTUK_REFUSED_SPENT = 13,         /* the next number is 65535 */
    SLAVOTUK_REFUSED_MESSAGE = 14,       /* the bytes don't fit the message's layout, or are no image */
    SLAVOTUK_REFUSED_ROOM = 15,          /* the buffer is too short */
    SLAVOTUK_REFUSED_ONLY_ELEVATED = 18  /* a user claim, and the class is granted only under elevation */
};

/* A number's name, document 01's where it has one; "unknown" for a number that this header does not have. */
static inline const char *slavotuk_number_name(uint32_t number)
{
    switch (number) {
    case SLAVOTUK_DONE: return "done";
    case SLAVOTUK_REFUSED_ARGUMENT: return "argument";
    case SLAVOTUK_REFUSED_SESSION: return "session";
    case SLAVOTUK_REFUSED_NO_VERSION: return "no version";
    case SLAVOTUK_REFUSED_VERSION: return "version";
    case SLAVOTUK_REFUSED_CREDENTIAL: return "credential";
    case SLAVOTUK_REFUSED_NO_PROCESS: return "no process";
    case SLAVOTUK_REFUSED_ALREADY_ACTIVE: return "already active";
    case SLAVOTUK_REFUSED_VERDICT: return "verdict";
    case SLAVOTUK_REFUSED_OUT_OF_TURN: return "out of turn";
    case SLAVOTUK_REFUSED_NOT_GRANTED: return "not granted";
    case SLAVOTUK_REFUSED_FULL: return "full";
    case SLAVOTUK_REFUSED_NAME_TAKEN: return "name taken";
    case SLAVOTUK_REFUSED_SPENT: return "spent";
    case SLAVOTUK_REFUSED_MESSAGE: return "message";
    case SLAVOTUK_REFUSED_ROOM: return "room";
    case SLAVOTUK_REFUSED_ONLY_ELEVATED: return "only elevated";
    default: return "unknown";
    }
}

/* What the module holds: two ports, so many sessions of each port, and what both share. */
#define SLAVOTUK_PORTS 2
#define SLAVOTUK_SESSIONS 4
#define SLAVOTUK_CREDENTIALS 8
#define SLAVOTUK_PROCESSES 12

/* Bytes of the state, of a name, and of the messages: GET_AUTH_PROCESSES, and AUTH_PROCESSES with its header and rows. */
#define SLAVOTUK_STATE_SIZE 717
#define SLAVOTUK_NAME_SIZE 48
#define SLAVOTUK_REQUEST_SIZE 4
#define SLAVOTUK_HEADER_SIZE 4
#define SLAVOTUK_ROW_SIZE 51

/* Bytes of the longest listing: a response of this size always has the room. */
#define SLAVOTUK_LISTING_SIZE (SLAVOTUK_HEADER_SIZE + SLAVOTUK_ROW_SIZE * SLAVOTUK_PROCESSES)

/* Bytes of an image: before its rows, the same in an image of before version 3, which has no second words, and of a row. */
#define SLAVOTUK_IMAGE_HEADER_SIZE 74
#define SLAVOTUK_IMAGE_OLD_HEADER_SIZE 42
#define SLAVOTUK_IMAGE_ROW_SIZE 52

/* Bytes of the longest image: a buffer of this size always has the room. */
#define SLAVOTUK_IMAGE_SIZE (SLAVOTUK_IMAGE_HEADER_SIZE + SLAVOTUK_IMAGE_ROW_SIZE * SLAVOTUK_PROCESSES)

/* Version 1.0 of the protocol as its byte, the only one that a session can select. */
#define SLAVOTUK_VERSION_1_0 0x10

/* Kinds of a claim. */
#define SLAVOTUK_CLAIM_USER 0
#define SLAVOTUK_CLAIM_ELEVATED 1

/* Types of a process, as a row has them. */
#define SLAVOTUK_TYPE_ACTIVE_USER 0
#define SLAVOTUK_TYPE_ACTIVE_ELEVATION 1
#define SLAVOTUK_TYPE_SAVED_USER 2

/*
 * Classes; bit k of a grant word grants class k, and bit k of both words only under an elevated claim. The first four are the
 * module's, the others are device operations.
 */
#define SLAVOTUK_CLASS_LIST_OTHERS 0
#define SLAVOTUK_CLASS_KILL_OTHERS 1
#define SLAVOTUK_CLASS_SAVE_OWN 2
#define SLAVOTUK_CLASS_SET_WORDS 3
#define SLAVOTUK_CLASS_DEVICE_FIRST 4
#define SLAVOTUK_CLASS_DEVICE_LAST 31

/* The wanted credential of a listing of all processes. */
#define SLAVOTUK_WANTED_ALL 65535

/* Codes of the messages of 004 clause 9.2: the requests of Table 16, and the responses of Table 17. */
enum slavotuk_code {
    SLAVOTUK_GET_AUTH_VERSION = 0x81,
    SLAVOTUK_SELECT_AUTH_VERSION = 0x82,
    SLAVOTUK_SET_CRED_ID_PARAMS = 0x83,
    SLAVOTUK_GET_CRED_ID_PARAMS = 0x84,
    SLAVOTUK_SET_AUTH_POLICY = 0x85,
    SLAVOTUK_GET_AUTH_POLICY = 0x86,
    SLAVOTUK_START_AUTH = 0x87,
    SLAVOTUK_END_AUTH = 0x88,
    SLAVOTUK_ELEVATE_PRIVILEGE = 0x89,
    SLAVOTUK_END_ELEVATED_PRIVILEGE = 0x8a,
    SLAVOTUK_GET_AUTH_CAPABILITIES = 0x8b,
    SLAVOTUK_AUTH_RESET_TO_DEFAULT = 0x8c,
    SLAVOTUK_TAKE_OWNERSHIP = 0x8d,
    SLAVOTUK_GET_AUTH_PROCESSES = 0x8e,
    SLAVOTUK_KILL_AUTH_PROCESS = 0x8f,
    SLAVOTUK_AUTH_VERSION = 0x01,
    SLAVOTUK_SELECT_AUTH_VERSION_RSP = 0x02,
    SLAVOTUK_SET_CRED_ID_PARAMS_DONE = 0x03,
    SLAVOTUK_CRED_ID_PARAMS = 0x04,
    SLAVOTUK_SET_AUTH_POLICY_DONE = 0x05,
    SLAVOTUK_AUTH_POLICY = 0x06,
    SLAVOTUK_START_AUTH_RSP = 0x07,
    SLAVOTUK_END_AUTH_RSP = 0x08,
    SLAVOTUK_PRIVILEGE_ELEVATED = 0x09,
    SLAVOTUK_ELEVATED_PRIVILEGE_ENDED = 0x0a,
    SLAVOTUK_AUTH_CAPABILITIES = 0x0b,
    SLAVOTUK_AUTH_DEFAULTS_APPLIED = 0x0c,
    SLAVOTUK_OWNERSHIP_TAKEN = 0x0d,
    SLAVOTUK_AUTH_PROCESSES = 0x0e,
    SLAVOTUK_PROCESS_KILLED = 0x0f,
    SLAVOTUK_AUTH_ERROR = 0x7f
};

/* The values of every message and of every piece of a list: those of its fields, and 0 for the others. */
#define SLAVOTUK_MESSAGE_VALUES 7

/* Kinds of a piece. */
#define SLAVOTUK_PIECE_VERSION 0
#define SLAVOTUK_PIECE_PROCESS 1
#define SLAVOTUK_PIECE_OWNER 2
#define SLAVOTUK_PIECE_POLICY 3
#define SLAVOTUK_PIECE_RESET 4

/* ---- the library */

/* The version of the library that is linked, as SLAVOTUK_VERSION_NUMBER has that of this header. */
uint32_t slavotuk_version(void);

/* ---- the module and its sessions */

/*
 * Makes a fresh module: every session of both ports closed, no process. The state's old bytes don't matter.
 *
 *   provisioned  SLAVOTUK_CREDENTIALS flags, one for each credential
 *   words        as many grant words
 *   seconds      as many second words; both words of a credential that is not provisioned are taken as zero
 *
 * Refused: ARGUMENT, for a slice of another length or a flag other than 0 or 1 and for nothing else.
 */
uint32_t slavotuk_fresh(uint8_t *SLAVOTUK_RESTRICT state, size_t state_length, const uint8_t *provisioned,
                        size_t provisioned_length, const uint32_t *words, size_t words_length, const uint32_t *seconds,
                        size_t seconds_length);

/*
 * Asks whether a slice holds a state. It is only read, so read-only memory serves.
 *
 * Refused: ARGUMENT where it holds none, and for nothing else.
 */
uint32_t slavotuk_holds(const uint8_t *state, size_t state_length);

/*
 * Opens a session, without a version.
 *
 * Refused: ARGUMENT; SESSION where it is open already.
 */
uint32_t slavotuk_open(uint8_t *state, size_t state_length, uint32_t port, uint32_t session);

/*
 * Closes a session and removes its active processes; saved ones stay, and so does every other session, with its processes.
 *
 * Refused: ARGUMENT; SESSION where it is closed already.
 */
uint32_t slavotuk_close(uint8_t *state, size_t state_length, uint32_t port, uint32_t session);

/*
 * Chooses the version of an open session. To choose it a second time is done and changes nothing.
 *
 *   version  SLAVOTUK_VERSION_1_0
 *
 * Refused: ARGUMENT; SESSION where it is closed; VERSION for every other version.
 */
uint32_t slavotuk_select(uint8_t *state, size_t state_length, uint32_t port, uint32_t session, uint32_t version);

/* ---- processes. From here on every call needs an open session with a version */

/*
 * Starts a user process of a credential in a session, last in the table and with next number 0.
 *
 *   name  what the hash unit worked out for this process
 *
 * Refused: ARGUMENT; SESSION; NO_VERSION; CREDENTIAL; ALREADY_ACTIVE where the credential has an active user process in the
 * session; NAME_TAKEN; FULL.
 */
uint32_t slavotuk_start(uint8_t *SLAVOTUK_RESTRICT state, size_t state_length, uint32_t port, uint32_t session,
                        uint32_t credential, const uint8_t *name, size_t name_length);

/*
 * Makes a saved process of a credential active in a session, on whichever port it was saved, in its old place and with its old
 * next number.
 *
 *   name  the name it was started with
 *
 * Refused: ARGUMENT; SESSION; NO_VERSION; CREDENTIAL; NO_PROCESS unless a saved process has that credential and that name;
 * ALREADY_ACTIVE where the credential has an active user process in the session.
 */
uint32_t slavotuk_continue(uint8_t *SLAVOTUK_RESTRICT state, size_t state_length, uint32_t port, uint32_t session,
                           uint32_t credential, const uint8_t *name, size_t name_length);

/*
 * Starts an elevation of a session for a credential, last in the table.
 *
 *   name     what the hash unit worked out for this process
 *   verdict  the key unit's: 1 yes, 0 no
 *
 * Refused: ARGUMENT; SESSION; NO_VERSION; CREDENTIAL; VERDICT; ALREADY_ACTIVE where the session has an elevation; NAME_TAKEN;
 * FULL.
 */
uint32_t slavotuk_elevate(uint8_t *SLAVOTUK_RESTRICT state, size_t state_length, uint32_t port, uint32_t session,
                          uint32_t credential, const uint8_t *name, size_t name_length, uint32_t verdict);

/*
 * Removes a session's elevation; the session stays open.
 *
 * Refused: ARGUMENT; SESSION; NO_VERSION; NO_PROCESS where it has none.
 */
uint32_t slavotuk_drop(uint8_t *state, size_t state_length, uint32_t port, uint32_t session);

/*
 * Ends a user process under its own claim, which is always a user's and so has no kind.
 *
 *   keep  1 saves the process, 0 removes it
 *
 * Refused: ARGUMENT; SESSION; NO_VERSION; the claim's tests; where keep is 1, NOT_GRANTED and ONLY_ELEVATED by
 * SLAVOTUK_CLASS_SAVE_OWN: a credential that has it only under elevation can't save.
 */
uint32_t slavotuk_end(uint8_t *state, size_t state_length, uint32_t port, uint32_t session, uint32_t credential,
                      uint16_t number, uint32_t verdict, uint32_t keep);

/* ---- protected calls */

/*
 * Takes one record of a device operation.
 *
 *   device_class  the operation's class, SLAVOTUK_CLASS_DEVICE_FIRST to SLAVOTUK_CLASS_DEVICE_LAST
 *
 * Refused: ARGUMENT, for a class out of that range too; SESSION; NO_VERSION; the claim's tests; NOT_GRANTED and ONLY_ELEVATED
 * by the class.
 */
uint32_t slavotuk_record(uint8_t *state, size_t state_length, uint32_t port, uint32_t session, uint32_t kind,
                         uint32_t credential, uint16_t number, uint32_t verdict, uint32_t device_class);

/*
 * Writes AUTH_PROCESSES to the front of the response: a row for each process of the wanted credential, on either port, in the
 * table's order. None is an empty list, also for a credential that is not provisioned. Later bytes of the response are not
 * touched.
 *
 *   wanted    a credential, or SLAVOTUK_WANTED_ALL
 *   response  the buffer; SLAVOTUK_LISTING_SIZE bytes are always enough
 *   length    handed out: the message's length, 0 on a refusal
 *
 * Refused: ARGUMENT, for every other value of wanted too; SESSION; NO_VERSION; the claim's tests; where wanted is not the
 * claim's credential, NOT_GRANTED and ONLY_ELEVATED by SLAVOTUK_CLASS_LIST_OTHERS; ROOM. To list again into a longer response
 * takes the next number.
 */
uint32_t slavotuk_list(uint8_t *SLAVOTUK_RESTRICT state, size_t state_length, uint32_t port, uint32_t session, uint32_t kind,
                       uint32_t credential, uint16_t number, uint32_t verdict, uint32_t wanted,
                       uint8_t *SLAVOTUK_RESTRICT response, size_t response_length, size_t *SLAVOTUK_RESTRICT length);

/*
 * Removes the process of that name, of whichever type and on whichever port. A claim may kill its own credential's processes,
 * and all where SLAVOTUK_CLASS_KILL_OTHERS is granted; a user claim that has it only under elevation may kill its own alone.
 *
 * Refused: ARGUMENT; SESSION; NO_VERSION; the claim's tests; NO_PROCESS where no process that the claim may kill has the name,
 * whatever its credential lacks.
 */
uint32_t slavotuk_kill(uint8_t *SLAVOTUK_RESTRICT state, size_t state_length, uint32_t port, uint32_t session, uint32_t kind,
                       uint32_t credential, uint16_t number, uint32_t verdict, const uint8_t *name, size_t name_length);

/*
 * Sets both words of a credential. Whoever wants to keep one hands in what it was.
 *
 *   target  the credential whose words are set
 *   word    the new grant word; every value is taken
 *   second  the new second word; every value is taken
 *
 * Refused: ARGUMENT; SESSION; NO_VERSION; the claim's tests; NOT_GRANTED and ONLY_ELEVATED by SLAVOTUK_CLASS_SET_WORDS;
 * CREDENTIAL where the target is not provisioned.
 */
uint32_t slavotuk_set_word(uint8_t *state, size_t state_length, uint32_t port, uint32_t session, uint32_t kind,
                           uint32_t credential, uint16_t number, uint32_t verdict, uint32_t target,
                           uint32_t word, uint32_t second);

/*
 * ---- through a power cycle
 *
 * An image is what a module keeps while it is without power: its credentials, both words of each, and its saved processes with
 * their next numbers; docs/IMAGE.md draws it. Sessions and active processes are not in it and are lost, also a process that was
 * saved and continued. It knows no port: what was saved on one may be continued on the other.
 *
 * It changes where slavotuk_end keeps a process, slavotuk_continue takes one up, slavotuk_kill removes a saved one,
 * slavotuk_set_word sets words, and where slavotuk_fresh or slavotuk_restore makes a module: write it again after each of these
 * that is done, before the answer goes out and before the next call; after a restore from the newest it is the same. No other
 * call changes it, and none that is refused. The memory that keeps it has to hand back the newest. From an older one, numbers
 * that were spent since are good again, processes that were killed since stand again, and words are the old ones.
 *
 * An image of before version 3 has the old layout: no second words, and the rows where they would stand. It is restored with
 * all second words zero. What slavotuk_image writes has the new layout, so after such a restore write the image at once.
 */

/*
 * Writes the image of a module to the front of a buffer, in the new layout. Later bytes of the buffer are not touched. The
 * state is only read, so read-only memory serves.
 *
 *   image   the buffer; SLAVOTUK_IMAGE_SIZE bytes are always enough
 *   length  handed out: the image's length, 0 on a refusal
 *
 * Refused: ARGUMENT, for a slice that holds no state and for nothing else; ROOM.
 */
uint32_t slavotuk_image(const uint8_t *state, size_t state_length, uint8_t *SLAVOTUK_RESTRICT image, size_t image_length,
                        size_t *SLAVOTUK_RESTRICT length);

/*
 * Makes a module from an image: its credentials and words, every session of both ports closed, and its processes, saved, in
 * their order and with their next numbers. The state's old bytes don't matter.
 *
 *   image  the whole image and no byte more, in the new layout or the old
 *
 * Refused: ARGUMENT, for a slice of another length and for nothing else; MESSAGE for bytes that are no image.
 */
uint32_t slavotuk_restore(uint8_t *SLAVOTUK_RESTRICT state, size_t state_length, const uint8_t *image, size_t image_length);

/*
 * Writes to the front of a buffer what can be rescued of a damaged image: always an image, in the layout that the bytes state.
 * Later bytes of the buffer are not touched. It takes no state, and bytes of any length. An image is written as it is: no word
 * is cleared, and no row dropped.
 *
 * The words of credentials that are not provisioned are cleared. Of the rows, up to the stated count, one is kept where all its
 * bytes are there, its credential is provisioned, its next number is at least 1, and no row that was kept before it has its
 * name. The others are dropped. What lies behind the stated rows is ignored.
 *
 *   bytes    what is left of the image
 *   image    the buffer; SLAVOTUK_IMAGE_SIZE bytes are always enough
 *   length   handed out: how many bytes were written, 0 on a refusal
 *   cleared  handed out: how many words that were not zero were cleared, of both kinds
 *   kept     handed out: how many rows were kept
 *   dropped  handed out: bit i is set where row i of the stated ones, counted from 0, was dropped, also where it is missing
 *
 * It can't know what stood there before the damage. Of two rows with one name the first is kept, whatever its number, and a
 * number that was damaged downward is kept: numbers that were spent may be good again. A damaged word may grant what nobody
 * granted. So after the restore set the words anew, list the processes, kill them and start anew.
 *
 * Refused: MESSAGE for bytes that end before the rows, a mask with a bit of no credential, a count of words other than
 * SLAVOTUK_CREDENTIALS, more rows than SLAVOTUK_PROCESSES, or offsets of neither layout; ROOM for a buffer shorter than what
 * is to be written.
 */
uint32_t slavotuk_rescue(const uint8_t *bytes, size_t bytes_length, uint8_t *SLAVOTUK_RESTRICT image, size_t image_length,
                         size_t *SLAVOTUK_RESTRICT length, uint16_t *SLAVOTUK_RESTRICT cleared,
                         uint16_t *SLAVOTUK_RESTRICT kept, uint16_t *SLAVOTUK_RESTRICT dropped);

/* ---- the listing messages. These take no state */

/*
 * Reads GET_AUTH_PROCESSES. Every credential value is read as it stands; slavotuk_list asks whether there is such a one.
 *
 *   credential  handed out: the wanted credential
 *
 * Refused: MESSAGE for a wrong code or a length other than SLAVOTUK_REQUEST_SIZE.
 */
uint32_t slavotuk_read_request(const uint8_t *message, size_t message_length, uint16_t *SLAVOTUK_RESTRICT credential);

/*
 * Writes GET_AUTH_PROCESSES to the first SLAVOTUK_REQUEST_SIZE bytes of the buffer. Later bytes are not touched.
 *
 *   credential  the wanted credential, or SLAVOTUK_WANTED_ALL; every value is written as it stands
 *
 * Refused: ROOM for a shorter buffer.
 */
uint32_t slavotuk_write_request(uint8_t *buffer, size_t buffer_length, uint16_t credential);

/*
 * Reads how many rows AUTH_PROCESSES has. Every count is taken, also one over SLAVOTUK_PROCESSES.
 *
 *   message  the whole message and no byte more
 *   count    handed out
 *
 * Refused: MESSAGE for a wrong code, a length under SLAVOTUK_HEADER_SIZE or other than the count asks for, or a type over
 * SLAVOTUK_TYPE_SAVED_USER in any row.
 */
uint32_t slavotuk_read_count(const uint8_t *message, size_t message_length, uint16_t *SLAVOTUK_RESTRICT count);

/*
 * Reads one row of AUTH_PROCESSES.
 *
 *   message     the whole message and no byte more
 *   at          the row's place, counted from 0
 *   credential  handed out
 *   kind        handed out: the type of the process
 *   name        handed out, into a slice of SLAVOTUK_NAME_SIZE bytes
 *
 * Refused: MESSAGE as slavotuk_read_count does; ARGUMENT for a place at or past the count, or a name's slice of another length.
 */
uint32_t slavotuk_read_row(const uint8_t *message, size_t message_length, size_t at, uint16_t *SLAVOTUK_RESTRICT credential,
                           uint8_t *SLAVOTUK_RESTRICT kind, uint8_t *SLAVOTUK_RESTRICT name, size_t name_length);

/*
 * ---- all messages of 004 clause 9.2. These take no state
 *
 * A message is its code, the values of its fields in their order, and the rest: the bytes that follow the fields. The code and
 * the reserved byte behind it are no values. A reserved field is one, and is 0; reserved bits are 0 in what is handed out and
 * may not be set in what is written. The fields have 004's names:
 *
 *   GET_AUTH_VERSION, ELEVATE_PRIVILEGE, END_ELEVATED_PRIVILEGE, GET_AUTH_CAPABILITIES, TAKE_OWNERSHIP,
 *   SELECT_AUTH_VERSION_RSP, SET_CRED_ID_PARAMS_DONE, SET_AUTH_POLICY_DONE, PRIVILEGE_ELEVATED, ELEVATED_PRIVILEGE_ENDED,
 *   AUTH_DEFAULTS_APPLIED, OWNERSHIP_TAKEN
 *                            no value, no rest
 *   SELECT_AUTH_VERSION      AuthVersion
 *   GET_CRED_ID_PARAMS, GET_AUTH_POLICY, GET_AUTH_PROCESSES, END_AUTH_RSP
 *                            CredentialID
 *   SET_CRED_ID_PARAMS       SetCredInfoOp 1, CredentialID, CredentialType, BaseAsymAlgo, BaseHashAlgo, 0, CredentialDataSize;
 *                            rest: CredentialData
 *                            SetCredInfoOp 2 or 3, CredentialID
 *   SET_AUTH_POLICY          SetAuthPolicyOp 1, CredentialID, NumPolicies; rest: Policies
 *                            SetAuthPolicyOp 2 or 3, CredentialID
 *   START_AUTH               CredentialID, Attributes, NonceLen; rest: Nonce
 *   END_AUTH                 CredentialID, Attributes
 *   AUTH_RESET_TO_DEFAULT    DataType, CredentialID, SVResetDataTypeCount; rest: SVResetDataTypeList
 *   KILL_AUTH_PROCESS        CredentialID; rest: AuthProcID
 *   AUTH_VERSION             VersionNumberEntryCount; rest: VersionNumberEntries
 *   CRED_ID_PARAMS           CredAttributes, CredentialID, CredentialType, BaseAsymAlgo, BaseHashAlgo, 0, CredentialDataSize;
 *                            rest: CredentialData
 *   AUTH_POLICY              PolicyAttributes, CredentialID, NumPolicies; rest: Policies
 *   START_AUTH_RSP           CredentialID, NonceLen; rest: Nonce
 *   AUTH_CAPABILITIES        MessageCaps, AuthProcessCaps, DeviceProvisioningState, AuthRecordProcessTime,
 *                            BaseAsymAlgoSupported, BaseHashAlgoSupported, SupportedPolicyOwnerIDCount;
 *                            rest: SupportedPolicyOwnerIDList
 *   AUTH_PROCESSES           AuthProcInfoCount; rest: AuthProcInfoList
 *   PROCESS_KILLED           no value; rest: AuthProcID
 *   AUTH_ERROR               ErrorCode 0x01 to 0x08 or 0x0a, 0
 *                            ErrorCode 0x09, ErrorData
 *                            ErrorCode 0x0b, 0, CredentialID
 *                            ErrorCode 0xff, ErrorData, VendorIDLen; rest: VendorID and OpaqueErrorData
 *
 * A list is its pieces one behind the other. A policy is an owner and a policy piece, a reset element an owner and a reset
 * piece. To go over a list, read the piece at the front of the rest, then that at the front of what lies behind it; as many as
 * the count says fill the rest of a message that was read.
 *
 *   SLAVOTUK_PIECE_VERSION   VersionNumberEntry
 *   SLAVOTUK_PIECE_PROCESS   CredentialID, AuthProcessType; rest: AuthProcID
 *   SLAVOTUK_PIECE_OWNER     ID, VendorIDLen; rest: VendorID
 *   SLAVOTUK_PIECE_POLICY    PolicyVersion, PolicyLen; rest: Policy
 *   SLAVOTUK_PIECE_RESET     SVResetDataTypeLen; rest: SVResetDataType
 */

/*
 * Reads a message of any code.
 *
 *   message  the whole message and no byte more
 *   values   handed out, into a slice of SLAVOTUK_MESSAGE_VALUES numbers
 *   rest     handed out: where in the message the rest begins; its length where there is none
 *
 * Refused: ARGUMENT, for another count of values and for nothing else; MESSAGE for a code that 004 has not, a length other
 * than the fields and counts say, or a value that 004 does not allow in its field.
 */
uint32_t slavotuk_read_message(const uint8_t *message, size_t message_length, uint64_t *SLAVOTUK_RESTRICT values,
                               size_t values_length, size_t *SLAVOTUK_RESTRICT rest);

/*
 * Writes a message to the front of the buffer. Later bytes are not touched.
 *
 *   code     of enum slavotuk_code
 *   values   SLAVOTUK_MESSAGE_VALUES numbers
 *   rest     what follows the fields
 *   written  handed out: the message's length
 *
 * Refused: ARGUMENT, for another count of values and for nothing else; ROOM for a buffer shorter than the message; MESSAGE
 * where a message of that code can't carry the values and the rest, also for a code that 004 has not.
 */
uint32_t slavotuk_write_message(uint8_t *SLAVOTUK_RESTRICT buffer, size_t buffer_length, uint32_t code, const uint64_t *values,
                                size_t values_length, const uint8_t *rest, size_t rest_length,
                                size_t *SLAVOTUK_RESTRICT written);

/*
 * Reads the piece at the front of some bytes. What lies behind it is not looked at.
 *
 *   kind    SLAVOTUK_PIECE_VERSION to SLAVOTUK_PIECE_RESET
 *   values  handed out, into a slice of SLAVOTUK_MESSAGE_VALUES numbers
 *   rest    handed out: where its rest begins
 *   next    handed out: where the piece ends
 *
 * Refused: ARGUMENT, for another kind or count of values and for nothing else; MESSAGE where no such piece stands there.
 */
uint32_t slavotuk_read_piece(const uint8_t *bytes, size_t bytes_length, uint32_t kind, uint64_t *SLAVOTUK_RESTRICT values,
                             size_t values_length, size_t *SLAVOTUK_RESTRICT rest, size_t *SLAVOTUK_RESTRICT next);

/*
 * Writes a piece to the front of the buffer. Later bytes are not touched.
 *
 *   kind     SLAVOTUK_PIECE_VERSION to SLAVOTUK_PIECE_RESET
 *   values   SLAVOTUK_MESSAGE_VALUES numbers
 *   rest     what follows the fields
 *   written  handed out: the piece's length
 *
 * Refused: ARGUMENT, for another kind or count of values and for nothing else; ROOM for a buffer shorter than the piece;
 * MESSAGE where a piece of that kind can't carry the values and the rest.
 */
uint32_t slavotuk_write_piece(uint8_t *SLAVOTUK_RESTRICT buffer, size_t buffer_length, uint32_t kind, const uint64_t *values,
                              size_t values_length, const uint8_t *rest, size_t rest_length, size_t *SLAVOTUK_RESTRICT written);

#ifdef __cplusplus
}
#endif

#endif
