/*
 * Regdulyn for a controller in C (C11) or C++ (C++11), on x86-64.
 *
 * Up to 64 bar drives exchange messages in rounds and settle on one pattern number, while any of them may lose its
 * supply between one message and the next. This header has one drive's part in such an exchange: the calls take the
 * drive's state and give the new one. Behind them it has the calls about tables, from reading a file to trying an
 * exchange out. The calls keep nothing themselves, allocate nothing, use no file and no clock, and may be called from
 * any thread. The library is proved (docs/CONTROLLER.md says what that covers). What is left to the controller: the
 * wire, when a round closes, and the brake of a stopped drive.
 *
 *
 * DRIVES, MASKS, TABLES
 *
 * The drives of a frame are numbered 1 to n, n at most 64. A set of drives is a mask of 64 bits: bit 0 (value 1) is
 * drive 1, bit 63 is drive 64. A table is n and 1 to 128 survivor sets: sets of drives of which it is promised that
 * in every exchange all drives of at least one of them keep their supply. A core is a group of drives that has a
 * drive in common with every survivor set, and of which no smaller part does; the library chooses one with the fewest
 * drives, the same for the same table. Its drives talk, the others listen. Pattern numbers are 0 to 4294967295, and
 * each of them is real: 0 does not stand for "none".
 *
 *
 * AN EXCHANGE
 *
 * 1. Opening. Every drive of the frame is opened once, all from the same table, each with its own drive number and
 *    the pattern number that it proposes: regdulyn_drive_open. Then the drive is in round 1, and `state.core` is the
 *    core.
 * 2. Rounds 1, 2, .. up to the number of drives in the core. In each round:
 *    a. Every core drive that has not halted is called once to send: regdulyn_drive_send writes one message. These
 *       bytes go unchanged to every other drive, one after the other, in this order: first the other core drives by
 *       rising number, then the drives outside the core by rising number. regdulyn_drive_send_list gives that order.
 *       It matters: with another order a drive outside the core can settle on a number that no other drive knows.
 *    b. Every message that reaches a drive is handed to it: regdulyn_drive_message. The messages of a round may come
 *       in any order, before or after the drive's own send. One to a halted drive is refused with 23 and dropped.
 *    c. Every drive that has not halted is closed once: regdulyn_drive_close, after its own send and after the
 *       messages of this round to it. The controller says when that is; nothing more of this round may come
 *       afterwards. All drives close the round before any of them sends in the next one.
 *    After a close regdulyn_drive_decided says whether the drive has decided, and on which number.
 * 3. End. A drive outside the core halts when it decides. A core drive that has decided sends once more, in the next
 *    round (calls a to c go on as before), and halts at the close of that round. All halt at the close of the last
 *    round. A halted drive refuses every call with 23, except an opening, which begins a new exchange.
 *
 * A stop: a drive that loses its supply makes some first part of its sends, perhaps none, and is gone. Nobody tells
 * the others: they miss its message and close the round without it. As long as all drives of one survivor set stay
 * up, all drives that stay up decide on one and the same number, which some core drive proposed, at the latest in
 * round f + 1, where f is how many core drives stop. This is a theorem about whole exchanges made of these calls. It
 * asks of the wire that a message reaches its drive before that drive closes the round: a message that is lost, or
 * comes too late, while its sender stays up is no stop, and then nothing is promised.
 *
 * After a restart: a drive that was gone takes no further part in this exchange, even if its state was stored, since
 * the others have gone on without it. Its next call is the opening of the next exchange. What it had decided before
 * is not binding: a drive that stops may have decided on another number than those that stay up.
 *
 * A message need not be looked into. Its first two bytes are the letters KW or DW, then come the sender and the
 * round, a byte each. A KW then has a mask of drives, 8 bytes, and the pattern number of each of them, rising by
 * drive, 4 bytes each; a DW has the number on which its sender has decided, 4 bytes. Numbers of several bytes are
 * lowest byte first. KN and DC are the same with numbers of 2 bytes. They are never sent, and still read, also where
 * other messages of the round are KW and DW: what counts is the number, not how wide it was written.
 *
 *
 * THE CALLS
 *
 * Each call ends, for any state, bytes and numbers, with its result or with a refusal: a number from 1 that says why,
 * 0 for none. A refused call leaves the state and all lent memory as they were, to the byte. A call's comment lists
 * its refusals in the order in which they are tested; the first that applies is given.
 *
 * The calls of a drive have two forms. The regdulyn_drive_... functions take a pointer to the state, update it, and
 * return the refusal. Each makes one call of a function of the library, which takes the state by value and returns it:
 * the proof is of these.
 *
 * Stack: an opening, and each of the calls about tables and runs, takes up to 276 thousand bytes of stack; a message, a
 * close and a send take less than 1800 (docs/CONTROLLER.md).
 *
 * Pointers: `sets`, `groups`, `bytes` and `buffer` must be valid for as many elements as the length beside them says;
 * with length 0 they may be NULL. Memory that a call reads and memory that it writes must not overlap; pointers are
 * aligned for their type. Nothing is read or written outside, and no pointer is kept after the call.
 */
#ifndef REGDULYN_H
#define REGDULYN_H

#include <stddef.h>
#include <stdint.h>

#ifdef __cplusplus
extern "C" {
#define REGDULYN_STATIC_ASSERT(test, text) static_assert(test, text)
#else
#define REGDULYN_STATIC_ASSERT(test, text) _Static_assert(test, text)
#endif
#define REGDULYN_SIZE(type, size) REGDULYN_STATIC_ASSERT(sizeof(type) == size, #type " has " #size " bytes")
#define REGDULYN_PLACE(type, field, place) \
    REGDULYN_STATIC_ASSERT(offsetof(type, field) == place, #field " of " #type " stands at " #place)

/* ---- limits ---- */

#define REGDULYN_MAX_DRIVES 64     /* drives of a frame */
#define REGDULYN_MAX_SETS 128      /* survivor sets of a table, and fault groups of a fault list */
#define REGDULYN_MAX_CORES 1024    /* cores of a table; one with more is refused with 13 */
#define REGDULYN_MAX_MESSAGE 268   /* bytes of the longest message: KW with 64 numbers, 12 + 4 * 64 */
#define REGDULYN_MAX_TABLE 1286    /* bytes of the longest table or fault list: FR, 128 SV or FL, EN, 3 + 1280 + 3 */
#define REGDULYN_MAX_RUN 771       /* bytes of the longest run file: 64 PW, 64 CR, EN, 7 * 64 + 5 * 64 + 3 */
#define REGDULYN_MAX_LISTING 32768 /* no listing has more bytes */

/* ---- refusals ---- */

enum regdulyn_refusal {
    REGDULYN_ACCEPTED = 0,

    /* from the input */
    REGDULYN_REFUSED_ENDS_TOO_SOON = 1,
    REGDULYN_REFUSED_WRONG_MARK = 2,
    REGDULYN_REFUSED_FRAME_SIZE = 3,
    REGDULYN_REFUSED_BAD_SET = 4,
    REGDULYN_REFUSED_TOO_MANY_SETS = 5,
    REGDULYN_REFUSED_COUNT_DIFFERS = 6,
    REGDULYN_REFUSED_TRAILING_BYTES = 7,
    REGDULYN_REFUSED_DRIVE_NUMBER = 8,
    REGDULYN_REFUSED_STOP_ROUND = 9,
    REGDULYN_REFUSED_STOP_SENDS = 10,
    REGDULYN_REFUSED_NONE_UNTOUCHED = 11,
    REGDULYN_REFUSED_BLOCK_COUNT = 12,
    REGDULYN_REFUSED_TOO_MANY_CORES = 13,
    REGDULYN_REFUSED_NO_ROOM = 14,
    REGDULYN_REFUSED_KNOWN_MASK = 15,

    /* from the state */
    REGDULYN_REFUSED_ALREADY_ACCEPTED = 21,
    REGDULYN_REFUSED_OUTSIDE_CORE = 22,
    REGDULYN_REFUSED_HALTED = 23,
    REGDULYN_REFUSED_SENDER_MISSING = 24,
    REGDULYN_REFUSED_PATTERN_DIFFERS = 25,
    REGDULYN_REFUSED_OTHER_ROUND = 26,
    REGDULYN_REFUSED_LISTENER_SENDS = 27,
    REGDULYN_REFUSED_BROKEN_STATE = 28,

    /* from n and t */
    REGDULYN_REFUSED_THRESHOLD = 31,
    REGDULYN_REFUSED_TOO_MANY_GROUPS = 32,

    /* from n and k */
    REGDULYN_REFUSED_FEW_DRIVES = 33,

    /* from n and fault groups */
    REGDULYN_REFUSED_ALL_DRIVES = 34
};

/* What a refusal means, in English; "accepted" for 0, and a text for a number that is no refusal too. Never NULL. */
static inline const char *regdulyn_refusal_text(uint32_t refusal)
{
    switch (refusal) {
    case REGDULYN_ACCEPTED: return "accepted";
    case REGDULYN_REFUSED_ENDS_TOO_SOON: return "the bytes end too soon";
    case REGDULYN_REFUSED_WRONG_MARK:
        return "an unknown mark, or one in the wrong place; a call is handed no sets or fault groups";
    case REGDULYN_REFUSED_FRAME_SIZE: return "the number of drives is not 1 to 64";
    case REGDULYN_REFUSED_BAD_SET:
        return "a set is empty, or a set or fault group has a drive above the number of drives";
    case REGDULYN_REFUSED_TOO_MANY_SETS: return "more than 128 sets or fault groups";
    case REGDULYN_REFUSED_COUNT_DIFFERS: return "the count after EN differs";
    case REGDULYN_REFUSED_TRAILING_BYTES: return "bytes after the end";
    case REGDULYN_REFUSED_DRIVE_NUMBER:
        return "a drive number outside the frame, not above the last, or above a core drive whose PR or PW is missing";
    case REGDULYN_REFUSED_STOP_ROUND: return "a stop's round is not 1 to the core's size";
    case REGDULYN_REFUSED_STOP_SENDS: return "a stop has more sends than the drive can make";
    case REGDULYN_REFUSED_NONE_UNTOUCHED: return "every survivor set has a drive that stops";
    case REGDULYN_REFUSED_BLOCK_COUNT: return "k is not 2 to 4";
    case REGDULYN_REFUSED_TOO_MANY_CORES:
        return "more than 1024 cores; or the way back is handed no groups, or more than 1024";
    case REGDULYN_REFUSED_NO_ROOM: return "the lent buffer is too short for the output from the starting place on";
    case REGDULYN_REFUSED_KNOWN_MASK:
        return "a message's mask of known drives lacks the sender, or has a drive above the number of drives";
    case REGDULYN_REFUSED_ALREADY_ACCEPTED: return "this sender was already accepted in this round";
    case REGDULYN_REFUSED_OUTSIDE_CORE:
        return "the sender is oneself, or the sender or a known drive is outside the core";
    case REGDULYN_REFUSED_HALTED: return "the drive has halted";
    case REGDULYN_REFUSED_SENDER_MISSING: return "the sender was missing in an earlier round";
    case REGDULYN_REFUSED_PATTERN_DIFFERS: return "a pattern number differs from the one known for that drive";
    case REGDULYN_REFUSED_OTHER_ROUND: return "the message is of another round";
    case REGDULYN_REFUSED_LISTENER_SENDS: return "a listener is told to send";
    case REGDULYN_REFUSED_BROKEN_STATE: return "the state breaks a rule";
    case REGDULYN_REFUSED_THRESHOLD: return "the number of drives that may drop out is not below the number of drives";
    case REGDULYN_REFUSED_TOO_MANY_GROUPS: return "more than 128 groups of n - t drives would be needed";
    case REGDULYN_REFUSED_FEW_DRIVES: return "the frame has k drives or fewer";
    case REGDULYN_REFUSED_ALL_DRIVES: return "a fault group has all drives of the frame";
    default: return "no refusal has this number";
    }
}

/* ---- the state of a drive ---- */

/*
 * Raised when the layout of regdulyn_state changes. regdulyn_state_version() gives the linked library's. A state that
 * was stored by a controller of version 1, whose pattern numbers had two bytes, is not read. All drives of a frame have
 * one library: those before and after a change of the order of cores may choose different cores from one table.
 */
#define REGDULYN_STATE_VERSION 2

/*
 * What a drive keeps from call to call. It is plain data of 312 bytes with no padding: it may be copied, compared by
 * memcmp, and stored. Its fields may be read at any time; only the calls should write them. A flag is 0 or 1 in what
 * an accepted call gives, and any value but 0 is read as 1.
 *
 * Any bytes at all may be handed to the calls. A state that breaks a rule is refused with 28: n not 1 to 64, own not
 * 1 to n, an empty core or one with a drive above n, a round that is not 1 to the number of core drives, a set
 * (before, heard, known, start) with a drive outside the core, or a core drive that is not in both known and start.
 * This is no check sum: a state whose bytes were damaged may still keep these rules.
 *
 * Before the first opening a state is what regdulyn_unopened() gives; all bytes 0 does as well. Until it is opened
 * every call but an opening refuses it with 28.
 */
typedef struct regdulyn_state {
    uint64_t core;   /* the drives that talk, the same in every drive of the frame */
    uint64_t before; /* the drives heard in the round before, oneself among them if in the core; in round 1 the core */
    uint64_t heard;  /* the drives whose messages were accepted in this round */
    uint64_t known;  /* the drives whose pattern numbers are known */
    uint64_t start;  /* those that were known when this round began: the next send tells their numbers */
    uint32_t numbers[REGDULYN_MAX_DRIVES]; /* the pattern number of drive d at [d - 1]; it counts where d is known */
    uint32_t told;      /* where `announced`: the number that a decided drive told in this round */
    uint32_t decision;  /* where `decided`: the number on which the drive has decided */
    uint8_t n;          /* the drives of the frame */
    uint8_t own;        /* the drive whose state this is, 1 to n */
    uint8_t round;      /* the round that the drive is in, from 1; after it has halted the last one */
    uint8_t announced;  /* flag: a decided drive told its number in this round */
    uint8_t by;         /* where `announced`: that drive, the lowest of several */
    uint8_t decided;    /* flag: the drive has decided */
    uint8_t halted;     /* flag: the drive has ended its part */
    uint8_t reserved[1]; /* read by no call; 0 in what an accepted call gives */
} regdulyn_state;

REGDULYN_SIZE(regdulyn_state, 312);
REGDULYN_PLACE(regdulyn_state, core, 0);
REGDULYN_PLACE(regdulyn_state, before, 8);
REGDULYN_PLACE(regdulyn_state, heard, 16);
REGDULYN_PLACE(regdulyn_state, known, 24);
REGDULYN_PLACE(regdulyn_state, start, 32);
REGDULYN_PLACE(regdulyn_state, numbers, 40);
REGDULYN_PLACE(regdulyn_state, told, 296);
REGDULYN_PLACE(regdulyn_state, decision, 300);
REGDULYN_PLACE(regdulyn_state, n, 304);
REGDULYN_PLACE(regdulyn_state, own, 305);
REGDULYN_PLACE(regdulyn_state, round, 306);
REGDULYN_PLACE(regdulyn_state, announced, 307);
REGDULYN_PLACE(regdulyn_state, by, 308);
REGDULYN_PLACE(regdulyn_state, decided, 309);
REGDULYN_PLACE(regdulyn_state, halted, 310);
REGDULYN_PLACE(regdulyn_state, reserved, 311);

/* ---- the library's functions: the state by value ---- */

/* The new state; or, where refusal is not 0, the state exactly as it was handed. */
typedef struct regdulyn_state_reply {
    regdulyn_state state;
    uint32_t refusal;
} regdulyn_state_reply;

/* How many bytes were written, or sets, groups or drives put into lent memory; or, where refusal is not 0, 0. */
typedef struct regdulyn_size_reply {
    size_t size;
    uint32_t refusal;
} regdulyn_size_reply;

REGDULYN_SIZE(regdulyn_state_reply, 320);
REGDULYN_PLACE(regdulyn_state_reply, state, 0);
REGDULYN_PLACE(regdulyn_state_reply, refusal, 312);
REGDULYN_SIZE(regdulyn_size_reply, 16);
REGDULYN_PLACE(regdulyn_size_reply, size, 0);
REGDULYN_PLACE(regdulyn_size_reply, refusal, 8);

/* The version of the state's layout that the linked library has. Compare it once with REGDULYN_STATE_VERSION. */
uint32_t regdulyn_state_version(void);

/* The state of a drive that was never opened. */
regdulyn_state regdulyn_unopened(void);

/* See regdulyn_drive_open, _message, _close, _send and _send_list below, which are these calls and nothing more. */
regdulyn_state_reply regdulyn_open(regdulyn_state state, uint8_t n, const uint64_t *sets, size_t count, uint8_t own,
                                   uint32_t number);
regdulyn_state_reply regdulyn_message(regdulyn_state state, const uint8_t *bytes, size_t length);
regdulyn_state_reply regdulyn_close(regdulyn_state state);
regdulyn_size_reply regdulyn_send(regdulyn_state state, uint8_t *buffer, size_t room, size_t start);
regdulyn_size_reply regdulyn_send_list(regdulyn_state state, uint8_t *list, size_t room);

/* ---- the same with a pointer to the state ---- */

/*
 * Opens an exchange: drive `own` of a frame of n drives with `count` survivor sets, in any order, proposes `number`.
 * A drive outside the core proposes none, and may be opened with any. Every drive of the frame must be opened with the
 * same table. Whatever state was there before is replaced; it is not looked at.
 *
 * Refusals: 3 n is not 1 to 64; 2 no sets; 5 more than 128; 4 a set that is 0 or has a drive above n; 13 more than
 * 1024 cores; 8 own is not 1 to n.
 */
static inline uint32_t regdulyn_drive_open(regdulyn_state *state, uint8_t n, const uint64_t *sets, size_t count,
                                           uint8_t own, uint32_t number)
{
    regdulyn_state_reply reply = regdulyn_open(*state, n, sets, count, own, number);
    if (reply.refusal == 0)
        *state = reply.state;
    return reply.refusal;
}

/*
 * Hands the drive a message: exactly the bytes that another drive's send wrote, with their length. An accepted
 * message counts as heard in this round.
 *
 * Refusals: 28 the state breaks a rule; 23 the drive has halted; then of the bytes 1 the mark is cut; 2 none of KN, DC,
 * KW and DW; 1 the fields are cut (12 bytes of a KN or KW with its mark, 6 of a DC, 8 of a DW); 8 the sender is no
 * drive of the frame; 15 the mask of known drives lacks the sender or has a drive above n; 1 the numbers are cut, 2
 * bytes of a KN and 4 of a KW for each drive of its mask; 7 too many bytes; then 22 the sender is the drive itself, or
 * the sender or a known drive is outside the core; 26 the message is of another round; 24 the sender was missing in an
 * earlier round; 21 the sender was already accepted in this round; 25 a pattern number differs from the one known for
 * that drive, whichever messages told them.
 *
 * In an exchange as above a message to a halted drive meets 23, and is dropped; no other refusal is to be expected. 21
 * is a repeat, and is dropped too. The others say that the order above was not kept, or that something is damaged, and
 * then agreement is not promised, whether the message is dropped or not: 26 is a message that came too late, or too
 * early, before all drives had closed the round before; 24 follows a lost one; the rest say that bytes were damaged,
 * that drives were opened with different tables, or that a state was.
 */
static inline uint32_t regdulyn_drive_message(regdulyn_state *state, const uint8_t *bytes, size_t length)
{
    regdulyn_state_reply reply = regdulyn_message(*state, bytes, length);
    if (reply.refusal == 0)
        *state = reply.state;
    return reply.refusal;
}

/*
 * Closes the round: the drive decides if it can, and halts or goes on to the next round.
 *
 * Refusals: 28 the state breaks a rule; 23 the drive has halted.
 */
static inline uint32_t regdulyn_drive_close(regdulyn_state *state)
{
    regdulyn_state_reply reply = regdulyn_close(*state);
    if (reply.refusal == 0)
        *state = reply.state;
    return reply.refusal;
}

/*
 * Writes the drive's message of this round into buffer[start], buffer[start + 1], .., and how many bytes into *size,
 * where size is not NULL: a KW, 12 bytes and 4 for each drive that was known when the round began, or, once the drive
 * has decided, a DW of 8. The buffer has `room` bytes in all, those before `start` among them; REGDULYN_MAX_MESSAGE
 * bytes from `start` on are always enough. No other byte of the buffer changes, and the state does not: a second send
 * of the same round writes the same bytes, whatever messages have come between.
 *
 * Refusals: 28 the state breaks a rule; 23 the drive has halted; 27 the drive is outside the core, so it only
 * listens; 14 the buffer is too short. On a refusal the buffer and *size stay as they were.
 */
static inline uint32_t regdulyn_drive_send(const regdulyn_state *state, uint8_t *buffer, size_t room, size_t start,
                                           size_t *size)
{
    regdulyn_size_reply reply = regdulyn_send(*state, buffer, room, start);
    if (reply.refusal == 0 && size != NULL)
        *size = reply.size;
    return reply.refusal;
}

/*
 * Puts the drives to which the drive's message of this round goes into list[0], list[1], .., in the order in which it
 * has to be sent: the other core drives by rising number, then the drives outside the core by rising number. How many
 * there are, n - 1, goes into *count, where count is not NULL. The list has `room` places; REGDULYN_MAX_DRIVES are
 * always enough. No other place of it changes, and the state does not.
 *
 * Refusals, those of a send: 28 the state breaks a rule; 23 the drive has halted; 27 the drive is outside the core, so
 * it only listens; 14 the list has too few places. On a refusal the list and *count stay as they were.
 */
static inline uint32_t regdulyn_drive_send_list(const regdulyn_state *state, uint8_t *list, size_t room, size_t *count)
{
    regdulyn_size_reply reply = regdulyn_send_list(*state, list, room);
    if (reply.refusal == 0 && count != NULL)
        *count = reply.size;
    return reply.refusal;
}

/* ---- what a state says ---- */

/* 1 where the drive has decided, and then its number is in *number, where number is not NULL; else 0. */
static inline int regdulyn_drive_decided(const regdulyn_state *state, uint32_t *number)
{
    if (state->decided == 0)
        return 0;
    if (number != NULL)
        *number = state->decision;
    return 1;
}

/* 1 where the drive has halted: it neither sends nor closes any more. Else 0. */
static inline int regdulyn_drive_halted(const regdulyn_state *state)
{
    return state->halted != 0;
}

/* 1 where drive d is in the set; 0 where it is not, or d is not 1 to 64. */
static inline int regdulyn_has_drive(uint64_t set, unsigned d)
{
    return d >= 1 && d <= REGDULYN_MAX_DRIVES && (set >> (d - 1) & 1) != 0;
}

/* 1 where the drive is in the core, so that it has to send in every round until it halts. Else 0. */
static inline int regdulyn_drive_talks(const regdulyn_state *state)
{
    return regdulyn_has_drive(state->core, state->own);
}

/* ---- tables: reading, writing, fault lists, cores, verdicts, the way back, simulated exchanges and listings ---- */

/*
 * A reply comes back by value, and may have padding between its fields. Its `refusal` is 0 where the call is accepted;
 * else it is the number of the refusal, all other fields of the reply are 0, and lent memory is as it was. Where a
 * call can be refused for several reasons, it gives the first of those that its comment lists, in the order of the
 * list; 14 is always last.
 *
 * Masks, sets and tables are as at the head of this file. The normal table of some sets has no set twice and none that
 * holds another, and its sets rise as numbers. Sets may be handed over in any order; a call that needs the normal
 * table makes it.
 *
 * A fault list says the same as a table in another way: it is n and 1 to 128 fault groups, each a set of drives that
 * can fail together, and each survivor set is the frame without one of them. A fault group may be 0, and is never all n
 * drives. The largest groups of a list are those that are within no other one, each once. Groups may be handed over in
 * any order; what a call gives are the largest, as they rise as numbers.
 */

/* A table, or a fault list, that was read. */
typedef struct regdulyn_table_reply {
    size_t count; /* how many sets of the normal table, or largest groups, were put into lent memory */
    size_t used;  /* how many bytes it took, from FR to EN: what stands behind a table begins at bytes[used] */
    uint32_t refusal;
    uint8_t n; /* the drives of the frame */
} regdulyn_table_reply;

/* The first set that a group misses. */
typedef struct regdulyn_missed_reply {
    size_t position; /* its position in the normal table, from 1; 0 where there is none, and beside a refusal */
    uint32_t refusal;
} regdulyn_missed_reply;

/* A verdict. For a yes `shared` is 1 and the arrays are 0. For a no `shared` is 0. */
typedef struct regdulyn_verdict_reply {
    uint64_t blocks[4];   /* a no: k blocks that split the drives, none empty, so that none holds a core */
    uint8_t positions[4]; /* a no: k positions, from 1, of sets of the normal table that have no drive in common */
    uint8_t shared;
    uint32_t refusal;
} regdulyn_verdict_reply;

/*
 * What a simulated exchange starts from. Only drives of the core propose a number: at the place of another drive, or
 * of one above n, any number may stand, and the reply is the same. The rounds and sends of drives that do not stop are
 * not read.
 */
typedef struct regdulyn_scenario {
    uint64_t stopped;                      /* the drives that stop: a mask, while regdulyn_ending has a flag */
    uint32_t numbers[REGDULYN_MAX_DRIVES]; /* what drive d of the core proposes, at [d - 1] */
    uint8_t rounds[REGDULYN_MAX_DRIVES];   /* the round in which drive d stops, at [d - 1], where it does */
    uint8_t sends[REGDULYN_MAX_DRIVES];    /* how many sends of that round it still makes, at [d - 1] */
} regdulyn_scenario;

/*
 * How a drive ends. One that stops has `stopped` 1 and else 0, even if it decided before. Every other drive decides: an
 * accepted call never gives a drive of the frame round 0 with `stopped` 0, which would be one that is undecided.
 */
typedef struct regdulyn_ending {
    uint32_t number; /* the pattern number on which it decides */
    uint8_t round;   /* the round in which it does, from 1; 0 where it stops */
    uint8_t stopped; /* flag: the drive stops */
} regdulyn_ending;

/* How the drives of a simulated exchange end: drive d at [d - 1], and 0 in the places of drives above n. */
typedef struct regdulyn_simulation_reply {
    regdulyn_ending drives[REGDULYN_MAX_DRIVES];
    uint64_t core; /* the chosen core */
    uint8_t stops; /* how many drives of the core stop */
    uint32_t refusal;
} regdulyn_simulation_reply;

REGDULYN_SIZE(regdulyn_table_reply, 24);
REGDULYN_PLACE(regdulyn_table_reply, count, 0);
REGDULYN_PLACE(regdulyn_table_reply, used, 8);
REGDULYN_PLACE(regdulyn_table_reply, refusal, 16);
REGDULYN_PLACE(regdulyn_table_reply, n, 20);
REGDULYN_SIZE(regdulyn_missed_reply, 16);
REGDULYN_PLACE(regdulyn_missed_reply, position, 0);
REGDULYN_PLACE(regdulyn_missed_reply, refusal, 8);
REGDULYN_SIZE(regdulyn_verdict_reply, 48);
REGDULYN_PLACE(regdulyn_verdict_reply, blocks, 0);
REGDULYN_PLACE(regdulyn_verdict_reply, positions, 32);
REGDULYN_PLACE(regdulyn_verdict_reply, shared, 36);
REGDULYN_PLACE(regdulyn_verdict_reply, refusal, 40);
REGDULYN_SIZE(regdulyn_scenario, 392);
REGDULYN_PLACE(regdulyn_scenario, stopped, 0);
REGDULYN_PLACE(regdulyn_scenario, numbers, 8);
REGDULYN_PLACE(regdulyn_scenario, rounds, 264);
REGDULYN_PLACE(regdulyn_scenario, sends, 328);
REGDULYN_SIZE(regdulyn_ending, 8);
REGDULYN_PLACE(regdulyn_ending, number, 0);
REGDULYN_PLACE(regdulyn_ending, round, 4);
REGDULYN_PLACE(regdulyn_ending, stopped, 5);
REGDULYN_SIZE(regdulyn_simulation_reply, 528);
REGDULYN_PLACE(regdulyn_simulation_reply, drives, 0);
REGDULYN_PLACE(regdulyn_simulation_reply, core, 512);
REGDULYN_PLACE(regdulyn_simulation_reply, stops, 520);
REGDULYN_PLACE(regdulyn_simulation_reply, refusal, 524);

/*
 * Reads the table that the bytes begin with, whatever stands behind it, and puts the sets of its normal table into the
 * first places of `sets`, which has `room` places: REGDULYN_MAX_SETS are always enough. The other places stay as they
 * were. The reply's n, with the first `count` of the sets, is what the other calls and regdulyn_drive_open take.
 *
 * Refusals: from left to right, at each record 1 its mark is cut, 2 the mark is unknown or not due, 1 the rest of the
 * record is cut, 3 n is not 1 to 64, 5 a 129th set, 4 a set that is 0 or has a drive above n, 6 the count after EN
 * differs; then 13 more than 1024 cores; 14 more sets than `room`.
 */
regdulyn_table_reply regdulyn_read_table(const uint8_t *bytes, size_t length, uint64_t *sets, size_t room);

/*
 * The same where nothing may stand behind the table, so that `used` is `length`. Refusals: after 6 and before 13 comes
 * 7, bytes after the end.
 */
regdulyn_table_reply regdulyn_read_whole(const uint8_t *bytes, size_t length, uint64_t *sets, size_t room);

/*
 * Writes the normal table of n drives and `count` sets into buffer[start], buffer[start + 1], ..; the reply's size is
 * how many bytes: 6 and 10 for each set of the normal table. The buffer has `room` bytes in all, those before `start`
 * among them: REGDULYN_MAX_TABLE from `start` on are always enough. No other byte of the buffer changes.
 *
 * Refusals: 3 n is not 1 to 64; 2 no sets; 5 more than 128; 4 a set that is 0 or has a drive above n; 13 more than
 * 1024 cores; 14 the buffer is too short from `start` on, or `start` is past its end.
 */
regdulyn_size_reply regdulyn_write_table(uint8_t n, const uint64_t *sets, size_t count, uint8_t *buffer, size_t room,
                                         size_t start);

/*
 * Reads the fault list that the bytes are, FR, an FL for each fault group, EN, and puts its largest groups into the
 * first places of `groups`, as they rise as numbers. `groups` has `room` places: REGDULYN_MAX_SETS are always enough.
 * The other places stay as they were. Nothing may stand behind the list, so that `used` is `length`. The reply's n,
 * with the first `count` of the groups, is what regdulyn_table_from_faults takes.
 *
 * Refusals: from left to right, at each record 1 its mark is cut, 2 the mark is unknown or not due, as that of an SV
 * is, 1 the rest of the record is cut, 3 n is not 1 to 64, 5 a 129th group, 4 a group with a drive above n, 34 a group
 * of all n drives, 6 the count after EN differs; then 7 bytes after the end; 13 the survivor sets have more than 1024
 * cores; 14 more largest groups than `room`.
 */
regdulyn_table_reply regdulyn_read_faults(const uint8_t *bytes, size_t length, uint64_t *groups, size_t room);

/*
 * Writes the fault list of n drives and `count` fault groups into buffer[start], buffer[start + 1], ..: its largest
 * groups, as they rise as numbers. The reply's size is how many bytes: 6 and 10 for each largest group. The buffer has
 * `room` bytes in all, those before `start` among them: REGDULYN_MAX_TABLE from `start` on are always enough. No other
 * byte of the buffer changes.
 *
 * Refusals: 3 n is not 1 to 64; 2 no groups; 5 more than 128; then group by group 4 it has a drive above n, 34 it has
 * all n drives; 13 the survivor sets have more than 1024 cores; 14 the buffer is too short from `start` on, or `start`
 * is past its end.
 */
regdulyn_size_reply regdulyn_write_faults(uint8_t n, const uint64_t *groups, size_t count, uint8_t *buffer, size_t room,
                                          size_t start);

/*
 * The table of a fault list: the normal table of n drives whose survivor sets are the frame without each of `count`
 * fault groups. Its sets are put into the first places of `sets`, which has `room` places: REGDULYN_MAX_SETS are always
 * enough. The reply's size is how many there are, and the other places stay as they were. n with these sets is what the
 * other calls and regdulyn_drive_open take; regdulyn_faults_from_table gives the largest groups back.
 *
 * Refusals: 3 n is not 1 to 64; 2 no groups; 5 more than 128; then group by group 4 it has a drive above n, 34 it has
 * all n drives; 13 the survivor sets have more than 1024 cores; 14 more sets than `room`.
 */
regdulyn_size_reply regdulyn_table_from_faults(uint8_t n, const uint64_t *groups, size_t count, uint64_t *sets,
                                               size_t room);

/*
 * The fault list of a table: the largest fault groups of n drives and `count` survivor sets, each the frame without a
 * set of the normal table. They are put into the first places of `groups`, as they rise as numbers. `groups` has
 * `room` places: REGDULYN_MAX_SETS are always enough. The reply's size is how many there are, and the other places stay
 * as they were. regdulyn_table_from_faults gives the normal table back.
 *
 * Refusals: 3 n is not 1 to 64; 2 no sets; 5 more than 128; 4 a set that is 0 or has a drive above n; 13 more than
 * 1024 cores; 14 more groups than `room`.
 */
regdulyn_size_reply regdulyn_faults_from_table(uint8_t n, const uint64_t *sets, size_t count, uint64_t *groups,
                                               size_t room);

/*
 * The cores of the table of n drives and `count` sets into the first places of `cores`, which has `room` places:
 * REGDULYN_MAX_CORES are always enough. They come by their number of drives; of two with as many the one comes first
 * that holds the lowest drive that only one of the two holds, so that 9, drives 1 and 4, comes before 6, drives 2 and
 * 3. The first is the chosen core, the one that an exchange uses. The reply's size is how many there are. The other
 * places stay as they were.
 *
 * Refusals: 3 n is not 1 to 64; 2 no sets; 5 more than 128; 4 a set that is 0 or has a drive above n; 13 more than
 * 1024 cores; 14 more cores than `room`.
 */
regdulyn_size_reply regdulyn_cores(uint8_t n, const uint64_t *sets, size_t count, uint64_t *cores, size_t room);

/*
 * The way back: the smallest groups of the drives 1 to n that meet each of `count` groups, rising by their masks, into
 * the first places of `sets`, which has `room` places: REGDULYN_MAX_SETS are always enough. Handed the cores of a
 * table, it gives the sets of the normal table. The reply's size is how many there are. The other places stay as they
 * were.
 *
 * Refusals: 3 n is not 1 to 64; 13 no groups, or more than 1024; 4 a group that is 0 or has a drive above n; 5 more
 * than 128 are found; 14 more than `room`.
 */
regdulyn_size_reply regdulyn_back(uint8_t n, const uint64_t *groups, size_t count, uint64_t *sets, size_t room);

/*
 * The table of a frame of n drives of which it is known only that at most t drop out: all groups of n - t drives. They
 * are put into the first places of `sets`, as they rise as numbers; the reply's size is how many there are, and the
 * other places stay as they were. `sets` has `room` places: REGDULYN_MAX_SETS are always enough. n with these sets is
 * what the other calls and regdulyn_drive_open take. The cores of this table are all groups of t + 1 drives, and the
 * chosen one is drives 1 to t + 1.
 *
 * Refusals: 3 n is not 1 to 64; 31 t is not below n; 32 more than 128 groups of n - t drives; 13 more than 1024 cores,
 * which is so for t = 1 and n from 46 on; 14 more sets than `room`.
 */
regdulyn_size_reply regdulyn_threshold(uint8_t n, uint8_t t, uint64_t *sets, size_t room);

/*
 * The first set of the normal table of n drives and `count` sets that a group of drives misses: with which it has no
 * drive in common. There is none exactly where the group meets every set, and exactly then it holds a core. Look at
 * the refusal first: beside one the position is 0 too.
 *
 * Refusals: 3 n is not 1 to 64; 2 no sets; 5 more than 128; 4 a set that is 0 or has a drive above n; 13 more than
 * 1024 cores; 4 the group is 0 or has a drive above n.
 */
regdulyn_missed_reply regdulyn_missed(uint8_t n, const uint64_t *sets, size_t count, uint64_t group);

/*
 * The verdict on k, 2 to 4, of the table of n drives and `count` sets: yes where any k sets of the normal table, the
 * same one more than once if need be, have a drive in common. For a no the positions are the first, compared left to
 * right, and do not fall. Block i first holds the drives outside the i-th named set that are in no earlier block; then,
 * while a block is empty, the lowest drive of the first block with two or more moves to the first empty block. A yes
 * means that however the frame is split into k blocks, none empty, one of them holds a core.
 *
 * Refusals: 12 k is not 2 to 4; 3 n is not 1 to 64; 2 no sets; 5 more than 128; 4 a set that is 0 or has a drive above
 * n; 13 more than 1024 cores; 33 n is not above k.
 */
regdulyn_verdict_reply regdulyn_verdict(uint8_t k, uint8_t n, const uint64_t *sets, size_t count);

/*
 * Tries an exchange out: how its drives end where all of the frame's n drives are opened from the table of `count`
 * sets, each with its number, and those of `stopped` lose their supply. A drive that stops in round r acts normally
 * before that round, then makes the first `sends` of that round's sends, in the order of regdulyn_drive_send_list, and
 * is gone. It is what every exchange of this scenario gives, whatever the order in which messages come: all drives
 * that do not stop decide the same number, and one that some drive of the core proposed.
 *
 * Refusals: 3 n is not 1 to 64; 2 no sets; 5 more than 128; 4 a set that is 0 or has a drive above n; 13 more than
 * 1024 cores; then for each drive that stops, by rising number, 8 it is above n, 9 its round is not 1 to the number of
 * core drives, 10 more sends than n - 1 for a drive of the core, or than 0 for another; then 11 every survivor set has
 * a drive that stops.
 */
regdulyn_simulation_reply regdulyn_simulate(uint8_t n, const uint64_t *sets, size_t count, regdulyn_scenario scenario);

/*
 * The same of a run file: PW or PR for each drive of the core, by rising number, CR for each that stops, EN, as they
 * stand behind a table in a file. A PW has its number in 4 bytes, a PR in 2; one file may have both kinds. A PW or PR
 * of a drive outside the core may stand in its place among them, and its number is dropped. With `bytes + used` and
 * `length - used` of regdulyn_read_table it tries out a file that begins with its table.
 *
 * Refusals: those of the table as above; then from left to right, at each record 1 its mark is cut, 2 the mark is
 * unknown or not due, 1 the rest of the record is cut, 8 a drive that is 0, above n, not above the last, or above one
 * of the core whose PW or PR is missing, 9 and 10 as above, 6 the count after EN differs; then 7 bytes after the end;
 * 11 as above. CR and EN are not due as long as a drive of the core has no PW or PR; a PW or PR is not due behind that
 * of drive n, nor behind a CR.
 */
regdulyn_simulation_reply regdulyn_simulate_file(uint8_t n, const uint64_t *sets, size_t count, const uint8_t *bytes,
                                                 size_t length);

/*
 * What the programs print for a file: the listing of a table, or of a table with a run file behind it, as text without
 * a final 0 into text[start], text[start + 1], ..; the reply's size is how many bytes. The buffer has `room` bytes in
 * all, those before `start` among them: REGDULYN_MAX_LISTING from `start` on are always enough. No other byte of the
 * buffer changes.
 *
 * Bytes that a reader refuses have a listing too: the line `refused` with the refusal's number. So the only refusal is
 * 14: the buffer is too short from `start` on, or `start` is past its end.
 */
regdulyn_size_reply regdulyn_table_listing(const uint8_t *bytes, size_t length, uint8_t *text, size_t room,
                                           size_t start);
regdulyn_size_reply regdulyn_run_listing(const uint8_t *bytes, size_t length, uint8_t *text, size_t room, size_t start);

#ifdef __cplusplus
}
#endif

#endif
