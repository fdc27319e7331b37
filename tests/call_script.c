/*
 * Makes the calls that a script on standard input lists, through include/regdulyn.h, and prints what each gives, so
 * that tests/compare_calls can hold them to the second program. The calls of a drive are made on one state, which has
 * all bytes 0 at first.
 *
 * A script is a list of operations: one letter, then its fields, lowest byte first.
 *   L  n 1, own 1, core 8, round 1, before 8, heard 8, known 8, start 8, 64 pattern numbers of 4, announced 1 (0:
 *      none), its sender 1 and pattern number 4, decided 1 (0: not) and its pattern number 4, halted 1 (0: not): takes
 *      this state
 *   O  n 1, drive 1, pattern number 4, list of sets: opens
 *   S  length 2, starting place 8: sends into a buffer of that length, at most 384
 *   M  length 2, then so many bytes: hands over a message
 *   C  closes the round
 *   B  n 1, list of groups: the way back
 *   W  n 1, length 2, starting place 8, list of sets: writes the table into a buffer of that length, at most 1536
 *   V  k 1, n 1, list of sets: the verdict on k
 *   H  n 1, group 8, list of sets: the first set of the normal table that the group misses
 *   K  n 1, list of sets: the cores, the chosen one first
 *   T  n 1, t 1: the table of all groups of n - t drives
 *   F  places 2, length 2, then so many bytes: reads a fault list into so many places, at most 1024
 *   G  n 1, length 2, starting place 8, list of groups: writes the fault list into a buffer as W does
 *   P  n 1, places 2, list of groups: the table of a fault list, into so many places, at most 1024
 *   Q  n 1, places 2, list of sets: the fault list of a table, into so many places, at most 1024
 *   R  n 1, length 2, then so many bytes, list of sets: the simulated exchange of a run file
 *   X  n 1, 64 pattern numbers of 4, mask of the drives that stop 8, 64 rounds of 1, 64 sends of 1, list of sets: the
 *      simulated exchange
 * A list is its count, 2, then so many masks, 8 each; those behind the 1026th are left out. Bytes that are not there
 * count as 0, and as none of a message, a run file or a fault list; any other letter does nothing. A script has at most
 * 65536 bytes; more are left unread.
 *
 * Each call prints a line with its answer, a send and a writer another one with the whole buffer, which is filled with
 * a5 before, and every operation a line with each field of the state. Ends with 1 where memory that a call was not
 * lent, or a place behind the sets that it gives, has changed, or a number of sets stands beside a refusal.
 */
#include <inttypes.h>
#include <stdio.h>
#include <stdlib.h>
#include <string.h>

#include "regdulyn.h"

enum { MOST_BYTES = 65536, MOST_MASKS = 1026, MOST_SENT = 384, MOST_WRITTEN = 1536, FILLING = 0xa5 };

static uint8_t script[MOST_BYTES];
static size_t length, at; /* at may be behind the end */
static regdulyn_state state;
static uint64_t masks[MOST_MASKS], lent[REGDULYN_MAX_CORES];
static uint8_t buffer[MOST_WRITTEN];

/* ---- the fields of an operation, from left to right ---- */

static uint64_t field(unsigned width)
{
    uint64_t value = 0;
    for (unsigned i = 0; i < width; i++, at++)
        if (at < length)
            value |= (uint64_t)script[at] << 8 * i;
    return value;
}

static uint8_t byte(void) { return (uint8_t)field(1); }
static uint16_t two_bytes(void) { return (uint16_t)field(2); }
static uint32_t number(void) { return (uint32_t)field(4); }

static void numbers(uint32_t *values)
{
    for (unsigned d = 1; d <= REGDULYN_MAX_DRIVES; d++)
        values[d - 1] = number();
}

/* The list into `masks`; how many there are. */
static size_t list(void)
{
    size_t count = two_bytes();
    for (size_t i = 0; i < count; i++) {
        uint64_t mask = field(8);
        if (i < MOST_MASKS)
            masks[i] = mask;
    }
    return count < MOST_MASKS ? count : MOST_MASKS;
}

/* The place of so many bytes, or of those that are there; *size is how many. */
static const uint8_t *bytes(size_t *size)
{
    size_t given = two_bytes();
    size_t start = at < length ? at : length;
    *size = given < length - start ? given : length - start;
    at += given;
    return script + start;
}

/* ---- lines ---- */

/* Whether the call is accepted; else its refusal is printed. */
static int accepted(uint32_t refusal)
{
    if (refusal != 0)
        printf("refused %" PRIu32 "\n", refusal);
    return refusal == 0;
}

static void print_answer(uint32_t refusal)
{
    if (accepted(refusal))
        printf("accepted\n");
}

static void print_masks(const uint64_t *printed, size_t count)
{
    for (size_t i = 0; i < count; i++)
        printf(" %" PRIx64, printed[i]);
    printf("\n");
}

static void untouched(const void *memory, size_t from, size_t size)
{
    for (size_t i = from; i < size; i++)
        if (((const uint8_t *)memory)[i] != FILLING)
            exit(1);
}

static void print_groups(regdulyn_table_reply reply)
{
    if (accepted(reply.refusal)) {
        printf("read n %u used %zu groups", (unsigned)reply.n, reply.used);
        print_masks(lent, reply.count);
    } else if (reply.n != 0 || reply.used != 0 || reply.count != 0) {
        exit(1);
    }
    untouched(lent, reply.count * sizeof *lent, sizeof lent);
}

static void print_sets(const char *word, regdulyn_size_reply reply)
{
    if (accepted(reply.refusal)) {
        printf("%s", word);
        print_masks(lent, reply.size);
    } else if (reply.size != 0) {
        exit(1);
    }
    untouched(lent, reply.size * sizeof *lent, sizeof lent);
}

static void print_written(uint32_t refusal, size_t size, size_t room)
{
    if (accepted(refusal))
        printf("written %zu\n", size);
    printf("buffer ");
    for (size_t i = 0; i < room; i++)
        printf("%02x", (unsigned)buffer[i]);
    printf("\n");
    untouched(buffer, room, sizeof buffer);
}

static void print_verdict(regdulyn_verdict_reply v)
{
    if (!accepted(v.refusal))
        return;
    printf("%s sets", v.shared ? "yes" : "no");
    for (size_t i = 0; i < 4; i++)
        printf(" %u", (unsigned)v.positions[i]);
    printf(" blocks");
    print_masks(v.blocks, 4);
}

static void print_simulation(unsigned n, regdulyn_simulation_reply reply)
{
    if (!accepted(reply.refusal))
        return;
    printf("core %" PRIx64 " stops %u", reply.core, (unsigned)reply.stops);
    for (unsigned d = 1; d <= n && d <= REGDULYN_MAX_DRIVES; d++) {
        regdulyn_ending ending = reply.drives[d - 1];
        if (ending.stopped)
            printf(" drive %u stopped", d);
        else
            printf(" drive %u decides %" PRIu32 " round %u", d, ending.number, (unsigned)ending.round);
    }
    printf("\n");
}

static void print_state(void)
{
    uint32_t decision;
    printf("state n %u own %u core %" PRIx64 " round %u", (unsigned)state.n, (unsigned)state.own, state.core,
           (unsigned)state.round);
    printf(" before %" PRIx64 " heard %" PRIx64 " known %" PRIx64 " start %" PRIx64, state.before, state.heard,
           state.known, state.start);
    if (state.announced)
        printf(" announced by %u %" PRIu32, (unsigned)state.by, state.told);
    else
        printf(" announced none");
    if (regdulyn_drive_decided(&state, &decision))
        printf(" decided %" PRIu32, decision);
    else
        printf(" undecided");
    printf("%s numbers ", regdulyn_drive_halted(&state) ? " halted" : "");
    for (unsigned d = 1; d <= REGDULYN_MAX_DRIVES; d++)
        printf("%08" PRIx32, state.numbers[d - 1]);
    printf("\n");
}

/* ---- operations ---- */

static void load(void)
{
    state.n = byte();
    state.own = byte();
    state.core = field(8);
    state.round = byte();
    state.before = field(8);
    state.heard = field(8);
    state.known = field(8);
    state.start = field(8);
    numbers(state.numbers);
    state.announced = byte();
    state.by = byte();
    state.told = number();
    state.decided = byte();
    state.decision = number();
    state.halted = byte();
}

static void open_drive(void)
{
    uint8_t n = byte(), own = byte();
    uint32_t proposed = number();
    size_t count = list();
    print_answer(regdulyn_drive_open(&state, n, masks, count, own, proposed));
}

static void message(void)
{
    size_t size;
    const uint8_t *given = bytes(&size);
    print_answer(regdulyn_drive_message(&state, given, size));
}

/* The length of a buffer, at most so many. */
static size_t room_within(size_t most)
{
    size_t room = two_bytes();
    memset(buffer, FILLING, sizeof buffer);
    return room < most ? room : most;
}

static void send(void)
{
    size_t room = room_within(MOST_SENT), start = (size_t)field(8), size = 0;
    uint32_t refusal = regdulyn_drive_send(&state, buffer, room, start, &size);
    print_written(refusal, size, room);
}

/* A call that writes the file of n and some masks. */
typedef regdulyn_size_reply file_writer(uint8_t, const uint64_t *, size_t, uint8_t *, size_t, size_t);

static void write_file(file_writer *call)
{
    uint8_t n = byte();
    size_t room = room_within(MOST_WRITTEN), start = (size_t)field(8), count = list();
    regdulyn_size_reply reply = call(n, masks, count, buffer, room, start);
    print_written(reply.refusal, reply.size, room);
}

static void write_table(void)
{
    write_file(regdulyn_write_table);
}

static void back(void)
{
    uint8_t n = byte();
    size_t count = list();
    memset(lent, FILLING, sizeof lent);
    print_sets("found", regdulyn_back(n, masks, count, lent, REGDULYN_MAX_SETS));
}

static void cores(void)
{
    uint8_t n = byte();
    size_t count = list();
    memset(lent, FILLING, sizeof lent);
    print_sets("cores", regdulyn_cores(n, masks, count, lent, REGDULYN_MAX_CORES));
}

static void verdict(void)
{
    uint8_t k = byte(), n = byte();
    size_t count = list();
    print_verdict(regdulyn_verdict(k, n, masks, count));
}

static void missed(void)
{
    uint8_t n = byte();
    uint64_t group = field(8);
    size_t count = list();
    regdulyn_missed_reply reply = regdulyn_missed(n, masks, count, group);
    if (!accepted(reply.refusal))
        return;
    if (reply.position == 0)
        printf("none missed\n");
    else
        printf("missed %zu\n", reply.position);
}

static void threshold(void)
{
    uint8_t n = byte(), t = byte();
    memset(lent, FILLING, sizeof lent);
    print_sets("found", regdulyn_threshold(n, t, lent, REGDULYN_MAX_SETS));
}

/* How many places are lent, at most so many as there are. */
static size_t places(void)
{
    size_t given = two_bytes();
    memset(lent, FILLING, sizeof lent);
    return given < REGDULYN_MAX_CORES ? given : REGDULYN_MAX_CORES;
}

static void read_faults(void)
{
    size_t room = places(), size;
    const uint8_t *given = bytes(&size);
    print_groups(regdulyn_read_faults(given, size, lent, room));
}

static void write_faults(void)
{
    write_file(regdulyn_write_faults);
}

/* A call that gives other masks for n and some. */
typedef regdulyn_size_reply converter(uint8_t, const uint64_t *, size_t, uint64_t *, size_t);

static void convert(converter *call)
{
    uint8_t n = byte();
    size_t room = places(), count = list();
    print_sets("found", call(n, masks, count, lent, room));
}

static void table_from_faults(void)
{
    convert(regdulyn_table_from_faults);
}

static void faults_from_table(void)
{
    convert(regdulyn_faults_from_table);
}

static void simulate_file(void)
{
    uint8_t n = byte();
    size_t size;
    const uint8_t *run = bytes(&size);
    size_t count = list();
    print_simulation(n, regdulyn_simulate_file(n, masks, count, run, size));
}

static void simulate(void)
{
    uint8_t n = byte();
    regdulyn_scenario scenario;
    numbers(scenario.numbers);
    scenario.stopped = field(8);
    for (unsigned d = 1; d <= REGDULYN_MAX_DRIVES; d++)
        scenario.rounds[d - 1] = byte();
    for (unsigned d = 1; d <= REGDULYN_MAX_DRIVES; d++)
        scenario.sends[d - 1] = byte();
    size_t count = list();
    print_simulation(n, regdulyn_simulate(n, masks, count, scenario));
}

int main(void)
{
    length = fread(script, 1, sizeof script, stdin);
    while (at < length) {
        switch (byte()) {
        case 'L': load(); break;
        case 'O': open_drive(); break;
        case 'S': send(); break;
        case 'M': message(); break;
        case 'C': print_answer(regdulyn_drive_close(&state)); break;
        case 'B': back(); break;
        case 'W': write_table(); break;
        case 'V': verdict(); break;
        case 'H': missed(); break;
        case 'K': cores(); break;
        case 'T': threshold(); break;
        case 'F': read_faults(); break;
        case 'G': write_faults(); break;
        case 'P': table_from_faults(); break;
        case 'Q': faults_from_table(); break;
        case 'R': simulate_file(); break;
        case 'X': simulate(); break;
        }
        print_state();
    }
    return 0;
}
