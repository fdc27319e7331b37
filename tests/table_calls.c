/*
 * The table calls from C through the header alone, on the table of case A (six drives, sets 1, 2, 3c), on the fault
 * list of case C (four drives, groups 3, 4, 8), and on what they refuse. What it prints is stored in
 * tests/table_calls.out. It ends with 1 where lent memory changes that should not, where a listener's number in a
 * scenario, or its record in a run file, changes a reply, and where a call of a short fault list does not answer what
 * the definition gives.
 */
#include <inttypes.h>
#include <stdio.h>
#include <stdlib.h>
#include <string.h>

#include "regdulyn.h"

#define UNTOUCHED 0xa5

static const uint64_t sets[] = {0x3c, 0x3e, 2, 1, 2};
static const size_t count = sizeof sets / sizeof *sets;
static uint64_t lent[REGDULYN_MAX_CORES];
static uint8_t text[REGDULYN_MAX_LISTING + 8];

static void fresh(void)
{
    memset(lent, UNTOUCHED, sizeof lent);
    memset(text, UNTOUCHED, sizeof text);
}

/* Nothing but the bytes from `from` up to `to` has changed. */
static void untouched(const void *memory, size_t size, size_t from, size_t to)
{
    const uint8_t *bytes = memory;
    for (size_t i = 0; i < size; i++)
        if ((i < from || to <= i) && bytes[i] != UNTOUCHED) {
            printf("byte %zu has changed\n", i);
            exit(1);
        }
}

static void print_masks(const char *name, const uint64_t *masks, size_t size)
{
    printf("%s", name);
    for (size_t i = 0; i < size; i++)
        printf(" %" PRIx64, masks[i]);
    printf("\n");
}

static void print_sets(const char *name, regdulyn_size_reply reply)
{
    printf("%s: %zu, refusal %" PRIu32, name, reply.size, reply.refusal);
    print_masks(", sets", lent, reply.size);
    untouched(lent, sizeof lent, 0, reply.size * sizeof *lent);
}

static void print_table(const char *name, regdulyn_table_reply reply)
{
    printf("%s: n %u, used %zu, %zu, refusal %" PRIu32, name, (unsigned)reply.n, reply.used, reply.count,
           reply.refusal);
    print_masks(", sets", lent, reply.count);
    untouched(lent, sizeof lent, 0, reply.count * sizeof *lent);
}

static void print_text(const char *name, regdulyn_size_reply reply, size_t start)
{
    printf("%s: %zu, refusal %" PRIu32 "\n", name, reply.size, reply.refusal);
    fwrite(text + start, 1, reply.size, stdout);
    untouched(text, sizeof text, start, start + reply.size);
}

static void print_missed(uint64_t group, regdulyn_missed_reply reply)
{
    printf("group %" PRIx64 ": missed %zu, refusal %" PRIu32 "\n", group, reply.position, reply.refusal);
}

static void print_verdict(unsigned k, regdulyn_verdict_reply reply)
{
    printf("verdict on %u: shared %u, refusal %" PRIu32 ", positions", k, (unsigned)reply.shared, reply.refusal);
    for (size_t i = 0; i < 4; i++)
        printf(" %u", (unsigned)reply.positions[i]);
    print_masks(", blocks", reply.blocks, 4);
}

static void print_simulation(const char *name, unsigned n, regdulyn_simulation_reply reply)
{
    printf("%s: core %" PRIx64 ", stops %u, refusal %" PRIu32 "\n", name, reply.core, (unsigned)reply.stops,
           reply.refusal);
    for (unsigned d = 1; d <= REGDULYN_MAX_DRIVES; d++) {
        regdulyn_ending e = reply.drives[d - 1];
        if (reply.refusal == 0 && d <= n)
            printf("    drive %u: number %" PRIu32 ", round %u, stopped %u\n", d, e.number, (unsigned)e.round,
                   (unsigned)e.stopped);
        else if (e.number != 0 || e.round != 0 || e.stopped != 0)
            printf("    drive %u has no zeros\n", d);
    }
}

/* Case B: the numbers 7, 5, 9, 1, 1, 1, and drive 2 stops in round 1 after one send. What no call may read is not 0. */
static regdulyn_scenario case_b(void)
{
    static const uint32_t numbers[] = {7, 5, 9, 1, 1, 1};
    regdulyn_scenario s;
    memset(&s, UNTOUCHED, sizeof s);
    memcpy(s.numbers, numbers, sizeof numbers);
    s.stopped = 2;
    s.rounds[1] = 1;
    s.sends[1] = 1;
    return s;
}

static int same_reply(regdulyn_simulation_reply a, regdulyn_simulation_reply b)
{
    int same = a.core == b.core && a.stops == b.stops && a.refusal == b.refusal;
    for (int i = 0; i < REGDULYN_MAX_DRIVES; i++)
        same = same && a.drives[i].number == b.drives[i].number && a.drives[i].round == b.drives[i].round &&
               a.drives[i].stopped == b.drives[i].stopped;
    return same;
}

/* The bytes of a run file: PR, or PW where `wide` has the drive, of the drives of `drives`, and the stop, if any. */
static size_t run_file(uint8_t *bytes, regdulyn_scenario s, unsigned drives, unsigned wide, unsigned stopped)
{
    size_t size = 0;
    for (unsigned d = 1; d <= 6; d++) {
        uint32_t number = s.numbers[d - 1];
        unsigned width = wide >> (d - 1) & 1 ? 4 : 2;
        if (!(drives >> (d - 1) & 1))
            continue;
        bytes[size++] = 'P';
        bytes[size++] = width == 4 ? 'W' : 'R';
        bytes[size++] = (uint8_t)d;
        for (unsigned i = 0; i < width; i++)
            bytes[size++] = (uint8_t)(number >> 8 * i);
    }
    if (stopped != 0) {
        bytes[size++] = 'C';
        bytes[size++] = 'R';
        bytes[size++] = (uint8_t)stopped;
        bytes[size++] = s.rounds[stopped - 1];
        bytes[size++] = s.sends[stopped - 1];
    }
    bytes[size++] = 'E';
    bytes[size++] = 'N';
    bytes[size++] = stopped != 0;
    return size;
}

/*
 * Case A, whose core is 7, with no stop and with every stop of one drive: the reply is the same whatever numbers stand
 * at the places of drives 4, 5 and 6, and for the run file with a PR or PW of any of them or of none. Without that of
 * drive 1, 2 or 3 the file is refused: with 8 where the record of a later drive follows, and else with 2.
 */
static void listeners(void)
{
    static const uint32_t others[] = {0, 1, 5, 65536, 0xffffffff};
    uint8_t bytes[REGDULYN_MAX_RUN];
    unsigned replies = 0;
    for (unsigned stop = 0; stop < 7 * 3 * 6; stop++) {
        unsigned stopped = stop / 18, round = 1 + stop / 6 % 3, sends = stop % 6;
        regdulyn_scenario s = case_b();
        s.stopped = stopped == 0 ? 0 : (uint64_t)1 << (stopped - 1);
        if (stopped != 0) {
            s.rounds[stopped - 1] = (uint8_t)round;
            s.sends[stopped - 1] = (uint8_t)(stopped <= 3 ? sends : 0);
        }
        regdulyn_simulation_reply due = regdulyn_simulate(6, sets, count, s);
        for (unsigned i = 0; i < 5 * 8; i++) {
            unsigned drives = i / 5 << 3;
            s.numbers[3] = others[i % 5], s.numbers[4] = others[(i + 1) % 5], s.numbers[5] = others[(i + 3) % 5];
            int same = due.refusal == 0 && same_reply(due, regdulyn_simulate(6, sets, count, s));
            for (unsigned wide = 0; wide < 64; wide += 42) {
                size_t size = run_file(bytes, s, 7 | drives, wide, stopped);
                same = same && same_reply(due, regdulyn_simulate_file(6, sets, count, bytes, size));
                for (unsigned d = 1; d <= 3; d++) {
                    unsigned kept = (7 | drives) & ~(1u << (d - 1));
                    size = run_file(bytes, s, kept, wide, stopped);
                    same = same && regdulyn_simulate_file(6, sets, count, bytes, size).refusal ==
                                       (kept >> d != 0 ? 8u : 2u);
                }
                replies += 4;
            }
            replies++;
            if (!same) {
                printf("listeners: a reply differs, stop %u, numbers %u\n", stop, i);
                exit(1);
            }
        }
    }
    printf("listeners: %u replies, as they are due\n", replies);
}

/* What is due of a fault list of up to three masks: the refusal, or the largest groups and the sets of the table. */
typedef struct due_list {
    uint32_t refusal;
    size_t count;
    uint64_t largest[3], sets[3];
} due_list;

static due_list due_of(unsigned n, const uint64_t *groups, size_t size)
{
    due_list due = {0, 0, {0}, {0}};
    uint64_t all = ((uint64_t)1 << n) - 1;
    for (size_t i = 0; i < size && due.refusal == 0; i++)
        due.refusal = groups[i] > all ? 4 : groups[i] == all ? 34 : 0;
    for (uint64_t set = 0; set < all && due.refusal == 0; set++) {
        int listed = 0, larger = 0;
        for (size_t i = 0; i < size; i++) {
            listed = listed || groups[i] == set;
            larger = larger || (groups[i] != set && (groups[i] & set) == set);
        }
        if (listed && !larger)
            due.largest[due.count++] = set;
    }
    for (size_t i = 0; i < due.count; i++)
        due.sets[i] = all - due.largest[due.count - 1 - i];
    return due;
}

/* Ends with 1 where a reply is not the refusal, or not these masks with nothing behind them. */
static void hold(const uint64_t *groups, uint32_t found, size_t size, uint32_t refusal, const uint64_t *masks,
                 size_t due)
{
    size_t kept = refusal == 0 ? due : 0;
    if (found != refusal || size != kept || memcmp(lent, masks, kept * sizeof *lent) != 0) {
        printf("fault lists: a reply differs, groups %" PRIx64 " %" PRIx64 " %" PRIx64 "\n", groups[0], groups[1],
               groups[2]);
        exit(1);
    }
    untouched(lent, sizeof lent, 0, kept * sizeof *lent);
    memset(lent, UNTOUCHED, kept * sizeof *lent);
}

/* The calls of one list, with as many places as it needs, and with one less. */
static void hold_list(uint8_t n, const uint64_t *groups, size_t size)
{
    due_list due = due_of(n, groups, size);
    uint8_t file[REGDULYN_MAX_TABLE];
    for (size_t less = 0; less < 2; less++) {
        uint32_t refusal = due.refusal != 0 ? due.refusal : less == 0 ? 0 : 14;
        size_t room = due.refusal != 0 ? 3 : due.count - less;
        regdulyn_size_reply reply = regdulyn_table_from_faults(n, groups, size, lent, room);
        hold(groups, reply.refusal, reply.size, refusal, due.sets, due.count);
        if (due.refusal == 0) {
            reply = regdulyn_faults_from_table(n, due.sets, due.count, lent, room);
            hold(groups, reply.refusal, reply.size, refusal, due.largest, due.count);
        }
        memset(file, UNTOUCHED, sizeof file);
        reply = regdulyn_write_faults(n, groups, size, file, 4 + 6 + 10 * due.count - less, 4);
        size_t written = refusal == 0 ? 6 + 10 * due.count : 0;
        hold(groups, reply.refusal, reply.size == written ? 0 : 1, refusal, due.sets, 0);
        untouched(file, sizeof file, 4, 4 + written);
        if (refusal != 0)
            continue;
        for (size_t fewer = 0; fewer < 2; fewer++) {
            regdulyn_table_reply read = regdulyn_read_faults(file + 4, written, lent, due.count - fewer);
            hold(groups, read.refusal, read.count, fewer == 0 ? 0 : 14, due.largest, due.count);
            if (read.n != (fewer == 0 ? n : 0) || read.used != (fewer == 0 ? written : 0)) {
                printf("fault lists: n %u, used %zu\n", (unsigned)read.n, read.used);
                exit(1);
            }
        }
    }
}

/* Every list of one to three masks of up to three drives, all drives and two masks with a drive above n among them. */
static void short_fault_lists(void)
{
    unsigned lists = 0;
    fresh();
    for (unsigned n = 1; n <= 3; n++) {
        unsigned many = (1u << n) + 2, ways = 1;
        for (size_t size = 1; size <= 3; size++) {
            ways *= many;
            for (unsigned i = 0; i < ways; i++, lists++) {
                uint64_t groups[3] = {i % many, i / many % many, i / many / many};
                hold_list((uint8_t)n, groups, size);
            }
        }
    }
    printf("fault lists: %u, as they are due\n", lists);
}

static void print_written(const char *name, regdulyn_size_reply reply, size_t start)
{
    printf("%s: %zu, refusal %" PRIu32 "\n", name, reply.size, reply.refusal);
    if (reply.size != 0) {
        printf("   ");
        for (size_t i = 0; i < reply.size; i++)
            printf(" %02x", (unsigned)text[start + i]);
        printf("\n");
    }
    untouched(text, sizeof text, start, start + reply.size);
    fresh();
}

static void print_groups(const char *name, regdulyn_size_reply reply)
{
    print_sets(name, reply);
    fresh();
}

static void print_list(const char *name, regdulyn_table_reply reply)
{
    print_table(name, reply);
    fresh();
}

/* Case C, listed falling, with a repeat and with groups within others; then faults of each kind. */
static void fault_lists(void)
{
    static const uint64_t groups[] = {8, 1, 4, 3, 4, 0};
    static const uint64_t c[] = {0xc, 0xf, 7, 0xb};
    static const uint64_t all_then_above[] = {3, 0xf, 0x10}, above_then_all[] = {3, 0x1f, 0xf};
    static const uint64_t zeros[REGDULYN_MAX_SETS + 1] = {0};
    static const uint64_t wide[] = {0x7fffffffffffffff, 0xfffffffffffffffe, 1}, whole[] = {0xffffffffffffffff};
    uint64_t crowd[11];
    for (unsigned i = 0; i < 11; i++)
        crowd[i] = 0x3fffff - ((uint64_t)3 << 2 * i);
    fresh();
    print_groups("table from faults", regdulyn_table_from_faults(4, groups, 6, lent, 3));
    print_groups("table from faults, 2 places", regdulyn_table_from_faults(4, groups, 6, lent, 2));
    print_groups("table from faults, no groups", regdulyn_table_from_faults(4, NULL, 0, lent, 3));
    print_groups("table from faults, n 65", regdulyn_table_from_faults(65, groups, 6, lent, 3));
    print_groups("table from faults, n 3", regdulyn_table_from_faults(3, groups, 6, lent, 3));
    print_groups("table from faults, all drives", regdulyn_table_from_faults(4, all_then_above, 3, lent, 3));
    print_groups("table from faults, above n", regdulyn_table_from_faults(4, above_then_all, 3, lent, 3));
    print_groups("table from faults, 128 of none", regdulyn_table_from_faults(4, zeros, 128, lent, 1));
    print_groups("table from faults, 129 of none", regdulyn_table_from_faults(4, zeros, 129, lent, 1));
    print_groups("table from faults, n 64", regdulyn_table_from_faults(64, wide, 3, lent, 2));
    print_groups("table from faults, n 64, all drives", regdulyn_table_from_faults(64, whole, 1, lent, 2));
    print_groups("table from faults, n 1", regdulyn_table_from_faults(1, zeros, 1, lent, 1));
    print_groups("table from faults, too many cores", regdulyn_table_from_faults(22, crowd, 11, lent, 0));
    print_groups("table from faults, 1024 cores", regdulyn_table_from_faults(22, crowd, 10, lent, 10));

    print_groups("faults from table", regdulyn_faults_from_table(4, c, 4, lent, 3));
    print_groups("faults from table, 2 places", regdulyn_faults_from_table(4, c, 4, lent, 2));
    print_groups("faults from table, case A", regdulyn_faults_from_table(6, sets, count, lent, REGDULYN_MAX_SETS));
    print_groups("faults from table, no sets", regdulyn_faults_from_table(4, NULL, 0, lent, 3));
    print_groups("faults from table, a set of 0", regdulyn_faults_from_table(4, zeros, 1, lent, 3));
    print_groups("faults from table, 129 sets", regdulyn_faults_from_table(4, zeros, 129, lent, 3));
    print_groups("faults from table, n 64", regdulyn_faults_from_table(64, whole, 1, lent, 1));

    print_written("write faults", regdulyn_write_faults(4, groups, 6, text, 5 + 36, 5), 5);
    print_written("write faults, a byte short", regdulyn_write_faults(4, groups, 6, text, 5 + 35, 5), 5);
    print_written("write faults, at the end", regdulyn_write_faults(4, groups, 6, text, 36, 36), 36);
    print_written("write faults, past the end", regdulyn_write_faults(4, groups, 6, text, 36, 37), 37);
    print_written("write faults, all drives", regdulyn_write_faults(4, all_then_above, 3, text, 0, 1), 1);
    print_written("write faults, above n", regdulyn_write_faults(4, above_then_all, 3, text, 0, 1), 1);
    print_written("write faults, too many cores", regdulyn_write_faults(22, crowd, 11, text, 0, 1), 1);

    uint8_t file[37];
    regdulyn_write_faults(4, groups, 6, text, sizeof text, 0);
    memcpy(file, text, 36);
    file[36] = 0;
    fresh();
    print_list("read faults", regdulyn_read_faults(file, 36, lent, 3));
    print_list("read faults, 2 places", regdulyn_read_faults(file, 36, lent, 2));
    print_list("read faults, a byte short", regdulyn_read_faults(file, 35, lent, 3));
    print_list("read faults, a byte more", regdulyn_read_faults(file, 37, lent, 3));
    print_list("read whole, a fault list", regdulyn_read_whole(file, 36, lent, 3));
    file[35] = 2;
    print_list("read faults, another count and a byte more", regdulyn_read_faults(file, 37, lent, 3));
    file[25] = 15;
    print_list("read faults, all drives", regdulyn_read_faults(file, 36, lent, 3));
    file[25] = 31;
    print_list("read faults, above n", regdulyn_read_faults(file, 36, lent, 3));
    file[13] = 'S', file[14] = 'V';
    print_list("read faults, an SV", regdulyn_read_faults(file, 36, lent, 3));
    file[3] = 'E', file[4] = 'N';
    print_list("read faults, EN first", regdulyn_read_faults(file, 36, lent, 3));

    print_sets("table from faults, no places", regdulyn_table_from_faults(4, groups, 6, NULL, 0));
    print_sets("table from faults, all drives, no places", regdulyn_table_from_faults(4, all_then_above, 3, NULL, 0));
    print_sets("faults from table, no places", regdulyn_faults_from_table(4, c, 4, NULL, 0));
    print_text("write faults, no places", regdulyn_write_faults(4, groups, 6, NULL, 0, 0), 0);
    print_text("write faults, no groups and no places", regdulyn_write_faults(4, NULL, 0, NULL, 0, 0), 0);
    print_table("read faults, no bytes and no places", regdulyn_read_faults(NULL, 0, NULL, 0));
    short_fault_lists();
}

static const uint8_t run[] = {'P', 'R', 1, 7, 0, 'P', 'R', 2, 5, 0, 'P', 'R', 3, 9, 0, 'P', 'R', 4, 1, 0, 'P', 'R',
                              5,   1,   0, 'P', 'R', 6, 1, 0, 'C', 'R', 2, 1, 1, 'E', 'N', 1};

/* The same with PW for drives 1 to 3, whose numbers are 0x10000007, 0x20000005 and 0xffffffff. */
static const uint8_t wide[] = {'P', 'W', 1, 7, 0, 0, 16, 'P', 'W', 2, 5, 0, 0, 32, 'P', 'W', 3, 255, 255, 255, 255,
                               'P', 'R', 4, 1, 0, 'P', 'R', 5, 1, 0, 'P', 'R', 6, 1, 0, 'C', 'R', 2, 1, 1, 'E', 'N', 1};

/* Case B with PR and PW of the drives of the core alone. */
static const uint8_t core[] = {'P', 'R', 1, 7, 0, 'P', 'W', 2, 5, 0, 0, 0, 'P', 'R', 3, 9, 0, 'C', 'R', 2, 1, 1,
                               'E', 'N', 1};

int main(void)
{
    fresh();
    print_sets("cores", regdulyn_cores(6, sets, count, lent, REGDULYN_MAX_CORES));
    uint64_t cores[4];
    memcpy(cores, lent, sizeof cores);
    fresh();
    print_sets("cores, 3 places", regdulyn_cores(6, sets, count, lent, 3));
    print_sets("cores, no sets", regdulyn_cores(6, NULL, 0, lent, REGDULYN_MAX_CORES));
    print_sets("cores, 5 drives", regdulyn_cores(5, sets, count, lent, REGDULYN_MAX_CORES));
    print_sets("back", regdulyn_back(6, cores, 4, lent, 3));
    fresh();
    print_sets("back, 2 places", regdulyn_back(6, cores, 4, lent, 2));
    print_sets("back, no groups", regdulyn_back(6, NULL, 0, lent, REGDULYN_MAX_SETS));
    print_sets("threshold", regdulyn_threshold(4, 2, lent, 6));
    fresh();
    print_sets("threshold, 5 places", regdulyn_threshold(4, 2, lent, 5));
    print_sets("threshold, none left", regdulyn_threshold(4, 4, lent, REGDULYN_MAX_SETS));
    print_sets("threshold, too many groups", regdulyn_threshold(64, 2, lent, REGDULYN_MAX_SETS));
    print_sets("threshold, too many cores", regdulyn_threshold(46, 1, lent, REGDULYN_MAX_SETS));

    static const uint64_t groups[] = {0xb, 0x3f, 0xc, 3, 0, 0x40};
    for (size_t i = 0; i < sizeof groups / sizeof *groups; i++)
        print_missed(groups[i], regdulyn_missed(6, sets, count, groups[i]));

    for (unsigned k = 1; k <= 4; k++)
        print_verdict(k, regdulyn_verdict((uint8_t)k, 6, sets, count));
    static const uint64_t sharing[] = {7, 0xb};
    print_verdict(2, regdulyn_verdict(2, 4, sharing, 2));
    print_verdict(4, regdulyn_verdict(4, 4, sharing, 2));
    print_verdict(5, regdulyn_verdict(5, 4, sharing, 2));

    regdulyn_size_reply written = regdulyn_write_table(6, sets, count, text, 5 + 36, 5);
    printf("write: %zu, refusal %" PRIu32 "\n   ", written.size, written.refusal);
    for (size_t i = 0; i < written.size; i++)
        printf(" %02x", (unsigned)text[5 + i]);
    printf("\n");
    untouched(text, sizeof text, 5, 5 + written.size);
    uint8_t file[36 + sizeof run];
    memcpy(file, text + 5, 36);
    memcpy(file + 36, run, sizeof run);
    fresh();
    written = regdulyn_write_table(6, sets, count, text, 5 + 35, 5);
    printf("write, a byte short: %zu, refusal %" PRIu32 "\n", written.size, written.refusal);
    untouched(text, sizeof text, 0, 0);

    print_table("read", regdulyn_read_table(file, sizeof file, lent, REGDULYN_MAX_SETS));
    fresh();
    print_table("read, 2 places", regdulyn_read_table(file, sizeof file, lent, 2));
    print_table("read, a byte short", regdulyn_read_table(file, 35, lent, REGDULYN_MAX_SETS));
    print_table("read whole, a run file behind", regdulyn_read_whole(file, sizeof file, lent, REGDULYN_MAX_SETS));
    print_table("read whole", regdulyn_read_whole(file, 36, lent, 3));
    fresh();

    regdulyn_scenario s = case_b();
    print_simulation("simulate", 6, regdulyn_simulate(6, sets, count, s));
    s.numbers[0] = 0x10000007, s.numbers[1] = 0x20000005, s.numbers[2] = 0xffffffff;
    print_simulation("simulate, large numbers", 6, regdulyn_simulate(6, sets, count, s));
    s.sends[1] = 6;
    print_simulation("simulate, too many sends", 6, regdulyn_simulate(6, sets, count, s));
    print_simulation("simulate the file", 6, regdulyn_simulate_file(6, sets, count, file + 36, sizeof run));
    print_simulation("simulate the file, a byte short", 6,
                     regdulyn_simulate_file(6, sets, count, file + 36, sizeof run - 1));
    print_simulation("simulate the file with PW", 6, regdulyn_simulate_file(6, sets, count, wide, sizeof wide));
    print_simulation("simulate the file with PW, cut in a number", 6,
                     regdulyn_simulate_file(6, sets, count, wide, 20));

    print_simulation("simulate the file of the core", 6, regdulyn_simulate_file(6, sets, count, core, sizeof core));
    print_simulation("simulate the file of the core, cut in a record", 6,
                     regdulyn_simulate_file(6, sets, count, core, 16));
    listeners();

    print_text("listing of the table", regdulyn_table_listing(file, 36, text, sizeof text, 8), 8);
    fresh();
    print_text("listing of more than a table", regdulyn_table_listing(file, sizeof file, text, sizeof text, 8), 8);
    fresh();
    print_text("listing of the run", regdulyn_run_listing(file, sizeof file, text, sizeof text, 0), 0);
    fresh();
    print_text("listing of the run, 100 bytes", regdulyn_run_listing(file, sizeof file, text, 100, 0), 0);

    /* no places, or no bytes, and NULL for them */
    print_sets("cores, no places", regdulyn_cores(6, sets, count, NULL, 0));
    print_sets("back, no places", regdulyn_back(6, cores, 4, NULL, 0));
    print_sets("threshold, no places", regdulyn_threshold(4, 2, NULL, 0));
    print_sets("threshold, none left and no places", regdulyn_threshold(4, 4, NULL, 0));
    print_sets("threshold, too many groups and no places", regdulyn_threshold(64, 2, NULL, 0));
    print_sets("threshold, too many cores and no places", regdulyn_threshold(46, 1, NULL, 0));
    print_text("write, no places", regdulyn_write_table(6, sets, count, NULL, 0, 0), 0);
    print_text("write, no places from 1 on", regdulyn_write_table(6, sets, count, NULL, 0, 1), 0);
    print_table("read, no places", regdulyn_read_table(file, sizeof file, NULL, 0));
    print_table("read, no bytes", regdulyn_read_table(NULL, 0, lent, REGDULYN_MAX_SETS));
    print_table("read whole, no places", regdulyn_read_whole(file, 36, NULL, 0));
    print_table("read whole, no bytes and no places", regdulyn_read_whole(NULL, 0, NULL, 0));
    print_missed(0, regdulyn_missed(6, NULL, 0, 0));
    print_verdict(2, regdulyn_verdict(2, 6, NULL, 0));
    print_simulation("simulate, no sets", 6, regdulyn_simulate(6, NULL, 0, s));
    print_simulation("simulate the file, no bytes", 6, regdulyn_simulate_file(6, sets, count, NULL, 0));
    print_simulation("simulate the file, no sets and no bytes", 6, regdulyn_simulate_file(6, NULL, 0, NULL, 0));
    print_text("listing of the table, no places", regdulyn_table_listing(file, 36, NULL, 0, 0), 0);
    print_text("listing of the run, no bytes and no places", regdulyn_run_listing(NULL, 0, NULL, 0, 0), 0);
    print_text("listing of a table of no bytes", regdulyn_table_listing(NULL, 0, text, sizeof text, 8), 8);
    fresh();
    print_text("listing of a run of no bytes", regdulyn_run_listing(NULL, 0, text, 10, 0), 0);

    fault_lists();
    return 0;
}
