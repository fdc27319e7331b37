/*
 * Bytes of stack that each call of include/regdulyn.h touches. The call is made in a thread whose stack was painted
 * before, and what is no longer painted below the caller's frame is counted: the arguments and the reply that pass by
 * value are among it. Calls that are given a table are made with the tables named as arguments and with some built
 * here, those that are given a fault list with that of the table, and the largest count stands. A word that is touched
 * in part counts whole.
 */
#define _GNU_SOURCE
#include <pthread.h>
#include <stdio.h>
#include <stdlib.h>
#include <string.h>
#include <sys/mman.h>

#include "regdulyn.h"

enum { STACK = 1 << 20, PAINT = 0x5a };

static uint8_t drives;
static uint64_t sets[REGDULYN_MAX_SETS];
static size_t count;
static uint64_t groups[REGDULYN_MAX_SETS];
static uint64_t cores[REGDULYN_MAX_CORES], lent[REGDULYN_MAX_CORES];
static size_t found;
static uint8_t file[REGDULYN_MAX_TABLE + REGDULYN_MAX_RUN];
static size_t table_size, file_size;
static uint8_t fault_file[REGDULYN_MAX_TABLE];
static regdulyn_scenario scenario;
static regdulyn_state state;
static uint8_t message[REGDULYN_MAX_MESSAGE], buffer[REGDULYN_MAX_LISTING];
static size_t length;
static uint32_t refusal;

/* Each makes one call and gives its own frame. */
#define CALL(name, body)                                    \
    static __attribute__((noinline)) void *name##_call(void) \
    {                                                       \
        body;                                               \
        return __builtin_frame_address(0);                  \
    }

CALL(version, refusal = regdulyn_state_version() == 0)
CALL(unopened, state = regdulyn_unopened())
CALL(open, refusal = regdulyn_open(state, drives, sets, count, 1, 5).refusal)
CALL(message, refusal = regdulyn_message(state, message, length).refusal)
CALL(close, refusal = regdulyn_close(state).refusal)
CALL(send, refusal = regdulyn_send(state, buffer, sizeof buffer, 0).refusal)
CALL(send_list, refusal = regdulyn_send_list(state, buffer, REGDULYN_MAX_DRIVES).refusal)
CALL(read_table, refusal = regdulyn_read_table(file, file_size, lent, REGDULYN_MAX_SETS).refusal)
CALL(read_whole, refusal = regdulyn_read_whole(file, table_size, lent, REGDULYN_MAX_SETS).refusal)
CALL(write_table, refusal = regdulyn_write_table(drives, sets, count, buffer, sizeof buffer, 0).refusal)
CALL(read_faults, refusal = regdulyn_read_faults(fault_file, table_size, lent, REGDULYN_MAX_SETS).refusal)
CALL(write_faults, refusal = regdulyn_write_faults(drives, groups, count, buffer, sizeof buffer, 0).refusal)
CALL(table_from_faults,
     refusal = regdulyn_table_from_faults(drives, groups, count, lent, REGDULYN_MAX_SETS).refusal)
CALL(faults_from_table, refusal = regdulyn_faults_from_table(drives, sets, count, lent, REGDULYN_MAX_SETS).refusal)
CALL(cores, refusal = regdulyn_cores(drives, sets, count, lent, REGDULYN_MAX_CORES).refusal)
CALL(back, refusal = regdulyn_back(drives, cores, found, lent, REGDULYN_MAX_SETS).refusal)
CALL(back_of_sets, refusal = regdulyn_back(drives, sets, count, lent, REGDULYN_MAX_SETS).refusal)
CALL(threshold, refusal = regdulyn_threshold(64, 63, lent, REGDULYN_MAX_SETS).refusal)
CALL(missed, refusal = regdulyn_missed(drives, sets, count, 1).refusal)
CALL(verdict, refusal = regdulyn_verdict(4, drives, sets, count).refusal)
CALL(simulate, refusal = regdulyn_simulate(drives, sets, count, scenario).refusal)
CALL(simulate_file,
     refusal = regdulyn_simulate_file(drives, sets, count, file + table_size, file_size - table_size).refusal)
CALL(table_listing, refusal = regdulyn_table_listing(file, table_size, buffer, sizeof buffer, 0).refusal)
CALL(run_listing, refusal = regdulyn_run_listing(file, file_size, buffer, sizeof buffer, 0).refusal)

struct call {
    const char *name;
    void *(*make)(void);
    size_t most;
};

/* The calls that are given a table, or a file that begins with one. */
static struct call of_tables[] = {
    {"regdulyn_open", open_call, 0},
    {"regdulyn_read_table", read_table_call, 0},
    {"regdulyn_read_whole", read_whole_call, 0},
    {"regdulyn_write_table", write_table_call, 0},
    {"regdulyn_read_faults", read_faults_call, 0},
    {"regdulyn_write_faults", write_faults_call, 0},
    {"regdulyn_table_from_faults", table_from_faults_call, 0},
    {"regdulyn_faults_from_table", faults_from_table_call, 0},
    {"regdulyn_cores", cores_call, 0},
    {"regdulyn_back of the cores", back_call, 0},
    {"regdulyn_back of the sets", back_of_sets_call, 0},
    {"regdulyn_threshold", threshold_call, 0},
    {"regdulyn_missed", missed_call, 0},
    {"regdulyn_verdict", verdict_call, 0},
    {"regdulyn_simulate", simulate_call, 0},
    {"regdulyn_simulate_file", simulate_file_call, 0},
    {"regdulyn_table_listing", table_listing_call, 0},
    {"regdulyn_run_listing", run_listing_call, 0},
};
enum { OF_TABLES = sizeof of_tables / sizeof of_tables[0] };

static void *(*volatile call)(void);
static char *volatile frame;

static void *work(void *nothing)
{
    frame = call();
    return nothing;
}

static size_t touched(void *(*one)(void))
{
    char *stack = mmap(NULL, STACK, PROT_READ | PROT_WRITE, MAP_PRIVATE | MAP_ANONYMOUS, -1, 0);
    pthread_attr_t attributes;
    pthread_t thread;
    size_t lowest = 0;
    size_t bytes;
    if (stack == MAP_FAILED)
        exit(2);
    memset(stack, PAINT, STACK);
    call = one;
    pthread_attr_init(&attributes);
    pthread_attr_setstack(&attributes, stack, STACK);
    if (pthread_create(&thread, &attributes, work, NULL) != 0)
        exit(2);
    pthread_join(thread, NULL);
    while (stack[lowest] == PAINT)
        lowest++;
    bytes = ((size_t)(frame - (stack + lowest)) + 7) / 8 * 8;
    munmap(stack, STACK);
    return bytes;
}

static void put(const void *bytes, size_t size)
{
    memcpy(file + file_size, bytes, size);
    file_size += size;
}

/*
 * The table's bytes, the sets as they are listed, with a run file of no stops behind it; the fault list of the same
 * sets; and the table's cores as groups.
 */
static void prepare(void)
{
    file_size = 0;
    put("FR", 2);
    put(&drives, 1);
    for (size_t i = 0; i < count; i++) {
        uint8_t mask[8];
        for (int k = 0; k < 8; k++)
            mask[k] = (uint8_t)(sets[i] >> 8 * k);
        put("SV", 2);
        put(mask, sizeof mask);
    }
    put("EN", 2);
    put((uint8_t[]){(uint8_t)count}, 1);
    table_size = file_size;
    memcpy(fault_file, file, table_size);
    for (size_t i = 0; i < count; i++) {
        groups[i] = ~sets[i] & ~UINT64_C(0) >> (64 - drives);
        memcpy(fault_file + 3 + 10 * i, "FL", 2);
        for (size_t k = 0; k < 8; k++)
            fault_file[3 + 10 * i + 2 + k] = (uint8_t)(groups[i] >> 8 * k);
    }
    for (uint8_t d = 1; d <= drives; d++) {
        put("PW", 2);
        put((uint8_t[]){d, d, 0, 1, 0}, 5);
        scenario.numbers[d - 1] = 0x10000u + d;
    }
    put("EN", 2);
    put((uint8_t[]){0}, 1);
    found = regdulyn_cores(drives, sets, count, cores, REGDULYN_MAX_CORES).size;
}

static void measure(const char *name)
{
    prepare();
    printf("%s:", name);
    for (int i = 0; i < OF_TABLES; i++) {
        size_t bytes = touched(of_tables[i].make);
        printf(" %zu", bytes);
        if (bytes > of_tables[i].most)
            of_tables[i].most = bytes;
    }
    printf("\n");
}

/* FR, SV.., EN, as the bench's own tables are. */
static void load(const char *name)
{
    static uint8_t bytes[REGDULYN_MAX_TABLE + 1];
    FILE *opened = fopen(name, "rb");
    size_t size = opened == NULL ? 0 : fread(bytes, 1, sizeof bytes, opened);
    if (opened == NULL || size < 6 || size % 10 != 6 || size > REGDULYN_MAX_TABLE) {
        fprintf(stderr, "stack: %s is no table\n", name);
        exit(2);
    }
    fclose(opened);
    drives = bytes[2];
    count = (size - 6) / 10;
    for (size_t i = 0; i < count; i++) {
        sets[i] = 0;
        for (int k = 7; k >= 0; k--)
            sets[i] = sets[i] << 8 | bytes[3 + 10 * i + 2 + (size_t)k];
    }
}

static void print(const char *name, size_t bytes)
{
    printf("%-26s %6zu\n", name, bytes);
}

int main(int argc, char **argv)
{
    regdulyn_state other;
    printf("each call that is given a table, in the order of the list below:\n");
    drives = 6, count = 3, sets[0] = 1, sets[1] = 2, sets[2] = 0x3c;
    measure("case A");
    drives = 45, count = 45;
    for (int i = 0; i < 45; i++)
        sets[i] = (((uint64_t)1 << 45) - 1) & ~((uint64_t)1 << i);
    measure("45 drives, one may drop out");
    for (int i = 1; i < argc; i++) {
        const char *slash = strrchr(argv[i], '/');
        load(argv[i]);
        measure(slash == NULL ? argv[i] : slash + 1);
    }
    drives = 64, count = 64;
    for (int i = 0; i < 64; i++)
        sets[i] = (uint64_t)1 << i;
    measure("64 core drives");
    printf("\nthe most of each call:\n");
    for (int i = 0; i < OF_TABLES; i++)
        print(of_tables[i].name, of_tables[i].most);

    /* the longest message: all 64 numbers */
    state = regdulyn_open(regdulyn_unopened(), drives, sets, count, 1, 5).state;
    other = regdulyn_open(regdulyn_unopened(), drives, sets, count, 2, 6).state;
    other.known = other.start = ~(uint64_t)0;
    other.numbers[0] = 5;
    length = regdulyn_send(other, message, sizeof message, 0).size;
    print("regdulyn_message", touched(message_call));
    print("regdulyn_close", touched(close_call));
    state = other;
    print("regdulyn_send", touched(send_call));
    print("regdulyn_send_list", touched(send_list_call));
    print("regdulyn_unopened", touched(unopened_call));
    print("regdulyn_state_version", touched(version_call));
    return refusal != 0;
}
