/*
 * Plays exchanges by the calls of include/regdulyn.h, in the order that the header states: the sends and messages of
 * a round are mixed at random, with calls between them that are refused, and some arrive as KN and DC where their
 * numbers fit into two bytes. Reads scenarios from standard input: the number of drives and of sets, the sets in
 * hexadecimal, the numbers that the drives are opened with, and for each drive the round in which it stops, 0 for none,
 * and its sends in it. Prints what each drive decides, as the run program does, and an empty line after each.
 */
#include <inttypes.h>
#include <stdio.h>
#include <stdlib.h>
#include <string.h>

#include "old_messages.h"
#include "regdulyn.h"

/* A message that is on the wire, or a send that is still to be made, where `to` is 0. */
struct event {
    uint8_t from, to;
};

static struct {
    unsigned n;
    size_t count;
    uint64_t sets[REGDULYN_MAX_SETS];
    uint32_t proposal[65];
    unsigned stop_round[65], stop_sends[65];
} scenario;

static regdulyn_state states[65];
static unsigned decided_in[65];
static uint8_t messages[65][REGDULYN_MAX_MESSAGE];
static size_t sizes[65];
static struct event events[65 * 64];
static size_t waiting;
static uint64_t seed = 88172645463325252u;

static unsigned below(unsigned limit)
{
    seed ^= seed << 13;
    seed ^= seed >> 7;
    seed ^= seed << 17;
    return (unsigned)(seed >> 33) % limit;
}

static void due(uint32_t refusal, uint32_t expected, const char *call, unsigned d)
{
    if (refusal == expected)
        return;
    fprintf(stderr, "controller_runs: %s of drive %u: %s\n", call, d, regdulyn_refusal_text(refusal));
    exit(1);
}

static uint32_t read_number(void)
{
    uint32_t number;
    if (scanf("%" SCNu32, &number) != 1)
        exit(2);
    return number;
}

static int read_scenario(void)
{
    if (scanf("%u", &scenario.n) != 1)
        return 0;
    scenario.count = read_number();
    for (size_t i = 0; i < scenario.count; i++)
        if (scanf("%" SCNx64, &scenario.sets[i]) != 1)
            exit(2);
    for (unsigned d = 1; d <= scenario.n; d++)
        scenario.proposal[d] = read_number();
    for (unsigned d = 1; d <= scenario.n; d++) {
        scenario.stop_round[d] = read_number();
        scenario.stop_sends[d] = read_number();
    }
    return 1;
}

static int gone_before(unsigned d, unsigned round)
{
    return scenario.stop_round[d] != 0 && scenario.stop_round[d] < round;
}

static int gone_by(unsigned d, unsigned round) { return gone_before(d, round + 1); }

static void send_from(unsigned d, unsigned round)
{
    uint8_t list[REGDULYN_MAX_DRIVES];
    size_t many = 0;
    if (scenario.n > 1)
        due(regdulyn_drive_send_list(&states[d], list, scenario.n - 2, NULL), REGDULYN_REFUSED_NO_ROOM, "short list",
            d);
    due(regdulyn_drive_send_list(&states[d], list, scenario.n - 1, &many), 0, "list", d);
    due(regdulyn_drive_send(&states[d], messages[d], 3, 0, NULL), REGDULYN_REFUSED_NO_ROOM, "short send", d);
    due(regdulyn_drive_send(&states[d], messages[d], sizeof messages[d], 0, &sizes[d]), 0, "send", d);
    if (scenario.stop_round[d] == round)
        many = scenario.stop_sends[d];
    for (size_t i = 0; i < many; i++)
        events[waiting++] = (struct event){(uint8_t)d, list[i]};
}

/* A drive that stops in this round may still get the message; one that stopped before cannot. */
static void deliver(struct event e, unsigned round)
{
    regdulyn_state *state = &states[e.to];
    uint8_t old[REGDULYN_MAX_MESSAGE];
    const uint8_t *bytes = messages[e.from];
    size_t size = sizes[e.from];
    size_t fits = below(4) == 0 ? as_old(bytes, size, old, 1) : 0;
    if (fits != 0)
        bytes = old, size = fits;
    if (gone_before(e.to, round) || (gone_by(e.to, round) && below(2) == 0))
        return;
    if (regdulyn_drive_halted(state)) {
        due(regdulyn_drive_message(state, bytes, size), REGDULYN_REFUSED_HALTED, "message", e.to);
        return;
    }
    due(regdulyn_drive_message(state, bytes, size), 0, "message", e.to);
    if (below(4) == 0)
        due(regdulyn_drive_message(state, bytes, size), REGDULYN_REFUSED_ALREADY_ACCEPTED, "repeat", e.to);
    if (below(8) == 0)
        due(regdulyn_drive_open(state, 0, scenario.sets, scenario.count, e.to, 0), REGDULYN_REFUSED_FRAME_SIZE,
            "opening", e.to);
}

static void play_round(unsigned round)
{
    waiting = 0;
    for (unsigned d = 1; d <= scenario.n; d++)
        if (regdulyn_drive_talks(&states[d]) && !regdulyn_drive_halted(&states[d]) && !gone_before(d, round))
            events[waiting++] = (struct event){(uint8_t)d, 0};
    while (waiting != 0) {
        size_t i = below((unsigned)waiting);
        struct event e = events[i];
        events[i] = events[--waiting];
        if (e.to == 0)
            send_from(e.from, round);
        else
            deliver(e, round);
    }
    for (unsigned d = 1; d <= scenario.n; d++) {
        int before = regdulyn_drive_decided(&states[d], NULL);
        if (gone_by(d, round))
            continue;
        if (regdulyn_drive_halted(&states[d])) {
            due(regdulyn_drive_close(&states[d]), REGDULYN_REFUSED_HALTED, "close", d);
            continue;
        }
        due(regdulyn_drive_close(&states[d]), 0, "close", d);
        if (!before && regdulyn_drive_decided(&states[d], NULL))
            decided_in[d] = round;
    }
}

static void print_endings(uint64_t core)
{
    unsigned stops = 0;
    for (unsigned d = 1; d <= scenario.n; d++) {
        uint32_t number;
        if (scenario.stop_round[d] != 0) {
            printf("drive %u stopped\n", d);
            stops += (unsigned)regdulyn_has_drive(core, d);
        } else if (regdulyn_drive_decided(&states[d], &number)) {
            printf("drive %u decides %" PRIu32 " round %u\n", d, number, decided_in[d]);
        } else {
            printf("drive %u undecided\n", d);
        }
    }
    printf("core %" PRIx64 " stops %u\n\n", core, stops);
}

int main(void)
{
    while (read_scenario()) {
        unsigned rounds = 0;
        for (unsigned d = 1; d <= scenario.n; d++) {
            states[d] = regdulyn_unopened();
            due(regdulyn_drive_close(&states[d]), REGDULYN_REFUSED_BROKEN_STATE, "early close", d);
            due(regdulyn_drive_open(&states[d], (uint8_t)scenario.n, scenario.sets, scenario.count, (uint8_t)d,
                                    scenario.proposal[d]), 0, "opening", d);
        }
        for (unsigned d = 1; d <= scenario.n; d++)
            rounds += (unsigned)regdulyn_has_drive(states[1].core, d);
        for (unsigned round = 1; round <= rounds; round++)
            play_round(round);
        print_endings(states[1].core);
    }
    return 0;
}
