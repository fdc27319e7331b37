/*
 * Six drives settle on one pattern number: the table of examples/a.table, with the stop of examples/b.run. Drive 2
 * loses its supply in round 1, between its first message and its second. Prints what each drive decides, in the form
 * of `./regdulyn run examples/b.run`.
 *
 * In a machine each drive has its own controller, and a message goes over the wire. Here one program plays all six,
 * and the wire is a call: it shows the calls and their order.
 */
#include <stdio.h>

#include "regdulyn.h"

enum { DRIVES = 6, STOPS = 2, STOP_ROUND = 1, STOP_SENDS = 1 };

static const uint64_t sets[] = {0x01, 0x02, 0x3c};
static const uint32_t proposals[DRIVES + 1] = {0, 7, 5, 9, 1, 1, 1};

/* Drive d at [d]. */
static regdulyn_state states[DRIVES + 1];
static int decided_in[DRIVES + 1];

static int failed(const char *call, unsigned d, uint32_t refusal)
{
    fprintf(stderr, "%s of drive %u: refused %u: %s\n", call, d, (unsigned)refusal, regdulyn_refusal_text(refusal));
    return 1;
}

/* Whether drive d has lost its supply before the given round, or before that round closes. */
static int gone_before(unsigned d, unsigned round) { return d == STOPS && round > STOP_ROUND; }
static int gone_by(unsigned d, unsigned round) { return d == STOPS && round >= STOP_ROUND; }

static int open_all(void)
{
    for (unsigned d = 1; d <= DRIVES; d++) {
        uint32_t refusal;
        states[d] = regdulyn_unopened();
        refusal = regdulyn_drive_open(&states[d], DRIVES, sets, sizeof sets / sizeof sets[0], (uint8_t)d, proposals[d]);
        if (refusal != 0)
            return failed("opening", d, refusal);
    }
    return 0;
}

/* The drive's message to the others, in the order of its list; one that stops gets no further than its last send. */
static int send_from(unsigned d, unsigned round)
{
    uint8_t message[REGDULYN_MAX_MESSAGE];
    uint8_t list[REGDULYN_MAX_DRIVES];
    size_t size = 0, count = 0;
    uint32_t refusal = regdulyn_drive_send(&states[d], message, sizeof message, 0, &size);
    if (refusal != 0)
        return failed("send", d, refusal);
    refusal = regdulyn_drive_send_list(&states[d], list, sizeof list, &count);
    if (refusal != 0)
        return failed("list of sends", d, refusal);
    if (gone_by(d, round))
        count = STOP_SENDS;
    for (size_t i = 0; i < count; i++) {
        unsigned to = list[i];
        if (gone_by(to, round) || regdulyn_drive_halted(&states[to]))
            continue;
        refusal = regdulyn_drive_message(&states[to], message, size);
        if (refusal != 0)
            return failed("message", to, refusal);
    }
    return 0;
}

static int close_one(unsigned d, unsigned round)
{
    int before = regdulyn_drive_decided(&states[d], NULL);
    uint32_t refusal = regdulyn_drive_close(&states[d]);
    if (refusal != 0)
        return failed("close", d, refusal);
    if (!before && regdulyn_drive_decided(&states[d], NULL))
        decided_in[d] = (int)round;
    return 0;
}

/* Nobody closes before all messages of the round have arrived, and nobody sends again before all have closed. */
static int play_round(unsigned round)
{
    for (unsigned d = 1; d <= DRIVES; d++)
        if (regdulyn_drive_talks(&states[d]) && !regdulyn_drive_halted(&states[d]) && !gone_before(d, round))
            if (send_from(d, round) != 0)
                return 1;
    for (unsigned d = 1; d <= DRIVES; d++)
        if (!regdulyn_drive_halted(&states[d]) && !gone_by(d, round))
            if (close_one(d, round) != 0)
                return 1;
    return 0;
}

int main(void)
{
    uint64_t core;
    unsigned rounds = 0;

    if (regdulyn_state_version() != REGDULYN_STATE_VERSION) {
        fprintf(stderr, "the header and the library differ in the layout of the state\n");
        return 1;
    }
    if (open_all() != 0)
        return 1;
    core = states[1].core;
    for (unsigned d = 1; d <= DRIVES; d++)
        rounds += (unsigned)regdulyn_has_drive(core, d);
    for (unsigned round = 1; round <= rounds; round++)
        if (play_round(round) != 0)
            return 1;
    for (unsigned d = 1; d <= DRIVES; d++) {
        uint32_t number;
        if (d == STOPS)
            printf("drive %u stopped\n", d);
        else if (regdulyn_drive_decided(&states[d], &number))
            printf("drive %u decides %u round %d\n", d, (unsigned)number, decided_in[d]);
        else
            printf("drive %u undecided\n", d);
    }
    printf("core %llx stops %d\n", (unsigned long long)core, regdulyn_has_drive(core, STOPS));
    return 0;
}
