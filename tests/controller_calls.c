/*
 * The calls of include/regdulyn.h on random states, bytes and places: a refused call leaves every byte of the state
 * and of the lent memory as it was, an accepted one gives flags of 0 or 1, a send touches only the bytes that it says,
 * and the list of sends has the order of document 01 and is refused where a send is. Some messages are KN and DC, with
 * numbers of two bytes. Every refusal that the calls have must be met. Prints how often each was. Before that, calls of
 * which every field that they leave is known.
 */
#include <stdio.h>
#include <stdlib.h>
#include <string.h>

#include "old_messages.h"
#include "regdulyn.h"

static uint64_t seed = 0x9e3779b97f4a7c15u;
static unsigned long met[5][32];

static uint64_t draw(void)
{
    seed ^= seed << 13;
    seed ^= seed >> 7;
    seed ^= seed << 17;
    return seed;
}

static unsigned below(unsigned limit) { return (unsigned)(draw() >> 33) % limit; }

static void require(int test, const char *what)
{
    if (!test) {
        fprintf(stderr, "controller_calls: %s\n", what);
        exit(1);
    }
}

static void scatter(void *bytes, size_t length)
{
    for (size_t i = 0; i < length; i++)
        ((uint8_t *)bytes)[i] = (uint8_t)draw();
}

/* What a reply has to say of the state that was handed. */
static void check(int call, const regdulyn_state *old, const regdulyn_state_reply *reply)
{
    static const uint8_t none[sizeof reply->state.reserved];
    require(reply->refusal < 32, "a refusal's number is too high");
    require(strcmp(regdulyn_refusal_text(reply->refusal), regdulyn_refusal_text(99)) != 0, "a refusal has no text");
    met[call][reply->refusal]++;
    if (reply->refusal != 0) {
        require(memcmp(old, &reply->state, sizeof *old) == 0, "a refusal changes the state");
        return;
    }
    require(reply->state.announced <= 1 && reply->state.decided <= 1 && reply->state.halted <= 1,
            "a flag is not 0 or 1");
    require(memcmp(reply->state.reserved, none, sizeof none) == 0, "a reserved byte is not 0");
}

/* A table of few drives, sometimes a wrong one. */
static size_t make_table(uint8_t *n, uint64_t *sets)
{
    size_t count = 1 + below(4);
    *n = (uint8_t)(below(20) == 0 ? draw() : 1 + below(6));
    for (size_t i = 0; i < count; i++)
        sets[i] = below(40) == 0 ? draw() : 1 + draw() % ((1u << (*n & 7)) | 1u);
    if (below(60) == 0)
        return 0;
    if (below(60) == 0) {
        for (size_t i = 0; i < REGDULYN_MAX_SETS + 1; i++)
            sets[i] = 1;
        return REGDULYN_MAX_SETS + 1;
    }
    if (below(200) == 0) { /* eleven pairs: 2048 cores */
        *n = 22;
        for (size_t i = 0; i < 11; i++)
            sets[i] = (uint64_t)3 << (2 * i);
        return 11;
    }
    return count;
}

/* Few numbers, so that drives often have the same: some differ only in their upper or only in their lower bytes. */
static uint32_t some_number(void)
{
    static const uint32_t numbers[] = {0, 1, 2, 0x10000, 0x10001, 0x1000001, 0xffff, 0xffffffff};
    return numbers[below(sizeof numbers / sizeof *numbers)];
}

static regdulyn_state open_some(void)
{
    uint64_t sets[REGDULYN_MAX_SETS + 1];
    regdulyn_state state = regdulyn_unopened();
    regdulyn_state_reply reply;
    uint8_t n;
    size_t count = make_table(&n, sets);
    uint8_t own = (uint8_t)below(8);
    uint32_t number = some_number();
    if (below(8) == 0)
        scatter(&state, sizeof state);
    reply = regdulyn_open(state, n, count == 0 ? NULL : sets, count, own, number);
    check(0, &state, &reply);
    return reply.state;
}

/* A message near to what the drive may be sent: that of a core drive, from the same state, with some bytes changed. */
static size_t make_message(regdulyn_state state, uint8_t *bytes)
{
    uint8_t sent[REGDULYN_MAX_MESSAGE];
    regdulyn_size_reply reply;
    size_t length;
    state.own = (uint8_t)(1 + below(6));
    state.halted = 0;
    state.decided = below(4) == 0;
    state.decision = some_number();
    if (below(12) != 0) {
        state.known |= state.core & ((uint64_t)1 << (state.own - 1));
        state.start |= state.known;
    }
    reply = regdulyn_send(state, sent, sizeof sent, 0);
    length = reply.size;
    if (reply.refusal != 0) {
        scatter(bytes, REGDULYN_MAX_MESSAGE);
        length = below(24);
    } else if (below(3) == 0) {
        length = as_old(sent, length, bytes, 0);
    } else {
        memcpy(bytes, sent, length);
    }
    if (length != 0 && below(3) == 0)
        bytes[below((unsigned)length)] ^= (uint8_t)(1u << below(8));
    if (below(12) == 0)
        length = below((unsigned)length + 1);
    if (below(16) == 0 && length < REGDULYN_MAX_MESSAGE)
        length++;
    return length;
}

static void send_some(const regdulyn_state *state)
{
    uint8_t buffer[360], old[360];
    size_t room = below(3) == 0 ? below(16) : sizeof buffer;
    size_t start = below(20) == 0 ? (size_t)draw() : below(40);
    regdulyn_size_reply reply;
    scatter(old, sizeof old);
    memcpy(buffer, old, sizeof old);
    reply = regdulyn_send(*state, buffer, room, start);
    require(reply.refusal < 32, "a refusal's number is too high");
    met[3][reply.refusal]++;
    if (reply.refusal != 0) {
        require(reply.size == 0, "a refused send has a size");
        require(memcmp(buffer, old, sizeof old) == 0, "a refused send writes");
        return;
    }
    require(start <= room && reply.size <= room - start && reply.size <= REGDULYN_MAX_MESSAGE,
            "a send says more than fits");
    require(memcmp(buffer, old, start) == 0, "a send writes before its place");
    require(memcmp(buffer + start + reply.size, old + start + reply.size, sizeof old - start - reply.size) == 0,
            "a send writes behind its bytes");
}

/* The other core drives, then the drives outside the core, each by rising number. */
static size_t expected_list(const regdulyn_state *state, uint8_t *list)
{
    size_t many = 0;
    for (int listeners = 0; listeners < 2; listeners++)
        for (unsigned d = 1; d <= state->n; d++)
            if (d != state->own && regdulyn_has_drive(state->core, d) != listeners)
                list[many++] = (uint8_t)d;
    return many;
}

static void list_some(const regdulyn_state *state)
{
    uint8_t list[80], old[80], expected[255], message[REGDULYN_MAX_MESSAGE];
    size_t room = below(3) == 0 ? below(6) : sizeof list;
    uint32_t send = regdulyn_send(*state, message, sizeof message, 0).refusal;
    size_t many = send == 0 ? expected_list(state, expected) : 0;
    size_t count = 1000;
    regdulyn_size_reply reply;
    scatter(old, sizeof old);
    memcpy(list, old, sizeof old);
    reply = regdulyn_send_list(*state, list, room);
    require(reply.refusal < 32, "a refusal's number is too high");
    met[4][reply.refusal]++;
    require(reply.refusal == (send == 0 && room < many ? 14 : send), "a list is not refused as a send is");
    require(reply.size == (reply.refusal == 0 ? many : 0), "a list has another size");
    require(memcmp(list, expected, reply.size) == 0, "a list has another order");
    require(memcmp(list + reply.size, old + reply.size, sizeof old - reply.size) == 0,
            "a list writes behind its places");
    require(regdulyn_drive_send_list(state, list, room, &count) == reply.refusal
                && count == (reply.refusal == 0 ? many : 1000),
            "the two forms of a list differ");
}

static void spoil(regdulyn_state *state)
{
    if (below(6) == 0)
        ((uint8_t *)state)[below(sizeof *state)] = (uint8_t)draw();
    if (below(30) == 0)
        scatter(state, sizeof *state);
    if (below(6) == 0)
        state->halted = (uint8_t)(draw() & 7);
}

static void step(regdulyn_state *state)
{
    uint8_t bytes[REGDULYN_MAX_MESSAGE], copy[REGDULYN_MAX_MESSAGE];
    regdulyn_state old = *state;
    regdulyn_state_reply reply;
    uint32_t refusal;
    size_t length = make_message(*state, bytes);
    memcpy(copy, bytes, length);
    reply = regdulyn_message(old, length == 0 ? NULL : bytes, length);
    check(1, &old, &reply);
    require(memcmp(copy, bytes, length) == 0, "a message call writes the message");
    refusal = regdulyn_drive_message(state, bytes, length);
    require(refusal == reply.refusal && memcmp(state, &reply.state, sizeof old) == 0,
            "the two forms of a message differ");
    send_some(state);
    list_some(state);
    if (below(3) != 0)
        return;
    old = *state;
    reply = regdulyn_close(old);
    check(2, &old, &reply);
    refusal = regdulyn_drive_close(state);
    require(refusal == reply.refusal && memcmp(state, &reply.state, sizeof old) == 0,
            "the two forms of a close differ");
}

static void same(regdulyn_state_reply reply, regdulyn_state due, const char *what)
{
    require(reply.refusal == 0 && memcmp(&reply.state, &due, sizeof due) == 0, what);
}

/*
 * Drive 1 of case A, core 7, from its opening with number 0x3070107 to its halt, field by field: it hears drive 3 alone
 * in round 1, by the message `known`, which tells drive 3's number, and in round 2 by `decide` that drive 3 has decided
 * on that number.
 */
static void known_states(uint32_t number, const uint8_t *known, size_t known_size, const uint8_t *decide,
                         size_t decide_size)
{
    static const uint64_t sets[] = {1, 2, 0x3c};
    const uint32_t own = 0x3070107;
    const uint8_t tells[] = {1, 'D', 'W', 1, 3, (uint8_t)number, (uint8_t)(number >> 8), (uint8_t)(number >> 16),
                             (uint8_t)(number >> 24), 1};
    uint8_t sent[] = {1, 1, 1, 1, 1, 1, 1, 1, 1, 1};
    regdulyn_state_reply reply = regdulyn_open(regdulyn_unopened(), 6, sets, 3, 1, own);
    same(reply, (regdulyn_state){.core = 7, .before = 7, .heard = 0, .known = 1, .start = 1, .numbers = {own}, .n = 6,
                                 .own = 1, .round = 1}, "an opening leaves another state");
    reply = regdulyn_message(reply.state, known, known_size);
    same(reply, (regdulyn_state){.core = 7, .before = 7, .heard = 4, .known = 5, .start = 1,
                                 .numbers = {own, 0, number}, .n = 6, .own = 1, .round = 1},
         "a KN or KW leaves another state");
    reply = regdulyn_close(reply.state);
    same(reply, (regdulyn_state){.core = 7, .before = 5, .heard = 0, .known = 5, .start = 5,
                                 .numbers = {own, 0, number}, .n = 6, .own = 1, .round = 2},
         "a close leaves another state");
    reply = regdulyn_message(reply.state, decide, decide_size);
    same(reply, (regdulyn_state){.core = 7, .before = 5, .heard = 4, .known = 5, .start = 5,
                                 .numbers = {own, 0, number}, .told = number, .n = 6, .own = 1, .round = 2,
                                 .announced = 1, .by = 3}, "a DC or DW leaves another state");
    reply = regdulyn_close(reply.state);
    same(reply, (regdulyn_state){.core = 7, .before = 5, .heard = 0, .known = 5, .start = 5,
                                 .numbers = {own, 0, number}, .decision = number, .n = 6, .own = 1, .round = 3,
                                 .decided = 1}, "the close that decides leaves another state");
    require(regdulyn_drive_send(&reply.state, sent, sizeof sent, 1, NULL) == 0 &&
                memcmp(sent, tells, sizeof sent) == 0,
            "the drive tells another decision");
    reply = regdulyn_close(reply.state);
    same(reply, (regdulyn_state){.core = 7, .before = 1, .heard = 0, .known = 5, .start = 5,
                                 .numbers = {own, 0, number}, .decision = number, .n = 6, .own = 1, .round = 3,
                                 .decided = 1, .halted = 1}, "the close that halts leaves another state");
}

/* The same by messages with numbers of four bytes and of two. */
static void all_known_states(void)
{
    static const uint8_t kw[] = {'K', 'W', 3, 1, 4, 0, 0, 0, 0, 0, 0, 0, 9, 2, 4, 8};
    static const uint8_t dw[] = {'D', 'W', 3, 2, 9, 2, 4, 8};
    static const uint8_t kn[] = {'K', 'N', 3, 1, 4, 0, 0, 0, 0, 0, 0, 0, 9, 2};
    static const uint8_t dc[] = {'D', 'C', 3, 2, 9, 2};
    known_states(0x8040209, kw, sizeof kw, dw, sizeof dw);
    known_states(0x209, kn, sizeof kn, dc, sizeof dc);
}

int main(void)
{
    static const char *const names[] = {"open", "message", "close", "send", "list"};
    static const uint8_t due[5][18] = {{0, 2, 3, 4, 5, 8, 13},
                                       {0, 1, 2, 7, 8, 15, 21, 22, 23, 24, 25, 26, 28},
                                       {0, 23, 28},
                                       {0, 14, 23, 27, 28},
                                       {0, 14, 23, 27, 28}};
    static const regdulyn_state zeros;
    require(regdulyn_state_version() == REGDULYN_STATE_VERSION, "header and library differ in the state's layout");
    require(regdulyn_close(zeros).refusal == 28 && regdulyn_close(regdulyn_unopened()).refusal == 28,
            "a state that was never opened closes");
    all_known_states();
    for (int i = 0; i < 40000; i++) {
        regdulyn_state state = open_some();
        for (int k = 0; k < 6; k++) {
            spoil(&state);
            step(&state);
        }
    }
    for (int call = 0; call < 5; call++) {
        unsigned long others = 0;
        printf("%s:", names[call]);
        for (int r = 0; r < 32; r++)
            others += met[call][r];
        for (int i = 0; i == 0 || due[call][i] != 0; i++) {
            require(met[call][due[call][i]] != 0, "a refusal is not met");
            others -= met[call][due[call][i]];
            printf(" %u (%lu)", due[call][i], met[call][due[call][i]]);
        }
        printf("\n");
        require(others == 0, "a call gives a refusal that is not its own");
    }
    return 0;
}
