/*
 * The keeper of the bus from C (and compiled as C++ too): a table of calls worked out by hand, a queue that goes round, what is refused,
 * and four cores that share one device. Each check that fails is printed; the program's status is 0 if there is none.
 */
#include <string.h>

#include "check.h"
#include "sleetanvil_device.h"

SIZE_IS(sleet_queue, 10);
SIZE_IS(sleet_keeper, 41);
SIZE_IS(sleet_added, 42);
SIZE_IS(sleet_granted, 44);

/* A call, and what it answers. */
enum { ADD, GRANT };
typedef struct step {
    uint8_t call;
    uint8_t core;       /* of an adding: whose queue; of a grant: whose transfer it has to be */
    uint8_t tag;
    uint8_t refusal;
    uint8_t lengths[4]; /* of the four queues after the call */
    uint8_t last;       /* the core granted last, after the call */
} step;

/* Returns whether a keeper's queues have these lengths. */
static bool lengths_are(const sleet_keeper *keeper, const uint8_t *lengths)
{
    size_t i;

    for (i = 0; i < 4; i++) {
        if (keeper->queues[i].length != lengths[i]) {
            return false;
        }
    }
    return true;
}

/* Returns whether a queue holds these eight tags, with this head and length. */
static bool queue_is(const sleet_queue *queue, const uint8_t *tags, uint8_t head, uint8_t length)
{
    return memcmp(queue->tags, tags, sizeof queue->tags) == 0 && queue->head == head && queue->length == length;
}

/* Adds a transfer, which has to be taken. */
static void add(sleet_keeper *keeper, uint8_t core, uint8_t tag)
{
    sleet_added added = sleet_keeper_add(*keeper, core, tag);

    CHECK(added.refusal == SLEET_DONE);
    *keeper = added.keeper;
}

/* Takes the transfer that is next, which has to be there. */
static sleet_granted grant(sleet_keeper *keeper)
{
    sleet_granted granted = sleet_keeper_grant(*keeper);

    CHECK(granted.refusal == SLEET_DONE);
    *keeper = granted.keeper;
    return granted;
}

static void check_new(void)
{
    static const uint8_t zeros[8] = {0};
    sleet_keeper keeper = sleet_keeper_new();
    size_t i;

    for (i = 0; i < 4; i++) {
        CHECK(queue_is(&keeper.queues[i], zeros, 0, 0));
    }
    CHECK(keeper.last == 3);
    CHECK(SLEET_BAD_CORE == 14 && SLEET_QUEUE_FULL == 15 && SLEET_ALL_EMPTY == 16 && SLEET_BAD_KEEPER == 20);
}

/* One step of the table. Returns the keeper after it. */
static sleet_keeper take_step(sleet_keeper before, const step *now)
{
    sleet_keeper after;

    if (now->call == ADD) {
        sleet_added added = sleet_keeper_add(before, now->core, now->tag);
        CHECK(added.refusal == now->refusal);
        after = added.keeper;
    } else {
        sleet_granted granted = sleet_keeper_grant(before);
        CHECK(granted.refusal == now->refusal && granted.core == now->core && granted.tag == now->tag);
        after = granted.keeper;
    }
    CHECK(lengths_are(&after, now->lengths) && after.last == now->last);
    CHECK(same_keeper(after, before) == (now->refusal != SLEET_DONE));
    return after;
}

static void check_table(void)
{
    static const step steps[] = {
        {GRANT, 0, 0x00, SLEET_ALL_EMPTY, {0, 0, 0, 0}, 3},
        {ADD, 2, 0x21, SLEET_DONE, {0, 0, 1, 0}, 3},
        {ADD, 0, 0x01, SLEET_DONE, {1, 0, 1, 0}, 3},
        {ADD, 4, 0x99, SLEET_BAD_CORE, {1, 0, 1, 0}, 3},
        {ADD, 0, 0x02, SLEET_DONE, {2, 0, 1, 0}, 3},
        {GRANT, 0, 0x01, SLEET_DONE, {1, 0, 1, 0}, 0}, /* at first, from core 0 */
        {ADD, 3, 0x31, SLEET_DONE, {1, 0, 1, 1}, 0},
        {GRANT, 2, 0x21, SLEET_DONE, {1, 0, 0, 1}, 2}, /* not core 0 again, and core 1 has none */
        {ADD, 1, 0x11, SLEET_DONE, {1, 1, 0, 1}, 2},
        {GRANT, 3, 0x31, SLEET_DONE, {1, 1, 0, 0}, 3},
        {ADD, 3, 0x32, SLEET_DONE, {1, 1, 0, 1}, 3},
        {GRANT, 0, 0x02, SLEET_DONE, {0, 1, 0, 1}, 0}, /* round from 3 to 0 */
        {GRANT, 1, 0x11, SLEET_DONE, {0, 0, 0, 1}, 1},
        {ADD, 1, 0x12, SLEET_DONE, {0, 1, 0, 1}, 1},
        {GRANT, 3, 0x32, SLEET_DONE, {0, 1, 0, 0}, 3},
        {GRANT, 1, 0x12, SLEET_DONE, {0, 0, 0, 0}, 1},
        {GRANT, 0, 0x00, SLEET_ALL_EMPTY, {0, 0, 0, 0}, 1},
        {ADD, 255, 0x99, SLEET_BAD_CORE, {0, 0, 0, 0}, 1},
        {ADD, 1, 0x12, SLEET_DONE, {0, 1, 0, 0}, 1},
        {ADD, 1, 0x00, SLEET_DONE, {0, 2, 0, 0}, 1},
        {GRANT, 1, 0x12, SLEET_DONE, {0, 1, 0, 0}, 1}, /* none but the core granted last */
        {GRANT, 1, 0x00, SLEET_DONE, {0, 0, 0, 0}, 1}, /* a tag of 0 is a transfer as any other */
    };
    static const uint8_t tags[4][8] = {{0x01, 0x02}, {0x11, 0x12, 0x12, 0x00}, {0x21}, {0x31, 0x32}};
    static const uint8_t heads[4] = {2, 4, 1, 2};
    sleet_keeper keeper = sleet_keeper_new();
    size_t i;

    for (i = 0; i < sizeof steps / sizeof *steps; i++) {
        keeper = take_step(keeper, &steps[i]);
    }
    for (i = 0; i < 4; i++) {
        CHECK(queue_is(&keeper.queues[i], tags[i], heads[i], 0));
    }
}

/* A queue is full at eight, and goes round from place 7 to 0. Old tags stay where they are. */
static void check_round(void)
{
    static const uint8_t full[8] = {0, 1, 2, 3, 4, 5, 6, 7};
    static const uint8_t round[8] = {8, 9, 2, 3, 4, 5, 6, 7};
    sleet_keeper keeper = sleet_keeper_new();
    sleet_added added;
    sleet_granted granted;
    uint8_t tag;

    for (tag = 0; tag < 8; tag++) {
        add(&keeper, 2, tag);
    }
    CHECK(queue_is(&keeper.queues[2], full, 0, 8));
    added = sleet_keeper_add(keeper, 2, 8);
    CHECK(added.refusal == SLEET_QUEUE_FULL && same_keeper(added.keeper, keeper));
    CHECK(sleet_keeper_add(keeper, 1, 8).refusal == SLEET_DONE && sleet_keeper_add(keeper, 4, 8).refusal == SLEET_BAD_CORE);

    granted = grant(&keeper);
    CHECK(granted.core == 2 && granted.tag == 0 && queue_is(&keeper.queues[2], full, 1, 7));
    add(&keeper, 2, 8);
    CHECK(keeper.queues[2].length == 8 && sleet_keeper_add(keeper, 2, 9).refusal == SLEET_QUEUE_FULL);
    granted = grant(&keeper);
    CHECK(granted.core == 2 && granted.tag == 1);
    add(&keeper, 2, 9);
    CHECK(queue_is(&keeper.queues[2], round, 2, 8));
    for (tag = 2; tag < 10; tag++) {
        granted = grant(&keeper);
        CHECK(granted.core == 2 && granted.tag == tag);
    }
    CHECK(queue_is(&keeper.queues[2], round, 2, 0) && sleet_keeper_grant(keeper).refusal == SLEET_ALL_EMPTY);
}

/* Every call on a keeper that is not sound is refused with 20 and gives every byte of it back. */
static void check_unsound(sleet_keeper keeper)
{
    static const uint8_t cores[6] = {0, 1, 2, 3, 4, 255};
    sleet_granted granted = sleet_keeper_grant(keeper);
    size_t i;

    CHECK(granted.refusal == SLEET_BAD_KEEPER && granted.core == 0 && granted.tag == 0 && same_keeper(granted.keeper, keeper));
    for (i = 0; i < sizeof cores; i++) {
        sleet_added added = sleet_keeper_add(keeper, cores[i], 0x55);
        CHECK(added.refusal == SLEET_BAD_KEEPER && same_keeper(added.keeper, keeper));
    }
}

/* A keeper with another head, another length of a queue, or another core granted last. */
static sleet_keeper with_head(sleet_keeper keeper, size_t core, uint8_t head)
{
    keeper.queues[core].head = head;
    return keeper;
}

static sleet_keeper with_length(sleet_keeper keeper, size_t core, uint8_t length)
{
    keeper.queues[core].length = length;
    return keeper;
}

static sleet_keeper with_last(sleet_keeper keeper, uint8_t last)
{
    keeper.last = last;
    return keeper;
}

/* Each number out of range, alone and all at once, where transfers wait and where none does. */
static void check_unsound_keepers(void)
{
    sleet_keeper empty = sleet_keeper_new();
    sleet_keeper waiting = empty;
    sleet_keeper ones;
    size_t i;

    for (i = 0; i < 4; i++) {
        waiting.queues[i].head = 7;
        waiting.queues[i].length = (uint8_t)(2 * i + 2);
        memset(waiting.queues[i].tags, 0xA0 + (int)i, 8);
    }
    CHECK(sleet_keeper_add(waiting, 0, 1).refusal == SLEET_DONE && sleet_keeper_add(waiting, 3, 1).refusal == SLEET_QUEUE_FULL);
    CHECK(sleet_keeper_grant(waiting).refusal == SLEET_DONE && sleet_keeper_grant(waiting).tag == 0xA0);
    for (i = 0; i < 4; i++) {
        check_unsound(with_head(empty, i, 8));
        check_unsound(with_head(waiting, i, 255));
        check_unsound(with_length(empty, i, 9));
        check_unsound(with_length(waiting, i, 255));
    }
    check_unsound(with_last(empty, 4));
    check_unsound(with_last(waiting, 255));
    memset(&ones, 0xFF, sizeof ones);
    check_unsound(ones);
}

/* Three cores add whenever they can. The fourth is granted within four grants all the same, wherever the round is. */
static void check_none_left_waiting(void)
{
    uint8_t core;
    uint8_t i;

    for (core = 0; core < 4; core++) {
        sleet_keeper keeper = sleet_keeper_new();
        uint8_t waited = 0;
        uint8_t turns = 0;
        for (i = 0; i < 105; i++) {
            uint8_t other;
            for (other = 0; other < 4; other++) {
                if (other != core && keeper.queues[other].length < 8) {
                    add(&keeper, other, i);
                }
            }
            if (i % 7 == 0) {
                add(&keeper, core, i);
            }
            waited = keeper.queues[core].length == 0 ? 0 : (uint8_t)(waited + 1);
            CHECK(waited <= 4);
            if (grant(&keeper).core == core) {
                waited = 0;
                turns++;
            }
        }
        CHECK(turns == 15 && keeper.queues[core].length == 0);
    }
}

/* What the four cores want to send, as places of a table: a transfer's tag is its place. */
typedef struct transfer {
    uint8_t core;
    uint8_t di[5];
    size_t length;
    uint8_t answer; /* the last byte on DO that it has to have */
} transfer;

static const transfer transfers[] = {
    {0, {SLEET_CODE_SET_FEATURE, SLEET_A0, 0}, 3, 0xFF},         /* core 0 unlocks all blocks, */
    {0, {SLEET_CODE_WRITE_ENABLE}, 1, 0xFF},                     /* enables writing, */
    {0, {SLEET_CODE_BLOCK_ERASE, 0, 0, 4}, 4, 0xFF},             /* and erases block 1 */
    {1, {SLEET_CODE_READ_ID, 0, 0, 0}, 4, 0x01},                 /* core 1 asks for the identity */
    {2, {SLEET_CODE_READ_CACHE, 0, 0, 0, 0}, 5, 0xC3},           /* core 2 reads the cache register */
    {3, {SLEET_CODE_GET_FEATURE, SLEET_C0, 0}, 3, 0x00},         /* core 3 asks for the status, */
    {3, {SLEET_CODE_GET_FEATURE, SLEET_C0, 0}, 3, SLEET_C0_WEL}, /* again behind core 0's write enable, */
    {3, {SLEET_CODE_GET_FEATURE, SLEET_C0, 0}, 3, SLEET_C0_OIP}, /* and again behind its erase */
};

enum { TRANSFERS = sizeof transfers / sizeof *transfers };

/* Four cores at one device: each transfer waits its turn and then goes to the device whole. */
static void check_shared(void)
{
    static const uint8_t order[TRANSFERS] = {0, 3, 4, 5, 1, 6, 2, 7};
    static uint8_t cells[640];
    static uint8_t cache[20];
    static uint8_t counts[32];
    uint8_t out[5];
    sleet_device device;
    sleet_keeper keeper = sleet_keeper_new();
    sleet_granted next;
    size_t i;

    CHECK(sleet_device_init(&device, sleet_bench(), cells, sizeof cells, cache, sizeof cache, counts, sizeof counts) == SLEET_DONE);
    cells[0] = 0xC3;
    CHECK(sleet_device_work(&device, 20) == SLEET_DONE);
    for (i = 0; i < TRANSFERS; i++) {
        add(&keeper, transfers[i].core, (uint8_t)i);
    }
    for (i = 0; i < TRANSFERS; i++) {
        const transfer *sent;
        next = grant(&keeper);
        sent = &transfers[next.tag % TRANSFERS];
        CHECK(next.tag == order[i] && next.core == sent->core);
        CHECK(sleet_device_transfer(&device, sent->di, sent->length, out, sizeof out) == SLEET_DONE);
        CHECK(device.state.selected == 0 && out[sent->length - 1] == sent->answer);
    }
    CHECK(sleet_keeper_grant(keeper).refusal == SLEET_ALL_EMPTY);
    CHECK(device.state.job == SLEET_ERASE && device.state.row == 4 && sleet_device_units_left(&device) == 80);
}

int main(void)
{
    check_new();
    check_table();
    check_round();
    check_unsound_keepers();
    check_none_left_waiting();
    check_shared();
    return verdict();
}
