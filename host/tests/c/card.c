/*
 * The card slot from C (and compiled as C++ too): a table of commands worked out by hand, every code, every counter mask and
 * every compare, each address, what is hidden and what is protected, and each refusal with what it leaves behind. Each check that fails is
 * printed; the program's status is 0 if there is none.
 */
#include <stddef.h>
#include <string.h>

#include "check.h"
#include "sleetanvil.h"

SIZE_IS(sleet_card, 1);
SIZE_IS(sleet_card_answer, 32);

enum { GUARD = 16, GUARDED = 0x5E, UNWRITTEN = 0xEE };

/* A card with its memory, and bytes around each buffer that nobody may touch. */
typedef struct slot {
    sleet_card card;
    uint8_t before[GUARD];
    uint8_t cells[SLEET_CARD_CELLS];
    uint8_t between[GUARD];
    uint8_t bits[SLEET_CARD_BITS];
    uint8_t behind[GUARD];
    uint8_t out[GUARD];
    uint8_t last[GUARD];
} slot;

/* Returns a card of FFh, at power-up. */
static slot new_slot(void)
{
    slot made;

    memset(&made, GUARDED, sizeof made);
    memset(made.cells, 0xFF, sizeof made.cells);
    memset(made.bits, 0xFF, sizeof made.bits);
    memset(made.out, UNWRITTEN, sizeof made.out);
    made.card = sleet_card_power_up();
    return made;
}

/* Returns whether two cards with all their memory are the same, but for the output. */
static bool same_slot(const slot *a, const slot *b)
{
    return a->card.stage == b->card.stage && memcmp(a->before, b->before, offsetof(slot, out) - offsetof(slot, before)) == 0 &&
           memcmp(a->last, b->last, sizeof a->last) == 0;
}

/* Returns whether the output is as it was from a place on. */
static bool unwritten_from(const slot *at, size_t place)
{
    for (; place < sizeof at->out; place++) {
        if (at->out[place] != UNWRITTEN) {
            return false;
        }
    }
    return true;
}

/* Runs a log with so much room. Returns the answer. */
static sleet_card_answer run(slot *at, const uint8_t *log, size_t length, size_t room)
{
    sleet_card_answer answer =
        sleet_card_run(at->card, log, length, at->cells, sizeof at->cells, at->bits, sizeof at->bits, at->out, room);

    at->card = answer.card;
    return answer;
}

/* Returns whether an answer has these numbers. */
static bool is(sleet_card_answer answer, uint8_t refusal, size_t records, size_t used, size_t written)
{
    return answer.refusal == refusal && answer.records == records && answer.used == used && answer.written == written;
}

/*
 * One command by its three bytes, as a call and as a run of its record, which have to do the same. It is never refused. Returns its answer,
 * the second byte above the first: FFh of a command that answers one.
 */
static unsigned command(slot *at, unsigned first, unsigned second, unsigned third)
{
    const uint8_t log[4] = {SLEET_KIND_COMMAND, (uint8_t)first, (uint8_t)second, (uint8_t)third};
    slot logged = *at;
    sleet_card_answer answer;
    size_t length = (first & 0x3F) == SLEET_CARD_READ_BIT ? 2 : 1;

    memset(at->out, 0xFF, sizeof at->out);
    memset(logged.out, 0xFF, sizeof logged.out);
    answer = sleet_card_command(at->card, log[1], log[2], log[3], at->cells, sizeof at->cells, at->bits, sizeof at->bits, at->out, length);
    at->card = answer.card;
    CHECK(is(answer, SLEET_DONE, 1, 4, length));
    CHECK(is(run(&logged, log, sizeof log, length), SLEET_DONE, 1, 4, length));
    CHECK(same_slot(at, &logged) && memcmp(at->out, logged.out, sizeof at->out) == 0);
    return at->out[0] + 256u * at->out[1];
}

/* One command by code, address and data. */
static unsigned send(slot *at, unsigned code, unsigned address, unsigned data)
{
    return command(at, code + 64 * (address / 256), address % 256, data);
}

/* Returns whether the byte at an address is open. */
static bool is_free(const slot *at, unsigned address)
{
    return (at->bits[address / 8] >> address % 8 & 1) != 0;
}

/* Opens a card whose code is known. */
static void open_card(slot *at, uint8_t mask)
{
    CHECK(send(at, SLEET_CARD_COUNT, SLEET_CARD_COUNTER, mask) == 0xFFFF && at->card.stage == SLEET_CARD_COUNTED);
    CHECK(send(at, SLEET_CARD_COMPARE, SLEET_CARD_CODE, at->cells[1022]) == 0xFFFF && at->card.stage == SLEET_CARD_HALF);
    CHECK(send(at, SLEET_CARD_COMPARE, SLEET_CARD_CODE + 1, at->cells[1023]) == 0xFFFF && at->card.stage == SLEET_CARD_OPEN);
}

static void check_names(void)
{
    char text[SLEET_TEXT];
    char other[SLEET_TEXT];

    CHECK(SLEET_BAD_CARD_CELLS == 17 && SLEET_BAD_CARD_BITS == 18 && SLEET_VERSION == 3 && sleet_version() == SLEET_VERSION);
    CHECK(SLEET_CARD_FRESH == 0 && SLEET_CARD_COUNTED == 1 && SLEET_CARD_HALF == 2 && SLEET_CARD_OPEN == 3);
    CHECK(SLEET_CARD_CELLS == 1024 && SLEET_CARD_BITS == 128 && SLEET_CARD_COUNTER == 1021 && SLEET_CARD_CODE == 1022);
    CHECK(SLEET_CARD_WRITE_PROTECT == 0x31 && SLEET_CARD_WRITE == 0x33 && SLEET_CARD_PROTECT == 0x30 && SLEET_CARD_READ_BIT == 0x0C);
    CHECK(SLEET_CARD_READ == 0x0E && SLEET_CARD_COUNT == 0x32 && SLEET_CARD_COMPARE == 0x0D);
    CHECK(SLEET_KIND_COMMAND == 0x20 && SLEET_KIND_POWER == 0x06);
    CHECK(offsetof(sleet_card, stage) == 0 && offsetof(sleet_card_answer, records) == 0);
    CHECK(offsetof(sleet_card_answer, used) == sizeof(size_t) && offsetof(sleet_card_answer, written) == 2 * sizeof(size_t));
    CHECK(offsetof(sleet_card_answer, card) == 3 * sizeof(size_t) && offsetof(sleet_card_answer, refusal) == 3 * sizeof(size_t) + 1);
    CHECK(sleet_card_power_up().stage == SLEET_CARD_FRESH);
    CHECK(sleet_text(SLEET_BAD_CARD_CELLS, text, sizeof text) > 0 && strcmp(text, "no such refusal") != 0);
    CHECK(sleet_text(SLEET_BAD_CARD_BITS, other, sizeof other) > 0 && strcmp(other, "no such refusal") != 0 && strcmp(text, other) != 0);
}

/* A command, and the card after it. */
typedef struct step {
    uint8_t bytes[3];
    uint16_t answer;  /* the second byte above the first */
    uint8_t stage;
    uint8_t counter;  /* the counter after it */
    uint16_t address; /* an address, and what its byte is after it */
    uint8_t byte;
    uint8_t bit;      /* and its protect bit */
} step;

/* The code is 12h 34h. Each step worked out by hand. */
static void check_table(void)
{
    static const step steps[] = {
        {{0x33, 0x05, 0xA5}, 0xFFFF, 0, 0xFF, 5, 0xFF, 1},    /* a write before the code has passed */
        {{0x31, 0x05, 0xA5}, 0xFFFF, 0, 0xFF, 5, 0xFF, 1},
        {{0x30, 0x05, 0xFF}, 0xFFFF, 0, 0xFF, 5, 0xFF, 1},
        {{0xCD, 0xFE, 0x12}, 0xFFFF, 0, 0xFF, 1022, 0x12, 1}, /* a right compare, with no counter bit cleared before it */
        {{0xF2, 0xFD, 0xFC}, 0xFFFF, 0, 0xFF, 1021, 0xFF, 1}, /* a mask that clears two bits */
        {{0xF2, 0xFD, 0xFF}, 0xFFFF, 0, 0xFF, 1021, 0xFF, 1}, /* and none */
        {{0xF2, 0xFD, 0xFE}, 0xFFFF, 1, 0xFE, 1021, 0xFE, 1},
        {{0xF2, 0xFD, 0xFE}, 0xFFFF, 0, 0xFE, 1021, 0xFE, 1}, /* that bit is not newly cleared: it starts anew */
        {{0xF2, 0xFD, 0x7F}, 0xFFFF, 1, 0x7E, 1021, 0x7E, 1},
        {{0xF2, 0xFD, 0xBF}, 0xFFFF, 1, 0x3E, 1021, 0x3E, 1}, /* a new first step */
        {{0xCD, 0xFF, 0x34}, 0xFFFF, 0, 0x3E, 1023, 0x34, 1}, /* the second code byte before the first */
        {{0xF2, 0xFD, 0xDF}, 0xFFFF, 1, 0x1E, 1021, 0x1E, 1},
        {{0xCD, 0xFE, 0x13}, 0xFFFF, 0, 0x1E, 1022, 0x12, 1}, /* wrong */
        {{0xF2, 0xFD, 0xEF}, 0xFFFF, 1, 0x0E, 1021, 0x0E, 1},
        {{0xCD, 0xFE, 0x12}, 0xFFFF, 2, 0x0E, 1022, 0x12, 1},
        {{0xCD, 0xFE, 0x12}, 0xFFFF, 0, 0x0E, 1022, 0x12, 1}, /* right once more, which is not the next step */
        {{0xF2, 0xFD, 0xF7}, 0xFFFF, 1, 0x06, 1021, 0x06, 1},
        {{0xCD, 0xFE, 0x12}, 0xFFFF, 2, 0x06, 1022, 0x12, 1},
        {{0xCE, 0xFE, 0x00}, 0xFF00, 0, 0x06, 1022, 0x12, 1}, /* a read between: it is hidden, and starts the code anew */
        {{0xF2, 0xFD, 0xFB}, 0xFFFF, 1, 0x02, 1021, 0x02, 1},
        {{0xCD, 0xFE, 0x12}, 0xFFFF, 2, 0x02, 1022, 0x12, 1},
        {{0xF2, 0xFD, 0x00}, 0xFFFF, 1, 0x00, 1021, 0x00, 1}, /* the last try, as a new first step */
        {{0xCD, 0xFE, 0x12}, 0xFFFF, 2, 0x00, 1022, 0x12, 1},
        {{0xCD, 0xFF, 0x34}, 0xFFFF, 3, 0x00, 1023, 0x34, 1}, /* open */
        {{0xCE, 0xFE, 0x77}, 0xFF12, 3, 0x00, 1022, 0x12, 1},
        {{0xCC, 0xFF, 0x77}, 0x0134, 3, 0x00, 1023, 0x34, 1},
        {{0xF3, 0xFD, 0xFF}, 0xFFFF, 3, 0xFF, 1021, 0xFF, 1}, /* all eight tries again */
        {{0xCD, 0xFE, 0x00}, 0xFFFF, 3, 0xFF, 1022, 0x12, 1}, /* a wrong compare closes nothing */
        {{0xF2, 0xFD, 0x0F}, 0xFFFF, 3, 0xFF, 1021, 0xFF, 1},
        {{0xF2, 0xFD, 0xEF}, 0xFFFF, 3, 0xEF, 1021, 0xEF, 1}, /* a counter bit may be cleared while it is open */
        {{0x33, 0x05, 0xA5}, 0xFFFF, 3, 0xEF, 5, 0xA5, 1},
        {{0x33, 0x05, 0x5A}, 0xFFFF, 3, 0xEF, 5, 0x5A, 1},    /* written again, zeros become ones */
        {{0x30, 0x05, 0xA5}, 0xFFFF, 3, 0xEF, 5, 0x5A, 1},    /* the compare differs */
        {{0x0C, 0x05, 0x00}, 0x015A, 3, 0xEF, 5, 0x5A, 1},
        {{0x30, 0x05, 0x5A}, 0xFFFF, 3, 0xEF, 5, 0x5A, 0},    /* protected for ever */
        {{0x0C, 0x05, 0x00}, 0x005A, 3, 0xEF, 5, 0x5A, 0},
        {{0x33, 0x05, 0x00}, 0xFFFF, 3, 0xEF, 5, 0x5A, 0},
        {{0x31, 0x05, 0x00}, 0xFFFF, 3, 0xEF, 5, 0x5A, 0},
        {{0x30, 0x05, 0x5A}, 0xFFFF, 3, 0xEF, 5, 0x5A, 0},
        {{0xB1, 0x07, 0x77}, 0xFFFF, 3, 0xEF, 519, 0x77, 0},  /* written and protected */
        {{0xB3, 0x07, 0x78}, 0xFFFF, 3, 0xEF, 519, 0x77, 0},
        {{0xF3, 0xFE, 0x99}, 0xFFFF, 3, 0xEF, 1022, 0x99, 1}, /* another code */
        {{0xF1, 0xFF, 0x98}, 0xFFFF, 3, 0xEF, 1023, 0x98, 0}, /* whose second byte stays for ever */
        {{0x13, 0x05, 0x00}, 0xFFFF, 3, 0xEF, 5, 0x5A, 0},    /* not in the table */
    };
    static const uint8_t power[1] = {SLEET_KIND_POWER};
    slot at = new_slot();
    slot kept;
    size_t i;

    at.cells[1022] = 0x12;
    at.cells[1023] = 0x34;
    for (i = 0; i < sizeof steps / sizeof *steps; i++) {
        const step *now = &steps[i];
        unsigned answer = command(&at, now->bytes[0], now->bytes[1], now->bytes[2]);
        bool holds = answer == now->answer && at.card.stage == now->stage && at.cells[1021] == now->counter &&
                     at.cells[now->address] == now->byte && is_free(&at, now->address) == (now->bit != 0);
        if (!holds) {
            fprintf(stderr, "step %u: answer %04X, stage %u\n", (unsigned)i, answer, at.card.stage);
        }
        CHECK(holds);
    }
    kept = at;
    CHECK(is(run(&at, power, sizeof power, 0), SLEET_DONE, 1, 1, 0)); /* power needs no room, and keeps the memory */
    CHECK(at.card.stage == SLEET_CARD_FRESH);
    kept.card = at.card;
    CHECK(same_slot(&at, &kept) && send(&at, SLEET_CARD_READ, 1023, 0) == 0xFF00 && send(&at, SLEET_CARD_READ_BIT, 1023, 0) == 0x0000);
    open_card(&at, 0xFE);
    CHECK(at.cells[1021] == 0xEE);
}

/* Only the seven codes do anything, and two of them only at their own addresses; every other first byte is ignored at every stage. */
static void check_ignored(void)
{
    static const unsigned addresses[] = {0, 1, 253, 254, 255, 256, 509, 510, 511, 765, 766, 767, 768, 1020, 1021, 1022, 1023};
    unsigned code;
    uint8_t stage;
    size_t i;

    for (code = 0; code < 64; code++) {
        bool anywhere = code == SLEET_CARD_WRITE_PROTECT || code == SLEET_CARD_WRITE || code == SLEET_CARD_PROTECT ||
                        code == SLEET_CARD_READ_BIT || code == SLEET_CARD_READ;
        for (stage = SLEET_CARD_FRESH; stage <= SLEET_CARD_OPEN; stage++) {
            for (i = 0; i < sizeof addresses / sizeof *addresses; i++) {
                unsigned address = addresses[i];
                slot at = new_slot();
                slot before;
                if (anywhere || (code == SLEET_CARD_COUNT && address == 1021) || (code == SLEET_CARD_COMPARE && address >= 1022)) {
                    continue;
                }
                at.card.stage = stage;
                before = at;
                before.card.stage = stage == SLEET_CARD_OPEN ? SLEET_CARD_OPEN : SLEET_CARD_FRESH;
                CHECK(send(&at, code, address, 0xFE) == 0xFFFF && same_slot(&at, &before));
            }
        }
    }
}

/* Returns how many bits are 1. */
static unsigned ones(unsigned byte)
{
    unsigned count = 0;

    for (; byte != 0; byte >>= 1) {
        count += byte & 1;
    }
    return count;
}

/* Every counter under every mask: it is changed, and a step is taken, where exactly one bit is cleared. */
static void check_masks(void)
{
    slot at = new_slot();
    unsigned counter;
    unsigned mask;

    for (counter = 0; counter < 256; counter++) {
        for (mask = 0; mask < 256; mask++) {
            bool clears = ones(counter) == ones(counter & mask) + 1;
            sleet_card_answer answer;
            at.cells[1021] = (uint8_t)counter;
            at.card.stage = SLEET_CARD_HALF;
            answer = sleet_card_command(at.card, 0xF2, 0xFD, (uint8_t)mask, at.cells, sizeof at.cells, at.bits, sizeof at.bits, at.out, 1);
            if (!is(answer, SLEET_DONE, 1, 4, 1) || answer.card.stage != (clears ? SLEET_CARD_COUNTED : SLEET_CARD_FRESH) ||
                at.cells[1021] != (clears ? (counter & mask) : counter)) {
                fprintf(stderr, "counter %02X, mask %02X\n", counter, mask);
                CHECK(false);
            }
        }
    }
}

/* Every byte compared with each code byte at every stage: a step is taken where it is the next one and right, and no memory changes. */
static void check_compares(void)
{
    unsigned address;
    unsigned data;
    uint8_t stage;

    for (address = 1022; address < 1024; address++) {
        for (stage = SLEET_CARD_FRESH; stage <= SLEET_CARD_OPEN; stage++) {
            for (data = 0; data < 256; data++) {
                slot at = new_slot();
                slot wanted;
                at.cells[1022] = 0x12;
                at.cells[1023] = 0x34;
                at.card.stage = stage;
                wanted = at;
                wanted.card.stage = stage == SLEET_CARD_OPEN ? SLEET_CARD_OPEN : SLEET_CARD_FRESH;
                if (stage == SLEET_CARD_COUNTED && address == 1022 && data == 0x12) {
                    wanted.card.stage = SLEET_CARD_HALF;
                }
                if (stage == SLEET_CARD_HALF && address == 1023 && data == 0x34) {
                    wanted.card.stage = SLEET_CARD_OPEN;
                }
                CHECK(send(&at, SLEET_CARD_COMPARE, address, data) == 0xFFFF && same_slot(&at, &wanted));
            }
        }
    }
}

/* Each address has its own cell and its own protect bit, in reads, writes and protection. */
static void check_addresses(void)
{
    slot at = new_slot();
    unsigned address;

    open_card(&at, 0x7F);
    for (address = 0; address < SLEET_CARD_CELLS; address++) {
        slot wanted = at;
        uint8_t data = (uint8_t)(address * 7 + address / 256);
        wanted.cells[address] = data;
        CHECK(send(&at, SLEET_CARD_WRITE, address, data) == 0xFFFF && same_slot(&at, &wanted));
        CHECK(send(&at, SLEET_CARD_READ_BIT, address, 0) == 0x0100u + data);
        wanted.bits[address / 8] = (uint8_t)(wanted.bits[address / 8] & ~(1u << address % 8));
        CHECK(send(&at, SLEET_CARD_PROTECT, address, data) == 0xFFFF && same_slot(&at, &wanted));
        CHECK(send(&at, SLEET_CARD_WRITE, address, data ^ 0xFFu) == 0xFFFF && same_slot(&at, &wanted));
        CHECK(send(&at, SLEET_CARD_READ_BIT, address, 0) == data && send(&at, SLEET_CARD_READ, address, 0) == 0xFF00u + data);
    }
    at.card = sleet_card_power_up();
    for (address = 0; address < SLEET_CARD_CELLS; address++) {
        uint8_t data = (uint8_t)(address * 7 + address / 256);
        CHECK(send(&at, SLEET_CARD_READ, address, 0) == (address >= 1022 ? 0xFF00u : 0xFF00u + data));
    }
}

/* A protected counter is frozen: no bit of it is newly cleared, so that a card that lost its power is never open again. */
static void check_frozen(void)
{
    slot at = new_slot();
    slot wanted;
    unsigned mask;

    open_card(&at, 0xFE);
    CHECK(send(&at, SLEET_CARD_WRITE_PROTECT, SLEET_CARD_COUNTER, 0xFF) == 0xFFFF && at.cells[1021] == 0xFF && !is_free(&at, 1021));
    wanted = at;
    CHECK(send(&at, SLEET_CARD_COUNT, SLEET_CARD_COUNTER, 0xFE) == 0xFFFF && same_slot(&at, &wanted));
    at.card = sleet_card_power_up();
    wanted.card = at.card;
    for (mask = 0; mask < 256; mask++) {
        CHECK(send(&at, SLEET_CARD_COUNT, SLEET_CARD_COUNTER, mask) == 0xFFFF && same_slot(&at, &wanted));
        CHECK(send(&at, SLEET_CARD_COMPARE, SLEET_CARD_CODE, 0xFF) == 0xFFFF && same_slot(&at, &wanted));
    }
}

/* Returns the number for memory of these lengths at this stage, by which nothing is begun; 0 if there is none. */
static uint8_t first_refusal(size_t cells, size_t bits, uint8_t stage)
{
    if (cells != SLEET_CARD_CELLS) {
        return SLEET_BAD_CARD_CELLS;
    }
    if (bits != SLEET_CARD_BITS) {
        return SLEET_BAD_CARD_BITS;
    }
    return stage > SLEET_CARD_OPEN ? SLEET_BAD_STATE : SLEET_DONE;
}

/* 17, then 18, then 5: nothing is done, whatever the log and the room. */
static void check_refused_at_once(void)
{
    static const uint8_t log[] = {SLEET_KIND_COMMAND, 0xF2, 0xFD, 0xFE, SLEET_KIND_COMMAND, 0x0C, 0x00, 0x00, 0x99};
    static const size_t cells[] = {0, 1, 1023, 1025, 1024};
    static const size_t bits[] = {0, 127, 129, 128};
    static const uint8_t stages[] = {4, 5, 128, 255, SLEET_CARD_FRESH, SLEET_CARD_HALF, SLEET_CARD_OPEN};
    size_t i;
    size_t j;
    size_t k;

    for (i = 0; i < sizeof cells / sizeof *cells; i++) {
        for (j = 0; j < sizeof bits / sizeof *bits; j++) {
            for (k = 0; k < sizeof stages / sizeof *stages; k++) {
                slot at = new_slot();
                slot before;
                uint8_t wanted = first_refusal(cells[i], bits[j], stages[k]);
                sleet_card_answer answer;
                if (wanted == SLEET_DONE) {
                    continue;
                }
                at.card.stage = stages[k];
                before = at;
                answer = sleet_card_run(at.card, log, sizeof log, at.cells, cells[i], at.bits, bits[j], at.out, sizeof at.out);
                CHECK(is(answer, wanted, 0, 0, 0) && answer.card.stage == stages[k]);
                answer = sleet_card_run(at.card, log, 0, at.cells, cells[i], at.bits, bits[j], at.out, 0);
                CHECK(is(answer, wanted, 0, 0, 0) && answer.card.stage == stages[k]);
                answer = sleet_card_command(at.card, 0xF2, 0xFD, 0xFE, at.cells, cells[i], at.bits, bits[j], at.out, sizeof at.out);
                CHECK(is(answer, wanted, 0, 0, 0) && answer.card.stage == stages[k]);
                answer = sleet_card_command(at.card, 0xF2, 0xFD, 0xFE, at.cells, cells[i], at.bits, bits[j], at.out, 0);
                CHECK(is(answer, wanted, 0, 0, 0) && answer.card.stage == stages[k]);
                CHECK(same_slot(&at, &before) && unwritten_from(&at, 0));
            }
        }
    }
}

/* 6 comes before 7, and 7 before 9: the records before stand, and output past `written` is as it was. */
static void check_refused_at_a_record(void)
{
    uint8_t log[16] = {SLEET_KIND_COMMAND, 0xF2, 0xFD, 0xFE, SLEET_KIND_COMMAND, 0xCD, 0xFE, 0xFF};
    unsigned kind;
    size_t length;

    for (kind = 0; kind < 256; kind++) {
        slot at = new_slot();
        if (kind == SLEET_KIND_COMMAND || kind == SLEET_KIND_POWER) {
            continue;
        }
        log[8] = (uint8_t)kind;
        CHECK(is(run(&at, log, 9, sizeof at.out), SLEET_BAD_KIND, 2, 8, 2));
        CHECK(at.card.stage == SLEET_CARD_HALF && at.cells[1021] == 0xFE && unwritten_from(&at, 2));
        at = new_slot();
        CHECK(is(run(&at, log, sizeof log, 2), SLEET_BAD_KIND, 2, 8, 2) && unwritten_from(&at, 2));
    }
    log[8] = SLEET_KIND_COMMAND;
    log[9] = SLEET_CARD_READ_BIT;
    log[10] = 0x05;
    for (length = 9; length < 12; length++) {
        slot at = new_slot();
        CHECK(is(run(&at, log, length, 2), SLEET_SHORT_BODY, 2, 8, 2));
        CHECK(at.card.stage == SLEET_CARD_HALF && unwritten_from(&at, 2));
    }
    for (length = 0; length < 5; length++) { /* room for so many: the read with protect bit needs two, or has none */
        slot at = new_slot();
        size_t done = length < 2 ? length : length < 4 ? 2 : 3;
        static const uint8_t stages[4] = {SLEET_CARD_FRESH, SLEET_CARD_COUNTED, SLEET_CARD_HALF, SLEET_CARD_FRESH};
        sleet_card_answer answer = run(&at, log, 12, length);
        CHECK(is(answer, length < 4 ? SLEET_NO_ROOM : SLEET_DONE, done, 4 * done, done < 3 ? done : 4));
        CHECK(at.card.stage == stages[done] && unwritten_from(&at, answer.written));
        CHECK(at.cells[1021] == (done > 0 ? 0xFE : 0xFF));
    }
    {
        static const uint8_t powers[3] = {SLEET_KIND_POWER, SLEET_KIND_POWER, SLEET_KIND_COMMAND};
        slot at = new_slot();
        slot before = at;
        CHECK(is(run(&at, powers, 2, 0), SLEET_DONE, 2, 2, 0) && same_slot(&at, &before));
        CHECK(is(run(&at, powers, 3, 0), SLEET_SHORT_BODY, 2, 2, 0) && same_slot(&at, &before));
        CHECK(is(run(&at, powers, 0, 0), SLEET_DONE, 0, 0, 0) && same_slot(&at, &before) && unwritten_from(&at, 0));
    }
}

/* A log cut at any record, with the card handed on, ends as the whole does. */
static void check_parts(void)
{
    static const uint8_t log[] = {
        0x20, 0xF2, 0xFD, 0xEF, 0x20, 0xCD, 0xFE, 0xFF, 0x20, 0xCD, 0xFF, 0xFF, 0x20, 0x31, 0x00, 0x42, 0x20, 0x0C, 0x00, 0x00, 0x06,
        0x20, 0x33, 0x01, 0x42, 0x20, 0x0E, 0x01, 0x00,
    };
    static const uint8_t answers[] = {0xFF, 0xFF, 0xFF, 0xFF, 0x42, 0x00, 0xFF, 0xFF};
    static const size_t places[] = {0, 4, 8, 12, 16, 20, 21, 25, 29};
    size_t i;

    for (i = 0; i < sizeof places / sizeof *places; i++) {
        slot at = new_slot();
        sleet_card_answer first = run(&at, log, places[i], sizeof at.out);
        sleet_card_answer second = sleet_card_run(at.card, log + places[i], sizeof log - places[i], at.cells, sizeof at.cells, at.bits,
                                                  sizeof at.bits, at.out + first.written, sizeof at.out - first.written);
        CHECK(is(first, SLEET_DONE, i, places[i], first.written));
        CHECK(is(second, SLEET_DONE, 8 - i, sizeof log - places[i], sizeof answers - first.written));
        CHECK(memcmp(at.out, answers, sizeof answers) == 0 && unwritten_from(&at, sizeof answers));
        CHECK(second.card.stage == SLEET_CARD_FRESH && at.cells[0] == 0x42 && at.cells[1] == 0xFF && at.cells[1021] == 0xEF);
        CHECK(at.bits[0] == 0xFE);
    }
}

int main(void)
{
    check_names();
    check_table();
    check_ignored();
    check_masks();
    check_compares();
    check_addresses();
    check_frozen();
    check_refused_at_once();
    check_refused_at_a_record();
    check_parts();
    return verdict();
}
