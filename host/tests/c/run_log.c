/*
 * The C interface from C, and from C++ (the file is compiled as both): document 01's log on the bench part, refusals, transfers, cache
 * reads past the page's end, resets, both steppings and what is none, single events, questions, blank memory, records of a log, and texts.
 * Each check that fails is printed; the program's status is 0 if there is none.
 */
#include <stddef.h>
#include <string.h>

#include "check.h"
#include "sleetanvil.h"

SIZE_IS(sleet_geometry, 20);
SIZE_IS(sleet_state, 32);
SIZE_IS(sleet_answer, 64);
SIZE_IS(sleet_judged, 72);
SIZE_IS(sleet_peeked, 2);
SIZE_IS(sleet_record, 4);
SIZE_IS(sleet_found, 16);
SIZE_IS(sleet_wrote, 16);

/* The bench part's memory. */
static uint8_t cells[640];
static uint8_t cache[20];
static uint8_t counts[32];
static uint8_t out[16];

#define MEMORY cells, sizeof cells, cache, sizeof cache, counts, sizeof counts

/* The memory of a device that was never used, and output that nobody wrote to. */
static void erase_all(void)
{
    memset(cells, 0xFF, sizeof cells);
    memset(cache, 0xFF, sizeof cache);
    memset(counts, 0, sizeof counts);
    memset(out, 0xEE, sizeof out);
}

/* Runs a log on the bench part. Returns the answer. */
static sleet_answer run(sleet_state state, const uint8_t *log, size_t log_length, size_t room)
{
    return sleet_run(sleet_bench(), state, log, log_length, MEMORY, out, room);
}

/* Returns whether an answer has these numbers. */
static bool refused(sleet_answer answer, uint8_t refusal, size_t records, size_t used, size_t written)
{
    return answer.refusal == refusal && answer.records == records && answer.used == used && answer.written == written;
}

static void check_parts(void)
{
    sleet_geometry bench = sleet_bench();
    sleet_geometry real = sleet_fm25s005bi3();
    sleet_geometry unsound = bench;

    CHECK(bench.data == 16 && bench.spare == 4 && bench.pages == 4 && bench.blocks == 8 && bench.id0 == 0x5A && bench.id1 == 0x01);
    CHECK(real.data == 2048 && real.spare == 128 && real.pages == 64 && real.blocks == 512 && real.id0 == 0xA1 && real.id1 == 0xD5);
    CHECK(bench.stepping == SLEET_FIRST && real.stepping == SLEET_FIRST);
    CHECK(sleet_geometry_sound(bench) && sleet_geometry_sound(real));
    CHECK(sleet_cells_length(bench) == 640 && sleet_cache_length(bench) == 20 && sleet_counts_length(bench) == 32);
    CHECK(sleet_cells_length(real) == 71303168 && sleet_cache_length(real) == 2176 && sleet_counts_length(real) == 32768);
    unsound.blocks = 0;
    CHECK(!sleet_geometry_sound(unsound));
    CHECK(sleet_cells_length(unsound) == 0 && sleet_cache_length(unsound) == 0 && sleet_counts_length(unsound) == 0);
    bench.stepping = SLEET_SECOND;
    CHECK(sleet_geometry_sound(bench));
    CHECK(sleet_cells_length(bench) == 640 && sleet_cache_length(bench) == 20 && sleet_counts_length(bench) == 32);
    CHECK(sleet_operation_length(bench, SLEET_ERASE) == 80 && sleet_operation_length(bench, SLEET_RESET) == 8);
    CHECK(offsetof(sleet_geometry, data) == 0 && offsetof(sleet_geometry, spare) == 4 && offsetof(sleet_geometry, pages) == 8);
    CHECK(offsetof(sleet_geometry, blocks) == 12 && offsetof(sleet_geometry, id0) == 16 && offsetof(sleet_geometry, id1) == 17);
    CHECK(offsetof(sleet_geometry, stepping) == 18);
}

static void check_power_up(void)
{
    sleet_state state = sleet_power_up();

    CHECK(state.a0 == 0x38 && state.b0 == 0x10 && state.c0 == 0x01 && state.d0 == 0x40);
    CHECK(state.wp == 1 && state.selected == 0 && state.count == 0 && state.column == 0);
    CHECK(state.first == 0 && state.second == 0 && state.third == 0 && state.instruction == SLEET_IGNORED);
    CHECK(state.job == SLEET_READ && state.row == 0 && state.units == 0);
    CHECK(sleet_state_sound(sleet_bench(), state) && sleet_state_sound(sleet_fm25s005bi3(), state));
}

/* The replay of document 01: the status register after each of its records, and DO. */
static void check_log(void)
{
    static const uint8_t log[16] = {0x04, 0x13, 0x00, 0x01, 0x02, 0x0F, 0x02, 0xC0, 0x02, 0x00, 0x04, 0x01, 0x00, 0x02, 0x00, 0x03};
    static const size_t ends[8] = {3, 4, 6, 8, 10, 13, 15, 16};
    static const uint8_t status[8] = {0x01, 0x01, 0x01, 0x01, 0x01, 0x00, 0x00, 0x00};
    static const uint8_t shifted[4] = {0xFF, 0xFF, 0x01, 0x00};
    sleet_answer answer;
    size_t i;

    for (i = 0; i < 8; i++) {
        erase_all();
        answer = run(sleet_power_up(), log, ends[i], sizeof out);
        CHECK(answer.refusal == SLEET_DONE && answer.records == i + 1 && answer.used == ends[i]);
        CHECK(answer.state.c0 == status[i]);
    }
    CHECK(answer.written == 4 && memcmp(out, shifted, sizeof shifted) == 0 && out[4] == 0xEE);
    CHECK(answer.state.job == SLEET_IDLE && answer.state.selected == 0);
}

/* A log run and judged: a write enable sent while the power-up read is under way is not orderly, and one behind it is. */
static void check_judgement(void)
{
    const uint8_t early[] = {0x01, 0x02, 0x06, 0x03, 0x04, 0x14, 0x00};
    const uint8_t behind[] = {0x04, 0x14, 0x00, 0x01, 0x02, 0x06, 0x03};
    sleet_judged judged;

    erase_all();
    judged = sleet_judge(sleet_bench(), sleet_power_up(), early, sizeof early, MEMORY, out, sizeof out);
    CHECK(!judged.orderly && judged.answer.refusal == SLEET_DONE && judged.answer.records == 4 && judged.answer.state.c0 == 0x00);
    erase_all();
    judged = sleet_judge(sleet_bench(), sleet_power_up(), behind, sizeof behind, MEMORY, out, sizeof out);
    CHECK(judged.orderly && judged.answer.refusal == SLEET_DONE && judged.answer.records == 4 && judged.answer.state.c0 == 0x02);
}

static void check_refusals(void)
{
    static const uint8_t bad_kind[] = {0x01, 0x03, 0x07};
    static const uint8_t short_body[] = {0x01, 0x04, 0x01};
    static const uint8_t bad_level[] = {0x05, 0x00, 0x05, 0x02};
    static const uint8_t shifts[] = {0x01, 0x02, 0x0F, 0x02, 0xC0};
    sleet_geometry part = sleet_bench();
    sleet_state start = sleet_power_up();
    sleet_state unsound = start;
    sleet_answer answer;

    erase_all();
    CHECK(refused(run(start, bad_kind, sizeof bad_kind, sizeof out), SLEET_BAD_KIND, 2, 2, 0));
    CHECK(refused(run(start, short_body, sizeof short_body, sizeof out), SLEET_SHORT_BODY, 1, 1, 0));
    answer = run(start, bad_level, sizeof bad_level, sizeof out);
    CHECK(refused(answer, SLEET_BAD_LEVEL, 1, 2, 0) && answer.state.wp == 0);
    answer = run(start, shifts, sizeof shifts, 1);
    CHECK(refused(answer, SLEET_NO_ROOM, 2, 3, 1) && answer.state.count == 1 && out[0] == 0xFF && out[1] == 0xEE);

    answer = sleet_run(part, start, shifts, sizeof shifts, cells, 639, cache, sizeof cache, counts, sizeof counts, out, sizeof out);
    CHECK(refused(answer, SLEET_BAD_CELLS, 0, 0, 0) && same_state(answer.state, start));
    answer = sleet_run(part, start, shifts, sizeof shifts, cells, sizeof cells, cache, 0, counts, sizeof counts, out, sizeof out);
    CHECK(refused(answer, SLEET_BAD_CACHE, 0, 0, 0) && same_state(answer.state, start));
    answer = sleet_run(part, start, shifts, sizeof shifts, cells, sizeof cells, cache, sizeof cache, counts, 31, out, sizeof out);
    CHECK(refused(answer, SLEET_BAD_COUNTS, 0, 0, 0) && same_state(answer.state, start));
    part.data = 0;
    answer = sleet_run(part, start, shifts, sizeof shifts, MEMORY, out, sizeof out);
    CHECK(refused(answer, SLEET_BAD_PART, 0, 0, 0) && same_state(answer.state, start));

    unsound.job = 200;
    unsound.instruction = 0xBEEF;
    unsound.wp = 2;
    unsound.units = SIZE_MAX;
    unsound.column = 0xFFFF;
    unsound.third = 0x77;
    CHECK(!sleet_state_sound(sleet_bench(), unsound));
    answer = run(unsound, shifts, sizeof shifts, sizeof out);
    CHECK(refused(answer, SLEET_BAD_STATE, 0, 0, 0) && same_state(answer.state, unsound));
    CHECK(out[0] == 0xFF && out[1] == 0xEE);
}

/* One byte in, and the byte out has to be as expected. Returns the state after it. */
static sleet_state shift(sleet_state state, uint8_t byte, uint8_t expected)
{
    uint8_t answered = (uint8_t)~expected;
    sleet_answer answer = sleet_shift(sleet_bench(), state, byte, MEMORY, &answered, 1);

    CHECK(refused(answer, SLEET_DONE, 1, 2, 1));
    CHECK(answered == expected);
    return answer.state;
}

static void check_events(void)
{
    sleet_geometry part = sleet_bench();
    sleet_answer answer;
    sleet_state state;

    erase_all();
    answer = sleet_work(part, sleet_power_up(), 20, MEMORY);
    CHECK(refused(answer, SLEET_DONE, 1, 3, 0) && answer.state.c0 == 0x00);
    answer = sleet_select(part, answer.state, MEMORY);
    CHECK(refused(answer, SLEET_DONE, 1, 1, 0) && answer.state.selected == 1);
    state = shift(answer.state, SLEET_CODE_READ_ID, 0xFF);
    CHECK(state.instruction == SLEET_CODE_READ_ID && state.count == 1);
    state = shift(state, 0x00, 0xFF);
    state = shift(state, 0x00, 0x5A);
    state = shift(state, 0x00, 0x01);
    state = shift(state, 0x00, 0xFF);
    answer = sleet_shift(part, state, 0x00, MEMORY, out, 0);
    CHECK(refused(answer, SLEET_NO_ROOM, 0, 0, 0) && same_state(answer.state, state) && out[0] == 0xEE);
    answer = sleet_deselect(part, state, MEMORY);
    CHECK(refused(answer, SLEET_DONE, 1, 1, 0) && answer.state.selected == 0 && answer.state.count == 0);
    answer = sleet_level(part, answer.state, 0, MEMORY);
    CHECK(refused(answer, SLEET_DONE, 1, 2, 0) && answer.state.wp == 0);
    answer = sleet_level(part, answer.state, 2, MEMORY);
    CHECK(refused(answer, SLEET_BAD_LEVEL, 0, 0, 0) && answer.state.wp == 0);
    answer = sleet_power(part, answer.state, MEMORY);
    CHECK(refused(answer, SLEET_DONE, 1, 1, 0) && answer.state.wp == 0 && answer.state.job == SLEET_READ);
}

/* A transfer on the bench part. Returns the answer. */
static sleet_answer transfer(sleet_state state, const uint8_t *di, size_t length, size_t room)
{
    return sleet_transfer(sleet_bench(), state, di, length, MEMORY, out, room);
}

/* The registers by their names, at power-up; and the names of the instructions, the bits, the kinds and the jobs by their numbers. */
static void check_names(void)
{
    static const uint8_t addresses[4] = {SLEET_A0, SLEET_B0, SLEET_C0, SLEET_D0};
    static const uint8_t values[4] = {SLEET_A0_BP, SLEET_B0_ECC_E, SLEET_C0_OIP, 0x40};
    uint8_t di[3] = {SLEET_CODE_GET_FEATURE, 0, 0};
    size_t i;

    CHECK(sleet_version() == SLEET_VERSION && SLEET_VERSION == 3 && SLEET_FIRST == 0 && SLEET_SECOND == 1 && SLEET_A0_CMP == 0x02);
    for (i = 0; i < 4; i++) {
        erase_all();
        di[1] = addresses[i];
        CHECK(refused(transfer(sleet_power_up(), di, sizeof di, sizeof out), SLEET_DONE, 5, 0, 3) && out[2] == values[i]);
    }
    CHECK(SLEET_CODE_WRITE_ENABLE == 0x06 && SLEET_CODE_WRITE_DISABLE == 0x04 && SLEET_CODE_GET_FEATURE == 0x0F);
    CHECK(SLEET_CODE_SET_FEATURE == 0x1F && SLEET_CODE_READ_ID == 0x9F && SLEET_CODE_PAGE_READ == 0x13);
    CHECK(SLEET_CODE_READ_CACHE == 0x03 && SLEET_CODE_READ_CACHE_FAST == 0x0B && SLEET_CODE_LOAD == 0x02);
    CHECK(SLEET_CODE_LOAD_RANDOM == 0x84 && SLEET_CODE_EXECUTE == 0x10 && SLEET_CODE_BLOCK_ERASE == 0xD8 && SLEET_CODE_RESET == 0xFF);
    CHECK(SLEET_A0_BRWD == 0x80 && SLEET_A0_BP == 0x38 && SLEET_A0_INV == 0x04 && SLEET_B0_ECC_E == 0x10 && SLEET_B0_QE == 0x01);
    CHECK(SLEET_C0_OIP == 0x01 && SLEET_C0_WEL == 0x02 && SLEET_C0_E_FAIL == 0x04 && SLEET_C0_P_FAIL == 0x08 && SLEET_C0_ECCS == 0x70);
    CHECK(SLEET_D0_DRIVE == 0x60 && SLEET_KIND_SELECT == 1 && SLEET_KIND_SHIFT == 2 && SLEET_KIND_DESELECT == 3);
    CHECK(SLEET_KIND_WORK == 4 && SLEET_KIND_LEVEL == 5 && SLEET_KIND_POWER == 6);
    CHECK(SLEET_IDLE == 0 && SLEET_READ == 1 && SLEET_PROGRAM == 2 && SLEET_ERASE == 3 && SLEET_RESET == 4);
}

/* A transfer is the run of its records; without room enough it is completed by shifts and a deselect. */
static void check_transfers(void)
{
    static const uint8_t read_id[5] = {SLEET_CODE_READ_ID, 0x00, 0x00, 0x00, 0x00};
    static const uint8_t log[12] = {0x01, 0x02, 0x9F, 0x02, 0x00, 0x02, 0x00, 0x02, 0x00, 0x02, 0x00, 0x03};
    static const uint8_t identity[5] = {0xFF, 0xFF, 0x5A, 0x01, 0xFF};
    sleet_geometry part = sleet_bench();
    sleet_state start = sleet_power_up();
    sleet_state unsound = start;
    sleet_answer answer;
    sleet_state end;

    erase_all();
    answer = run(start, log, sizeof log, sizeof out);
    CHECK(refused(answer, SLEET_DONE, 7, 12, 5) && memcmp(out, identity, sizeof identity) == 0);
    end = answer.state;
    erase_all();
    answer = transfer(start, read_id, sizeof read_id, sizeof out);
    CHECK(refused(answer, SLEET_DONE, 7, 0, 5) && same_state(answer.state, end));
    CHECK(memcmp(out, identity, sizeof identity) == 0 && out[5] == 0xEE);
    answer = transfer(start, read_id, 0, 0);
    CHECK(refused(answer, SLEET_DONE, 2, 0, 0) && answer.state.selected == 0);

    erase_all();
    answer = transfer(start, read_id, sizeof read_id, 2);
    CHECK(refused(answer, SLEET_NO_ROOM, 3, 0, 2) && answer.state.selected == 1 && answer.state.count == 2 && out[2] == 0xEE);
    answer = sleet_shifts(part, answer.state, read_id + 2, 3, MEMORY, out + 2, 1);
    CHECK(refused(answer, SLEET_NO_ROOM, 1, 0, 1) && answer.state.selected == 1 && out[3] == 0xEE);
    answer = sleet_shifts(part, answer.state, read_id + 3, 2, MEMORY, out + 3, 13);
    CHECK(refused(answer, SLEET_DONE, 2, 0, 2) && answer.state.selected == 1 && out[5] == 0xEE);
    answer = sleet_deselect(part, answer.state, MEMORY);
    CHECK(same_state(answer.state, end) && memcmp(out, identity, sizeof identity) == 0);

    /* On a selected chip the bytes continue the old transfer; on one that is not selected they do nothing. */
    answer = sleet_select(part, start, MEMORY);
    answer = sleet_shifts(part, answer.state, read_id, 2, MEMORY, out, sizeof out);
    answer = transfer(answer.state, read_id, 2, sizeof out);
    CHECK(refused(answer, SLEET_DONE, 4, 0, 2) && out[0] == 0x5A && out[1] == 0x01 && answer.state.selected == 0);
    answer = sleet_shifts(part, start, read_id, 4, MEMORY, out, sizeof out);
    CHECK(refused(answer, SLEET_DONE, 4, 0, 4) && same_state(answer.state, start) && out[0] == 0xFF && out[2] == 0xFF);

    /* Refused as a run is. */
    unsound.selected = 2;
    erase_all();
    answer = transfer(unsound, read_id, sizeof read_id, 0);
    CHECK(refused(answer, SLEET_BAD_STATE, 0, 0, 0) && same_state(answer.state, unsound));
    answer = sleet_transfer(part, start, read_id, 5, cells, 640, cache, 20, counts, 33, out, sizeof out);
    CHECK(refused(answer, SLEET_BAD_COUNTS, 0, 0, 0) && same_state(answer.state, start));
    answer = sleet_shifts(part, start, read_id, 5, cells, 640, cache, 19, counts, 32, out, sizeof out);
    CHECK(refused(answer, SLEET_BAD_CACHE, 0, 0, 0) && same_state(answer.state, start));
    answer = sleet_shifts(part, start, read_id, 5, cells, 641, cache, 20, counts, 32, out, sizeof out);
    CHECK(refused(answer, SLEET_BAD_CELLS, 0, 0, 0) && same_state(answer.state, start));
    part.spare = 4096;
    answer = sleet_transfer(part, start, read_id, 5, MEMORY, out, sizeof out);
    CHECK(refused(answer, SLEET_BAD_PART, 0, 0, 0) && same_state(answer.state, start) && out[0] == 0xEE);
}

/*
 * A cache read goes on at column 0 behind the page's end, as a transfer, in pieces and by a log: here from column 15, five bytes to the
 * end, and seven more. At a column of P or more it is FFh throughout, and the column runs on up to 4096.
 */
static void check_round(void)
{
    static const uint8_t di[16] = {SLEET_CODE_READ_CACHE_FAST, 0x00, 15};
    static const uint8_t expected[16] = {0xFF, 0xFF, 0xFF, 0xFF, 0x4F, 0x50, 0x51, 0x52, 0x53, 0x40, 0x41, 0x42, 0x43, 0x44, 0x45, 0x46};
    static const uint16_t columns[5][2] = {{19, 0}, {20, 21}, {21, 22}, {4095, 4096}, {4096, 4096}};
    uint8_t log[34] = {SLEET_KIND_SELECT};
    sleet_geometry part = sleet_bench();
    sleet_state ready;
    sleet_state reading;
    sleet_answer answer;
    size_t i;

    erase_all();
    ready = sleet_work(part, sleet_power_up(), 20, MEMORY).state;
    for (i = 0; i < sizeof cache; i++) {
        cache[i] = (uint8_t)(0x40 + i);
    }
    answer = transfer(ready, di, sizeof di, sizeof out);
    CHECK(refused(answer, SLEET_DONE, 18, 0, 16) && memcmp(out, expected, sizeof expected) == 0 && same_state(answer.state, ready));

    memset(out, 0xEE, sizeof out);
    answer = transfer(ready, di, sizeof di, 9);
    CHECK(refused(answer, SLEET_NO_ROOM, 10, 0, 9) && answer.state.column == 0 && out[9] == 0xEE);
    reading = answer.state;
    CHECK(sleet_peek(part, reading, cache, sizeof cache).byte == 0x40);
    answer = sleet_shifts(part, reading, di + 9, 7, MEMORY, out + 9, 7);
    CHECK(refused(answer, SLEET_DONE, 7, 0, 7) && answer.state.column == 7 && memcmp(out, expected, sizeof expected) == 0);

    for (i = 0; i < sizeof di; i++) {
        log[1 + 2 * i] = SLEET_KIND_SHIFT;
        log[2 + 2 * i] = di[i];
    }
    log[33] = SLEET_KIND_DESELECT;
    memset(out, 0xEE, sizeof out);
    answer = run(ready, log, sizeof log, sizeof out);
    CHECK(refused(answer, SLEET_DONE, 18, 34, 16) && memcmp(out, expected, sizeof expected) == 0 && same_state(answer.state, ready));

    for (i = 0; i < 5; i++) {
        reading.column = columns[i][0];
        answer = sleet_shift(part, reading, 0x00, MEMORY, out, 1);
        CHECK(answer.state.column == columns[i][1] && out[0] == (columns[i][0] < 20 ? 0x53 : 0xFF));
    }
}

/* Returns the power-up state with another job, row and units done. */
static sleet_state at_work(uint8_t job, uint16_t row, size_t units)
{
    sleet_state state = sleet_power_up();

    state.job = job;
    state.row = row;
    state.units = units;
    return state;
}

/* A state is refused as it is, by the number 5. */
static void check_unsound(sleet_state state)
{
    static const uint8_t none[1] = {0};
    sleet_answer answer = run(state, none, 0, 0);

    CHECK(!sleet_state_sound(sleet_bench(), state) && sleet_units_left(sleet_bench(), state) == 0);
    CHECK(refused(answer, SLEET_BAD_STATE, 0, 0, 0) && same_state(answer.state, state));
}

/* A reset is an operation of 8 units, without a row, that touches no memory; a second one begins them again. */
static void check_resets(void)
{
    static const uint8_t reset[1] = {SLEET_CODE_RESET};
    static const uint8_t write_enable[1] = {SLEET_CODE_WRITE_ENABLE};
    sleet_geometry part = sleet_bench();
    sleet_state begun;
    sleet_answer answer;
    size_t units;

    erase_all();
    memset(cells, 0x3C, sizeof cells);
    answer = sleet_work(part, sleet_power_up(), 7, MEMORY);
    answer = transfer(answer.state, reset, sizeof reset, sizeof out);
    begun = answer.state;
    CHECK(begun.c0 == SLEET_C0_OIP && begun.job == SLEET_RESET && begun.row == 0 && begun.units == 0 && begun.a0 == SLEET_A0_BP);
    for (units = 0; units < 8; units++) {
        CHECK(answer.state.c0 == SLEET_C0_OIP && answer.state.units == units && sleet_units_left(part, answer.state) == 8 - units);
        CHECK(same_state(transfer(answer.state, reset, sizeof reset, sizeof out).state, begun));
        CHECK(transfer(answer.state, write_enable, sizeof write_enable, sizeof out).state.c0 == SLEET_C0_OIP);
        answer = sleet_work(part, answer.state, 1, MEMORY);
    }
    CHECK(answer.state.c0 == 0 && answer.state.job == SLEET_IDLE && answer.state.units == 0 && sleet_units_left(part, answer.state) == 0);
    CHECK(cells[639] == 0x3C && cache[6] == 0x3C && cache[7] == 0xFF && counts[0] == 0);

    /* Work far beyond its end, and power lost in it. */
    CHECK(same_state(sleet_work(part, begun, UINT64_MAX, MEMORY).state, answer.state));
    CHECK(same_state(sleet_power(part, begun, MEMORY).state, sleet_power_up()));

    /* From idle; WEL stays. */
    answer = transfer(answer.state, write_enable, sizeof write_enable, sizeof out);
    CHECK(answer.state.c0 == SLEET_C0_WEL);
    answer = transfer(answer.state, reset, sizeof reset, sizeof out);
    CHECK(answer.state.c0 == (SLEET_C0_OIP | SLEET_C0_WEL) && answer.state.job == SLEET_RESET && sleet_units_left(part, answer.state) == 8);

    /* What is a reset and what is none. */
    CHECK(sleet_state_sound(part, at_work(SLEET_RESET, 0, 0)) && sleet_state_sound(part, at_work(SLEET_RESET, 0, 7)));
    CHECK(sleet_units_left(part, at_work(SLEET_RESET, 0, 7)) == 1);
    check_unsound(at_work(SLEET_RESET, 0, 8));
    check_unsound(at_work(SLEET_RESET, 1, 0));
    check_unsound(at_work(5, 0, 0));
}

/* The next byte on DO, the units of an operation and the units left, and work of more than a record can say. */
static void check_questions(void)
{
    static const uint8_t di[4] = {SLEET_CODE_GET_FEATURE, SLEET_C0, 0x55, 0xAA};
    static const uint8_t expected[4] = {0xFF, 0xFF, 0x01, 0x01};
    sleet_geometry part = sleet_bench();
    sleet_geometry real = sleet_fm25s005bi3();
    sleet_geometry unsound = part;
    sleet_state wrong = sleet_power_up();
    sleet_peeked peeked;
    sleet_answer answer;
    size_t i;

    unsound.pages = 0;
    wrong.units = 20;
    CHECK(sleet_operation_length(part, SLEET_READ) == 20 && sleet_operation_length(part, SLEET_PROGRAM) == 20);
    CHECK(sleet_operation_length(part, SLEET_ERASE) == 80 && sleet_operation_length(real, SLEET_ERASE) == 139264);
    CHECK(sleet_operation_length(part, SLEET_RESET) == 8 && sleet_operation_length(real, SLEET_RESET) == 8);
    CHECK(sleet_operation_length(part, SLEET_IDLE) == 0 && sleet_operation_length(part, 5) == 0);
    CHECK(sleet_operation_length(unsound, SLEET_READ) == 0 && sleet_operation_length(unsound, SLEET_RESET) == 0);

    CHECK(sleet_units_left(part, sleet_power_up()) == 20 && sleet_units_left(real, sleet_power_up()) == 2176);
    CHECK(sleet_units_left(part, wrong) == 0 && sleet_units_left(unsound, sleet_power_up()) == 0);
    erase_all();
    answer = sleet_work(part, sleet_power_up(), 7, MEMORY);
    CHECK(sleet_units_left(part, answer.state) == 13);
    answer = sleet_work(part, answer.state, 13, MEMORY);
    CHECK(sleet_units_left(part, answer.state) == 0 && answer.state.job == SLEET_IDLE);

    /* Numbers whose low 16 or 32 bits are 0. */
    answer = sleet_work(part, sleet_power_up(), 0, MEMORY);
    CHECK(refused(answer, SLEET_DONE, 1, 3, 0) && sleet_units_left(part, answer.state) == 20);
    answer = sleet_work(part, sleet_power_up(), 0x10000, MEMORY);
    CHECK(refused(answer, SLEET_DONE, 1, 3, 0) && sleet_units_left(part, answer.state) == 0);
    answer = sleet_work(part, sleet_power_up(), UINT64_C(0x100000000), MEMORY);
    CHECK(refused(answer, SLEET_DONE, 1, 3, 0) && sleet_units_left(part, answer.state) == 0);
    answer = sleet_work(part, sleet_power_up(), UINT64_MAX, MEMORY);
    CHECK(refused(answer, SLEET_DONE, 1, 3, 0) && sleet_units_left(part, answer.state) == 0);
    answer = sleet_work(part, sleet_power_up(), UINT64_MAX, cells, 0, cache, 20, counts, 32);
    CHECK(refused(answer, SLEET_BAD_CELLS, 0, 0, 0) && same_state(answer.state, sleet_power_up()));

    answer = sleet_select(part, sleet_power_up(), MEMORY);
    for (i = 0; i < sizeof di; i++) {
        peeked = sleet_peek(part, answer.state, cache, sizeof cache);
        CHECK(peeked.refusal == SLEET_DONE && peeked.byte == expected[i]);
        answer = sleet_shift(part, answer.state, di[i], MEMORY, out, 1);
        CHECK(out[0] == expected[i]);
    }
    peeked = sleet_peek(unsound, answer.state, cache, sizeof cache);
    CHECK(peeked.refusal == SLEET_BAD_PART && peeked.byte == 0xFF);
    peeked = sleet_peek(part, answer.state, cache, sizeof cache - 1);
    CHECK(peeked.refusal == SLEET_BAD_CACHE && peeked.byte == 0xFF);
    peeked = sleet_peek(part, wrong, cache, sizeof cache);
    CHECK(peeked.refusal == SLEET_BAD_STATE && peeked.byte == 0xFF);
}

/* Returns whether the bench part's memory holds these three bytes throughout. */
static bool filled(uint8_t cell, uint8_t cached, uint8_t count)
{
    size_t i;

    for (i = 0; i < sizeof cells; i++) {
        if (cells[i] != cell || cache[i % sizeof cache] != cached || counts[i % sizeof counts] != count) {
            return false;
        }
    }
    return true;
}

static void check_blank(void)
{
    static const uint8_t none[1] = {0};
    sleet_geometry part = sleet_bench();
    sleet_geometry unsound = part;

    unsound.data = 4093;
    memset(cells, 0x11, sizeof cells);
    memset(cache, 0x22, sizeof cache);
    memset(counts, 0x33, sizeof counts);
    CHECK(sleet_blank(unsound, MEMORY) == SLEET_BAD_PART);
    CHECK(sleet_blank(part, cells, 639, cache, 20, counts, 32) == SLEET_BAD_CELLS);
    CHECK(sleet_blank(part, cells, 640, cache, 0, counts, 32) == SLEET_BAD_CACHE);
    CHECK(sleet_blank(part, cells, 640, cache, 20, counts, 33) == SLEET_BAD_COUNTS);
    CHECK(filled(0x11, 0x22, 0x33));
    CHECK(sleet_blank(part, MEMORY) == SLEET_DONE && filled(0xFF, 0xFF, 0x00));
    CHECK(refused(run(sleet_power_up(), none, 0, 0), SLEET_DONE, 0, 0, 0));
}

/* Sends a transfer to a part of the bench part's sizes. Returns the state after it. */
static sleet_state sent(sleet_geometry part, sleet_state state, const uint8_t *di, size_t length)
{
    sleet_answer answer = sleet_transfer(part, state, di, length, MEMORY, out, sizeof out);

    CHECK(refused(answer, SLEET_DONE, length + 2, 0, length));
    return answer.state;
}

/* Writes A0h. Returns the state after it. */
static sleet_state with_a0(sleet_geometry part, sleet_state state, uint8_t a0)
{
    uint8_t di[3] = {SLEET_CODE_SET_FEATURE, SLEET_A0, 0};

    di[2] = a0;
    return sent(part, state, di, sizeof di);
}

/* Returns A0h as Get Feature answers it. */
static uint8_t a0_read(sleet_geometry part, sleet_state state)
{
    static const uint8_t di[3] = {SLEET_CODE_GET_FEATURE, SLEET_A0, 0};

    sent(part, state, di, sizeof di);
    return out[2];
}

/* Returns the blocks of the bench part, a bit for each, that fail an erase, or a program of their first page. */
static unsigned failing(sleet_geometry part, sleet_state state, uint8_t code, uint8_t fail)
{
    static const uint8_t write_enable[1] = {SLEET_CODE_WRITE_ENABLE};
    uint8_t di[4] = {0};
    unsigned blocks = 0;
    unsigned block;

    for (block = 0; block < 8; block++) {
        sleet_state after;
        erase_all();
        di[0] = code;
        di[3] = (uint8_t)(4 * block);
        after = sent(part, sent(part, state, write_enable, sizeof write_enable), di, sizeof di);
        CHECK(after.c0 == fail || after.c0 == SLEET_C0_OIP);
        blocks |= after.c0 == fail ? 1u << block : 0;
    }
    return blocks;
}

/* Bit 1 of A0h is nothing on the first stepping and CMP on the second: what reads back, and which blocks are protected. */
static void check_steppings(void)
{
    static const struct {
        uint8_t a0;
        uint8_t blocks[2]; /* on the first and on the second stepping */
    } lines[] = {
        {0x00, {0x00, 0x00}}, {0x02, {0x00, 0x00}}, {0x06, {0x00, 0x00}}, /* b 0 */
        {0x08, {0x00, 0x00}}, {0x0A, {0x00, 0xFF}}, {0x0E, {0x00, 0xFF}}, /* b 1: no block of eight */
        {0x12, {0x00, 0xFF}}, {0x16, {0x00, 0xFF}}, {0x1A, {0x00, 0xFF}}, {0x1E, {0x00, 0xFF}},
        {0x20, {0x80, 0x80}}, {0x22, {0x80, 0x7F}}, {0x24, {0x01, 0x01}}, {0x26, {0x01, 0xFE}}, /* b 4: one */
        {0x2A, {0xC0, 0x3F}}, {0x2E, {0x03, 0xFC}}, {0x32, {0xF0, 0x0F}}, {0x36, {0x0F, 0xF0}},
        {0x38, {0xFF, 0xFF}}, {0x3A, {0xFF, 0xFF}}, {0x3E, {0xFF, 0xFF}}, {0xFF, {0xFF, 0xFF}}, /* b 7 */
        {0x40, {0x00, 0x00}}, {0x01, {0x00, 0x00}}, {0xA2, {0x80, 0x7F}}, {0x67, {0x01, 0xFE}}, /* with bits outside the mask */
    };
    static const uint8_t masks[2] = {0xBC, 0xBE};
    static const uint8_t reset[1] = {SLEET_CODE_RESET};
    sleet_geometry part = sleet_bench();
    sleet_state start;
    sleet_state state;
    size_t i;

    for (part.stepping = SLEET_FIRST; part.stepping <= SLEET_SECOND; part.stepping++) {
        const uint8_t mask = masks[part.stepping];
        erase_all();
        start = sleet_work(part, sleet_power_up(), 20, MEMORY).state;
        CHECK(start.a0 == 0x38 && a0_read(part, start) == 0x38);
        for (i = 0; i < sizeof lines / sizeof *lines; i++) {
            state = with_a0(part, start, lines[i].a0);
            CHECK(state.a0 == (lines[i].a0 & mask) && a0_read(part, state) == state.a0);
            CHECK(failing(part, state, SLEET_CODE_BLOCK_ERASE, SLEET_C0_E_FAIL) == lines[i].blocks[part.stepping]);
            CHECK(failing(part, state, SLEET_CODE_EXECUTE, SLEET_C0_P_FAIL) == lines[i].blocks[part.stepping]);
        }

        /* A sound state: bit 1 on the second alone, bits 6 and 0 on neither. */
        for (i = 0; i <= 0xFF; i++) {
            const bool sound = (i & ~(size_t)mask) == 0;
            sleet_answer answer;
            state = start;
            state.a0 = (uint8_t)i;
            answer = sleet_work(part, state, 1, MEMORY);
            CHECK(sleet_state_sound(part, state) == sound && same_state(answer.state, state));
            CHECK(refused(answer, sound ? SLEET_DONE : SLEET_BAD_STATE, sound, sound ? 3 : 0, 0));
        }
    }

    /* On the second: a reset leaves CMP, a power loss clears it, and with BRWD and WP# low it stays. */
    part.stepping = SLEET_SECOND;
    state = sent(part, with_a0(part, start, SLEET_A0_CMP | 0x20), reset, sizeof reset);
    CHECK(state.job == SLEET_RESET && state.a0 == 0x22 && a0_read(part, state) == 0x22);
    CHECK(same_state(sleet_power(part, state, MEMORY).state, sleet_power_up()));
    state = sleet_level(part, with_a0(part, start, SLEET_A0_BRWD | SLEET_A0_CMP | 0x20), 0, MEMORY).state;
    CHECK(state.a0 == 0xA2 && same_state(with_a0(part, state, 0x00), state));
    state = sleet_level(part, state, 1, MEMORY).state;
    CHECK(with_a0(part, state, 0x00).a0 == 0x00);
}

/* Returns whether an answer is that to no part: refusal 1, nothing done, the state as it was. */
static bool to_no_part(sleet_answer answer, sleet_state state)
{
    return refused(answer, SLEET_BAD_PART, 0, 0, 0) && same_state(answer.state, state);
}

/* Every function refuses a part with 1, before it looks at lengths, which may be short by some bytes, room and state. */
static void check_no_part(sleet_geometry part, sleet_state state, size_t cut)
{
    static const uint8_t log[] = {SLEET_KIND_SELECT, SLEET_KIND_SHIFT, SLEET_CODE_WRITE_ENABLE, SLEET_KIND_DESELECT, 0x07};
    const size_t room = cut == 0 ? sizeof out : 0;
    sleet_peeked peeked;

#define SHORT cells, sizeof cells - cut, cache, sizeof cache - cut, counts, sizeof counts - cut
    CHECK(to_no_part(sleet_run(part, state, log, sizeof log, SHORT, out, room), state));
    CHECK(to_no_part(sleet_run(part, state, log, 0, SHORT, out, room), state));
    CHECK(to_no_part(sleet_judge(part, state, log, sizeof log, SHORT, out, room).answer, state));
    CHECK(to_no_part(sleet_transfer(part, state, log, sizeof log, SHORT, out, room), state));
    CHECK(to_no_part(sleet_shifts(part, state, log, sizeof log, SHORT, out, room), state));
    CHECK(to_no_part(sleet_select(part, state, SHORT), state));
    CHECK(to_no_part(sleet_shift(part, state, 0xFF, SHORT, out, room), state));
    CHECK(to_no_part(sleet_deselect(part, state, SHORT), state));
    CHECK(to_no_part(sleet_work(part, state, UINT64_MAX, SHORT), state));
    CHECK(to_no_part(sleet_level(part, state, 0, SHORT), state));
    CHECK(to_no_part(sleet_level(part, state, 2, SHORT), state));
    CHECK(to_no_part(sleet_power(part, state, SHORT), state));
    CHECK(sleet_blank(part, SHORT) == SLEET_BAD_PART);
#undef SHORT
    peeked = sleet_peek(part, state, cache, sizeof cache - cut);
    CHECK(peeked.refusal == SLEET_BAD_PART && peeked.byte == 0xFF);
    CHECK(sleet_units_left(part, state) == 0);
}

/* A stepping above 1 stands for no part, whatever the sizes are. */
static void check_no_stepping(void)
{
    sleet_geometry part = sleet_bench();
    sleet_state state = sleet_power_up();
    sleet_state idle;
    sleet_state unsound = at_work(200, 7, SIZE_MAX);
    unsigned stepping;
    uint8_t job;
    size_t i;

    erase_all();
    idle = sleet_work(part, state, 20, MEMORY).state;
    memset(cells, 0x11, sizeof cells);
    memset(cache, 0x22, sizeof cache);
    memset(counts, 0x33, sizeof counts);
    for (stepping = 2; stepping <= 255; stepping++) {
        part = sleet_bench();
        part.stepping = (uint8_t)stepping;
        CHECK(!sleet_geometry_sound(part));
        CHECK(sleet_cells_length(part) == 0 && sleet_cache_length(part) == 0 && sleet_counts_length(part) == 0);
        for (job = SLEET_IDLE; job <= 5; job++) {
            CHECK(sleet_operation_length(part, job) == 0);
        }
        check_no_part(part, state, 0);
        check_no_part(part, idle, 20);
        check_no_part(part, unsound, 0);
        check_no_part(part, unsound, 1);

        /* States are judged as on a part of nothing, of the first stepping: no read, program or erase has a unit there. */
        CHECK(sleet_state_sound(part, idle) && sleet_state_sound(part, at_work(SLEET_RESET, 0, 7)));
        CHECK(!sleet_state_sound(part, state) && !sleet_state_sound(part, at_work(SLEET_PROGRAM, 0, 0)));
        CHECK(!sleet_state_sound(part, at_work(SLEET_ERASE, 0, 0)) && !sleet_state_sound(part, at_work(SLEET_RESET, 0, 8)));
        CHECK(!sleet_state_sound(part, unsound));
        idle.a0 = 0xBC;
        CHECK(sleet_state_sound(part, idle));
        idle.a0 = 0xBE;
        CHECK(!sleet_state_sound(part, idle));
        idle.a0 = 0x38;

        part.blocks = 0;
        check_no_part(part, state, 0);
    }
    CHECK(filled(0x11, 0x22, 0x33));
    for (i = 0; i < sizeof out; i++) {
        CHECK(out[i] == 0xEE);
    }
}

static void check_records(void)
{
    static const uint8_t expected[10] = {0x01, 0x02, 0xA5, 0x03, 0x04, 0x34, 0x12, 0x05, 0x01, 0x06};
    uint8_t log[10];
    size_t place = 0;
    uint8_t kind;
    sleet_record record;
    sleet_found found;
    sleet_wrote wrote;

    memset(log, 0xEE, sizeof log);
    for (kind = SLEET_KIND_SELECT; kind <= SLEET_KIND_POWER; kind++) {
        record.kind = kind;
        record.byte = kind == SLEET_KIND_LEVEL ? 1 : 0xA5;
        record.units = 0x1234;
        wrote = sleet_write(record, log, sizeof log, place);
        CHECK(wrote.refusal == SLEET_DONE && wrote.place > place);
        place = wrote.place;
    }
    CHECK(place == sizeof log && memcmp(log, expected, sizeof log) == 0);
    wrote = sleet_write(record, log, sizeof log, place);
    CHECK(wrote.refusal == SLEET_NO_ROOM && wrote.place == place);
    record.kind = SLEET_KIND_LEVEL;
    record.byte = 2;
    wrote = sleet_write(record, log, sizeof log, place);
    CHECK(wrote.refusal == SLEET_BAD_LEVEL && wrote.place == place);
    record.kind = 0;
    wrote = sleet_write(record, log, sizeof log, 0);
    CHECK(wrote.refusal == SLEET_BAD_KIND && wrote.place == 0);
    CHECK(memcmp(log, expected, sizeof log) == 0);

    place = 0;
    for (kind = SLEET_KIND_SELECT; kind <= SLEET_KIND_POWER; kind++) {
        found = sleet_next(log, sizeof log, place);
        CHECK(found.refusal == SLEET_DONE && found.record.kind == kind && found.place > place);
        CHECK(found.record.byte == (kind == SLEET_KIND_SHIFT ? 0xA5 : kind == SLEET_KIND_LEVEL ? 1 : 0));
        CHECK(found.record.units == (kind == SLEET_KIND_WORK ? 0x1234 : 0));
        place = found.place;
    }
    found = sleet_next(log, sizeof log, place);
    CHECK(found.refusal == SLEET_DONE && found.record.kind == 0 && found.place == place);
    found = sleet_next(log, sizeof log, 2);
    CHECK(found.refusal == SLEET_BAD_KIND && found.record.kind == 0 && found.place == 2);
    found = sleet_next(log, 6, 4);
    CHECK(found.refusal == SLEET_SHORT_BODY && found.record.kind == 0 && found.place == 4);
    log[8] = 2;
    found = sleet_next(log, sizeof log, 7);
    CHECK(found.refusal == SLEET_BAD_LEVEL && found.record.kind == 0 && found.place == 7);
}

/* Returns whether a refusal has this number. */
static bool is_refusal(unsigned number)
{
    return (number >= SLEET_BAD_PART && number <= SLEET_SHORT_MEMORY) || (number >= SLEET_BAD_CORE && number <= SLEET_BAD_CARD_BITS) ||
           number == SLEET_BAD_KEEPER;
}

static void check_texts(void)
{
    char text[SLEET_TEXT];
    unsigned number;

    for (number = 0; number <= 255; number++) {
        size_t length;
        memset(text, '#', sizeof text);
        length = sleet_text((uint8_t)number, text, sizeof text);
        CHECK(length > 0 && length < sizeof text && text[length] == '\0' && strlen(text) == length);
        CHECK(number == SLEET_DONE || (strcmp(text, "no such refusal") == 0) == !is_refusal(number));
        memset(text, '#', sizeof text);
        CHECK(sleet_text((uint8_t)number, text, length) == 0 && text[0] == '#');
    }
}

int main(void)
{
    check_parts();
    check_power_up();
    check_log();
    check_judgement();
    check_refusals();
    check_events();
    check_names();
    check_transfers();
    check_round();
    check_resets();
    check_questions();
    check_blank();
    check_steppings();
    check_no_stepping();
    check_records();
    check_texts();
    return verdict();
}
