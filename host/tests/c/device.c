/*
 * The handle of sleetanvil_device.h from C (and compiled as C++ too): what a simulator does with a device, by transfers, by events and by
 * logs, on the bench part and on FM25S005BI3; and what is refused. Each check that fails is printed; the program's status is 0 if there is
 * none.
 */
#include <stdlib.h>
#include <string.h>

#include "check.h"
#include "sleetanvil_device.h"

/* The bench part's memory. */
static uint8_t cells[640];
static uint8_t cache[20];
static uint8_t counts[32];
static uint8_t out[32];

/* A bench part that was never used, at power-up. */
static sleet_device made(void)
{
    sleet_device device;

    memset(cells, 0x5A, sizeof cells);
    memset(cache, 0x5A, sizeof cache);
    memset(counts, 0x5A, sizeof counts);
    memset(out, 0xEE, sizeof out);
    CHECK(sleet_device_init(&device, sleet_bench(), cells, sizeof cells, cache, sizeof cache, counts, sizeof counts) == SLEET_DONE);
    return device;
}

/* The same, with the read of power-up done. */
static sleet_device made_ready(void)
{
    sleet_device device = made();

    CHECK(sleet_device_work(&device, 20) == SLEET_DONE);
    return device;
}

/* Returns whether a buffer holds one byte throughout. */
static bool all(const uint8_t *buffer, size_t length, uint8_t byte)
{
    size_t i;

    for (i = 0; i < length; i++) {
        if (buffer[i] != byte) {
            return false;
        }
    }
    return true;
}

/* Returns whether the last call had this answer. */
static bool answered(const sleet_device *device, uint8_t refusal, size_t records, size_t used, size_t written)
{
    return device->refusal == refusal && device->records == records && device->used == used && device->written == written;
}

/* A whole transfer of at most 32 bytes, which has to be done. The bytes on DO are in `out`. */
static void transfer(sleet_device *device, const uint8_t *di, size_t length)
{
    CHECK(sleet_device_transfer(device, di, length, out, sizeof out) == SLEET_DONE);
    CHECK(answered(device, SLEET_DONE, length + 2, 0, length) && device->state.selected == 0);
}

/* Returns the status register, asked for on the bus. */
static uint8_t status(sleet_device *device)
{
    static const uint8_t get_status[] = {SLEET_CODE_GET_FEATURE, SLEET_C0, 0};

    transfer(device, get_status, sizeof get_status);
    return out[2];
}

/* No block is protected any more. */
static void unlock(sleet_device *device)
{
    static const uint8_t set_feature[] = {SLEET_CODE_SET_FEATURE, SLEET_A0, 0};

    transfer(device, set_feature, sizeof set_feature);
}

/* An instruction with a row, behind a write enable. */
static void request(sleet_device *device, uint8_t code, uint16_t row)
{
    static const uint8_t write_enable[] = {SLEET_CODE_WRITE_ENABLE};
    uint8_t di[4] = {0};

    di[0] = code;
    di[2] = (uint8_t)(row >> 8);
    di[3] = (uint8_t)(row & 0xFF);
    transfer(device, write_enable, sizeof write_enable);
    transfer(device, di, sizeof di);
}

static void check_init(void)
{
    sleet_device device = made();

    CHECK(all(cells, sizeof cells, 0xFF) && all(cache, sizeof cache, 0xFF) && all(counts, sizeof counts, 0));
    CHECK(same_state(device.state, sleet_power_up()) && device.part.data == 16 && device.part.id0 == 0x5A);
    CHECK(device.cells == cells && device.cache == cache && device.counts == counts);
    CHECK(device.cells_length == 640 && device.cache_length == 20 && device.counts_length == 32);
    CHECK(answered(&device, SLEET_DONE, 0, 0, 0) && !device.orderly && sleet_device_check(&device) == SLEET_DONE);
    CHECK(sleet_device_busy(&device) && !sleet_device_ready(&device) && sleet_device_units_left(&device) == 20);
}

/* Every call on a device that cannot be used is refused with its number, and changes neither its state nor its memory. */
static void check_unusable(sleet_device device, uint8_t refusal)
{
    static const uint8_t bytes[] = {0x01, 0x02, 0x0F};
    sleet_state state = device.state;

    memset(out, 0xEE, sizeof out);
    CHECK(sleet_device_check(&device) == refusal);
    CHECK(sleet_device_select(&device) == refusal && answered(&device, refusal, 0, 0, 0));
    device.refusal = 0;
    CHECK(sleet_device_shift(&device, 0x0F) == 0xFF && answered(&device, refusal, 0, 0, 0));
    CHECK(sleet_device_deselect(&device) == refusal && answered(&device, refusal, 0, 0, 0));
    CHECK(sleet_device_work(&device, 1) == refusal && answered(&device, refusal, 0, 0, 0));
    CHECK(sleet_device_level(&device, 0) == refusal && answered(&device, refusal, 0, 0, 0));
    CHECK(sleet_device_level(&device, 2) == refusal && answered(&device, refusal, 0, 0, 0));
    CHECK(sleet_device_power(&device) == refusal && answered(&device, refusal, 0, 0, 0));
    CHECK(sleet_device_transfer(&device, bytes, sizeof bytes, out, 0) == refusal && answered(&device, refusal, 0, 0, 0));
    CHECK(sleet_device_shifts(&device, bytes, sizeof bytes, out, sizeof out) == refusal && answered(&device, refusal, 0, 0, 0));
    CHECK(sleet_device_run(&device, bytes, sizeof bytes, out, sizeof out) == refusal && answered(&device, refusal, 0, 0, 0));
    CHECK(sleet_device_judge(&device, bytes, sizeof bytes, out, sizeof out) == refusal && answered(&device, refusal, 0, 0, 0));
    CHECK(same_state(device.state, state));
    CHECK(all(cells, sizeof cells, 0x5A) && all(cache, sizeof cache, 0x5A) && all(counts, sizeof counts, 0x5A));
    CHECK(all(out, sizeof out, 0xEE));
}

static void check_wrong_lengths(void)
{
    sleet_geometry part = sleet_bench();
    sleet_geometry unsound = sleet_bench();
    sleet_device device;

    unsound.pages = 257;
    made();
    memset(cells, 0x5A, sizeof cells);
    memset(cache, 0x5A, sizeof cache);
    memset(counts, 0x5A, sizeof counts);

    CHECK(sleet_device_init(&device, unsound, cells, 640, cache, 20, counts, 32) == SLEET_BAD_PART);
    CHECK(same_state(device.state, sleet_power_up()));
    check_unusable(device, SLEET_BAD_PART);
    unsound = part;
    unsound.stepping = 2;
    CHECK(sleet_device_init(&device, unsound, cells, 639, cache, 20, counts, 32) == SLEET_BAD_PART);
    check_unusable(device, SLEET_BAD_PART);
    CHECK(sleet_device_peek(&device) == 0xFF && sleet_device_units_left(&device) == 0);
    CHECK(sleet_device_init(&device, part, cells, 639, cache, 20, counts, 32) == SLEET_BAD_CELLS);
    CHECK(same_state(device.state, sleet_power_up()) && device.refusal == SLEET_BAD_CELLS);
    check_unusable(device, SLEET_BAD_CELLS);
    CHECK(sleet_device_init(&device, part, cells, 640, cache, 21, counts, 32) == SLEET_BAD_CACHE);
    check_unusable(device, SLEET_BAD_CACHE);
    CHECK(sleet_device_peek(&device) == 0xFF);
    CHECK(sleet_device_init(&device, part, cells, 640, cache, 20, counts, 0) == SLEET_BAD_COUNTS);
    check_unusable(device, SLEET_BAD_COUNTS);

    /* A null pointer, as of memory that could not be had. */
    CHECK(sleet_device_init(&device, part, NULL, 640, cache, 20, counts, 32) == SLEET_BAD_CELLS);
    check_unusable(device, SLEET_BAD_CELLS);
    CHECK(sleet_device_init(&device, part, cells, 640, NULL, 20, counts, 32) == SLEET_BAD_CACHE);
    check_unusable(device, SLEET_BAD_CACHE);
    CHECK(sleet_device_peek(&device) == 0xFF);
    CHECK(sleet_device_init(&device, part, cells, 640, cache, 20, NULL, 32) == SLEET_BAD_COUNTS);
    check_unusable(device, SLEET_BAD_COUNTS);

    /* A handle that nobody filled, and lengths that became wrong. */
    memset(&device, 0, sizeof device);
    check_unusable(device, SLEET_BAD_PART);
    CHECK(sleet_device_peek(&device) == 0xFF && sleet_device_units_left(&device) == 0);
    CHECK(sleet_device_open(&device, part, sleet_power_up(), cells, 640, cache, 20, counts, 32) == SLEET_DONE);
    device.cells_length = 641;
    check_unusable(device, SLEET_BAD_CELLS);
}

static void check_open(void)
{
    static const uint8_t read_cache[] = {SLEET_CODE_READ_CACHE, 0, 0, 0, 0};
    sleet_state state = made_ready().state;
    sleet_state unsound = state;
    sleet_device device;

    memset(cells, 0x5A, sizeof cells);
    memset(cache, 0x5A, sizeof cache);
    memset(counts, 0x5A, sizeof counts);
    unsound.wp = 2;
    CHECK(sleet_device_open(&device, sleet_bench(), unsound, cells, 640, cache, 20, counts, 32) == SLEET_BAD_STATE);
    CHECK(same_state(device.state, unsound));
    check_unusable(device, SLEET_BAD_STATE);
    CHECK(sleet_device_open(&device, sleet_bench(), state, cells, 640, cache, 19, counts, 32) == SLEET_BAD_CACHE);
    check_unusable(device, SLEET_BAD_CACHE);

    /* Opened as it is: nothing is made blank. */
    CHECK(sleet_device_open(&device, sleet_bench(), state, cells, 640, cache, 20, counts, 32) == SLEET_DONE);
    CHECK(answered(&device, SLEET_DONE, 0, 0, 0) && same_state(device.state, state) && sleet_device_ready(&device));
    CHECK(all(cells, sizeof cells, 0x5A) && all(cache, sizeof cache, 0x5A) && all(counts, sizeof counts, 0x5A));
    transfer(&device, read_cache, sizeof read_cache);
    CHECK(out[4] == 0x5A);

    /* Cells and page counts that were kept: power-up, and the cache register from row 0. */
    memset(cells, 0xA5, sizeof cells);
    CHECK(sleet_device_open(&device, sleet_bench(), sleet_power_up(), cells, 640, cache, 20, counts, 32) == SLEET_DONE);
    CHECK(sleet_device_power(&device) == SLEET_DONE && all(cache, sizeof cache, 0xFF) && all(cells, sizeof cells, 0xA5));
    CHECK(same_state(device.state, sleet_power_up()));
    CHECK(sleet_device_work(&device, 20) == SLEET_DONE && all(cache, sizeof cache, 0xA5) && all(counts, sizeof counts, 0x5A));
}

/* Document 01's log, whole and one record at a time: the status register after each record, and DO. */
static void check_log(void)
{
    static const uint8_t log[16] = {0x04, 0x13, 0x00, 0x01, 0x02, 0x0F, 0x02, 0xC0, 0x02, 0x00, 0x04, 0x01, 0x00, 0x02, 0x00, 0x03};
    static const size_t ends[8] = {3, 4, 6, 8, 10, 13, 15, 16};
    static const uint8_t states[8] = {0x01, 0x01, 0x01, 0x01, 0x01, 0x00, 0x00, 0x00};
    static const uint8_t shifted[4] = {0xFF, 0xFF, 0x01, 0x00};
    sleet_device device = made();
    sleet_state end;
    size_t begin = 0;
    size_t written = 0;
    size_t i;

    CHECK(sleet_device_run(&device, log, sizeof log, out, sizeof out) == SLEET_DONE && answered(&device, SLEET_DONE, 8, 16, 4));
    CHECK(memcmp(out, shifted, sizeof shifted) == 0 && out[4] == 0xEE);
    CHECK(device.state.job == SLEET_IDLE && device.state.selected == 0);
    end = device.state;

    device = made();
    for (i = 0; i < 8; i++) {
        CHECK(sleet_device_run(&device, log + begin, ends[i] - begin, out + written, sizeof out - written) == SLEET_DONE);
        CHECK(device.records == 1 && device.used == ends[i] - begin && device.state.c0 == states[i]);
        written += device.written;
        begin = ends[i];
    }
    CHECK(written == 4 && memcmp(out, shifted, sizeof shifted) == 0 && same_state(device.state, end));
}

/* The same log by events. */
static void check_events(void)
{
    sleet_device device = made();

    CHECK(sleet_device_work(&device, 19) == SLEET_DONE && answered(&device, SLEET_DONE, 1, 3, 0) && device.state.c0 == 0x01);
    CHECK(sleet_device_select(&device) == SLEET_DONE && answered(&device, SLEET_DONE, 1, 1, 0) && device.state.selected == 1);
    CHECK(sleet_device_shift(&device, 0x0F) == 0xFF && answered(&device, SLEET_DONE, 1, 2, 1));
    CHECK(sleet_device_shift(&device, 0xC0) == 0xFF && answered(&device, SLEET_DONE, 1, 2, 1));
    CHECK(sleet_device_shift(&device, 0x00) == 0x01 && sleet_device_busy(&device));
    CHECK(sleet_device_work(&device, 1) == SLEET_DONE && sleet_device_ready(&device));
    CHECK(sleet_device_shift(&device, 0x00) == 0x00);
    CHECK(sleet_device_deselect(&device) == SLEET_DONE && answered(&device, SLEET_DONE, 1, 1, 0) && device.state.selected == 0);
    CHECK(device.state.c0 == 0x00);

    CHECK(sleet_device_level(&device, 0) == SLEET_DONE && answered(&device, SLEET_DONE, 1, 2, 0) && device.state.wp == 0);
    CHECK(sleet_device_level(&device, 2) == SLEET_BAD_LEVEL && answered(&device, SLEET_BAD_LEVEL, 0, 0, 0) && device.state.wp == 0);
    CHECK(sleet_device_power(&device) == SLEET_DONE && answered(&device, SLEET_DONE, 1, 1, 0));
    CHECK(device.state.wp == 0 && device.state.job == SLEET_READ && sleet_device_units_left(&device) == 20);
}

/* A log that stops half way: what was done before stands, in the handle too. */
static void check_stopped(void)
{
    static const uint8_t bad_kind[] = {0x01, 0x02, 0x9F, 0x07};
    static const uint8_t short_body[] = {0x01, 0x04, 0x01};
    static const uint8_t bad_level[] = {0x05, 0x00, 0x05, 0x02};
    static const uint8_t shifts[] = {0x01, 0x02, 0x0F, 0x02, 0xC0};
    sleet_device device = made();

    CHECK(sleet_device_run(&device, bad_kind, sizeof bad_kind, out, sizeof out) == SLEET_BAD_KIND);
    CHECK(answered(&device, SLEET_BAD_KIND, 2, 3, 1) && device.state.instruction == SLEET_CODE_READ_ID && device.state.count == 1);
    device = made();
    CHECK(sleet_device_run(&device, short_body, sizeof short_body, out, sizeof out) == SLEET_SHORT_BODY);
    CHECK(answered(&device, SLEET_SHORT_BODY, 1, 1, 0) && device.state.selected == 1);
    device = made();
    CHECK(sleet_device_judge(&device, bad_level, sizeof bad_level, out, sizeof out) == SLEET_BAD_LEVEL);
    CHECK(answered(&device, SLEET_BAD_LEVEL, 1, 2, 0) && device.state.wp == 0);
    device = made();
    CHECK(sleet_device_run(&device, shifts, sizeof shifts, out, 1) == SLEET_NO_ROOM);
    CHECK(answered(&device, SLEET_NO_ROOM, 2, 3, 1) && device.state.count == 1 && out[0] == 0xFF && out[1] == 0xEE);
}

/* A write enable sent while the power-up read is under way is not orderly, and one behind it is. */
static void check_judgement(void)
{
    static const uint8_t early[] = {0x01, 0x02, 0x06, 0x03, 0x04, 0x14, 0x00};
    static const uint8_t behind[] = {0x04, 0x14, 0x00, 0x01, 0x02, 0x06, 0x03};
    sleet_device device = made();

    CHECK(sleet_device_judge(&device, early, sizeof early, out, sizeof out) == SLEET_DONE && !device.orderly);
    CHECK(answered(&device, SLEET_DONE, 4, 7, 1) && device.state.c0 == 0x00);
    device = made();
    CHECK(sleet_device_judge(&device, behind, sizeof behind, out, sizeof out) == SLEET_DONE && device.orderly);
    CHECK(answered(&device, SLEET_DONE, 4, 7, 1) && device.state.c0 == SLEET_C0_WEL);
    CHECK(sleet_device_run(&device, behind, sizeof behind, out, sizeof out) == SLEET_DONE && !device.orderly);
}

static void check_read_id(void)
{
    static const uint8_t read_id[] = {SLEET_CODE_READ_ID, 0, 0, 0, 0};
    static const uint8_t expected[] = {0xFF, 0xFF, 0x5A, 0x01, 0xFF};
    sleet_device device = made();

    transfer(&device, read_id, sizeof read_id);
    CHECK(memcmp(out, expected, sizeof expected) == 0 && out[sizeof expected] == 0xEE);
}

/* The probe of a driver: reset, poll until it is done, identity, features, unlock. Between the polls the array gets on by 3 units. */
static void check_probe(void)
{
    static const uint8_t reset[] = {SLEET_CODE_RESET};
    static const uint8_t read_id[] = {SLEET_CODE_READ_ID, 0, 0, 0};
    static const uint8_t get_features[] = {SLEET_CODE_GET_FEATURE, SLEET_B0, 0};
    sleet_device device = made();
    int polls = 0;

    transfer(&device, reset, sizeof reset);
    CHECK(device.state.job == SLEET_RESET && sleet_device_busy(&device) && sleet_device_units_left(&device) == 8);
    while (polls < 10 && status(&device) == SLEET_C0_OIP) {
        CHECK(sleet_device_work(&device, 3) == SLEET_DONE);
        polls++;
    }
    CHECK(polls == 3 && status(&device) == 0 && sleet_device_ready(&device) && sleet_device_units_left(&device) == 0);
    transfer(&device, read_id, sizeof read_id);
    CHECK(out[2] == 0x5A && out[3] == 0x01);
    transfer(&device, get_features, sizeof get_features);
    CHECK(out[2] == SLEET_B0_ECC_E);
    unlock(&device);
    CHECK(device.state.a0 == 0);

    /* A driver that does not poll: its unlock is not heard, and its first program fails. */
    device = made();
    transfer(&device, reset, sizeof reset);
    unlock(&device);
    CHECK(device.state.a0 == SLEET_A0_BP && sleet_device_work(&device, 8) == SLEET_DONE && sleet_device_ready(&device));
    request(&device, SLEET_CODE_EXECUTE, 0);
    CHECK(status(&device) == SLEET_C0_P_FAIL && counts[0] == 0);
}

/* A page programmed, read back, and erased with its block. */
static void check_page(void)
{
    static const uint8_t load[] = {SLEET_CODE_LOAD, 0, 2, 0xDE, 0xAD};
    static const uint8_t page_read[] = {SLEET_CODE_PAGE_READ, 0, 0, 5};
    static const uint8_t read_cache[] = {SLEET_CODE_READ_CACHE_FAST, 0, 1, 0, 0, 0, 0, 0};
    static const uint8_t expected[] = {0xFF, 0xFF, 0xFF, 0xFF, 0xFF, 0xDE, 0xAD, 0xFF};
    sleet_device device = made_ready();

    /* Behind power-up every block is protected. */
    request(&device, SLEET_CODE_BLOCK_ERASE, 5);
    CHECK(status(&device) == SLEET_C0_E_FAIL && sleet_device_ready(&device));
    unlock(&device);

    transfer(&device, load, sizeof load);
    request(&device, SLEET_CODE_EXECUTE, 5);
    CHECK(status(&device) == SLEET_C0_OIP && device.state.job == SLEET_PROGRAM && device.state.row == 5);
    CHECK(sleet_device_units_left(&device) == 20 && sleet_device_work(&device, 20) == SLEET_DONE);
    CHECK(status(&device) == 0 && cells[102] == 0xDE && cells[103] == 0xAD && counts[5] == 1);

    transfer(&device, page_read, sizeof page_read);
    CHECK(sleet_device_work(&device, sleet_device_units_left(&device)) == SLEET_DONE && sleet_device_ready(&device));
    transfer(&device, read_cache, sizeof read_cache);
    CHECK(memcmp(out, expected, sizeof expected) == 0);

    request(&device, SLEET_CODE_BLOCK_ERASE, 4);
    CHECK(sleet_device_units_left(&device) == 80 && sleet_device_busy(&device));
    CHECK(sleet_device_work(&device, 79) == SLEET_DONE && status(&device) == SLEET_C0_OIP);
    CHECK(sleet_device_work(&device, 1) == SLEET_DONE && status(&device) == 0);
    CHECK(all(cells, sizeof cells, 0xFF) && counts[5] == 0);
}

/* Returns A0h, asked for on the bus. */
static uint8_t protection(sleet_device *device)
{
    static const uint8_t get_protection[] = {SLEET_CODE_GET_FEATURE, SLEET_A0, 0};

    transfer(device, get_protection, sizeof get_protection);
    return out[2];
}

/* A device of a stepping keeps the last block open: 22h, which has CMP. On the first stepping that is the one block protected. */
static void check_stepping(uint8_t stepping)
{
    static const uint8_t set_feature[] = {SLEET_CODE_SET_FEATURE, SLEET_A0, 0x22};
    static const uint8_t reset[] = {SLEET_CODE_RESET};
    const bool second = stepping == SLEET_SECOND;
    const uint8_t a0 = second ? 0x22 : 0x20;
    sleet_geometry part = sleet_bench();
    sleet_device device;

    part.stepping = stepping;
    CHECK(sleet_device_init(&device, part, cells, sizeof cells, cache, sizeof cache, counts, sizeof counts) == SLEET_DONE);
    CHECK(sleet_device_work(&device, 20) == SLEET_DONE && device.part.stepping == stepping && protection(&device) == 0x38);
    transfer(&device, set_feature, sizeof set_feature);
    CHECK(device.state.a0 == a0 && protection(&device) == a0);

    request(&device, SLEET_CODE_BLOCK_ERASE, 28);
    CHECK(status(&device) == (second ? SLEET_C0_OIP : SLEET_C0_E_FAIL) && sleet_device_work(&device, 80) == SLEET_DONE);
    request(&device, SLEET_CODE_BLOCK_ERASE, 27);
    CHECK(status(&device) == (second ? SLEET_C0_E_FAIL : SLEET_C0_OIP) && sleet_device_work(&device, 80) == SLEET_DONE);
    request(&device, SLEET_CODE_EXECUTE, 31);
    CHECK(status(&device) == (second ? SLEET_C0_OIP : SLEET_C0_P_FAIL) && sleet_device_work(&device, 20) == SLEET_DONE);
    request(&device, SLEET_CODE_EXECUTE, 0);
    CHECK(status(&device) == (second ? SLEET_C0_P_FAIL : SLEET_C0_OIP) && sleet_device_work(&device, 20) == SLEET_DONE);
    CHECK(counts[31] == (second ? 1 : 0) && counts[0] == (second ? 0 : 1));

    transfer(&device, reset, sizeof reset);
    CHECK(sleet_device_work(&device, 8) == SLEET_DONE && protection(&device) == a0);
    CHECK(sleet_device_power(&device) == SLEET_DONE && protection(&device) == 0x38);
}

/*
 * A cache read goes on at column 0 behind the page's end, as a transfer, in pieces, by events and by a log: here from column 17, three
 * bytes to the end, the whole page, and one byte more. From a column outside the page it is FFh throughout, and a load is dropped there.
 */
static void check_round(void)
{
    uint8_t di[28] = {SLEET_CODE_READ_CACHE, 0, 17, 0};
    static const uint8_t load[] = {SLEET_CODE_LOAD_RANDOM, 0, 19, 0x77, 0x88, 0x99};
    uint8_t expected[sizeof di];
    uint8_t log[2 * sizeof di + 2];
    sleet_device device = made_ready();
    sleet_state ready = device.state;
    size_t i;

    for (i = 0; i < sizeof cache; i++) {
        cache[i] = (uint8_t)(0x40 + i);
    }
    log[0] = SLEET_KIND_SELECT;
    for (i = 0; i < sizeof di; i++) {
        expected[i] = i < 4 ? 0xFF : (uint8_t)(0x40 + (17 + i - 4) % 20);
        log[1 + 2 * i] = SLEET_KIND_SHIFT;
        log[2 + 2 * i] = di[i];
    }
    log[sizeof log - 1] = SLEET_KIND_DESELECT;

    transfer(&device, di, sizeof di);
    CHECK(memcmp(out, expected, sizeof expected) == 0 && same_state(device.state, ready));

    memset(out, 0xEE, sizeof out);
    CHECK(sleet_device_select(&device) == SLEET_DONE && sleet_device_shifts(&device, di, 7, out, 7) == SLEET_DONE);
    CHECK(device.state.column == 0 && sleet_device_peek(&device) == 0x40);
    CHECK(sleet_device_shifts(&device, di + 7, sizeof di - 7, out + 7, sizeof out - 7) == SLEET_DONE && device.state.column == 1);
    CHECK(sleet_device_deselect(&device) == SLEET_DONE && memcmp(out, expected, sizeof expected) == 0);

    CHECK(sleet_device_select(&device) == SLEET_DONE);
    for (i = 0; i < sizeof di; i++) {
        CHECK(sleet_device_peek(&device) == expected[i] && sleet_device_shift(&device, di[i]) == expected[i]);
    }
    CHECK(sleet_device_deselect(&device) == SLEET_DONE);

    memset(out, 0xEE, sizeof out);
    CHECK(sleet_device_run(&device, log, sizeof log, out, sizeof out) == SLEET_DONE && device.written == sizeof di);
    CHECK(memcmp(out, expected, sizeof expected) == 0 && same_state(device.state, ready));

    di[2] = 20;
    transfer(&device, di, sizeof di);
    CHECK(all(out, sizeof di, 0xFF));
    transfer(&device, load, sizeof load);
    CHECK(cache[18] == 0x52 && cache[19] == 0x77 && cache[0] == 0x40 && cache[1] == 0x41);
}

/* A transfer without room enough is completed by shifts and a deselect. */
static void check_too_little_room(void)
{
    static const uint8_t read_id[] = {SLEET_CODE_READ_ID, 0, 0, 0};
    sleet_device device = made();
    size_t done;

    CHECK(sleet_device_transfer(&device, read_id, sizeof read_id, out, 2) == SLEET_NO_ROOM);
    CHECK(answered(&device, SLEET_NO_ROOM, 3, 0, 2) && device.state.selected == 1 && device.state.count == 2);
    CHECK(out[0] == 0xFF && out[1] == 0xFF && out[2] == 0xEE);
    done = device.written;
    CHECK(sleet_device_shifts(&device, read_id + done, sizeof read_id - done, out + done, 1) == SLEET_NO_ROOM);
    CHECK(answered(&device, SLEET_NO_ROOM, 1, 0, 1) && device.state.selected == 1 && out[2] == 0x5A && out[3] == 0xEE);
    done += device.written;
    CHECK(sleet_device_shifts(&device, read_id + done, sizeof read_id - done, out + done, sizeof out - done) == SLEET_DONE);
    CHECK(answered(&device, SLEET_DONE, 1, 0, 1) && device.state.selected == 1 && out[3] == 0x01 && out[4] == 0xEE);
    CHECK(sleet_device_deselect(&device) == SLEET_DONE && device.state.selected == 0);

    /* While chip select is high, shifts do nothing and answer FFh. */
    CHECK(sleet_device_shifts(&device, read_id, sizeof read_id, out, sizeof out) == SLEET_DONE);
    CHECK(answered(&device, SLEET_DONE, 4, 0, 4) && all(out, 4, 0xFF) && device.state.count == 0);
}

/* A transfer on a chip that is selected continues the old one. */
static void check_continued(void)
{
    static const uint8_t first[] = {SLEET_CODE_READ_ID, 0};
    static const uint8_t second[] = {SLEET_CODE_GET_FEATURE, SLEET_C0};
    sleet_device device = made();

    CHECK(sleet_device_select(&device) == SLEET_DONE);
    CHECK(sleet_device_shifts(&device, first, sizeof first, out, sizeof out) == SLEET_DONE);
    transfer(&device, second, sizeof second);
    CHECK(out[0] == 0x5A && out[1] == 0x01);
}

/* A peek is the byte of the next shift, whatever is shifted in, and changes nothing. */
static void check_peek(void)
{
    static const uint8_t di[] = {SLEET_CODE_GET_FEATURE, SLEET_C0, 0x77, 0x00, 0xFF};
    sleet_device device = made();
    sleet_device other;
    sleet_state before;
    uint8_t peeked;
    size_t i;

    CHECK(sleet_device_peek(&device) == 0xFF && sleet_device_select(&device) == SLEET_DONE);
    for (i = 0; i < sizeof di; i++) {
        if (i == 3) {
            CHECK(sleet_device_peek(&device) == 0x01 && sleet_device_work(&device, 20) == SLEET_DONE);
        }
        before = device.state;
        peeked = sleet_device_peek(&device);
        CHECK(same_state(device.state, before));
        other = device;
        CHECK(sleet_device_shift(&other, (uint8_t)(di[i] ^ 0xFF)) == peeked);
        CHECK(sleet_device_shift(&device, di[i]) == peeked);
        CHECK(peeked == (i < 2 ? 0xFF : i == 2 ? 0x01 : 0x00));
    }
}

static void check_units_left(void)
{
    sleet_device device = made();
    size_t left;

    for (left = 20; left > 0; left--) {
        CHECK(sleet_device_units_left(&device) == left && sleet_device_busy(&device));
        CHECK(sleet_device_work(&device, 1) == SLEET_DONE);
    }
    CHECK(sleet_device_units_left(&device) == 0 && sleet_device_ready(&device));
    CHECK(sleet_device_work(&device, 1) == SLEET_DONE && sleet_device_units_left(&device) == 0);
    device = made();
    CHECK(sleet_device_work(&device, 0) == SLEET_DONE && sleet_device_units_left(&device) == 20);
    CHECK(sleet_device_work(&device, UINT64_C(0x100000000)) == SLEET_DONE && sleet_device_units_left(&device) == 0);
}

/* An erase of FM25S005BI3 has 139,264 units, more than a record of a log can say. */
static void check_long_work(void)
{
    const size_t page = 2176;
    sleet_geometry part = sleet_fm25s005bi3();
    size_t lengths[3];
    uint8_t *memory[3];
    sleet_device device;
    size_t i;

    lengths[0] = sleet_cells_length(part);
    lengths[1] = sleet_cache_length(part);
    lengths[2] = sleet_counts_length(part);
    for (i = 0; i < 3; i++) {
        memory[i] = (uint8_t *)malloc(lengths[i]);
        CHECK(memory[i] != NULL);
        if (memory[i] == NULL) {
            return;
        }
    }
    CHECK(sleet_device_init(&device, part, memory[0], lengths[0], memory[1], lengths[1], memory[2], lengths[2]) == SLEET_DONE);
    CHECK(memory[0][lengths[0] - 1] == 0xFF && sleet_device_units_left(&device) == page);
    CHECK(sleet_device_work(&device, page) == SLEET_DONE && sleet_device_ready(&device));
    unlock(&device);

    memory[0][64 * page] = 0x00;
    memory[0][128 * page - 1] = 0x00;
    request(&device, SLEET_CODE_BLOCK_ERASE, 64);
    CHECK(sleet_device_units_left(&device) == 139264);
    CHECK(sleet_device_work(&device, 70000) == SLEET_DONE && answered(&device, SLEET_DONE, 1, 3, 0));
    CHECK(sleet_device_units_left(&device) == 69264 && memory[0][64 * page] == 0xFF && memory[0][128 * page - 1] == 0x00);
    CHECK(sleet_device_work(&device, 69263) == SLEET_DONE && sleet_device_units_left(&device) == 1 && sleet_device_busy(&device));
    CHECK(memory[0][128 * page - 1] == 0x00);
    CHECK(sleet_device_work(&device, UINT64_MAX) == SLEET_DONE && sleet_device_units_left(&device) == 0 && sleet_device_ready(&device));
    CHECK(memory[0][128 * page - 1] == 0xFF);
    for (i = 0; i < 3; i++) {
        free(memory[i]);
    }
}

/* Null pointers stand for buffers of length 0. */
static void check_null(void)
{
    static const uint8_t bytes[] = {SLEET_CODE_READ_ID, 0};
    sleet_device device = made_ready();
    sleet_state ready = device.state;

    CHECK(sleet_device_run(&device, NULL, 0, NULL, 0) == SLEET_DONE && answered(&device, SLEET_DONE, 0, 0, 0));
    CHECK(sleet_device_judge(&device, NULL, 7, NULL, 7) == SLEET_DONE && answered(&device, SLEET_DONE, 0, 0, 0) && device.orderly);
    CHECK(sleet_device_transfer(&device, NULL, 0, NULL, 0) == SLEET_DONE && answered(&device, SLEET_DONE, 2, 0, 0));
    CHECK(sleet_device_shifts(&device, NULL, 5, NULL, 5) == SLEET_DONE && answered(&device, SLEET_DONE, 0, 0, 0));
    CHECK(same_state(device.state, ready));
    CHECK(sleet_device_transfer(&device, bytes, sizeof bytes, NULL, 2) == SLEET_NO_ROOM && answered(&device, SLEET_NO_ROOM, 1, 0, 0));
    CHECK(device.state.selected == 1);
}

int main(void)
{
    check_init();
    check_wrong_lengths();
    check_open();
    check_log();
    check_events();
    check_stopped();
    check_judgement();
    check_read_id();
    check_probe();
    check_page();
    check_stepping(SLEET_FIRST);
    check_stepping(SLEET_SECOND);
    check_round();
    check_too_little_room();
    check_continued();
    check_peek();
    check_units_left();
    check_long_work();
    check_null();
    return verdict();
}
