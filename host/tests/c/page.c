/*
 * The parameter page from C (and compiled as C++ too): the pages of both parts byte by byte, the check against its definition bit by bit,
 * which copy is read, and what is refused in which order. Each check that fails is printed; the program's status is 0 if there is none.
 */
#include <stddef.h>
#include <string.h>

#include "check.h"
#include "sleetanvil.h"

SIZE_IS(sleet_sizes, 16);

enum { COPIES = SLEET_PAGE_COPIES * SLEET_PAGE_LENGTH, CHECK_AT = SLEET_PAGE_LENGTH - 2 };

/* A stretch of the datasheet's table that is not 00h. */
typedef struct stretch {
    size_t place;
    size_t length;
    const char *bytes;
} stretch;

static const stretch sheet[] = {
    {0, 4, "ONFI"},
    {8, 1, "\x06"},
    {32, 12, "FUDANMICRO  "},
    {44, 20, "FM25S005BI3         "},
    {64, 1, "\xA1"},
    {100, 1, "\x01"},
    {102, 1, "\x01"},
    {103, 1, "\x0A"},
    {105, 2, "\x05\x04"},
    {107, 1, "\x01"},
    {110, 1, "\x04"},
    {128, 1, "\x08"},
    {133, 2, "\x84\x03"},
    {135, 2, "\x10\x27"},
    {137, 1, "\x69"},
};

/* Returns the check of some bytes as the paper defines it: bit by bit, the highest first. */
static uint16_t by_bits(const uint8_t *bytes, size_t length)
{
    uint16_t sum = 0x4F4E;
    size_t i;
    int bit;

    for (i = 0; i < length; i++) {
        for (bit = 7; bit >= 0; bit--) {
            bool out = (((sum >> 15) ^ (bytes[i] >> bit)) & 1) != 0;
            sum = (uint16_t)(sum << 1);
            if (out) {
                sum ^= 0x8005;
            }
        }
    }
    return sum;
}

/* Puts a number at a place, low byte first. */
static void put(uint8_t *page, size_t place, size_t length, uint32_t number)
{
    size_t i;

    for (i = 0; i < length; i++) {
        page[place + i] = (uint8_t)(number >> 8 * i);
    }
}

/* Puts the check of bytes 0 to 253 behind them. */
static void put_check(uint8_t *page)
{
    put(page, CHECK_AT, 2, by_bits(page, CHECK_AT));
}

/* The page that a part has to have. */
static void page_of(sleet_geometry part, uint8_t *page)
{
    size_t i;

    memset(page, 0, SLEET_PAGE_LENGTH);
    for (i = 0; i < sizeof sheet / sizeof *sheet; i++) {
        memcpy(page + sheet[i].place, sheet[i].bytes, sheet[i].length);
    }
    put(page, 80, 4, part.data);
    put(page, 84, 2, part.spare);
    put(page, 92, 4, part.pages);
    put(page, 96, 4, part.blocks);
    put_check(page);
}

/* Three copies of a part's page, by the library. */
static void make_copies(sleet_geometry part, uint8_t *memory)
{
    size_t copy;

    for (copy = 0; copy < SLEET_PAGE_COPIES; copy++) {
        CHECK(sleet_page_make(part, memory + copy * SLEET_PAGE_LENGTH, COPIES - copy * SLEET_PAGE_LENGTH) == SLEET_DONE);
    }
}

/* Returns whether these sizes are a part's, read from a copy. */
static bool sizes_are(sleet_sizes found, uint8_t copy, sleet_geometry part)
{
    return found.refusal == SLEET_DONE && found.copy == copy && found.data == part.data && found.spare == part.spare &&
           found.pages == part.pages && found.blocks == part.blocks;
}

/* Returns whether reading was refused with this number, and all else is 0. */
static bool read_refused(sleet_sizes found, uint8_t refusal)
{
    return found.refusal == refusal && found.copy == 0 && found.data == 0 && found.spare == 0 && found.pages == 0 && found.blocks == 0;
}

/* Returns whether all bytes are the same. */
static bool all_are(const uint8_t *bytes, size_t length, uint8_t byte)
{
    size_t i;

    for (i = 0; i < length; i++) {
        if (bytes[i] != byte) {
            return false;
        }
    }
    return true;
}

static void check_names(void)
{
    CHECK(SLEET_NO_COPY == 10 && SLEET_SHORT_MEMORY == 11);
    CHECK(SLEET_PAGE_LENGTH == 256 && SLEET_PAGE_COPIES == 3);
    CHECK(offsetof(sleet_sizes, data) == 0 && offsetof(sleet_sizes, pages) == 4 && offsetof(sleet_sizes, blocks) == 8);
    CHECK(offsetof(sleet_sizes, spare) == 12 && offsetof(sleet_sizes, copy) == 14 && offsetof(sleet_sizes, refusal) == 15);
}

/* The check of each byte alone and behind another, of stretches of many lengths, and of what is known. */
static void check_check(void)
{
    static const uint8_t digits[9] = {'1', '2', '3', '4', '5', '6', '7', '8', '9'};
    static uint8_t bytes[1000];
    size_t i;

    CHECK(sleet_page_check(digits, sizeof digits) == 0x2771 && sleet_page_check(digits, 0) == 0x4F4E);
    for (i = 0; i < 256; i++) {
        uint8_t pair[2] = {0xA5, (uint8_t)i};
        CHECK(sleet_page_check(pair + 1, 1) == by_bits(pair + 1, 1) && sleet_page_check(pair, 2) == by_bits(pair, 2));
    }
    for (i = 0; i < sizeof bytes; i++) {
        bytes[i] = (uint8_t)(i * i / 7 + 13 * i);
    }
    for (i = 0; i <= sizeof bytes; i++) {
        CHECK(sleet_page_check(bytes, i) == by_bits(bytes, i));
    }
}

/* A page is the datasheet's, with the part's sizes, on both steppings; nothing behind it is written, whatever is lent. */
static void check_made(sleet_geometry part, uint8_t stepping, uint16_t known)
{
    static const size_t lengths[4] = {SLEET_PAGE_LENGTH, SLEET_PAGE_LENGTH + 1, COPIES, COPIES + 32};
    uint8_t wanted[SLEET_PAGE_LENGTH];
    uint8_t memory[COPIES + 32];
    size_t i;

    part.stepping = stepping;
    page_of(part, wanted);
    CHECK(wanted[CHECK_AT] == (known & 0xFF) && wanted[CHECK_AT + 1] == known >> 8);
    for (i = 0; i < sizeof lengths / sizeof *lengths; i++) {
        memset(memory, 0x5E, sizeof memory);
        CHECK(sleet_page_make(part, memory, lengths[i]) == SLEET_DONE);
        CHECK(memcmp(memory, wanted, sizeof wanted) == 0);
        CHECK(all_are(memory + SLEET_PAGE_LENGTH, sizeof memory - SLEET_PAGE_LENGTH, 0x5E));
    }
    make_copies(part, memory);
    for (i = 0; i < SLEET_PAGE_COPIES; i++) {
        CHECK(memcmp(memory + i * SLEET_PAGE_LENGTH, wanted, sizeof wanted) == 0);
    }
    CHECK(all_are(memory + COPIES, sizeof memory - COPIES, 0x5E));
    CHECK(sizes_are(sleet_page_read(memory, COPIES), 0, part) && sizes_are(sleet_page_read(memory, sizeof memory), 0, part));
}

/* 1 comes before 11, and neither changes a byte; a stepping above 1 is 1 too. */
static void check_make_refused(void)
{
    static const sleet_geometry unsound[] = {
        {0, 4, 4, 8, 0x5A, 0x01, SLEET_FIRST},
        {16, 4081, 4, 8, 0x5A, 0x01, SLEET_SECOND},
        {16, UINT32_MAX, 4, 8, 0x5A, 0x01, SLEET_FIRST},
        {16, 4, 0, 8, 0x5A, 0x01, SLEET_FIRST},
        {16, 4, 257, 8, 0x5A, 0x01, SLEET_SECOND},
        {16, 4, 4, 0, 0x5A, 0x01, SLEET_FIRST},
        {16, 4, 4, 16385, 0x5A, 0x01, SLEET_FIRST},
    };
    sleet_geometry part = sleet_bench();
    uint8_t memory[COPIES];
    unsigned stepping;
    size_t i;
    size_t length;

    memset(memory, 0x5E, sizeof memory);
    for (i = 0; i < sizeof unsound / sizeof *unsound; i++) {
        CHECK(sleet_page_make(unsound[i], memory, sizeof memory) == SLEET_BAD_PART);
        CHECK(sleet_page_make(unsound[i], memory, SLEET_PAGE_LENGTH - 1) == SLEET_BAD_PART);
        CHECK(sleet_page_make(unsound[i], memory, 0) == SLEET_BAD_PART);
    }
    for (stepping = 2; stepping <= 255; stepping++) {
        part.stepping = (uint8_t)stepping;
        CHECK(sleet_page_make(part, memory, sizeof memory) == SLEET_BAD_PART);
        CHECK(sleet_page_make(part, memory, SLEET_PAGE_LENGTH - 1) == SLEET_BAD_PART);
        CHECK(sleet_page_make(part, memory, 0) == SLEET_BAD_PART);
    }
    for (length = 0; length < SLEET_PAGE_LENGTH; length++) {
        CHECK(sleet_page_make(sleet_bench(), memory, length) == SLEET_SHORT_MEMORY);
    }
    CHECK(all_are(memory, sizeof memory, 0x5E));
}

/* The first copy that holds is read, whichever of the three are damaged and however. */
static void check_copies(void)
{
    static const size_t damages[] = {0, 3, 4, 80, 85, 99, 200, 253, 254, 255};
    sleet_geometry parts[SLEET_PAGE_COPIES];
    uint8_t memory[COPIES];
    unsigned held;
    size_t copy;
    size_t i;

    for (i = 0; i < sizeof damages / sizeof *damages; i++) {
        for (held = 0; held < 8; held++) {
            uint8_t first = SLEET_PAGE_COPIES;
            for (copy = SLEET_PAGE_COPIES; copy-- > 0;) {
                uint8_t *page = memory + copy * SLEET_PAGE_LENGTH;
                parts[copy] = sleet_bench();
                parts[copy].blocks = (uint32_t)(100 + copy);
                CHECK(sleet_page_make(parts[copy], page, SLEET_PAGE_LENGTH) == SLEET_DONE);
                if ((held >> copy & 1) != 0) {
                    first = (uint8_t)copy;
                } else {
                    page[damages[i]] ^= 0x10;
                }
            }
            if (first == SLEET_PAGE_COPIES) {
                CHECK(read_refused(sleet_page_read(memory, sizeof memory), SLEET_NO_COPY));
            } else {
                CHECK(sizes_are(sleet_page_read(memory, sizeof memory), first, parts[first]));
            }
        }
    }
}

/* Each byte of a copy counts, and each of its bits. */
static void check_every_bit(void)
{
    uint8_t memory[COPIES];
    size_t bit;

    make_copies(sleet_fm25s005bi3(), memory);
    for (bit = 0; bit < 8 * SLEET_PAGE_LENGTH; bit++) {
        uint8_t mask = (uint8_t)(1 << bit % 8);
        memory[bit / 8] ^= mask;
        CHECK(sizes_are(sleet_page_read(memory, sizeof memory), 1, sleet_fm25s005bi3()));
        memory[bit / 8] ^= mask;
    }
    CHECK(sizes_are(sleet_page_read(memory, sizeof memory), 0, sleet_fm25s005bi3()));
}

/* Signature and check are judged and nothing else: any sizes are answered as they stand, and any other byte is let be. */
static void check_judged(void)
{
    sleet_geometry part = {UINT32_MAX, 0xFFFF, 0x80000001, 0, 0, 0, SLEET_FIRST};
    uint8_t memory[COPIES];
    uint8_t kept[COPIES];

    memset(memory, 0xC3, sizeof memory);
    memcpy(memory + 256, "ONFI", 4);
    put(memory, 256 + 80, 4, part.data);
    put(memory, 256 + 84, 2, part.spare);
    put(memory, 256 + 92, 4, part.pages);
    put(memory, 256 + 96, 4, part.blocks);
    put_check(memory + 256);
    memcpy(kept, memory, sizeof kept);
    CHECK(!sleet_geometry_sound(part) && sizes_are(sleet_page_read(memory, sizeof memory), 1, part));
    CHECK(memcmp(memory, kept, sizeof kept) == 0);

    memcpy(memory + 256, "ONFJ", 4); /* a right check behind a wrong signature */
    put_check(memory + 256);
    CHECK(read_refused(sleet_page_read(memory, sizeof memory), SLEET_NO_COPY));

    make_copies(sleet_bench(), memory); /* the check of copy 0 high byte first */
    memory[CHECK_AT] = 0xF9;
    memory[CHECK_AT + 1] = 0x54;
    CHECK(sizes_are(sleet_page_read(memory, sizeof memory), 1, sleet_bench()));
}

/* 11 comes before 10; a copy that holds does not help a memory that is too short, and one behind the third is none. */
static void check_read_refused(void)
{
    uint8_t memory[(SLEET_PAGE_COPIES + 1) * SLEET_PAGE_LENGTH];
    uint8_t kept[sizeof memory];
    size_t length;

    memset(memory, 0, sizeof memory);
    CHECK(sleet_page_make(sleet_bench(), memory + COPIES, SLEET_PAGE_LENGTH) == SLEET_DONE);
    memcpy(kept, memory, sizeof kept);
    for (length = 0; length < COPIES; length++) {
        CHECK(read_refused(sleet_page_read(memory, length), SLEET_SHORT_MEMORY));
    }
    CHECK(read_refused(sleet_page_read(memory, COPIES), SLEET_NO_COPY));
    CHECK(read_refused(sleet_page_read(memory, sizeof memory), SLEET_NO_COPY));
    CHECK(memcmp(memory, kept, sizeof kept) == 0);
    make_copies(sleet_bench(), memory);
    CHECK(read_refused(sleet_page_read(memory, COPIES - 1), SLEET_SHORT_MEMORY));
    CHECK(sizes_are(sleet_page_read(memory, COPIES), 0, sleet_bench()));
}

int main(void)
{
    check_names();
    check_check();
    check_made(sleet_fm25s005bi3(), SLEET_FIRST, 0xB77C);
    check_made(sleet_fm25s005bi3(), SLEET_SECOND, 0xB77C);
    check_made(sleet_bench(), SLEET_FIRST, 0xF954);
    check_made(sleet_bench(), SLEET_SECOND, 0xF954);
    check_make_refused();
    check_copies();
    check_every_bit();
    check_judged();
    check_read_refused();
    return verdict();
}
