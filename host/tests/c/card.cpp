/*
 * The class `card` of sleetanvil.hpp: the code, what is hidden and protected, logs and their refusals, null pointers, that a card is a
 * value, and the same over spans. Each check that fails is printed; the program's status is 0 if there is none.
 */
#include <type_traits>
#include <utility>
#include <vector>

#include "check.h"
#include "sleetanvil.hpp"

using sleetanvil::card;
using sleetanvil::reply;
using bytes = std::vector<uint8_t>;

static_assert(std::is_trivially_copyable<card>::value && std::is_trivially_copyable<reply>::value, "a card is a plain value");
static_assert(!std::is_convertible<sleet_card, card>::value && !std::is_convertible<reply, bool>::value, "only where asked for");
static_assert(noexcept(card()) && noexcept(card(sleet_card(), card::cells_type(), card::bits_type())) &&
                  noexcept(std::declval<card &>().command(0, 0, 0)) && noexcept(std::declval<card &>().bytes(0, 0, 0)) &&
                  noexcept(std::declval<card &>().power()) && noexcept(std::declval<card &>().run(nullptr, 0, nullptr, 0)) &&
                  noexcept(std::declval<const card &>().is_protected(0)),
              "no call throws");

/* Returns whether a command that answers one byte answered this one. */
static bool is(const reply &answer, uint8_t byte)
{
    return answer && answer.refusal == SLEET_DONE && answer.length == 1 && answer.byte == byte && answer.bit == 0xFF;
}

/* Returns whether a read with protect bit answered these two. */
static bool is(const reply &answer, uint8_t byte, uint8_t bit)
{
    return answer && answer.refusal == SLEET_DONE && answer.length == 2 && answer.byte == byte && answer.bit == bit;
}

/* Opens a new card. */
static void open(card &slot)
{
    CHECK(is(slot.command(SLEET_CARD_COUNT, SLEET_CARD_COUNTER, 0xFE), 0xFF) && slot.stage() == SLEET_CARD_COUNTED);
    CHECK(is(slot.command(SLEET_CARD_COMPARE, SLEET_CARD_CODE, 0xFF), 0xFF) && slot.stage() == SLEET_CARD_HALF && !slot.open());
    CHECK(is(slot.command(SLEET_CARD_COMPARE, SLEET_CARD_CODE + 1, 0xFF), 0xFF) && slot.stage() == SLEET_CARD_OPEN && slot.open());
}

static void check_new()
{
    const card slot;

    CHECK(slot.stage() == SLEET_CARD_FRESH && slot.value().stage == SLEET_CARD_FRESH && !slot.open() && slot.refusal() == SLEET_DONE);
    CHECK(slot.records() == 0 && slot.used() == 0 && slot.written() == 0);
    for (const uint8_t cell : slot.cells()) {
        CHECK(cell == 0xFF);
    }
    for (const uint8_t bit : slot.bits()) {
        CHECK(bit == 0xFF);
    }
    CHECK(!slot.is_protected(0) && !slot.is_protected(1023) && !slot.is_protected(1024));
}

/* The code passes, bytes are written and protected, and a power loss closes the card. */
static void check_code()
{
    card slot;

    CHECK(is(slot.command(SLEET_CARD_WRITE, 0x2A5, 0x11), 0xFF) && slot.cells()[0x2A5] == 0xFF);
    CHECK(is(slot.command(SLEET_CARD_READ, 1022, 0), 0x00) && is(slot.command(SLEET_CARD_READ_BIT, 1023, 0), 0x00, 0x01));
    open(slot);
    CHECK(slot.records() == 1 && slot.used() == 4 && slot.written() == 1);
    CHECK(is(slot.command(SLEET_CARD_WRITE, 0x2A5, 0x11), 0xFF) && slot.cells()[0x2A5] == 0x11);
    CHECK(is(slot.bytes(0x8C, 0xA5, 0x00), 0x11, 0x01) && slot.written() == 2);
    CHECK(is(slot.command(SLEET_CARD_PROTECT, 0x2A5, 0x12), 0xFF) && !slot.is_protected(0x2A5));
    CHECK(is(slot.command(SLEET_CARD_PROTECT, 0x2A5, 0x11), 0xFF) && slot.is_protected(0x2A5) && !slot.is_protected(0x2A4));
    CHECK(is(slot.command(SLEET_CARD_WRITE_PROTECT, 0x2A4, 0x22), 0xFF) && slot.is_protected(0x2A4) && slot.cells()[0x2A4] == 0x22);
    CHECK(slot.bits()[0x54] == 0xCF && is(slot.command(SLEET_CARD_WRITE, 0x2A5, 0x00), 0xFF) && slot.cells()[0x2A5] == 0x11);
    CHECK(is(slot.command(SLEET_CARD_WRITE, SLEET_CARD_CODE, 0x12), 0xFF) && is(slot.command(SLEET_CARD_READ, 1022, 0), 0x12));
    slot.power();
    CHECK(slot.stage() == SLEET_CARD_FRESH && is(slot.command(SLEET_CARD_READ, 1022, 0), 0x00));
    CHECK(is(slot.command(SLEET_CARD_READ_BIT, 0x2A5, 0), 0x11, 0x00));

    /* A card that is put in again has its memory and nothing else. */
    card again(slot.cells(), slot.bits());
    CHECK(again.stage() == SLEET_CARD_FRESH && is(again.command(SLEET_CARD_READ_BIT, 0x2A4, 0), 0x22, 0x00));
    CHECK(again.command(SLEET_CARD_COUNT, SLEET_CARD_COUNTER, 0xFD) && again.cells()[1021] == 0xFC);
    CHECK(again.command(SLEET_CARD_COMPARE, 1022, 0x12) && again.command(SLEET_CARD_COMPARE, 1023, 0xFF) && again.open());
}

/* Of a code six bits are sent, of an address ten. */
static void check_bits_sent()
{
    card slot;

    open(slot);
    CHECK(slot.command(0xC0 | SLEET_CARD_WRITE, 5, 0x55) && slot.cells()[5] == 0x55 && slot.cells()[5 + 768] == 0xFF);
    CHECK(slot.command(SLEET_CARD_WRITE, 1024 + 6, 0x66) && slot.cells()[6] == 0x66);
    CHECK(slot.command(SLEET_CARD_WRITE, 0x3FF, 0x77) && slot.cells()[1023] == 0x77);
}

/* A stage that is not sound is refused until power is lost; memory changed by hand is what the next command sees. */
static void check_by_hand()
{
    card slot(sleet_card{4}, card().cells(), card().bits());
    uint8_t out[2] = {0xEE, 0xEE};
    const uint8_t log[] = {SLEET_KIND_POWER};
    const reply refused = slot.command(SLEET_CARD_READ, 0, 0);

    CHECK(!refused && refused.refusal == SLEET_BAD_STATE && refused.length == 0 && refused.byte == 0xFF && refused.bit == 0xFF);
    CHECK(slot.refusal() == SLEET_BAD_STATE && slot.stage() == 4 && slot.records() == 0 && slot.used() == 0 && slot.written() == 0);
    CHECK(slot.run(log, sizeof log, out, sizeof out) == SLEET_BAD_STATE && slot.stage() == 4 && out[0] == 0xEE);
    slot.power();
    CHECK(slot.run(log, sizeof log, out, sizeof out) == SLEET_DONE && slot.refusal() == SLEET_DONE);
    slot.cells()[7] = 0x70;
    slot.bits()[0] = 0x7F;
    CHECK(is(slot.command(SLEET_CARD_READ_BIT, 7, 0), 0x70, 0x00) && slot.is_protected(7));
    CHECK(card(sleet_card{SLEET_CARD_OPEN}, slot.cells(), slot.bits()).open());
}

/* A log, what is refused in it, and null pointers for buffers of no length. */
static void check_log()
{
    const bytes log = {0x20, 0xF2, 0xFD, 0xFE, 0x20, 0xCD, 0xFE, 0xFF, 0x20, 0xCD, 0xFF, 0xFF, 0x20, 0x0C, 0x05, 0x00};
    bytes out(6, 0xEE);
    card slot;

    CHECK(slot.run(log.data(), log.size(), out.data(), out.size()) == SLEET_DONE && slot.open());
    CHECK(slot.records() == 4 && slot.used() == 16 && slot.written() == 5 && (out == bytes{0xFF, 0xFF, 0xFF, 0xFF, 0x01, 0xEE}));
    slot = card();
    CHECK(slot.run(log.data(), log.size(), out.data(), 4) == SLEET_NO_ROOM && slot.open());
    CHECK(slot.records() == 3 && slot.used() == 12 && slot.written() == 3);
    slot = card();
    CHECK(slot.run(log.data(), 7, out.data(), out.size()) == SLEET_SHORT_BODY && slot.stage() == SLEET_CARD_COUNTED);
    slot = card();
    CHECK(slot.run(log.data() + 1, 4, out.data(), out.size()) == SLEET_BAD_KIND && slot.used() == 0 && slot.cells()[1021] == 0xFF);

    CHECK(slot.run(nullptr, 9, nullptr, 9) == SLEET_DONE && slot.records() == 0 && slot.written() == 0);
    CHECK(slot.run(log.data(), log.size(), nullptr, 9) == SLEET_NO_ROOM && slot.records() == 0 && slot.cells()[1021] == 0xFF);
}

/* A copy is a card of its own. */
static void check_value()
{
    card one;
    open(one);
    card other = one;

    CHECK(other.open() && other.command(SLEET_CARD_WRITE, 9, 0x99) && other.cells()[9] == 0x99 && one.cells()[9] == 0xFF);
    other.power();
    CHECK(one.open() && !other.open());
}

/* The same run over spans. */
static void check_spans()
{
#ifdef __cpp_lib_span
    const bytes log = {0x20, 0x0C, 0x00, 0x00, 0x06};
    bytes out(3, 0xEE);
    card slot;

    CHECK(slot.run(log, out) == SLEET_DONE && slot.records() == 2 && (out == bytes{0xFF, 0x01, 0xEE}));
    CHECK(slot.run(log, std::span<uint8_t>(out).first(1)) == SLEET_NO_ROOM && slot.run({}, {}) == SLEET_DONE);
#endif
}

int main()
{
    check_new();
    check_code();
    check_bits_sent();
    check_by_hand();
    check_log();
    check_value();
    check_spans();
    return verdict();
}
