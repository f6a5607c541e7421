/*
 * The class `keeper` of sleetanvil.hpp: calls worked out by hand, what is refused, that a keeper is a value, and four cores that share one
 * device. Each check that fails is printed; the program's status is 0 if there is none.
 */
#include <type_traits>
#include <utility>
#include <vector>

#include "check.h"
#include "sleetanvil.hpp"

using sleetanvil::device;
using sleetanvil::granted;
using sleetanvil::keeper;
using bytes = std::vector<uint8_t>;

static_assert(std::is_trivially_copyable<keeper>::value && sizeof(keeper) == sizeof(sleet_keeper), "a keeper is a plain value");
static_assert(!std::is_convertible<sleet_keeper, keeper>::value && !std::is_convertible<granted, bool>::value, "only where asked for");
static_assert(noexcept(keeper()) && noexcept(keeper(sleet_keeper())) && noexcept(std::declval<keeper &>().add(0, 0)) &&
                  noexcept(std::declval<keeper &>().grant()) && noexcept(std::declval<const keeper &>().waiting(0)) &&
                  noexcept(std::declval<const keeper &>().value()),
              "no call throws");

/* Returns whether an answer is this transfer of this core. */
static bool is(granted answer, uint8_t core, uint8_t tag)
{
    return answer && answer.refusal == SLEET_DONE && answer.core == core && answer.tag == tag;
}

/* Returns whether an answer is this refusal. */
static bool refused(granted answer, uint8_t refusal)
{
    return !answer && answer.refusal == refusal && answer.core == 0 && answer.tag == 0;
}

/* Returns whether so many wait in the four queues. */
static bool waiting(const keeper &bus, std::size_t zero, std::size_t one, std::size_t two, std::size_t three)
{
    return bus.waiting(0) == zero && bus.waiting(1) == one && bus.waiting(2) == two && bus.waiting(3) == three;
}

static void check_made()
{
    const keeper bus;

    CHECK(same_keeper(bus.value(), sleet_keeper_new()) && waiting(bus, 0, 0, 0, 0));
    CHECK(bus.waiting(4) == 0 && bus.waiting(255) == 0);
}

/* Grants go round, and each core's transfers come in its order. */
static void check_turns()
{
    keeper bus;

    CHECK(refused(bus.grant(), SLEET_ALL_EMPTY));
    CHECK(bus.add(2, 0x21) == SLEET_DONE && bus.add(0, 0x01) == SLEET_DONE && bus.add(2, 0x22) == SLEET_DONE);
    CHECK(waiting(bus, 1, 0, 2, 0) && is(bus.grant(), 0, 0x01) && waiting(bus, 0, 0, 2, 0));
    CHECK(bus.add(0, 0x02) == SLEET_DONE && bus.add(1, 0x11) == SLEET_DONE);
    CHECK(is(bus.grant(), 1, 0x11) && is(bus.grant(), 2, 0x21) && is(bus.grant(), 0, 0x02));
    CHECK(bus.value().last == 0 && is(bus.grant(), 2, 0x22) && bus.value().last == 2);
    CHECK(bus.add(2, 0x23) == SLEET_DONE && is(bus.grant(), 2, 0x23));
    CHECK(waiting(bus, 0, 0, 0, 0) && refused(bus.grant(), SLEET_ALL_EMPTY) && bus.value().last == 2);
}

/* What is refused leaves the keeper as it was. */
static void check_refused()
{
    keeper bus;

    for (uint8_t tag = 0; tag < 8; tag++) {
        CHECK(bus.add(1, tag) == SLEET_DONE && bus.waiting(1) == tag + 1U);
    }
    const keeper full(bus);
    CHECK(bus.add(1, 8) == SLEET_QUEUE_FULL && bus.add(4, 8) == SLEET_BAD_CORE && bus.add(255, 8) == SLEET_BAD_CORE);
    CHECK(same_keeper(bus.value(), full.value()));
    for (uint8_t tag = 0; tag < 8; tag++) {
        CHECK(is(bus.grant(), 1, tag) && bus.add(1, static_cast<uint8_t>(tag + 8)) == SLEET_DONE);
    }
    CHECK(is(bus.grant(), 1, 8) && waiting(bus, 0, 7, 0, 0) && waiting(full, 0, 8, 0, 0));

    sleet_keeper unsound = full.value();
    unsound.queues[3].head = 8;
    bus = keeper(unsound);
    CHECK(bus.add(0, 1) == SLEET_BAD_KEEPER && bus.add(1, 1) == SLEET_BAD_KEEPER && bus.add(4, 1) == SLEET_BAD_KEEPER);
    CHECK(refused(bus.grant(), SLEET_BAD_KEEPER) && same_keeper(bus.value(), unsound));
}

/* A copy goes its own way; a keeper can be kept as a plain struct and come back. */
static void check_value()
{
    keeper bus;
    keeper copy;

    CHECK(bus.add(3, 0x31) == SLEET_DONE && bus.add(1, 0x11) == SLEET_DONE);
    copy = bus;
    CHECK(is(copy.grant(), 1, 0x11) && waiting(copy, 0, 0, 0, 1) && waiting(bus, 0, 1, 0, 1));
    const sleet_keeper kept = copy.value();
    CHECK(is(copy.grant(), 3, 0x31) && waiting(copy, 0, 0, 0, 0));
    keeper again(kept);
    CHECK(same_keeper(again.value(), kept) && is(again.grant(), 3, 0x31) && same_keeper(again.value(), copy.value()));
}

/* Four cores at one device: a tag is a place of a table of transfers, and each goes to the device whole. */
static void check_shared()
{
    struct transfer {
        uint8_t core;
        bytes di;
        uint8_t answer; /* the last byte on DO that it has to have */
    };
    const std::vector<transfer> transfers = {
        {0, {SLEET_CODE_SET_FEATURE, SLEET_A0, 0}, 0xFF},         // core 0 unlocks all blocks,
        {0, {SLEET_CODE_WRITE_ENABLE}, 0xFF},                     // enables writing,
        {0, {SLEET_CODE_BLOCK_ERASE, 0, 0, 4}, 0xFF},             // and erases block 1
        {1, {SLEET_CODE_READ_ID, 0, 0, 0}, 0x01},                 // core 1 asks for the identity
        {3, {SLEET_CODE_GET_FEATURE, SLEET_C0, 0}, 0x00},         // core 3 asks for the status,
        {3, {SLEET_CODE_GET_FEATURE, SLEET_C0, 0}, SLEET_C0_WEL}, // again behind core 0's write enable,
        {3, {SLEET_CODE_GET_FEATURE, SLEET_C0, 0}, SLEET_C0_OIP}, // and again behind its erase
    };
    device flash(sleet_bench());
    keeper bus;
    bytes order;

    CHECK(flash.work(20) == SLEET_DONE);
    for (uint8_t tag = 0; tag < transfers.size(); tag++) {
        CHECK(bus.add(transfers[tag].core, tag) == SLEET_DONE);
    }
    while (const granted next = bus.grant()) {
        if (next.tag >= transfers.size() || order.size() == transfers.size()) {
            break; // a transfer that nobody added
        }
        const transfer &sent = transfers[next.tag];
        bytes out(sent.di.size());
        CHECK(next.core == sent.core && flash.transfer(sent.di.data(), sent.di.size(), out.data(), out.size()) == SLEET_DONE);
        CHECK(out.back() == sent.answer);
        order.push_back(next.tag);
    }
    CHECK(order == (bytes{0, 3, 4, 1, 5, 2, 6}) && waiting(bus, 0, 0, 0, 0));
    CHECK(flash.state().job == SLEET_ERASE && flash.units_left() == 80);
}

int main()
{
    check_made();
    check_turns();
    check_refused();
    check_value();
    check_shared();
    return verdict();
}
