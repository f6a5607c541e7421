/*
 * The class of sleetanvil.hpp: what a simulator does with a device, by transfers, by events and by logs, on the bench part and on
 * FM25S005BI3; what is refused; and that a device is a value. Each check that fails is printed; the program's status is 0 if there is none.
 */
#include <algorithm>
#include <array>
#include <cstring>
#include <type_traits>
#include <utility>
#include <vector>

#include "check.h"
#include "sleetanvil.hpp"

using sleetanvil::device;
using bytes = std::vector<uint8_t>;

static_assert(std::is_copy_constructible<device>::value && std::is_copy_assignable<device>::value, "a device is a value");
static_assert(std::is_nothrow_move_constructible<device>::value && std::is_nothrow_move_assignable<device>::value, "a move cannot fail");
static_assert(!std::is_convertible<sleet_geometry, device>::value && !std::is_convertible<device, bool>::value, "only where asked for");
static_assert(noexcept(std::declval<device &>().select()) && noexcept(std::declval<device &>().shift(0)) &&
                  noexcept(std::declval<device &>().deselect()) && noexcept(std::declval<device &>().work(0)) &&
                  noexcept(std::declval<device &>().level(0)) && noexcept(std::declval<device &>().power()) &&
                  noexcept(std::declval<device &>().transfer(nullptr, 0, nullptr, 0)) &&
                  noexcept(std::declval<device &>().shifts(nullptr, 0, nullptr, 0)) &&
                  noexcept(std::declval<device &>().run(nullptr, 0, nullptr, 0)) &&
                  noexcept(std::declval<device &>().judge(nullptr, 0, nullptr, 0)) &&
                  noexcept(std::declval<const device &>().peek()),
              "no call on the bus throws");

/* A bench part with the read of power-up done and no block protected. */
static device made_ready()
{
    static const uint8_t set_feature[] = {SLEET_CODE_SET_FEATURE, SLEET_A0, 0};
    uint8_t out[sizeof set_feature];
    device flash(sleet_bench());

    CHECK(flash.work(20) == SLEET_DONE);
    CHECK(flash.transfer(set_feature, sizeof set_feature, out, sizeof out) == SLEET_DONE && flash.state().a0 == 0);
    return flash;
}

/* Returns whether the last call had this answer. */
static bool answered(const device &flash, uint8_t refusal, std::size_t records, std::size_t used, std::size_t written)
{
    return flash.refusal() == refusal && flash.records() == records && flash.used() == used && flash.written() == written;
}

/* Returns whether two devices have the same state and memory. */
static bool same(const device &a, const device &b)
{
    return same_state(a.state(), b.state()) && a.cells() == b.cells() && a.cache() == b.cache() && a.counts() == b.counts();
}

/* A whole transfer, which has to be done. Returns the bytes on DO. */
static bytes transfer(device &flash, const bytes &di)
{
    bytes out(di.size());

    CHECK(flash.transfer(di.data(), di.size(), out.data(), out.size()) == SLEET_DONE);
    CHECK(answered(flash, SLEET_DONE, di.size() + 2, 0, di.size()) && flash.state().selected == 0);
    return out;
}

/* An instruction with a row, behind a write enable. */
static void request(device &flash, uint8_t code, uint8_t row)
{
    transfer(flash, {SLEET_CODE_WRITE_ENABLE});
    transfer(flash, {code, 0, 0, row});
}

static void check_made()
{
    device flash(sleet_bench());
    const device &constant = flash;

    CHECK(flash.refusal() == SLEET_DONE && flash.check() == SLEET_DONE && static_cast<bool>(flash));
    CHECK(answered(flash, SLEET_DONE, 0, 0, 0) && !flash.orderly());
    CHECK(same_state(constant.state(), sleet_power_up()) && constant.part().data == 16 && constant.part().id0 == 0x5A);
    CHECK(constant.cells() == bytes(640, 0xFF) && constant.cache() == bytes(20, 0xFF) && constant.counts() == bytes(32, 0));
    CHECK(constant.busy() && !constant.ready() && constant.units_left() == 20 && constant.peek() == 0xFF);
}

/* Every call on a device that cannot be used is refused with its number, and changes neither its state nor its memory. */
static void check_unusable(device flash, uint8_t refusal)
{
    static const uint8_t di[] = {0x01, 0x02, 0x0F};
    const device before(flash);
    uint8_t out[4] = {0xEE, 0xEE, 0xEE, 0xEE};

    CHECK(flash.check() == refusal && !flash && sleet_device_check(flash.handle()) == refusal);
    CHECK(flash.select() == refusal && answered(flash, refusal, 0, 0, 0));
    CHECK(flash.shift(0x0F) == 0xFF && answered(flash, refusal, 0, 0, 0));
    CHECK(flash.deselect() == refusal && answered(flash, refusal, 0, 0, 0));
    CHECK(flash.work(1) == refusal && answered(flash, refusal, 0, 0, 0));
    CHECK(flash.level(0) == refusal && answered(flash, refusal, 0, 0, 0));
    CHECK(flash.power() == refusal && answered(flash, refusal, 0, 0, 0));
    CHECK(flash.transfer(di, sizeof di, out, sizeof out) == refusal && answered(flash, refusal, 0, 0, 0));
    CHECK(flash.shifts(di, sizeof di, out, sizeof out) == refusal && answered(flash, refusal, 0, 0, 0));
    CHECK(flash.run(di, sizeof di, out, sizeof out) == refusal && answered(flash, refusal, 0, 0, 0));
    CHECK(flash.judge(di, sizeof di, out, sizeof out) == refusal && answered(flash, refusal, 0, 0, 0));
    CHECK(same(flash, before) && std::count(out, out + 4, 0xEE) == 4);
}

static void check_refused()
{
    sleet_geometry unsound = sleet_bench();
    sleet_state state = sleet_power_up();

    unsound.data = 0;
    device flash(unsound);
    CHECK(flash.refusal() == SLEET_BAD_PART && flash.cells().empty() && flash.cache().empty() && flash.counts().empty());
    CHECK(flash.peek() == 0xFF && flash.units_left() == 0);
    check_unusable(flash, SLEET_BAD_PART);

    unsound = sleet_bench();
    unsound.stepping = 2;
    flash = device(unsound);
    CHECK(flash.refusal() == SLEET_BAD_PART && flash.cells().empty() && flash.cache().empty() && flash.counts().empty());
    CHECK(flash.peek() == 0xFF && flash.units_left() == 0);
    check_unusable(flash, SLEET_BAD_PART);
    check_unusable(device(unsound, state, bytes(640), bytes(20), bytes(32)), SLEET_BAD_PART);

    flash = device(sleet_bench(), bytes(639), bytes(32));
    CHECK(flash.refusal() == SLEET_BAD_CELLS && same_state(flash.state(), state));
    check_unusable(flash, SLEET_BAD_CELLS);
    flash = device(sleet_bench(), state, bytes(640), bytes(), bytes(32));
    CHECK(flash.refusal() == SLEET_BAD_CACHE && flash.peek() == 0xFF);
    check_unusable(flash, SLEET_BAD_CACHE);
    flash = device(sleet_bench(), bytes(640), bytes(33));
    CHECK(flash.refusal() == SLEET_BAD_COUNTS);
    check_unusable(flash, SLEET_BAD_COUNTS);
    state.job = 5;
    flash = device(sleet_bench(), state, bytes(640), bytes(20), bytes(32));
    CHECK(flash.refusal() == SLEET_BAD_STATE && same_state(flash.state(), state) && flash.peek() == 0xFF);
    check_unusable(flash, SLEET_BAD_STATE);
    state.job = SLEET_RESET;
    state.row = 1;
    flash = device(sleet_bench(), state, bytes(640), bytes(20), bytes(32));
    CHECK(flash.refusal() == SLEET_BAD_STATE && same_state(flash.state(), state));
    check_unusable(flash, SLEET_BAD_STATE);

    /* Lengths that became wrong, and right again. */
    flash = device(sleet_bench());
    flash.counts().push_back(0);
    check_unusable(flash, SLEET_BAD_COUNTS);
    flash.cache().pop_back();
    check_unusable(flash, SLEET_BAD_CACHE);
    flash.cells().push_back(0xFF);
    check_unusable(flash, SLEET_BAD_CELLS);
    flash.cells().pop_back();
    flash.cache().push_back(0xFF);
    flash.counts().pop_back();
    CHECK(flash && flash.select() == SLEET_DONE);
}

/* Document 01's log, whole and one record at a time: the status register after each record, and DO. */
static void check_log()
{
    static const uint8_t log[16] = {0x04, 0x13, 0x00, 0x01, 0x02, 0x0F, 0x02, 0xC0, 0x02, 0x00, 0x04, 0x01, 0x00, 0x02, 0x00, 0x03};
    static const std::size_t ends[8] = {3, 4, 6, 8, 10, 13, 15, 16};
    static const uint8_t status[8] = {0x01, 0x01, 0x01, 0x01, 0x01, 0x00, 0x00, 0x00};
    const bytes shifted = {0xFF, 0xFF, 0x01, 0x00};
    device whole(sleet_bench());
    device flash(sleet_bench());
    bytes out(4);
    std::size_t begin = 0;
    std::size_t written = 0;

    CHECK(whole.run(log, sizeof log, out.data(), out.size()) == SLEET_DONE && answered(whole, SLEET_DONE, 8, 16, 4) && out == shifted);
    out.assign(4, 0xEE);
    for (std::size_t i = 0; i < 8; i++) {
        CHECK(flash.run(log + begin, ends[i] - begin, out.data() + written, out.size() - written) == SLEET_DONE);
        CHECK(flash.records() == 1 && flash.used() == ends[i] - begin && flash.state().c0 == status[i]);
        written += flash.written();
        begin = ends[i];
    }
    CHECK(written == 4 && out == shifted && same(flash, whole));
}

/* The same log by events. */
static void check_events()
{
    device flash(sleet_bench());

    CHECK(flash.work(19) == SLEET_DONE && answered(flash, SLEET_DONE, 1, 3, 0) && flash.busy());
    CHECK(flash.select() == SLEET_DONE && answered(flash, SLEET_DONE, 1, 1, 0) && flash.state().selected == 1);
    CHECK(flash.shift(0x0F) == 0xFF && answered(flash, SLEET_DONE, 1, 2, 1));
    CHECK(flash.shift(0xC0) == 0xFF && flash.shift(0x00) == 0x01);
    CHECK(flash.work(1) == SLEET_DONE && flash.ready());
    CHECK(flash.shift(0x00) == 0x00);
    CHECK(flash.deselect() == SLEET_DONE && answered(flash, SLEET_DONE, 1, 1, 0) && flash.state().selected == 0);
    CHECK(flash.level(0) == SLEET_DONE && flash.state().wp == 0);
    CHECK(flash.level(2) == SLEET_BAD_LEVEL && answered(flash, SLEET_BAD_LEVEL, 0, 0, 0) && flash.state().wp == 0);
    CHECK(flash.power() == SLEET_DONE && flash.state().job == SLEET_READ && flash.units_left() == 20);
}

/* Logs that stop half way, and logs that are orderly or not. */
static void check_logs()
{
    static const uint8_t bad_kind[] = {0x01, 0x02, 0x9F, 0x07};
    static const uint8_t early[] = {0x01, 0x02, 0x06, 0x03, 0x04, 0x14, 0x00};
    static const uint8_t behind[] = {0x04, 0x14, 0x00, 0x01, 0x02, 0x06, 0x03};
    uint8_t out[4];
    device flash(sleet_bench());

    CHECK(flash.run(bad_kind, sizeof bad_kind, out, sizeof out) == SLEET_BAD_KIND && answered(flash, SLEET_BAD_KIND, 2, 3, 1));
    CHECK(flash.state().instruction == SLEET_CODE_READ_ID && flash.state().count == 1);
    flash = device(sleet_bench());
    CHECK(flash.judge(early, sizeof early, out, sizeof out) == SLEET_DONE && !flash.orderly() && flash.state().c0 == 0x00);
    flash = device(sleet_bench());
    CHECK(flash.judge(behind, sizeof behind, out, sizeof out) == SLEET_DONE && flash.orderly() && flash.state().c0 == SLEET_C0_WEL);
    CHECK(flash.deselect() == SLEET_DONE && !flash.orderly());
}

/* The probe of a driver: reset, poll, work until the status is 0. A device in its reset is kept and comes back. */
static void check_probe()
{
    device flash(sleet_bench());
    const bytes get_status = {SLEET_CODE_GET_FEATURE, SLEET_C0, 0};

    transfer(flash, {SLEET_CODE_RESET});
    CHECK(flash.busy() && flash.state().job == SLEET_RESET && flash.state().row == 0 && flash.units_left() == 8);
    CHECK(transfer(flash, get_status)[2] == SLEET_C0_OIP && flash.work(7) == SLEET_DONE);
    CHECK(transfer(flash, get_status)[2] == SLEET_C0_OIP && flash.units_left() == 1);
    device kept(flash.part(), flash.state(), flash.cells(), flash.cache(), flash.counts());
    CHECK(kept && same(kept, flash) && kept.work(1) == SLEET_DONE && kept.ready() && transfer(kept, get_status)[2] == 0);
    transfer(flash, {SLEET_CODE_RESET});
    CHECK(flash.units_left() == 8 && flash.work(flash.units_left()) == SLEET_DONE && same(flash, kept));
}

/* The identity; a page programmed, read back, and erased with its block. */
static void check_transfers()
{
    device flash = made_ready();

    CHECK(transfer(flash, {SLEET_CODE_READ_ID, 0, 0, 0, 0}) == (bytes{0xFF, 0xFF, 0x5A, 0x01, 0xFF}));

    transfer(flash, {SLEET_CODE_LOAD, 0, 2, 0xDE, 0xAD});
    request(flash, SLEET_CODE_EXECUTE, 5);
    CHECK(flash.busy() && flash.units_left() == 20 && flash.work(20) == SLEET_DONE);
    CHECK(transfer(flash, {SLEET_CODE_GET_FEATURE, SLEET_C0, 0})[2] == 0);
    CHECK(flash.cells()[102] == 0xDE && flash.cells()[103] == 0xAD && flash.counts()[5] == 1);
    transfer(flash, {SLEET_CODE_PAGE_READ, 0, 0, 5});
    CHECK(flash.work(flash.units_left()) == SLEET_DONE && flash.ready());
    CHECK(transfer(flash, {SLEET_CODE_READ_CACHE, 0, 1, 0, 0, 0, 0, 0}) == (bytes{0xFF, 0xFF, 0xFF, 0xFF, 0xFF, 0xDE, 0xAD, 0xFF}));

    request(flash, SLEET_CODE_BLOCK_ERASE, 4);
    CHECK(flash.units_left() == 80 && flash.work(79) == SLEET_DONE && flash.busy());
    CHECK(flash.work(1) == SLEET_DONE && flash.ready() && flash.cells() == bytes(640, 0xFF) && flash.counts() == bytes(32, 0));
}

/* Both steppings: A0h through its mask, and 2Eh, which has CMP: of eight blocks 0 and 1 on the first, and the others on the second. */
static void check_stepping()
{
    const bytes get_protection = {SLEET_CODE_GET_FEATURE, SLEET_A0, 0};
    sleet_geometry part = sleet_bench();

    for (uint8_t stepping : {SLEET_FIRST, SLEET_SECOND}) {
        const bool second = stepping == SLEET_SECOND;
        part.stepping = stepping;
        device flash(part);
        CHECK(flash && flash.part().stepping == stepping && flash.work(20) == SLEET_DONE);
        CHECK(transfer(flash, get_protection)[2] == 0x38);
        transfer(flash, {SLEET_CODE_SET_FEATURE, SLEET_A0, 0xFF});
        CHECK(transfer(flash, get_protection)[2] == (second ? 0xBE : 0xBC));
        transfer(flash, {SLEET_CODE_SET_FEATURE, SLEET_A0, 0x2E});
        CHECK(transfer(flash, get_protection)[2] == (second ? 0x2E : 0x2C));
        for (uint8_t row = 0; row < 32; row++) {
            const bool fails = second ? row >= 8 : row < 8;
            device erased(flash);
            device programmed(flash);
            request(erased, SLEET_CODE_BLOCK_ERASE, row);
            request(programmed, SLEET_CODE_EXECUTE, row);
            CHECK(erased.state().c0 == (fails ? SLEET_C0_E_FAIL : SLEET_C0_OIP));
            CHECK(programmed.state().c0 == (fails ? SLEET_C0_P_FAIL : SLEET_C0_OIP));
        }

        /* A copy has its part's stepping; the state goes to the other stepping only without CMP. */
        const device kept(flash);
        part.stepping = second ? SLEET_FIRST : SLEET_SECOND;
        device other(part, kept.state(), kept.cells(), kept.cache(), kept.counts());
        CHECK(kept.part().stepping == stepping && other.check() == (second ? SLEET_BAD_STATE : SLEET_DONE));
        CHECK(flash.power() == SLEET_DONE && flash.state().a0 == 0x38);
    }
}

/* A cache read goes on at column 0 behind the page's end, as a transfer, in pieces, by events and by a log; one from outside does not. */
static void check_round()
{
    device flash = made_ready();
    bytes di = {SLEET_CODE_READ_CACHE, 0, 17, 0};
    bytes expected(4, 0xFF);
    bytes log = {SLEET_KIND_SELECT};

    for (std::size_t i = 0; i < 20; i++) {
        flash.cache()[i] = static_cast<uint8_t>(0x40 + i);
    }
    const device before(flash);
    for (std::size_t column = 17; column < 41; column++) { /* to the end, the whole page, and one byte more */
        di.push_back(0);
        expected.push_back(static_cast<uint8_t>(0x40 + column % 20));
    }
    for (uint8_t byte : di) {
        log.push_back(SLEET_KIND_SHIFT);
        log.push_back(byte);
    }
    log.push_back(SLEET_KIND_DESELECT);

    CHECK(transfer(flash, di) == expected && same(flash, before));

    bytes out(di.size());
    CHECK(flash.select() == SLEET_DONE && flash.shifts(di.data(), 7, out.data(), 7) == SLEET_DONE);
    CHECK(flash.state().column == 0 && flash.peek() == 0x40);
    CHECK(flash.shifts(di.data() + 7, di.size() - 7, out.data() + 7, out.size() - 7) == SLEET_DONE && flash.state().column == 1);
    CHECK(flash.deselect() == SLEET_DONE && out == expected && same(flash, before));

    CHECK(flash.select() == SLEET_DONE);
    for (std::size_t i = 0; i < di.size(); i++) {
        CHECK(flash.peek() == expected[i] && flash.shift(di[i]) == expected[i]);
    }
    CHECK(flash.deselect() == SLEET_DONE && same(flash, before));

    out.assign(di.size(), 0xEE);
    CHECK(flash.run(log.data(), log.size(), out.data(), out.size()) == SLEET_DONE && out == expected && same(flash, before));

    di[2] = 20;
    CHECK(transfer(flash, di) == bytes(di.size(), 0xFF) && same(flash, before));
}

/* A transfer without room enough is completed by shifts and a deselect; one on a chip that is selected continues the old one. */
static void check_pieces()
{
    static const uint8_t read_id[] = {SLEET_CODE_READ_ID, 0, 0, 0};
    device flash(sleet_bench());
    bytes out(4, 0xEE);

    CHECK(flash.transfer(read_id, 4, out.data(), 2) == SLEET_NO_ROOM && answered(flash, SLEET_NO_ROOM, 3, 0, 2));
    CHECK(flash.state().selected == 1 && out == (bytes{0xFF, 0xFF, 0xEE, 0xEE}));
    CHECK(flash.shifts(read_id + 2, 2, out.data() + 2, 2) == SLEET_DONE && answered(flash, SLEET_DONE, 2, 0, 2));
    CHECK(flash.deselect() == SLEET_DONE && flash.state().selected == 0 && out == (bytes{0xFF, 0xFF, 0x5A, 0x01}));

    CHECK(flash.select() == SLEET_DONE && flash.shift(SLEET_CODE_READ_ID) == 0xFF && flash.shift(0) == 0xFF);
    CHECK(transfer(flash, {SLEET_CODE_GET_FEATURE, SLEET_C0}) == (bytes{0x5A, 0x01}));
}

/* A peek is the byte of the next shift, whatever is shifted in; work takes away the units left. */
static void check_questions()
{
    static const uint8_t di[] = {SLEET_CODE_GET_FEATURE, SLEET_C0, 0x77, 0x00};
    device flash(sleet_bench());
    std::size_t left;

    CHECK(flash.select() == SLEET_DONE);
    for (uint8_t byte : di) {
        const device before(flash);
        const uint8_t peeked = flash.peek();
        device other(flash);
        CHECK(same(flash, before) && flash.shift(byte) == peeked && other.shift(static_cast<uint8_t>(~byte)) == peeked);
    }
    CHECK(flash.peek() == 0x01);
    for (left = 20; left > 0; left--) {
        CHECK(flash.units_left() == left && flash.busy() && flash.work(1) == SLEET_DONE);
    }
    CHECK(flash.units_left() == 0 && flash.ready() && flash.peek() == 0x00);
    flash = device(sleet_bench());
    CHECK(flash.work(0) == SLEET_DONE && flash.units_left() == 20 && flash.work(UINT64_C(0x100000000)) == SLEET_DONE && flash.ready());
}

/* An erase of FM25S005BI3 has 139,264 units, more than a record of a log can say. */
static void check_long_work()
{
    device flash(sleet_fm25s005bi3());

    CHECK(flash && flash.cells().size() == 71303168 && flash.work(2176) == SLEET_DONE && flash.ready());
    transfer(flash, {SLEET_CODE_SET_FEATURE, SLEET_A0, 0});
    flash.cells()[128 * 2176 - 1] = 0x00;
    request(flash, SLEET_CODE_BLOCK_ERASE, 64);
    CHECK(flash.units_left() == 139264 && flash.work(70000) == SLEET_DONE && flash.units_left() == 69264);
    CHECK(flash.work(69263) == SLEET_DONE && flash.units_left() == 1 && flash.cells()[128 * 2176 - 1] == 0x00);
    CHECK(flash.work(UINT64_MAX) == SLEET_DONE && flash.ready() && flash.cells()[128 * 2176 - 1] == 0xFF);
}

/* Copies are devices of their own, and a move takes the memory along. */
static void check_value()
{
    device flash = made_ready();
    device copy(flash);
    device assigned(sleet_fm25s005bi3());

    transfer(flash, {SLEET_CODE_LOAD, 0, 0, 0x12});
    request(flash, SLEET_CODE_EXECUTE, 0);
    CHECK(flash.work(20) == SLEET_DONE && flash.cells()[0] == 0x12 && flash.cache()[0] == 0x12 && flash.counts()[0] == 1);
    CHECK(same(copy, made_ready()) && copy.cells()[0] == 0xFF && copy.cache()[0] == 0xFF && copy.counts()[0] == 0);
    assigned = flash;
    CHECK(same(assigned, flash) && assigned.part().id0 == 0x5A);
    CHECK(assigned.select() == SLEET_DONE && assigned.state().selected == 1 && flash.state().selected == 0);
    CHECK(assigned.deselect() == SLEET_DONE);
    request(assigned, SLEET_CODE_EXECUTE, 1);
    CHECK(assigned.work(20) == SLEET_DONE && assigned.cells()[20] == 0x12 && assigned.counts()[1] == 1);
    CHECK(flash.cells()[20] == 0xFF && flash.counts()[1] == 0 && flash.state().selected == 0);

    /* What a copy does after its original is gone. */
    flash = device(sleet_bench());
    CHECK(transfer(assigned, {SLEET_CODE_READ_CACHE, 0, 0, 0, 0})[4] == 0x12);

    const uint8_t *cells = assigned.cells().data();
    device moved(std::move(assigned));
    CHECK(moved.cells().data() == cells && moved.select() == SLEET_DONE && moved.shift(SLEET_CODE_READ_ID) == 0xFF);
    check_unusable(assigned, SLEET_BAD_CELLS);
    assigned = copy;
    CHECK(same(assigned, copy) && assigned.select() == SLEET_DONE);
    copy = std::move(moved);
    CHECK(copy.cells().data() == cells && copy.shift(0) == 0xFF && copy.shift(0) == 0x5A);
}

/* Cells and page counts outlive a loss of power; a state and its memory can be kept and come back. */
static void check_kept()
{
    device flash = made_ready();
    device again(flash.part(), bytes(640, 0xA5), bytes(32, 4));

    CHECK(again && same_state(again.state(), sleet_power_up()) && again.cache() == bytes(20, 0xFF));
    CHECK(again.cells() == bytes(640, 0xA5) && again.counts() == bytes(32, 4));
    CHECK(again.work(20) == SLEET_DONE && again.cache() == bytes(20, 0xA5));
    device kept(again.part(), again.state(), again.cells(), again.cache(), again.counts());
    CHECK(kept && same(kept, again));

    /* Over the handle a device can be lent to C. */
    CHECK(sleet_device_shift(kept.handle(), 0) == 0xFF && sleet_device_select(kept.handle()) == SLEET_DONE && kept.state().selected == 1);
}

/* Null pointers stand for buffers of length 0. */
static void check_null()
{
    static const uint8_t di[] = {SLEET_CODE_READ_ID};
    const bytes none;
    bytes no_room;
    device flash = made_ready();

    CHECK(flash.run(none.data(), none.size(), no_room.data(), no_room.size()) == SLEET_DONE && answered(flash, SLEET_DONE, 0, 0, 0));
    CHECK(flash.judge(nullptr, 0, nullptr, 0) == SLEET_DONE && flash.orderly());
    CHECK(flash.transfer(nullptr, 0, nullptr, 0) == SLEET_DONE && answered(flash, SLEET_DONE, 2, 0, 0));
    CHECK(flash.shifts(nullptr, 0, nullptr, 0) == SLEET_DONE && answered(flash, SLEET_DONE, 0, 0, 0));
    CHECK(same(flash, made_ready()));
    CHECK(flash.transfer(di, 1, nullptr, 4) == SLEET_NO_ROOM && answered(flash, SLEET_NO_ROOM, 1, 0, 0) && flash.state().selected == 1);
}

/* The calls over spans, which C++20 has. */
static void check_spans()
{
#if __cplusplus >= 202002L
    static const std::array<uint8_t, 4> read_id = {SLEET_CODE_READ_ID, 0, 0, 0};
    static const std::array<uint8_t, 7> log = {0x04, 0x14, 0x00, 0x01, 0x02, 0x06, 0x03};
    device flash(sleet_bench());
    bytes out(4, 0xEE);

    CHECK(flash.transfer(read_id, out) == SLEET_DONE && out == (bytes{0xFF, 0xFF, 0x5A, 0x01}));
    CHECK(flash.transfer(read_id, std::span<uint8_t>(out).first(3)) == SLEET_NO_ROOM && flash.written() == 3);
    CHECK(flash.shifts(std::span<const uint8_t>(read_id).subspan(3), out) == SLEET_DONE && out[0] == 0x01);
    CHECK(flash.deselect() == SLEET_DONE);
    CHECK(flash.transfer(std::span<const uint8_t>(), std::span<uint8_t>()) == SLEET_DONE && flash.records() == 2);
    device other(flash);
    CHECK(flash.run(log, out) == SLEET_DONE && other.judge(log, out) == SLEET_DONE && same(flash, other));
    CHECK(flash.run(std::span<const uint8_t>(), std::span<uint8_t>()) == SLEET_DONE && flash.records() == 0);
#endif
}

int main()
{
    check_made();
    check_refused();
    check_log();
    check_events();
    check_logs();
    check_probe();
    check_transfers();
    check_stepping();
    check_round();
    check_pieces();
    check_questions();
    check_long_work();
    check_value();
    check_kept();
    check_null();
    check_spans();
    return verdict();
}
