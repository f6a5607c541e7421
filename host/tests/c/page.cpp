/*
 * The parameter page by sleetanvil.hpp: made, read, a device sized from it, what is refused, null pointers, and the same over spans. Each
 * check that fails is printed; the program's status is 0 if there is none.
 */
#include <type_traits>
#include <vector>

#include "check.h"
#include "sleetanvil.hpp"

using sleetanvil::page_check;
using sleetanvil::page_make;
using sleetanvil::page_read;
using sleetanvil::sizes;
using bytes = std::vector<uint8_t>;

static_assert(std::is_trivially_copyable<sizes>::value && !std::is_convertible<sizes, bool>::value, "a plain value, asked for by name");
static_assert(noexcept(page_make(sleet_geometry(), nullptr, 0)) && noexcept(page_read(nullptr, 0)) && noexcept(page_check(nullptr, 0)),
              "no call throws");

/* Returns the three copies of a part's page. */
static bytes copies(const sleet_geometry &part)
{
    bytes memory(SLEET_PAGE_COPIES * SLEET_PAGE_LENGTH, 0x5E);

    for (std::size_t place = 0; place < memory.size(); place += SLEET_PAGE_LENGTH) {
        CHECK(page_make(part, memory.data() + place, memory.size() - place) == SLEET_DONE);
    }
    return memory;
}

/* Returns whether an answer is this refusal. */
static bool refused(const sizes &found, uint8_t refusal)
{
    return !found && found.refusal == refusal && found.copy == 0 && found.data == 0 && found.spare == 0 && found.pages == 0 &&
           found.blocks == 0;
}

/* A device is sized from the first copy that holds. */
static void check_sized()
{
    bytes memory = copies(sleet_bench());
    const uint8_t read_id[] = {SLEET_CODE_READ_ID, 0, 0, 0};
    uint8_t out[sizeof read_id];

    CHECK(page_read(memory.data(), memory.size()).copy == 0 && page_check(memory.data(), 254) == 0xF954);
    memory[44] = 'X';
    memory[256] = 'o';
    const sizes found = page_read(memory.data(), memory.size());
    CHECK(found && found.copy == 2 && found.data == 16 && found.spare == 4 && found.pages == 4 && found.blocks == 8);
    sleetanvil::device flash(found.part(0x5A, 0x01));
    CHECK(flash && flash.work(20) == SLEET_DONE && flash.transfer(read_id, sizeof read_id, out, sizeof out) == SLEET_DONE);
    CHECK(out[2] == 0x5A && out[3] == 0x01);

    /* Of the first stepping, unless another is asked for. */
    CHECK(found.part(0x5A, 0x01).stepping == SLEET_FIRST && found.part(0x5A, 0x01, SLEET_SECOND).stepping == SLEET_SECOND);
    const uint8_t set_feature[] = {SLEET_CODE_SET_FEATURE, SLEET_A0, 0xFF};
    sleetanvil::device second(found.part(0x5A, 0x01, SLEET_SECOND));
    CHECK(flash.transfer(set_feature, sizeof set_feature, out, sizeof out) == SLEET_DONE && flash.state().a0 == 0xBC);
    CHECK(second && second.work(20) == SLEET_DONE);
    CHECK(second.transfer(set_feature, sizeof set_feature, out, sizeof out) == SLEET_DONE && second.state().a0 == 0xBE);
    CHECK(sleetanvil::device(found.part(0x5A, 0x01, 2)).check() == SLEET_BAD_PART);

    memory[512 + 255] ^= 0x80;
    CHECK(refused(page_read(memory.data(), memory.size()), SLEET_NO_COPY));
}

/* Sizes that are no part's are answered all the same, and a device of them is refused. */
static void check_unsound()
{
    bytes memory = copies(sleet_fm25s005bi3());

    CHECK(page_check(memory.data(), 254) == 0xB77C);
    memory[93] = 0x01;
    const uint16_t check = page_check(memory.data(), 254);
    memory[254] = static_cast<uint8_t>(check & 0xFF);
    memory[255] = static_cast<uint8_t>(check >> 8);
    const sizes found = page_read(memory.data(), memory.size());
    CHECK(found && found.copy == 0 && found.pages == 320);
    CHECK(sleetanvil::device(found.part(0xA1, 0xD5)).check() == SLEET_BAD_PART);
}

/* What is refused, by which number; a null pointer is a memory of length 0. */
static void check_refused()
{
    bytes memory(767);
    sleet_geometry unsound = sleet_bench();

    unsound.pages = 0;
    CHECK(page_make(unsound, memory.data(), 255) == SLEET_BAD_PART && page_make(sleet_bench(), memory.data(), 255) == SLEET_SHORT_MEMORY);
    CHECK(page_make(unsound, nullptr, 256) == SLEET_BAD_PART && page_make(sleet_bench(), nullptr, 256) == SLEET_SHORT_MEMORY);
    CHECK(memory == bytes(767) && refused(page_read(memory.data(), 767), SLEET_SHORT_MEMORY));
    CHECK(refused(page_read(nullptr, 768), SLEET_SHORT_MEMORY) && page_check(nullptr, 9) == 0x4F4E);
}

/* The same calls over spans. */
static void check_spans()
{
#ifdef __cpp_lib_span
    bytes memory(768);
    const std::span<uint8_t> all(memory);

    CHECK(refused(page_read(memory), SLEET_NO_COPY) && refused(page_read(all.first(767)), SLEET_SHORT_MEMORY));
    CHECK(page_make(sleet_bench(), all.last(255)) == SLEET_SHORT_MEMORY && page_make(sleet_bench(), all.last(256)) == SLEET_DONE);
    CHECK(page_read(memory).copy == 2 && page_check(all.subspan(512, 254)) == 0xF954 && page_check({}) == 0x4F4E);
#endif
}

int main()
{
    check_sized();
    check_unsound();
    check_refused();
    check_spans();
    return verdict();
}
