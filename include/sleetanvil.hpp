/*
 * A device for C++11 and later: part, state and memory in one value. A keeper of the bus, for four cores that share one device. The
 * parameter page, from which boot code sizes a part. And a memory card, with its memory in one value too.
 *
 *     sleetanvil::device flash(sleet_bench());
 *     const uint8_t di[] = {SLEET_CODE_READ_ID, 0, 0, 0};
 *     uint8_t out[sizeof di];
 *     flash.transfer(di, sizeof di, out, sizeof out); // out is FFh FFh 5Ah 01h
 *
 * Who owns what. A device owns its cells, cache register and page counts, and frees them when it ends. It is a value: a copy is a device of
 * its own, and a move takes the memory along. Memory is asked for when a device is made or copied, and then alone; only that can throw
 * (std::bad_alloc). All calls on the bus are noexcept. `di`, `log` and `out` are lent for the length of a call and may not overlap; a null
 * pointer stands for a buffer of length 0, whatever length is given with it, so that an empty vector or span may be handed over.
 *
 * How refusals show. As in sleetanvil_device.h, over which the class is written: a call on the bus returns the refusal number, 0 where all
 * was done; `shift` returns the byte on DO, FFh where it is refused; the rest of the answer stands in the device until the next call on the
 * bus (`refusal`, `records`, `used`, `written`, `orderly`).
 *
 * The second stepping. Take a part whose `stepping` is SLEET_SECOND; `part(id0, id1, SLEET_SECOND)` of `sizes` makes one from a page.
 *
 * A part that is not sound. Making a device of it does not throw: the device is there, without memory, and every call on it is refused with
 * 1. In the same way memory of a wrong length is refused with 2 to 4 and an unsound state with 5. `refusal` says so right after the device
 * was made, `check` and the test `if (flash)` at any time. On a device that `check` finds good, select, shift, deselect, work and power are
 * never refused, level only with 8, transfer and shifts only with 9, run and judge only with 6 to 9. A device that was moved from has no
 * memory left: its calls are refused until it is given a new value.
 *
 * Four cores at one device. What sleetanvil.h says of a keeper of the bus holds for the class `keeper`:
 *
 *     sleetanvil::keeper bus;
 *     bus.add(2, 0x21); // core 2 waits with transfer 21h
 *     bus.add(0, 0x07);
 *     while (const sleetanvil::granted next = bus.grant()) {
 *         // the transfer next.tag of core next.core may go to the device: 07h of core 0, then 21h of core 2
 *     }
 *
 * A keeper is a value of a few bytes, and none of its calls throws. `add` returns the refusal number; `grant` returns it with the core and
 * the tag. A keeper that is made of a struct which is not sound is there, and each `add` and `grant` of it is refused with 20.
 *
 * The parameter page. What sleetanvil.h says of it holds for `page_make`, `page_read` and `page_check`; none of them throws. The memory is
 * lent for the length of a call, and here too a null pointer stands for a memory of length 0:
 *
 *     if (const sleetanvil::sizes found = sleetanvil::page_read(memory.data(), memory.size())) {
 *         sleetanvil::device flash(found.part(0xA1, 0xD5)); // check it: the page need not hold a sound geometry
 *     }
 *
 * The card slot. What sleetanvil.h says of a card holds for the class `card`:
 *
 *     sleetanvil::card card; // a new one: its code is FFh FFh
 *     card.command(SLEET_CARD_COUNT, SLEET_CARD_COUNTER, 0xFE);
 *     card.command(SLEET_CARD_COMPARE, SLEET_CARD_CODE, 0xFF);
 *     card.command(SLEET_CARD_COMPARE, SLEET_CARD_CODE + 1, 0xFF);
 *     card.command(SLEET_CARD_WRITE, 5, 0xA5); // card.open() is true, and card.cells()[5] is A5h
 *
 * A card is a value of some 1,200 bytes, and none of its calls throws. Its memory has the right lengths, so that 17 and 18 are never given.
 * A card that is made of a struct which is not sound is there, and each `command` and `run` of it is refused with 5 until power is lost.
 */
#ifndef SLEETANVIL_HPP
#define SLEETANVIL_HPP

#include <array>
#include <cstddef>
#include <utility>
#include <vector>

#if __cplusplus > 201703L && defined(__has_include)
#if __has_include(<span>)
#include <span>
#endif
#endif

#include "sleetanvil_device.h"

namespace sleetanvil {

class device {
public:
    /* ---- making a device ---- */

    /* A device of a part that was never used, at power-up: cells and cache register FFh, page counts 0. */
    explicit device(sleet_geometry part)
        : device_(), cells_(sleet_cells_length(part)), cache_(sleet_cache_length(part)), counts_(sleet_counts_length(part))
    {
        sleet_device_init(&device_, part, cells_.data(), cells_.size(), cache_.data(), cache_.size(), counts_.data(), counts_.size());
    }

    /* A device at power-up whose cells and page counts outlived the loss of power; the cache register is FFh. */
    device(sleet_geometry part, std::vector<uint8_t> cells, std::vector<uint8_t> counts)
        : device(part, sleet_power_up(), std::move(cells), std::vector<uint8_t>(sleet_cache_length(part), 0xFF), std::move(counts))
    {
    }

    /* A device in any state, with its memory as it is. */
    device(sleet_geometry part, sleet_state state, std::vector<uint8_t> cells, std::vector<uint8_t> cache,
           std::vector<uint8_t> counts) noexcept
        : device_(), cells_(std::move(cells)), cache_(std::move(cache)), counts_(std::move(counts))
    {
        sleet_device_open(&device_, part, state, cells_.data(), cells_.size(), cache_.data(), cache_.size(), counts_.data(),
                          counts_.size());
    }

    /* ---- one event at a time ---- */

    /* Chip select falls. Returns the refusal number. */
    uint8_t select() noexcept
    {
        return sleet_device_select(handle());
    }

    /* One byte in on DI. Returns the byte on DO; FFh where it is refused. */
    uint8_t shift(uint8_t byte) noexcept
    {
        return sleet_device_shift(handle(), byte);
    }

    /* Chip select rises. Returns the refusal number. */
    uint8_t deselect() noexcept
    {
        return sleet_device_deselect(handle());
    }

    /* Array work of any number of units. Returns the refusal number. */
    uint8_t work(uint64_t units) noexcept
    {
        return sleet_device_work(handle(), units);
    }

    /* WP# at a level, 0 low or 1 high. Returns the refusal number: 8 for a level above 1. */
    uint8_t level(uint8_t level) noexcept
    {
        return sleet_device_level(handle(), level);
    }

    /* Power lost and back. Returns the refusal number. */
    uint8_t power() noexcept
    {
        return sleet_device_power(handle());
    }

    /* ---- many bytes in one call ---- */

    /*
     * A whole transfer: chip select falls, `length` bytes of `di` go in and as many come out to `out`, chip select rises. Returns the
     * refusal number. It is 9 where out_length is less than `length`: written() bytes were shifted, and the chip is left selected. Complete
     * it by `shifts` with the bytes that are left, and `deselect`. On a chip that is selected already, the bytes continue the old transfer.
     */
    uint8_t transfer(const uint8_t *di, std::size_t length, uint8_t *out, std::size_t out_length) noexcept
    {
        return sleet_device_transfer(handle(), di, length, out, out_length);
    }

    /* A piece of a transfer: the bytes alone, with chip select as it is. Returns the refusal number, 9 as `transfer` does. */
    uint8_t shifts(const uint8_t *di, std::size_t length, uint8_t *out, std::size_t out_length) noexcept
    {
        return sleet_device_shifts(handle(), di, length, out, out_length);
    }

    /* Runs a log. Returns the refusal number; records(), used() and written() say how far it came. */
    uint8_t run(const uint8_t *log, std::size_t log_length, uint8_t *out, std::size_t out_length) noexcept
    {
        return sleet_device_run(handle(), log, log_length, out, out_length);
    }

    /* Runs a log as `run` does; orderly() then says whether it was orderly. Returns the refusal number: look at it first. */
    uint8_t judge(const uint8_t *log, std::size_t log_length, uint8_t *out, std::size_t out_length) noexcept
    {
        return sleet_device_judge(handle(), log, log_length, out, out_length);
    }

#ifdef __cpp_lib_span
    /* The same four over spans. */

    uint8_t transfer(std::span<const uint8_t> di, std::span<uint8_t> out) noexcept
    {
        return transfer(di.data(), di.size(), out.data(), out.size());
    }

    uint8_t shifts(std::span<const uint8_t> di, std::span<uint8_t> out) noexcept
    {
        return shifts(di.data(), di.size(), out.data(), out.size());
    }

    uint8_t run(std::span<const uint8_t> log, std::span<uint8_t> out) noexcept
    {
        return run(log.data(), log.size(), out.data(), out.size());
    }

    uint8_t judge(std::span<const uint8_t> log, std::span<uint8_t> out) noexcept
    {
        return judge(log.data(), log.size(), out.data(), out.size());
    }
#endif

    /* ---- the answer of the last call on the bus, or of the making ---- */

    /* The refusal number. */
    uint8_t refusal() const noexcept
    {
        return device_.refusal;
    }

    /* Records done. */
    std::size_t records() const noexcept
    {
        return device_.records;
    }

    /* Log bytes used. */
    std::size_t used() const noexcept
    {
        return device_.used;
    }

    /* Output bytes written. */
    std::size_t written() const noexcept
    {
        return device_.written;
    }

    /* Where the last call was `judge`: whether its log was orderly, of a refused one as far as it was done. False after any other call. */
    bool orderly() const noexcept
    {
        return device_.orderly;
    }

    /* ---- questions, which change nothing ---- */

    /* Whether the device can be used. Returns 0, or the number 1 to 5 with which every call on the bus will be refused. */
    uint8_t check() const noexcept
    {
        if (!sleet_geometry_sound(device_.part)) {
            return SLEET_BAD_PART;
        }
        if (cells_.size() != sleet_cells_length(device_.part)) {
            return SLEET_BAD_CELLS;
        }
        if (cache_.size() != sleet_cache_length(device_.part)) {
            return SLEET_BAD_CACHE;
        }
        if (counts_.size() != sleet_counts_length(device_.part)) {
            return SLEET_BAD_COUNTS;
        }
        return sleet_state_sound(device_.part, device_.state) ? SLEET_DONE : SLEET_BAD_STATE;
    }

    /* Whether `check` finds the device good. */
    explicit operator bool() const noexcept
    {
        return check() == SLEET_DONE;
    }

    /* The byte that the next shift will put on DO, whatever is shifted in; FFh where part, cache register or state is refused. */
    uint8_t peek() const noexcept
    {
        return cache_.empty() ? 0xFF : sleet_peek(device_.part, device_.state, cache_.data(), cache_.size()).byte;
    }

    /* Whether an operation is in progress: OIP in the status register. */
    bool busy() const noexcept
    {
        return sleet_device_busy(&device_);
    }

    /* Whether the array is idle. */
    bool ready() const noexcept
    {
        return sleet_device_ready(&device_);
    }

    /* How many units of work the operation in progress has left; 0 while the array is idle. */
    std::size_t units_left() const noexcept
    {
        return sleet_device_units_left(&device_);
    }

    /* ---- what the device is made of ---- */

    /* The part. */
    const sleet_geometry &part() const noexcept
    {
        return device_.part;
    }

    /* The state after the last call. */
    const sleet_state &state() const noexcept
    {
        return device_.state;
    }

    /*
     * Cells, cache register and page counts. They may be changed between calls, for faults that no driver makes; with another length every
     * call is refused with 2, 3 or 4.
     */
    const std::vector<uint8_t> &cells() const noexcept
    {
        return cells_;
    }

    std::vector<uint8_t> &cells() noexcept
    {
        return cells_;
    }

    const std::vector<uint8_t> &cache() const noexcept
    {
        return cache_;
    }

    std::vector<uint8_t> &cache() noexcept
    {
        return cache_;
    }

    const std::vector<uint8_t> &counts() const noexcept
    {
        return counts_;
    }

    std::vector<uint8_t> &counts() noexcept
    {
        return counts_;
    }

    /*
     * The device as a handle for C code. It is good until the device is moved, given a new value or ended, or one of its vectors is changed
     * in length; what C does by it is done to this device.
     */
    sleet_device *handle() noexcept
    {
        device_.cells = cells_.data();
        device_.cells_length = cells_.size();
        device_.cache = cache_.data();
        device_.cache_length = cache_.size();
        device_.counts = counts_.data();
        device_.counts_length = counts_.size();
        return &device_;
    }

private:
    sleet_device device_; /* its pointers are those of the vectors from `handle` on, and not looked at before */
    std::vector<uint8_t> cells_;
    std::vector<uint8_t> cache_;
    std::vector<uint8_t> counts_;
};

/* What a keeper answers to `grant`. */
struct granted {
    uint8_t refusal; /* 0; or, the first that holds: 20, 16 */
    uint8_t core;    /* whose transfer it is; 0 where it is refused */
    uint8_t tag;     /* the transfer; 0 where it is refused */

    /* Whether a transfer was granted. */
    explicit operator bool() const noexcept
    {
        return refusal == SLEET_DONE;
    }
};

class keeper {
public:
    /* Four empty queues; the first grant looks from core 0. */
    keeper() noexcept : keeper_(sleet_keeper_new())
    {
    }

    /* A keeper as it is. */
    explicit keeper(const sleet_keeper &value) noexcept : keeper_(value)
    {
    }

    /* Adds a transfer at the back of a core's queue. Returns the refusal number: 14 for a core above 3, 15 where eight wait there. */
    uint8_t add(uint8_t core, uint8_t tag) noexcept
    {
        const sleet_added added = sleet_keeper_add(keeper_, core, tag);

        keeper_ = added.keeper;
        return added.refusal;
    }

    /*
     * Takes the transfer that is next: the front of the first queue that is not empty, from the core after the last granted, round from 3
     * to 0. Refused with 16 where no transfer waits.
     */
    granted grant() noexcept
    {
        const sleet_granted answer = sleet_keeper_grant(keeper_);

        keeper_ = answer.keeper;
        return {answer.refusal, answer.core, answer.tag};
    }

    /* How many transfers wait in a core's queue; none for a core above 3. */
    std::size_t waiting(uint8_t core) const noexcept
    {
        return core < 4 ? keeper_.queues[core].length : 0;
    }

    /* The keeper as a plain struct. */
    const sleet_keeper &value() const noexcept
    {
        return keeper_;
    }

private:
    sleet_keeper keeper_;
};

/* What `page_read` answers. */
struct sizes {
    uint8_t refusal; /* 0; or, the first that holds: 11, 10. All else is then 0 */
    uint8_t copy;    /* the copy that the four were read from: 0, 1 or 2 */
    uint32_t data;   /* D, data bytes per page */
    uint16_t spare;  /* S, spare bytes per page */
    uint32_t pages;  /* K, pages per block */
    uint32_t blocks; /* N, blocks */

    /* Whether a copy was found that holds. */
    explicit operator bool() const noexcept
    {
        return refusal == SLEET_DONE;
    }

    /* The part of these sizes, sound or not, with the two bytes that Read ID answers and a stepping, which no page names. */
    sleet_geometry part(uint8_t id0, uint8_t id1, uint8_t stepping = SLEET_FIRST) const noexcept
    {
        return {data, spare, pages, blocks, id0, id1, stepping};
    }
};

/*
 * Makes the parameter page of a part in bytes 0 to 255 of the memory; those behind stay. Returns the refusal number: 1 for a part that is
 * not sound, then 11 for a memory of fewer than 256 bytes.
 */
inline uint8_t page_make(const sleet_geometry &part, uint8_t *memory, std::size_t length) noexcept
{
    return sleet_page_make(part, sleet_device_lent_(memory), sleet_device_length_(memory, length));
}

/*
 * Reads the sizes of a part from the first of the three copies whose signature and check hold. Refused with 11 for a memory of fewer than
 * 768 bytes, then with 10 where no copy holds.
 */
inline sizes page_read(const uint8_t *memory, std::size_t length) noexcept
{
    const sleet_sizes found = sleet_page_read(sleet_device_given_(memory), sleet_device_length_(memory, length));

    return {found.refusal, found.copy, found.data, found.spare, found.pages, found.blocks};
}

/* The check of any bytes; that of bytes 0 to 253 of a page is stored in its last two. */
inline uint16_t page_check(const uint8_t *bytes, std::size_t length) noexcept
{
    return sleet_page_check(sleet_device_given_(bytes), sleet_device_length_(bytes, length));
}

#ifdef __cpp_lib_span
/* The same three over spans. */

inline uint8_t page_make(const sleet_geometry &part, std::span<uint8_t> memory) noexcept
{
    return page_make(part, memory.data(), memory.size());
}

inline sizes page_read(std::span<const uint8_t> memory) noexcept
{
    return page_read(memory.data(), memory.size());
}

inline uint16_t page_check(std::span<const uint8_t> bytes) noexcept
{
    return page_check(bytes.data(), bytes.size());
}
#endif

/* What a card answers to a command. */
struct reply {
    uint8_t refusal; /* 0; or 5, for a card whose stage is not sound */
    uint8_t length;  /* bytes answered: 1, or 2 for SLEET_CARD_READ_BIT; 0 where it is refused */
    uint8_t byte;    /* the first: of a read the cell, otherwise FFh; FFh too where it is refused */
    uint8_t bit;     /* the second: 01h where the byte is open, 00h where it is protected; FFh where there is none */

    /* Whether the command was taken. One that is ignored is taken too: the card has no way to say so. */
    explicit operator bool() const noexcept
    {
        return refusal == SLEET_DONE;
    }
};

class card {
public:
    using cells_type = std::array<uint8_t, SLEET_CARD_CELLS>;
    using bits_type = std::array<uint8_t, SLEET_CARD_BITS>;

    /* A new card at power-up, all cells and protect bits FFh: nothing written, nothing protected, the code FFh FFh. */
    card() noexcept : card_(sleet_card_power_up()), answer_(), cells_(), bits_()
    {
        cells_.fill(0xFF);
        bits_.fill(0xFF);
    }

    /* A card at power-up whose memory outlived the loss of power. */
    card(const cells_type &cells, const bits_type &bits) noexcept : card(sleet_card_power_up(), cells, bits)
    {
    }

    /* A card as it is. */
    card(const sleet_card &value, const cells_type &cells, const bits_type &bits) noexcept
        : card_(value), answer_(), cells_(cells), bits_(bits)
    {
    }

    /* ---- commands ---- */

    /* A command by its code, its address and its data. Of the code six bits are sent, of the address ten. */
    reply command(uint8_t code, uint16_t address, uint8_t data) noexcept
    {
        const unsigned first = (code & 0x3Fu) | (address >> 8 & 3u) << 6;

        return bytes(static_cast<uint8_t>(first), static_cast<uint8_t>(address & 0xFF), data);
    }

    /* A command by its three bytes. */
    reply bytes(uint8_t first, uint8_t second, uint8_t third) noexcept
    {
        uint8_t out[2] = {0xFF, 0xFF};

        keep(sleet_card_command(card_, first, second, third, cells_.data(), cells_.size(), bits_.data(), bits_.size(), out, sizeof out));
        return {answer_.refusal, static_cast<uint8_t>(answer_.written), out[0], out[1]};
    }

    /* Power lost and back, or the card pulled and put in again. */
    void power() noexcept
    {
        card_ = sleet_card_power_up();
    }

    /* Runs a card log. Returns the refusal number; records(), used() and written() say how far it came. */
    uint8_t run(const uint8_t *log, std::size_t log_length, uint8_t *out, std::size_t out_length) noexcept
    {
        keep(sleet_card_run(card_, sleet_device_given_(log), sleet_device_length_(log, log_length), cells_.data(), cells_.size(),
                            bits_.data(), bits_.size(), sleet_device_lent_(out), sleet_device_length_(out, out_length)));
        return answer_.refusal;
    }

#ifdef __cpp_lib_span
    /* The same over spans. */
    uint8_t run(std::span<const uint8_t> log, std::span<uint8_t> out) noexcept
    {
        return run(log.data(), log.size(), out.data(), out.size());
    }
#endif

    /* ---- the answer of the last command or run ---- */

    /* The refusal number. */
    uint8_t refusal() const noexcept
    {
        return answer_.refusal;
    }

    /* Records done. */
    std::size_t records() const noexcept
    {
        return answer_.records;
    }

    /* Log bytes used. */
    std::size_t used() const noexcept
    {
        return answer_.used;
    }

    /* Output bytes written. */
    std::size_t written() const noexcept
    {
        return answer_.written;
    }

    /* ---- questions, which change nothing ---- */

    /* How far the code has come: SLEET_CARD_FRESH to SLEET_CARD_OPEN. */
    uint8_t stage() const noexcept
    {
        return card_.stage;
    }

    /* Whether the code has passed. */
    bool open() const noexcept
    {
        return card_.stage == SLEET_CARD_OPEN;
    }

    /* Whether the byte at an address is protected; false for an address above 1023. */
    bool is_protected(std::size_t address) const noexcept
    {
        return address < SLEET_CARD_CELLS && (bits_[address / 8] >> address % 8 & 1) == 0;
    }

    /* ---- what the card is made of ---- */

    /* The card beside its memory, as a plain struct. */
    const sleet_card &value() const noexcept
    {
        return card_;
    }

    /* Cells and protect bits. They may be changed between calls, for what no reader does: a card as it comes from somewhere else. */
    const cells_type &cells() const noexcept
    {
        return cells_;
    }

    cells_type &cells() noexcept
    {
        return cells_;
    }

    const bits_type &bits() const noexcept
    {
        return bits_;
    }

    bits_type &bits() noexcept
    {
        return bits_;
    }

private:
    void keep(const sleet_card_answer &answer) noexcept
    {
        card_ = answer.card;
        answer_ = answer;
    }

    sleet_card card_;
    sleet_card_answer answer_;
    cells_type cells_;
    bits_type bits_;
};

} // namespace sleetanvil

#endif
