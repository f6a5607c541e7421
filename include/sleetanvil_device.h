/*
 * A device for C: part, state and lent memory in one handle. A call then takes the handle and what the event itself needs. The functions
 * are inline and only hand on to the library; what sleetanvil.h says of a call holds here too.
 *
 *     uint8_t cells[640], cache[20], counts[32], di[4] = {SLEET_CODE_READ_ID}, out[4];
 *     sleet_device flash;
 *     sleet_device_init(&flash, sleet_bench(), cells, sizeof cells, cache, sizeof cache, counts, sizeof counts);
 *     sleet_device_transfer(&flash, di, sizeof di, out, sizeof out); // 0, and out is FFh FFh 5Ah 01h
 *
 * The part names its stepping. For a device of the second one take a part whose `stepping` is SLEET_SECOND:
 *
 *     sleet_geometry part = sleet_bench();
 *     part.stepping = SLEET_SECOND;
 *
 * Who owns what. The handle is the caller's, and so are cells, cache register and page counts: sleet_device_init and sleet_device_open take
 * them on loan, and they have to stay where they are as long as the handle is used. Nothing is allocated, and nothing has to be closed.
 * `di`, `log` and `out` are lent for the length of a call. A copied handle has its own state but the same memory: for a second device, copy
 * the memory too. Buffers of one call may not overlap. A null pointer stands for a buffer of length 0, whatever length is given with it;
 * only the handle itself may not be null.
 *
 * How refusals show. A call on the bus returns the refusal number, 0 where all was done. The one exception is sleet_device_shift: it
 * returns the byte on DO, FFh where it is refused. The rest of the answer stands in the handle until the next call on the bus: `refusal`,
 * `records`, `used`, `written`, `orderly`. The state in the handle is always the answer's: after a refusal of 1 to 5 it is as it was, after
 * 6 to 9 it is that after the records done.
 *
 * What can be refused. The handle keeps the lengths that the caller gave, and the library checks part, lengths and state in every call. So
 * a handle that was refused by sleet_device_init or sleet_device_open may be used, and each call on the bus is refused with that number; a
 * handle of zeros is refused with 1. On a handle that was not refused, select, shift, deselect, work and power are never refused, level
 * only with 8, transfer and shifts only with 9, run and judge only with 6 to 9.
 */
#ifndef SLEETANVIL_DEVICE_H
#define SLEETANVIL_DEVICE_H

#include "sleetanvil.h"

/* In C++ they are not static, so that inline functions of other headers may call them. */
#ifdef __cplusplus
#define SLEET_DEVICE_INLINE_ inline
#else
#define SLEET_DEVICE_INLINE_ static inline
#endif

/* The fields are for reading. A part, a length or a state that is put there by hand is checked by the next call. */
typedef struct sleet_device {
    sleet_geometry part; /* the part */
    sleet_state state;   /* the state after the last call */
    uint8_t *cells;      /* the lent memory and its lengths, as the caller gave them */
    size_t cells_length;
    uint8_t *cache;
    size_t cache_length;
    uint8_t *counts;
    size_t counts_length;
    size_t records;      /* of the last call: records done */
    size_t used;         /* of the last call: log bytes used */
    size_t written;      /* of the last call: output bytes written */
    uint8_t refusal;     /* of the last call: the refusal number */
    bool orderly;        /* of the last call, if it was sleet_device_judge: whether its log was orderly; false after any other */
} sleet_device;

/* ---- for the functions below alone ---- */

/* A pointer as it is, or one to a byte that nobody reads or writes where it is null: the library takes no null pointer. */
SLEET_DEVICE_INLINE_ uint8_t *sleet_device_lent_(uint8_t *buffer)
{
    static uint8_t nothing = 0;

    return buffer ? buffer : &nothing;
}

/* The same for a buffer that is only read. */
SLEET_DEVICE_INLINE_ const uint8_t *sleet_device_given_(const uint8_t *buffer)
{
    static const uint8_t nothing = 0;

    return buffer ? buffer : &nothing;
}

/* The length of a buffer: 0 where its pointer is null. */
SLEET_DEVICE_INLINE_ size_t sleet_device_length_(const uint8_t *buffer, size_t length)
{
    return buffer ? length : 0;
}

/* Two arguments of the library's functions each, and the six of the device's memory. */
#define SLEET_DEVICE_LENT_(buffer, length) sleet_device_lent_(buffer), sleet_device_length_(buffer, length)
#define SLEET_DEVICE_GIVEN_(buffer, length) sleet_device_given_(buffer), sleet_device_length_(buffer, length)
#define SLEET_DEVICE_MEMORY_(device)                             \
    SLEET_DEVICE_LENT_((device)->cells, (device)->cells_length), \
    SLEET_DEVICE_LENT_((device)->cache, (device)->cache_length), \
    SLEET_DEVICE_LENT_((device)->counts, (device)->counts_length)

/* Keeps an answer in the handle. Returns its refusal number. */
SLEET_DEVICE_INLINE_ uint8_t sleet_device_keep_(sleet_device *device, sleet_answer answer)
{
    device->state = answer.state;
    device->records = answer.records;
    device->used = answer.used;
    device->written = answer.written;
    device->refusal = answer.refusal;
    device->orderly = false;
    return answer.refusal;
}

/* ---- making a device ---- */

/*
 * Whether the device can be used: an empty run, which changes nothing. Returns 0, or the number 1 to 5 with which every call on the bus
 * will be refused.
 */
SLEET_DEVICE_INLINE_ uint8_t sleet_device_check(const sleet_device *device)
{
    uint8_t nothing = 0;

    return sleet_run(device->part, device->state, &nothing, 0, SLEET_DEVICE_MEMORY_(device), &nothing, 0).refusal;
}

/*
 * Fills the handle with a part, a state and lent memory as they are. The memory is not changed. Returns 0, or the number 1 to 5.
 *
 * Cells and page counts outlive a loss of power, the cache register does not. To begin with cells and counts that were kept, open the
 * device with sleet_power_up() and call sleet_device_power, which makes the cache register FFh.
 */
SLEET_DEVICE_INLINE_ uint8_t sleet_device_open(sleet_device *device, sleet_geometry part, sleet_state state, uint8_t *cells,
                                               size_t cells_length, uint8_t *cache, size_t cache_length, uint8_t *counts,
                                               size_t counts_length)
{
    device->part = part;
    device->state = state;
    device->cells = cells;
    device->cells_length = cells_length;
    device->cache = cache;
    device->cache_length = cache_length;
    device->counts = counts;
    device->counts_length = counts_length;
    device->records = 0;
    device->used = 0;
    device->written = 0;
    device->orderly = false;
    device->refusal = sleet_device_check(device);
    return device->refusal;
}

/*
 * Fills the handle with a device that was never used, at power-up, and makes its memory blank. Returns 0, or the number 1 to 4, and then
 * the memory is not changed.
 */
SLEET_DEVICE_INLINE_ uint8_t sleet_device_init(sleet_device *device, sleet_geometry part, uint8_t *cells, size_t cells_length,
                                               uint8_t *cache, size_t cache_length, uint8_t *counts, size_t counts_length)
{
    sleet_device_open(device, part, sleet_power_up(), cells, cells_length, cache, cache_length, counts, counts_length);
    device->refusal = sleet_blank(part, SLEET_DEVICE_MEMORY_(device));
    return device->refusal;
}

/* ---- one event at a time ---- */

/* Chip select falls. Returns the refusal number. */
SLEET_DEVICE_INLINE_ uint8_t sleet_device_select(sleet_device *device)
{
    return sleet_device_keep_(device, sleet_select(device->part, device->state, SLEET_DEVICE_MEMORY_(device)));
}

/* One byte in on DI. Returns the byte on DO; FFh where it is refused. */
SLEET_DEVICE_INLINE_ uint8_t sleet_device_shift(sleet_device *device, uint8_t byte)
{
    uint8_t out = 0xFF;

    sleet_device_keep_(device, sleet_shift(device->part, device->state, byte, SLEET_DEVICE_MEMORY_(device), &out, 1));
    return out;
}

/* Chip select rises. Returns the refusal number. */
SLEET_DEVICE_INLINE_ uint8_t sleet_device_deselect(sleet_device *device)
{
    return sleet_device_keep_(device, sleet_deselect(device->part, device->state, SLEET_DEVICE_MEMORY_(device)));
}

/* Array work of any number of units. Returns the refusal number. */
SLEET_DEVICE_INLINE_ uint8_t sleet_device_work(sleet_device *device, uint64_t units)
{
    return sleet_device_keep_(device, sleet_work(device->part, device->state, units, SLEET_DEVICE_MEMORY_(device)));
}

/* WP# at a level, 0 low or 1 high. Returns the refusal number: 8 for a level above 1. */
SLEET_DEVICE_INLINE_ uint8_t sleet_device_level(sleet_device *device, uint8_t level)
{
    return sleet_device_keep_(device, sleet_level(device->part, device->state, level, SLEET_DEVICE_MEMORY_(device)));
}

/* Power lost and back. Returns the refusal number. */
SLEET_DEVICE_INLINE_ uint8_t sleet_device_power(sleet_device *device)
{
    return sleet_device_keep_(device, sleet_power(device->part, device->state, SLEET_DEVICE_MEMORY_(device)));
}

/* ---- many bytes in one call ---- */

/*
 * A whole transfer: chip select falls, `length` bytes of `di` go in and as many come out to `out`, chip select rises. Returns the refusal
 * number. It is 9 where out_length is less than `length`: `written` bytes were shifted, and the chip is left selected. Complete it by
 * sleet_device_shifts with the bytes that are left, and sleet_device_deselect. On a chip that is selected already, the bytes continue the
 * old transfer.
 */
SLEET_DEVICE_INLINE_ uint8_t sleet_device_transfer(sleet_device *device, const uint8_t *di, size_t length, uint8_t *out,
                                                   size_t out_length)
{
    return sleet_device_keep_(device, sleet_transfer(device->part, device->state, SLEET_DEVICE_GIVEN_(di, length),
                                                     SLEET_DEVICE_MEMORY_(device), SLEET_DEVICE_LENT_(out, out_length)));
}

/* A piece of a transfer: the bytes alone, with chip select as it is. Returns the refusal number, 9 as sleet_device_transfer does. */
SLEET_DEVICE_INLINE_ uint8_t sleet_device_shifts(sleet_device *device, const uint8_t *di, size_t length, uint8_t *out, size_t out_length)
{
    return sleet_device_keep_(device, sleet_shifts(device->part, device->state, SLEET_DEVICE_GIVEN_(di, length),
                                                   SLEET_DEVICE_MEMORY_(device), SLEET_DEVICE_LENT_(out, out_length)));
}

/* Runs a log. Returns the refusal number; `records`, `used` and `written` of the handle say how far it came. */
SLEET_DEVICE_INLINE_ uint8_t sleet_device_run(sleet_device *device, const uint8_t *log, size_t log_length, uint8_t *out,
                                              size_t out_length)
{
    return sleet_device_keep_(device, sleet_run(device->part, device->state, SLEET_DEVICE_GIVEN_(log, log_length),
                                                SLEET_DEVICE_MEMORY_(device), SLEET_DEVICE_LENT_(out, out_length)));
}

/*
 * Runs a log as sleet_device_run does, and puts into `orderly` of the handle whether it was orderly. Of a log that is refused this speaks
 * of the records done. Returns the refusal number: look at it first.
 */
SLEET_DEVICE_INLINE_ uint8_t sleet_device_judge(sleet_device *device, const uint8_t *log, size_t log_length, uint8_t *out,
                                                size_t out_length)
{
    sleet_judged judged = sleet_judge(device->part, device->state, SLEET_DEVICE_GIVEN_(log, log_length), SLEET_DEVICE_MEMORY_(device),
                                      SLEET_DEVICE_LENT_(out, out_length));

    sleet_device_keep_(device, judged.answer);
    device->orderly = judged.orderly;
    return judged.answer.refusal;
}

/* ---- questions, which change nothing ---- */

/* Returns the byte that the next shift will put on DO, whatever is shifted in; FFh where part, cache register or state is refused. */
SLEET_DEVICE_INLINE_ uint8_t sleet_device_peek(const sleet_device *device)
{
    return sleet_peek(device->part, device->state, SLEET_DEVICE_GIVEN_(device->cache, device->cache_length)).byte;
}

/* Returns whether an operation is in progress: OIP in the status register. */
SLEET_DEVICE_INLINE_ bool sleet_device_busy(const sleet_device *device)
{
    return (device->state.c0 & SLEET_C0_OIP) != 0;
}

/* Returns whether the array is idle. */
SLEET_DEVICE_INLINE_ bool sleet_device_ready(const sleet_device *device)
{
    return !sleet_device_busy(device);
}

/* Returns how many units of work the operation in progress has left; 0 while the array is idle. */
SLEET_DEVICE_INLINE_ size_t sleet_device_units_left(const sleet_device *device)
{
    return sleet_units_left(device->part, device->state);
}

#undef SLEET_DEVICE_LENT_
#undef SLEET_DEVICE_GIVEN_
#undef SLEET_DEVICE_MEMORY_
#undef SLEET_DEVICE_INLINE_

#endif
