/*
 * Sleetanvil: a proved model of a serial NAND flash (FM25S005BI3 and a small bench part), and of a memory card (FM4428).
 *
 * Who owns what. Every buffer is the caller's and is only lent for the length of a call; the library keeps nothing between calls, allocates
 * nothing and has no state of its own. Structs go in and come back by value. A buffer is a pointer and the number of its bytes; buffers of
 * one call may not overlap, and a pointer may not be null, even where the length is 0. Nothing else is asked of a caller: each function
 * answers for every content of its arguments, and bad input is refused by number.
 *
 * The device state comes back whole from each call and is handed in again with the next. Cells, cache register and page counts are the
 * device's memory: lend the same ones again with the state. For a geometry of D data bytes and S spare bytes per page (P = D + S), K pages
 * per block and N blocks, their lengths are P*K*N, P and K*N (`sleet_cells_length`, `sleet_cache_length`, `sleet_counts_length`).
 *
 * A device that was never used has cells FFh, a cache register FFh and page counts 0 (`sleet_blank`), and begins at `sleet_power_up`. Time
 * is counted in units of array work: a page read and a program take a unit for each byte of the page, P in all, an erase one for each byte
 * of the block, K*P; a reset takes 8 on every part. Without work the array never gets ready. docs/MACHINE.md says what the machine does,
 * instruction by instruction.
 *
 * A simulator that has whole transfers calls `sleet_transfer`; one that has bytes calls the events; one that has a log calls `sleet_run`.
 * `sleetanvil_device.h` bundles part, state and memory into a handle for C, and `sleetanvil.hpp` into a class for C++.
 */
#ifndef SLEETANVIL_H
#define SLEETANVIL_H

#include <stdbool.h>
#include <stddef.h>
#include <stdint.h>

#ifdef __cplusplus
extern "C" {
#endif

/* ---- version ---- */

#define SLEET_VERSION 3 /* of this header; it rises with every change of a struct or of a function's arguments */

/* The version of the header that the library was made with: where it is not SLEET_VERSION, header and library do not go together. */
uint32_t sleet_version(void);

/* ---- numbers of refusal ---- */

enum {
    SLEET_DONE = 0,       /* the log was read to its end, or what was asked was done */
    SLEET_BAD_PART = 1,   /* the geometry is not sound; nothing done */
    SLEET_BAD_CELLS = 2,  /* cells of the wrong length; nothing done */
    SLEET_BAD_CACHE = 3,  /* cache register of the wrong length; nothing done */
    SLEET_BAD_COUNTS = 4, /* page counts of the wrong length; nothing done */
    SLEET_BAD_STATE = 5,  /* the state, or a card's stage, is not sound; nothing done */
    SLEET_BAD_KIND = 6,   /* the next kind is not in the log's table; stopped before it */
    SLEET_SHORT_BODY = 7, /* the log ends inside a body; stopped before it */
    SLEET_BAD_LEVEL = 8,  /* a WP# level above 1; stopped before it */
    SLEET_NO_ROOM = 9,    /* no output room left for a shift or for a card's answer, or too little room for a record; stopped before it */
    /* 10 and 11 come from parameter pages alone, and then not a byte is changed */
    SLEET_NO_COPY = 10,      /* no copy has both its signature and its check */
    SLEET_SHORT_MEMORY = 11, /* memory shorter than the page that is to be made, or than the three copies that are to be read */
    /* 14 to 16 and 20 come from a keeper of the bus alone, which is then as it was */
    SLEET_BAD_CORE = 14,   /* a core above 3 */
    SLEET_QUEUE_FULL = 15, /* eight transfers wait in that core's queue */
    SLEET_ALL_EMPTY = 16,  /* no transfer waits */
    SLEET_BAD_KEEPER = 20, /* the keeper is not sound; checked before the others */
    /* 17 and 18 come from a card alone; nothing done */
    SLEET_BAD_CARD_CELLS = 17, /* a card's cells are not 1,024 bytes */
    SLEET_BAD_CARD_BITS = 18   /* a card's protect bits are not 128 bytes */
};

/* ---- names of the device ---- */

/* Instruction codes, the first byte of a transfer. */
enum {
    SLEET_CODE_WRITE_ENABLE = 0x06,
    SLEET_CODE_WRITE_DISABLE = 0x04,
    SLEET_CODE_GET_FEATURE = 0x0F,
    SLEET_CODE_SET_FEATURE = 0x1F,
    SLEET_CODE_READ_ID = 0x9F,
    SLEET_CODE_PAGE_READ = 0x13,
    SLEET_CODE_READ_CACHE = 0x03, /* 0Bh does the same; behind column P - 1 both go on at column 0 */
    SLEET_CODE_READ_CACHE_FAST = 0x0B,
    SLEET_CODE_LOAD = 0x02,
    SLEET_CODE_LOAD_RANDOM = 0x84,
    SLEET_CODE_EXECUTE = 0x10,
    SLEET_CODE_BLOCK_ERASE = 0xD8,
    SLEET_CODE_RESET = 0xFF /* the array is then busy for 8 units */
};

/* Addresses of the registers, for Get and Set Feature: protection, feature, status, drive strength. */
enum { SLEET_A0 = 0xA0, SLEET_B0 = 0xB0, SLEET_C0 = 0xC0, SLEET_D0 = 0xD0 };

/*
 * Bits of the registers. Which blocks A0h protects on a part of N blocks, with b the BP number:
 *  - b 0: none.
 *  - b 1 to 6: with q = N / 2^(7-b), rounded down, the q highest numbered, or with INV the q lowest. With CMP exactly the other blocks: the
 *    N - q lowest, or with INV the N - q highest. On a part of few blocks q may be 0: then none is protected, and with CMP all are.
 *  - b 7: all N.
 * With b 0 and 7 neither INV nor CMP changes anything. Only a part of the second stepping has CMP. On the first stepping A0h is written
 * through the mask BCh and bit 1 stays 0; on the second the mask is BEh. So FFh written reads back as BCh or as BEh. At power-up and after
 * a power loss A0h is 38h on both, without CMP; a reset leaves A0h as it is. A program or an erase asks for protection as it is to begin,
 * and not again while it is in progress.
 */
enum {
    SLEET_A0_BRWD = 0x80,   /* with WP# low, A0h cannot be written */
    SLEET_A0_BP = 0x38,     /* the BP number: how many blocks are protected */
    SLEET_A0_INV = 0x04,    /* the lowest blocks, not the highest */
    SLEET_A0_CMP = 0x02,    /* second stepping: the other blocks are the protected ones, for a BP number from 1 to 6 */
    SLEET_B0_ECC_E = 0x10,  /* only stored */
    SLEET_B0_QE = 0x01,     /* only stored */
    SLEET_C0_OIP = 0x01,    /* an operation is in progress */
    SLEET_C0_WEL = 0x02,    /* writing is enabled */
    SLEET_C0_E_FAIL = 0x04, /* the last erase request failed */
    SLEET_C0_P_FAIL = 0x08, /* the last program request failed */
    SLEET_C0_ECCS = 0x70,   /* 0 for now */
    SLEET_D0_DRIVE = 0x60   /* the drive strength; only stored */
};

/* Kinds of the records of a log. */
enum {
    SLEET_KIND_SELECT = 1,   /* chip select falls */
    SLEET_KIND_SHIFT = 2,    /* one byte in on DI, one out on DO; the body is the byte in */
    SLEET_KIND_DESELECT = 3, /* chip select rises */
    SLEET_KIND_WORK = 4,     /* array work; the body is its units, low byte first */
    SLEET_KIND_LEVEL = 5,    /* WP# at a level; the body is 0 or 1 */
    SLEET_KIND_POWER = 6     /* power lost and back */
};

/* ---- the part ---- */

enum { SLEET_FIRST = 0, SLEET_SECOND = 1 }; /* `stepping` */

/*
 * Sound: data at least 1, data + spare at most 4096, pages from 1 to 256, blocks at least 1, pages * blocks at most 65536, stepping 0 or 1.
 * A stepping above 1 stands for no part: every function that refuses a part refuses it with SLEET_BAD_PART, before it looks at anything
 * else. The second stepping has CMP in A0h; in all else the two are the same.
 *
 * Version 2 of this header had no `stepping`: its byte lay behind the fields and may hold anything. A program of then is compiled anew, and
 * sets it where it fills a part field by field: SLEET_FIRST is the part as it was. A part from sleet_bench() or sleet_fm25s005bi3(), one
 * set to 0 by memset or = {0}, and one by braces that end with id1 (some compilers warn of the field that is left out) is of the first
 * stepping without a change.
 */
typedef struct sleet_geometry {
    uint32_t data;    /* D, data bytes per page */
    uint32_t spare;   /* S, spare bytes per page */
    uint32_t pages;   /* K, pages per block */
    uint32_t blocks;  /* N, blocks */
    uint8_t id0;      /* the two identity bytes */
    uint8_t id1;
    uint8_t stepping; /* SLEET_FIRST or SLEET_SECOND */
} sleet_geometry;

/* The two named parts, of the first stepping; for the second set `stepping` to SLEET_SECOND. */
sleet_geometry sleet_fm25s005bi3(void);
sleet_geometry sleet_bench(void);

/* Whether a geometry is sound. */
bool sleet_geometry_sound(sleet_geometry part);

/* The lengths that the lent memory must have; 0 for a geometry that is not sound. */
size_t sleet_cells_length(sleet_geometry part);
size_t sleet_cache_length(sleet_geometry part);
size_t sleet_counts_length(sleet_geometry part);

/*
 * The memory of a device that was never used: cells and cache register FFh, page counts 0. Refused with 1 to 4 as a run would be, and then
 * not a byte is changed; where it gives 0, a run from sleet_power_up() on this memory is not refused with 1 to 5.
 */
uint8_t sleet_blank(sleet_geometry part, uint8_t *cells, size_t cells_length, uint8_t *cache, size_t cache_length, uint8_t *counts,
                    size_t counts_length);

/* ---- the device state ---- */

enum { SLEET_IGNORED = 0x100 }; /* `instruction` where there is none to carry out */

enum { SLEET_IDLE = 0, SLEET_READ = 1, SLEET_PROGRAM = 2, SLEET_ERASE = 3, SLEET_RESET = 4 }; /* `job` */

/*
 * A state that came back from a call is sound. One made by hand is sound, on a sound part, if
 *  - a0 has no bit outside BCh, on the second stepping none outside BEh; b0 and d0 have none outside 11h and 60h, c0 none of bits 7 to 4;
 *  - bit 0 of c0 (OIP) is 1 exactly while `job` is not SLEET_IDLE;
 *  - `count` is at most 5, `column` at most 4096, `wp` and `selected` are 0 or 1;
 *  - `instruction` is SLEET_IGNORED or one of the twelve codes named below;
 *  - `job` is at most 4; SLEET_IDLE has `row` 0 and `units` 0; another job has fewer `units` done than its length (sleet_operation_length);
 *    the `row` of a program or an erase is below K*N, that of SLEET_RESET is 0;
 *  - while OIP is 1 and the chip is selected with a `count` of 1 or more, the instruction is 0Fh, 9Fh, FFh or SLEET_IGNORED.
 * Any other is refused with 5 and given back as it came.
 *
 * `column` is the column address of a transfer, and moves on by one with each byte of data or answer. A cache read (03h, 0Bh) goes round: n
 * answers from a column c below P are the cache bytes at (c + i) mod P, i from 0 to n - 1. A read at a column of P or more answers FFh
 * throughout, and data of a load (02h, 84h) is dropped there; their column runs on up to 4096 and stays.
 */
typedef struct sleet_state {
    uint8_t a0;           /* register A0h: protection */
    uint8_t b0;           /* register B0h: ECC_E, QE */
    uint8_t c0;           /* register C0h: status */
    uint8_t d0;           /* register D0h: drive strength */
    uint8_t wp;           /* level of WP#: 0 low, 1 high */
    uint8_t selected;     /* 1 while chip select is low */
    uint8_t count;        /* bytes shifted in this transfer; 5 stands for five or more */
    uint8_t first;        /* the three bytes after the instruction, as they came */
    uint8_t second;
    uint8_t third;
    uint8_t job;          /* the operation in progress */
    uint16_t instruction; /* 06h 04h 0Fh 1Fh 9Fh 13h 03h (for 0Bh too) 02h 84h 10h D8h FFh, or SLEET_IGNORED */
    uint16_t column;      /* the next column; in a cache read 0 comes behind P - 1 */
    uint16_t row;         /* the row of the operation; 0 while idle and during a reset */
    size_t units;         /* its units done; 0 while idle */
} sleet_state;

/* The power-up state: WP# high, the read of row 0 just begun. */
sleet_state sleet_power_up(void);

/*
 * Whether a state is sound on a part. On a part that is not sound it is judged by the part's numbers as they are; one whose stepping is
 * above 1 counts as a part of the first stepping with no bytes, pages and blocks.
 */
bool sleet_state_sound(sleet_geometry part, sleet_state state);

/*
 * How many units a job has on a part: P for SLEET_READ and SLEET_PROGRAM, K*P for SLEET_ERASE, 8 for SLEET_RESET; 0 for any other job and
 * for a part that is not sound.
 */
size_t sleet_operation_length(sleet_geometry part, uint8_t job);

/*
 * How many units of array work the operation in progress has left. On a sound part and state it is 0 exactly while the array is idle (OIP
 * 0), and work of n units takes n away, down to 0. It is 0 too for a part or a state that is not sound.
 */
size_t sleet_units_left(sleet_geometry part, sleet_state state);

typedef struct sleet_peeked {
    uint8_t refusal; /* 0; or 1, 3 or 5, checked in this order: part, cache register, state */
    uint8_t byte;    /* the byte; FFh where it is refused */
} sleet_peeked;

/* The byte that the next shift will put on DO: it does not depend on the byte shifted in. Nothing is changed. */
sleet_peeked sleet_peek(sleet_geometry part, sleet_state state, const uint8_t *cache, size_t cache_length);

/* ---- what every call on the bus answers ---- */

typedef struct sleet_answer {
    sleet_state state; /* the state after the records done */
    size_t records;    /* records done */
    size_t used;       /* log bytes used: those of the records done */
    size_t written;    /* output bytes written: one per shift */
    uint8_t refusal;   /* 0 to 9 */
} sleet_answer;

/* ---- a transfer in one call ---- */

/*
 * A whole transfer: chip select falls, `length` bytes of `di` go in and as many come out to `out`, chip select rises. It is the run of
 * those records, `length` + 2 of them, and refused as that run is; no log is lent, so that `used` is 0. Where out_length is less than
 * `length` it is SLEET_NO_ROOM: out_length bytes were shifted and written, and the chip is left selected; sleet_shifts with the bytes that
 * are left and a sleet_deselect complete it.
 *
 * On a chip that is selected already the fall of chip select changes nothing: the bytes then continue the old transfer.
 */
sleet_answer sleet_transfer(sleet_geometry part, sleet_state state, const uint8_t *di, size_t length, uint8_t *cells, size_t cells_length,
                            uint8_t *cache, size_t cache_length, uint8_t *counts, size_t counts_length, uint8_t *out, size_t out_length);

/*
 * A piece of a transfer: the bytes alone, with chip select as it is. It is the run of `length` shifts, and refused as that run is. While
 * chip select is high, shifts do nothing and answer FFh.
 */
sleet_answer sleet_shifts(sleet_geometry part, sleet_state state, const uint8_t *di, size_t length, uint8_t *cells, size_t cells_length,
                          uint8_t *cache, size_t cache_length, uint8_t *counts, size_t counts_length, uint8_t *out, size_t out_length);

/* ---- one event at a time, through the same checks; each is a run of that record's bytes ---- */

/* Chip select falls. */
sleet_answer sleet_select(sleet_geometry part, sleet_state state, uint8_t *cells, size_t cells_length, uint8_t *cache, size_t cache_length,
                          uint8_t *counts, size_t counts_length);
/* One byte in on DI; the byte on DO is written to out[0]. */
sleet_answer sleet_shift(sleet_geometry part, sleet_state state, uint8_t byte, uint8_t *cells, size_t cells_length, uint8_t *cache,
                         size_t cache_length, uint8_t *counts, size_t counts_length, uint8_t *out, size_t out_length);
/* Chip select rises. */
sleet_answer sleet_deselect(sleet_geometry part, sleet_state state, uint8_t *cells, size_t cells_length, uint8_t *cache,
                            size_t cache_length, uint8_t *counts, size_t counts_length);
/*
 * Array work. Up to 65,535 units it is a run of that work record. For any number it ends as a run of work records does whose units add up
 * to it, however they are cut; the answer counts one record, and its three bytes.
 */
sleet_answer sleet_work(sleet_geometry part, sleet_state state, uint64_t units, uint8_t *cells, size_t cells_length, uint8_t *cache,
                        size_t cache_length, uint8_t *counts, size_t counts_length);
/* WP# at a level, 0 low or 1 high; refused with 8 above 1. */
sleet_answer sleet_level(sleet_geometry part, sleet_state state, uint8_t level, uint8_t *cells, size_t cells_length, uint8_t *cache,
                         size_t cache_length, uint8_t *counts, size_t counts_length);
/* Power lost and back. */
sleet_answer sleet_power(sleet_geometry part, sleet_state state, uint8_t *cells, size_t cells_length, uint8_t *cache, size_t cache_length,
                         uint8_t *counts, size_t counts_length);

/* ---- a log run ---- */

/*
 * Run a log. After a refusal of 1 to 5 nothing has been touched; after 6 to 9 the earlier records stand and output past `written` is
 * unchanged.
 */
sleet_answer sleet_run(sleet_geometry part, sleet_state state, const uint8_t *log, size_t log_length, uint8_t *cells, size_t cells_length,
                       uint8_t *cache, size_t cache_length, uint8_t *counts, size_t counts_length, uint8_t *out, size_t out_length);

typedef struct sleet_judged {
    sleet_answer answer; /* as sleet_run answers */
    bool orderly;        /* the log began at power-up or idle, each of its records was orderly, and it ended idle */
} sleet_judged;

/*
 * Run a log as sleet_run does, and say whether it was orderly: each instruction other than Get Feature, Read ID and Reset had its first
 * byte while the array was idle, no reset and no power loss took effect while it was busy, it began at power-up or idle and ended idle. The
 * array is busy during the 8 units of a reset too. The end of an orderly log is proved to be the one reached if every operation is done
 * whole as it begins, so that two orderly logs with the same records but for their work have one end. Of a log that is refused it speaks of
 * the records done, so look at answer.refusal first; a state that is given back because its numbers stand for none is not orderly. It takes
 * longer than sleet_run.
 */
sleet_judged sleet_judge(sleet_geometry part, sleet_state state, const uint8_t *log, size_t log_length, uint8_t *cells, size_t cells_length,
                         uint8_t *cache, size_t cache_length, uint8_t *counts, size_t counts_length, uint8_t *out, size_t out_length);

/* ---- records of a log ---- */

/* What a kind has no use for is 0 where it is read and not looked at where it is written. */
typedef struct sleet_record {
    uint8_t kind;   /* SLEET_KIND_SELECT to SLEET_KIND_POWER */
    uint8_t byte;   /* the byte shifted in, or the level */
    uint16_t units; /* the units of work */
} sleet_record;

typedef struct sleet_found {
    sleet_record record; /* kind 0 where no record stands at the place */
    uint8_t refusal;     /* then: 0 at the end of the log or past it, 6, 7 or 8 */
    size_t place;        /* where the next record begins; the place given where there is none */
} sleet_found;

/* The record that stands at a place of a log. */
sleet_found sleet_next(const uint8_t *log, size_t log_length, size_t place);

typedef struct sleet_wrote {
    uint8_t refusal; /* 0; or, the first that holds: 6 for a kind not in the table, 8 for a level above 1, 9 for too little room (none past
                        the end), and then nothing is written */
    size_t place;    /* the place after the record; the place given where it is refused */
} sleet_wrote;

/* Write a record at a place of a log. */
sleet_wrote sleet_write(sleet_record record, uint8_t *log, size_t log_length, size_t place);

/* ---- four cores at one chip select ---- */

/*
 * A keeper of the bus says whose transfer is next where four cores share one device. Each core has a queue of at most eight waiting
 * transfers; a transfer is a tag of one byte, which means what the caller wants it to mean. A keeper is a value, kept by the caller: it
 * goes in whole and comes back whole. No device is touched: a grant says which transfer may go to the device, and the caller sends it.
 *
 * Proved of it: grants go round, so that a core that has a transfer waiting is granted within the next four grants, whatever others add,
 * and a transfer with n before it in its queue within the next 4 * (n + 1); each transfer that was added and not refused is granted at most
 * once, in its core's order.
 */

/* `length` tags wait, from place `head` on, round from place 7 to 0. The other places are never looked at. */
typedef struct sleet_queue {
    uint8_t tags[8];
    uint8_t head;   /* the place of the front: 0 to 7, in an empty queue too */
    uint8_t length; /* how many wait: 0 to 8 */
} sleet_queue;

/* Sound if each `head`, each `length` and `last` are in range. One that came back from a call on a sound one is sound. */
typedef struct sleet_keeper {
    sleet_queue queues[4]; /* one for each core */
    uint8_t last;          /* the core that was granted last: 0 to 3 */
} sleet_keeper;

/* Four empty queues; `last` is 3, so that the first grant looks from core 0. (A keeper of zeros is sound too, but looks from core 1.) */
sleet_keeper sleet_keeper_new(void);

typedef struct sleet_added {
    sleet_keeper keeper; /* as it was where the adding is refused */
    uint8_t refusal;     /* 0; or, the first that holds: 20, 14, 15 */
} sleet_added;

/* Add a transfer at the back of a core's queue. */
sleet_added sleet_keeper_add(sleet_keeper keeper, uint8_t core, uint8_t tag);

typedef struct sleet_granted {
    sleet_keeper keeper; /* as it was where the grant is refused */
    uint8_t refusal;     /* 0; or, the first that holds: 20, 16 */
    uint8_t core;        /* whose transfer it is; 0 where it is refused */
    uint8_t tag;         /* the transfer; 0 where it is refused */
} sleet_granted;

/* Take the transfer that is next: the front of the first queue that is not empty, from the core after `last`, round from 3 to 0. */
sleet_granted sleet_keeper_grant(sleet_keeper keeper);

/* ---- the parameter page ---- */

/*
 * A part says what it is in a page of 256 bytes that stands there three times: copies 0, 1 and 2, at bytes 0, 256 and 512. Boot code sizes
 * the part from the first copy that holds: its bytes 0 to 3 are the signature 4Fh 4Eh 46h 49h ("ONFI"), and its bytes 254 and 255, low byte
 * first, the check of bytes 0 to 253. D stands at byte 80 in 4 bytes, S at 84 in 2, K at 92 in 4 and N at 96 in 4, low byte first.
 *
 * These calls stand beside the device: no state goes in and none comes back. The real part answers the page over the bus, where its OTP
 * pages are; the model has none of those pages yet. docs/FOR-DRIVERS.md says what boot code does with the page, with a program.
 */
enum { SLEET_PAGE_LENGTH = 256, SLEET_PAGE_COPIES = 3 }; /* bytes of a copy, and copies */

/*
 * Make the page of a part: the datasheet's own, with the D, S, K and N of the part in it, and its check. Manufacturer, model and the
 * manufacturer's identity byte are those of the FM25S005BI3 for every part, and the page is the same for both steppings. Bytes 0 to 255 of
 * `memory` are written and no others, whatever its length: for three copies lend memory, memory + 256 and memory + 512 in turn, each with
 * the length from there on.
 *
 * Returns 0; or, the first that holds: 1 for a part that is not sound, 11 for a memory of fewer than 256 bytes. Then not a byte is changed.
 */
uint8_t sleet_page_make(sleet_geometry part, uint8_t *memory, size_t length);

typedef struct sleet_sizes {
    uint32_t data;   /* D, data bytes per page */
    uint32_t pages;  /* K, pages per block */
    uint32_t blocks; /* N, blocks */
    uint16_t spare;  /* S, spare bytes per page */
    uint8_t copy;    /* the copy that they were read from: 0, 1 or 2 */
    uint8_t refusal; /* 0; or, the first that holds: 11 for a memory of fewer than 768 bytes, 10 where no copy holds. All else is then 0 */
} sleet_sizes;

/*
 * Read the sizes of a part from the first copy whose signature and check hold, as they stand there. Nothing else of a page is judged, so
 * that the four need not be a sound geometry: put them into a sleet_geometry, with the two bytes that Read ID answers and the stepping,
 * which no page names, and ask sleet_geometry_sound before they are used. Bytes from 768 on are not looked at. Nothing is changed.
 */
sleet_sizes sleet_page_read(const uint8_t *memory, size_t length);

/*
 * The check of any bytes, ONFI 1.0's: 16 bits, polynomial 8005h, start 4F4Eh, the highest bit of each byte first, nothing turned round or
 * inverted at the end. That of the nine bytes "123456789" is 2771h, that of no byte 4F4Eh.
 */
uint16_t sleet_page_check(const uint8_t *bytes, size_t length);

/* ---- the card slot ---- */

/*
 * The FM4428 is a memory card of 1,024 bytes, with a protect bit for each and a security code of two bytes. It stands beside the device and
 * shares nothing with it. The caller keeps the card and lends its memory, the same again with each call: the cells, and the protect bits,
 * where bit a mod 8 of byte a / 8 belongs to address a. 1 is open; 0 is protected for ever: no call changes that byte, or makes that bit 1
 * again. What is asked of pointers stands at the head of this file: none is null, and no two buffers of one call overlap.
 *
 * A command is three bytes. The first has the code in its bits 5 to 0 and bits 9 and 8 of the address in its bits 7 and 6, the second has
 * bits 7 to 0 of the address, the third the data. Each command answers one byte: a read the cell, any other FFh. SLEET_CARD_READ_BIT
 * answers a second, 01h where the byte is open and 00h where it is protected. A command that is not in the table, or at an address that
 * the table does not give it, is ignored, and answers FFh.
 *
 * Until the code has passed, the code bytes read 00h, and only SLEET_CARD_COUNT changes anything: it takes bits from the counter. The code
 * passes by three commands, each right behind the other: SLEET_CARD_COUNT that clears a bit, then right compares of the first code byte and
 * of the second. Any other command between, even an ignored one or a wrong compare, starts it anew; a count that clears a bit is then the
 * new first step. The card is then open until power is lost; a power loss also undoes steps already taken. docs/FOR-DRIVERS.md has the
 * commands as a table, what a driver of a card reader gets wrong, and a program.
 *
 * No content is named for a card as it is delivered. One whose cells and protect bits are all FFh has nothing written, nothing protected,
 * all eight tries, and the code FFh FFh.
 */
enum { SLEET_CARD_CELLS = 1024, SLEET_CARD_BITS = 128 }; /* bytes of the cells, and of the protect bits */

/* Addresses: the counter, a bit for each try that is left; and the first code byte, with the second behind it. */
enum { SLEET_CARD_COUNTER = 1021, SLEET_CARD_CODE = 1022 };

/* Codes of the commands. The first byte of one is its code + 64 * (address / 256). */
enum {
    SLEET_CARD_WRITE_PROTECT = 0x31, /* write the data, and protect the byte */
    SLEET_CARD_WRITE = 0x33,         /* write the data */
    SLEET_CARD_PROTECT = 0x30,       /* protect the byte, if it holds the data */
    SLEET_CARD_READ_BIT = 0x0C,      /* read the byte and its protect bit; the data is not looked at */
    SLEET_CARD_READ = 0x0E,          /* read the byte; the data is not looked at */
    SLEET_CARD_COUNT = 0x32,         /* at SLEET_CARD_COUNTER: put in counter AND data, if that clears exactly one bit */
    SLEET_CARD_COMPARE = 0x0D        /* at SLEET_CARD_CODE and at the address behind it: compare the data with the code byte */
};

/* The kind of a command in a card log; the body is its three bytes. A card log has this kind and SLEET_KIND_POWER. */
enum { SLEET_KIND_COMMAND = 0x20 };

/* `stage`: how far the code has come. */
enum {
    SLEET_CARD_FRESH = 0,   /* no step is taken */
    SLEET_CARD_COUNTED = 1, /* a counter bit was cleared */
    SLEET_CARD_HALF = 2,    /* and the first code byte was right */
    SLEET_CARD_OPEN = 3     /* and the second: the code has passed */
};

/* A card beside its memory. Sound if its stage is at most 3; one that came back from a call on a sound one is sound. */
typedef struct sleet_card {
    uint8_t stage;
} sleet_card;

/* A card that power has just come to: SLEET_CARD_FRESH. That is also what a power loss makes of any card. */
sleet_card sleet_card_power_up(void);

typedef struct sleet_card_answer {
    size_t records;  /* records done */
    size_t used;     /* log bytes used: those of the records done */
    size_t written;  /* output bytes written: one for each command done, two for SLEET_CARD_READ_BIT */
    sleet_card card; /* the card after the records done */
    uint8_t refusal; /* 0; or, the first that holds: 17, 18, 5; then at each record 6, 7, 9 */
} sleet_card_answer;

/*
 * Run a card log. What the buffers hold after a refusal:
 *  - 17, 18 and 5 are found before the first record. Nothing was done: the counts are 0, the card comes back as it was given, and no byte
 *    of cells, protect bits or output is changed.
 *  - 6, 7 and 9 stop it before one record. The records before it stand, in cells, protect bits, output and the card; output past `written`
 *    is unchanged. 9 is given where the whole answer finds no room: of the two bytes of SLEET_CARD_READ_BIT none is then written. A record
 *    of power needs no room.
 */
sleet_card_answer sleet_card_run(sleet_card card, const uint8_t *log, size_t log_length, uint8_t *cells, size_t cells_length, uint8_t *bits,
                                 size_t bits_length, uint8_t *out, size_t out_length);

/*
 * One command, through the same checks: it is the run of the record 20h, first, second, third. So `records` is 1 and `used` 4 where it is
 * done, and it is refused with 17, 18, 5 and 9 alone.
 */
sleet_card_answer sleet_card_command(sleet_card card, uint8_t first, uint8_t second, uint8_t third, uint8_t *cells, size_t cells_length,
                                     uint8_t *bits, size_t bits_length, uint8_t *out, size_t out_length);

/* ---- words ---- */

enum { SLEET_TEXT = 48 }; /* room for every text and its NUL */

/*
 * What a number of refusal means, in a few English words, with a NUL behind them. The length without the NUL is returned; where the text
 * and its NUL do not fit, 0 is returned and nothing is written. A number that no refusal has gets the text "no such refusal".
 */
size_t sleet_text(uint8_t refusal, char *out, size_t out_length);

#ifdef __cplusplus
}
#endif

#endif
