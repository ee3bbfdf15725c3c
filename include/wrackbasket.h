/* Wrackbasket for C: the calls of the crate `capi`, whose promises are proved; `capi_c` exports them.
 *
 * A pointer is never null, also where its length is 0, and what is lent for writing overlaps nothing else. Nothing that
 * is handed in makes a call stop, stray or run on. A refused call leaves every lent byte as it was.
 *
 * `NUMBER` is 0 where a call accepted, else the number of the paper's list, and `PLACE` says where: 1 a wrong length
 * (0), 2 a bit that cannot be used or an unlisted byte that is not 0 (byte address), 3 an unprinted code (byte address),
 * 4 a field out of range (step or cell), 5 a tag of an earlier step (the later step), 6 a jump to a tag that no step has
 * (step), 7 more than 63 cells (0), 8 a state that the rules cannot reach (0), 9 a word out of range (0), 10 a table
 * buffer under 12 bytes a cell (0).
 *
 * Build: bench/archive, then link target/staticlib/libcapi.a. */
#ifndef WRACKBASKET_H
#define WRACKBASKET_H

#include <stddef.h>
#include <stdint.h>

/* Translates a sheet into the lent table, 12 bytes for each cell; bytes beyond the cells stay.
 * Answer: bits 7:0 NUMBER, 15:8 the cells, 31:16 PLACE. */
uint32_t wrackbasket_translate(const uint8_t *sheet, size_t sheet_length, uint8_t *table, size_t table_length);

/* Writes the normal bytes of an image into the lent buffer of 80 bytes. The image is tested before the buffer's length.
 * Answer: bits 7:0 NUMBER, 15:8 zero, 31:16 PLACE. */
uint32_t wrackbasket_normal(const uint8_t *image, size_t image_length, uint8_t *buffer, size_t buffer_length);

/* An engine's state is eight bytes that the caller keeps and lends, in one form for ever: the number of the cell (or step),
 * held, elapsed (2), ticks (2), two zero bytes; numbers of two bytes have the low byte first. Held and ticks are 0. */
#define WRACKBASKET_STATE_LENGTH 8
#define WRACKBASKET_STATE_AT(state) ((unsigned)(state)[0])
#define WRACKBASKET_STATE_ELAPSED(state) ((unsigned)(state)[2] | (unsigned)(state)[3] << 8)

/* Writes the state in which every run starts, whatever stood in the eight bytes.
 * Answer: bits 7:0 NUMBER, 15:8 zero, 31:16 PLACE. */
uint32_t wrackbasket_start(uint8_t *state, size_t state_length);

/* One tick of the engine on a table, or on a sheet, with a word of faults: the lent state becomes the next state. Another
 * length of the state is refused (1), then a byte of it that must be 0 and is not (8), then what the tick itself refuses.
 * Answer: bits 7:0 NUMBER, 15:8 the step that shows, 31:16 the outputs, 62:32 PLACE, 63 zero. A refusal shows no step and no
 * outputs. */
uint64_t wrackbasket_tick_table(const uint8_t *table, size_t table_length, uint8_t *state, size_t state_length, uint16_t word);
uint64_t wrackbasket_tick_sheet(const uint8_t *sheet, size_t sheet_length, uint8_t *state, size_t state_length, uint16_t word);

/* What shows at a state, which stays: a tick's tests without the word, and a tick's answer. */
uint64_t wrackbasket_show_table(const uint8_t *table, size_t table_length, const uint8_t *state, size_t state_length);
uint64_t wrackbasket_show_sheet(const uint8_t *sheet, size_t sheet_length, const uint8_t *state, size_t state_length);

/* The detectors under an image's settings, from their start over a recording of whole engine ticks, 220 bytes each. The
 * image is tested first, then the recording's length, then each engine tick when its turn comes.
 * Answer: bits 7:0 NUMBER, 15:8 PLACE, 31:16 the fault word of the last engine tick, 47:32 its warning word; no words
 * for a refusal and for an empty recording. */
uint64_t wrackbasket_detect(const uint8_t *image, size_t image_length, const uint8_t *recording, size_t recording_length);

#define WRACKBASKET_NUMBER(answer) ((unsigned)((answer) & 0xff))
#define WRACKBASKET_CELLS(answer) ((unsigned)((answer) >> 8 & 0xff))        /* translate */
#define WRACKBASKET_ADDRESS(answer) ((unsigned)((answer) >> 16))            /* the place of translate, normal and start */
#define WRACKBASKET_STEP(answer) ((unsigned)((answer) >> 8 & 0xff))         /* tick and show */
#define WRACKBASKET_OUTPUTS(answer) ((unsigned)((answer) >> 16 & 0xffff))   /* tick and show */
#define WRACKBASKET_TICK_PLACE(answer) ((unsigned)((answer) >> 32))         /* the place of tick and show */
#define WRACKBASKET_PLACE(answer) ((unsigned)((answer) >> 8 & 0xff))        /* the place of detect */
#define WRACKBASKET_FAULTS(answer) ((unsigned)((answer) >> 16 & 0xffff))    /* detect */
#define WRACKBASKET_WARNINGS(answer) ((unsigned)((answer) >> 32 & 0xffff))  /* detect */

#endif
