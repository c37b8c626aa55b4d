/* The calls of Skrzypolot for a host in C, over byte buffers and numbers.
 *
 * Each call returns 0 or a number of the tables below. A call touches only what it is lent and keeps nothing between calls, so calls on
 * different buffers may run on different threads. No buffer needs an alignment. Buffers lent to one call must not overlap, each pointer
 * must hold what its length says, and none may be null, not even with length 0; nothing can check that here. Of the C library the calls
 * use memcpy and memset, and they allocate nothing.
 *
 * Answers of an event:
 *    0  done                                           6  the job holds a global, or holds this one
 *    1  waits for budget                               7  not the resource it took last, or holds none
 *    2  no such task or resource row                   8  end while holding
 *    3  release of a task that is not idle             9  a fifth held resource
 *    4  the task is not the one running               10  tick; a section was shut, its tasks are in *ended
 *    5  resource not declared                         11  unknown kind, or a line that is no event
 * 2 to 9 and 11 keep the state.
 *
 * Plan refusals, with the number beside: 20 longer than 16,384 bytes (0); on the line beside: 21 not of the grammar, 22 a kind after a
 * later kind, 23 too many rows, 24 a row that does not exist, 25 out of range, 26 declared twice, 27 a local resource used from two
 * subsystems, 28 a length above the budget; 29 no S line (0); 30 a negative margin (its first row).
 *
 * 31  no accepted plan has the block          33  the printed line is longer than the rest of the buffer
 * 32  the image is not a legal state's        34  a buffer has the wrong length
 * They come in the order 34, 31, 32, 33, and each keeps everything lent, the numbers behind pointers too. */
#ifndef SKRZYPOLOT_H
#define SKRZYPOLOT_H

#include <stddef.h>
#include <stdint.h>

#ifdef __cplusplus
extern "C" {
#endif

/* The length of a plan block. */
#define SKRZYPOLOT_BLOCK_BYTES 1108

/* The length of a state image. */
#define SKRZYPOLOT_IMAGE_BYTES 320

/* Reads a plan text. 0: the block is the plan's and *beside is 0. 20 to 30: the block is kept and *beside is the number beside the
 * refusal. 34, where block_len is not 1108: everything is kept. */
uint32_t skrzypolot_read(const uint8_t *text, size_t text_len, uint8_t *block, size_t block_len, uint32_t *beside);

/* The margin of a row, signed, of a plan text that meets no refusal but 30. 0: *margin is the margin. 24 with *margin 0: the plan has no
 * such row. 20 to 29: the plan's refusal, with the number beside it in *margin. */
uint32_t skrzypolot_margin(const uint8_t *text, size_t text_len, uint32_t row, int64_t *margin);

/* The state that a run of the block's plan starts in. 0: the image is that state's. 34, where block_len is not 1108 or image_len is not
 * 320, and else 31: the image is kept. */
uint32_t skrzypolot_fresh(const uint8_t *block, size_t block_len, uint8_t *image, size_t image_len);

/* Kinds of events. Release and end use a task row, lock and unlock a task and a resource row; other numbers are not read. */
#define SKRZYPOLOT_RELEASE 0
#define SKRZYPOLOT_LOCK 1
#define SKRZYPOLOT_UNLOCK 2
#define SKRZYPOLOT_END 3
#define SKRZYPOLOT_TICK 4

/* No row. */
#define SKRZYPOLOT_NONE 255

/* One event on the state of the image. 0 to 11, the answer: the image is that of the state after it, *subsystem and *running are for a tick
 * the subsystem charged and the task run, otherwise those chosen and running afterwards, 255 for none, and *ended is the set of tasks that
 * a tick ended, bit i for row i. 34, 31 or 32: everything is kept. */
uint32_t skrzypolot_step(const uint8_t *block, size_t block_len, uint8_t *image, size_t image_len, uint32_t kind, uint32_t task,
                         uint32_t resource, uint32_t *subsystem, uint32_t *running, uint32_t *ended);

/* One event line, with its line feed, on the state of the image: steps, and writes the printed line with the event number given at
 * out[*fill], which moves on. 0 to 11, the answer; anything that is no event line is an 11. 34, 31, 32 or 33: everything is kept, so that
 * with 33 a host can empty the buffer and send the same line again. A printed line has 109 bytes at most. */
uint32_t skrzypolot_line(const uint8_t *block, size_t block_len, uint8_t *image, size_t image_len, uint32_t number, const uint8_t *line,
                         size_t line_len, uint8_t *out, size_t out_len, size_t *fill);

#ifdef __cplusplus
}
#endif

#endif
