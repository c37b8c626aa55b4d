/* Lends every buffer as a heap block of exactly its length, unset where a call may only write, so that a memory checker
 * sees a byte read or written too far, and a byte used before it is set. exact PLAN takes an accepted plan. */
#include "skrzypolot.h"

#include <stdbool.h>
#include <stdio.h>
#include <stdlib.h>
#include <string.h>

#define BLOCK SKRZYPOLOT_BLOCK_BYTES
#define IMAGE SKRZYPOLOT_IMAGE_BYTES
#define TEXT_MOST 16384

static unsigned calls, wrong;

static void expect(bool right, const char *call, uint32_t number) {
    calls++;
    if (!right) {
        wrong++;
        fprintf(stderr, "exact: call %u, %s, gave %u\n", calls, call, (unsigned)number);
    }
}

static uint8_t *unset(size_t length) {
    uint8_t *bytes = malloc(length);
    if (bytes == NULL && length > 0) {
        exit(2);
    }
    return bytes;
}

static uint8_t *copy(const uint8_t *from, size_t length) {
    uint8_t *bytes = unset(length);
    if (length > 0) {
        memcpy(bytes, from, length);
    }
    return bytes;
}

/* As much of the bytes as there is, zeros behind them. */
static uint8_t *copy_of_length(const uint8_t *from, size_t there, size_t length) {
    uint8_t *bytes = unset(length);
    for (size_t i = 0; i < length; i++) {
        bytes[i] = i < there ? from[i] : 0;
    }
    return bytes;
}

static void read_text(const uint8_t *text, size_t length) {
    uint8_t *lent = copy(text, length), *block = unset(BLOCK);
    uint32_t beside;
    uint32_t number = skrzypolot_read(lent, length, block, BLOCK, &beside);
    expect(number == 0 || (number >= 20 && number <= 30), "read", number);
    /* With 0 every byte is set, and the next call takes them for a plan's. */
    if (number == 0) {
        uint8_t *image = unset(IMAGE);
        number = skrzypolot_fresh(block, BLOCK, image, IMAGE);
        expect(number == 0, "fresh", number);
        free(image);
    }
    free(block);
    static const size_t lengths[] = {0, 1, BLOCK - 1, BLOCK + 1};
    for (size_t i = 0; i < 4; i++) {
        block = unset(lengths[i]);
        number = skrzypolot_read(lent, length, block, lengths[i], &beside);
        expect(number == 34, "read into another length", number);
        free(block);
    }
    for (uint32_t row = 0; row < 10; row++) {
        int64_t margin;
        number = skrzypolot_margin(lent, length, row == 9 ? UINT32_MAX : row, &margin);
        expect(number == 0 || (number >= 20 && number <= 29), "margin", number);
    }
    free(lent);
}

static uint32_t step(const uint8_t *block, size_t block_length, uint8_t *image, size_t image_length, uint32_t kind) {
    uint32_t subsystem, running, ended;
    uint32_t number =
        skrzypolot_step(block, block_length, image, image_length, kind, 0, 0, &subsystem, &running, &ended);
    /* Uses the numbers, which an answer has set. */
    if (number <= 11) {
        expect(subsystem == 255 || subsystem < 8, "step: subsystem", subsystem);
        expect(running == 255 || running < 32, "step: running", running);
        expect((ended != 0) == (number == 10), "step: ended", ended);
    }
    return number;
}

/* The lengths around the right ones, and each byte changed by itself. */
static void bytes_one_by_one(const uint8_t *good_block, const uint8_t *good_image) {
    for (size_t i = 0; i <= BLOCK + 1; i++) {
        uint8_t *block = copy_of_length(good_block, BLOCK, i), *image = copy(good_image, IMAGE);
        uint32_t number = step(block, i, image, IMAGE, SKRZYPOLOT_TICK);
        expect(number == (i == BLOCK ? 0 : 34), "step on a block of another length", number);
        free(block);
        free(image);
    }
    for (size_t i = 0; i <= IMAGE + 1; i++) {
        uint8_t *image = copy_of_length(good_image, IMAGE, i);
        uint32_t number = step(good_block, BLOCK, image, i, SKRZYPOLOT_TICK);
        expect(number == (i == IMAGE ? 0 : 34), "step on an image of another length", number);
        number = skrzypolot_fresh(good_block, BLOCK, image, i);
        expect(number == (i == IMAGE ? 0 : 34), "fresh on an image of another length", number);
        free(image);
    }
    for (size_t i = 0; i < BLOCK; i++) {
        uint8_t *block = copy(good_block, BLOCK), *image = unset(IMAGE);
        block[i] = (uint8_t)~block[i];
        uint32_t number = skrzypolot_fresh(block, BLOCK, image, IMAGE);
        expect(number == 0 || number == 31, "fresh from a changed block", number);
        free(block);
        free(image);
    }
    for (size_t i = 0; i < IMAGE; i++) {
        for (uint32_t kind = SKRZYPOLOT_RELEASE; kind <= SKRZYPOLOT_TICK + 1; kind++) {
            uint8_t *image = copy(good_image, IMAGE);
            image[i] = (uint8_t)(image[i] + 1);
            uint32_t number = step(good_block, BLOCK, image, IMAGE, kind);
            expect(number <= 11 || number == 32, "step on a changed image", number);
            free(image);
        }
    }
}

static void lines(const uint8_t *good_block, const uint8_t *good_image) {
    static const char *const texts[] = {
        "tick\n",        "release\t0\n",          "lock\t0\t0\n", "unlock\t99999\t99999\n",
        "end\t100000\n", "unlock\t10000\t100000", "\n",           "tick\ntick\n"};
    for (size_t i = 0; i < sizeof texts / sizeof texts[0]; i++) {
        for (size_t length = 0; length <= strlen(texts[i]); length++) {
            for (size_t room = 0; room <= 24; room += length % 2 + 1) {
                uint8_t *image = copy(good_image, IMAGE), *out = unset(room);
                uint8_t *line = copy((const uint8_t *)texts[i], length);
                size_t fill = room > 20 ? room - 20 : i % 2 * SIZE_MAX;
                size_t before = fill;
                uint32_t number = skrzypolot_line(good_block, BLOCK, image, IMAGE, 7, line, length, out, room, &fill);
                expect(number <= 11 || number == 33, "line", number);
                expect((number == 33) == (fill == before), "line: fill moved", (uint32_t)fill);
                free(line);
                free(out);
                free(image);
            }
        }
    }
}

int main(int argc, char **argv) {
    static uint8_t text[TEXT_MOST + 2];
    FILE *file = argc == 2 ? fopen(argv[1], "rb") : NULL;
    if (file == NULL) {
        fprintf(stderr, "usage: exact PLAN\n");
        return 2;
    }
    size_t length = fread(text, 1, TEXT_MOST, file);
    fclose(file);

    uint8_t *block = unset(BLOCK), *image = unset(IMAGE);
    uint32_t beside;
    uint32_t number = skrzypolot_read(text, length, block, BLOCK, &beside);
    expect(number == 0, "read of the plan", number);
    number = skrzypolot_fresh(block, BLOCK, image, IMAGE);
    expect(number == 0, "fresh of the plan", number);
    bytes_one_by_one(block, image);
    lines(block, image);
    free(block);
    free(image);

    for (size_t i = 0; i <= length; i++) {
        read_text(text, i);
    }
    /* Around the longest text: as one long line, then as very many. */
    memset(text, '1', sizeof text);
    for (size_t i = TEXT_MOST - 1; i < sizeof text; i++) {
        read_text(text, i);
    }
    memset(text, '\n', sizeof text);
    read_text(text, TEXT_MOST);

    printf("%u calls, %u wrong\n", calls, wrong);
    return wrong == 0 ? 0 : 1;
}
