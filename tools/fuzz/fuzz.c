/* A fuzzing target over the five calls. An input is a plan text (plan P of document 01 stands in for one that is
 * refused), a zero byte, and then operations on a block and an image in hand: events, lines, changed bytes, other
 * lengths. Each buffer lent ends or begins at a page that cannot be touched and has guard bytes at its other side.
 * Judged is what needs no second program. */
#include "skrzypolot.h"

#include <stdbool.h>
#include <stdio.h>
#include <stdlib.h>
#include <string.h>
#include <sys/mman.h>

#define BLOCK SKRZYPOLOT_BLOCK_BYTES
#define IMAGE SKRZYPOLOT_IMAGE_BYTES
#define NO_KIND 5
#define TEXT_MOST 16384
#define PAGE 4096
#define ROOM (8 * PAGE)
#define GUARD 64
#define MOST_OPERATIONS 200

int LLVMFuzzerTestOneInput(const uint8_t *data, size_t size);

/* The library has no counters for the fuzzer to see. What the calls return is shown to it instead, call by call. */
__attribute__((section("__libfuzzer_extra_counters"))) static uint8_t seen[8 * 4096];

static uint64_t returned[5][40];

static void print_returned(void) {
    static const char *const names[] = {"read", "margin", "fresh", "step", "line"};
    for (unsigned call = 0; call < 5; call++) {
        fprintf(stderr, "%s ", names[call]);
        for (unsigned number = 0; number < 40; number++) {
            if (returned[call][number] > 0) {
                fprintf(stderr, " %u: %llu", number, (unsigned long long)returned[call][number]);
            }
        }
        fputc('\n', stderr);
    }
}

static void see(unsigned call, uint32_t number, uint32_t beside) {
    if (number < 40) {
        returned[call][number]++;
    }
    seen[call * 4096 + (number * 61 + beside * 7) % 4096]++;
}

#define CHECK(what)                                                                                                    \
    do {                                                                                                               \
        if (!(what)) {                                                                                                 \
            fprintf(stderr, "fuzz: line %d: not so: %s\n", __LINE__, #what);                                           \
            abort();                                                                                                   \
        }                                                                                                              \
    } while (0)

/* Guard bytes, and what a buffer holds that a call is to write into. */
static uint8_t any[ROOM];

/* A buffer for one call, and what was put into it. */
struct lent {
    uint8_t *room, *bytes;
    size_t length;
    uint8_t before[ROOM];
};

static struct lent text, block, image, line, out;
static bool at_the_end;

static void lend(struct lent *lent, const uint8_t *bytes, size_t length) {
    if (lent->room == NULL) {
        uint8_t *pages = mmap(NULL, ROOM + 2 * PAGE, PROT_NONE, MAP_PRIVATE | MAP_ANONYMOUS, -1, 0);
        CHECK(pages != MAP_FAILED);
        lent->room = pages + PAGE;
        CHECK(mprotect(lent->room, ROOM, PROT_READ | PROT_WRITE) == 0);
    }
    CHECK(length + GUARD <= ROOM);
    at_the_end = !at_the_end;
    lent->bytes = at_the_end ? lent->room + ROOM - length : lent->room;
    lent->length = length;
    memcpy(at_the_end ? lent->bytes - GUARD : lent->bytes + length, any, GUARD);
    if (length > 0) {
        memcpy(lent->bytes, bytes, length);
        memcpy(lent->before, bytes, length);
    }
}

static bool guarded(const struct lent *lent) {
    bool end = lent->bytes + lent->length == lent->room + ROOM;
    return memcmp(end ? lent->bytes - GUARD : lent->bytes + lent->length, any, GUARD) == 0;
}

static bool kept(const struct lent *lent) {
    return guarded(lent) && memcmp(lent->bytes, lent->before, lent->length) == 0;
}

/* A number between two others. */
struct number {
    uint64_t front, value, back;
};

static uint32_t *lend_number(struct number *number) {
    *number = (struct number){0x1122334455667788, 0x99aabbccddeeff00, 0x1122334455667788};
    return (uint32_t *)(void *)&number->value;
}

static bool kept_number(const struct number *number) {
    return number->front == 0x1122334455667788 && number->value == 0x99aabbccddeeff00 &&
           number->back == 0x1122334455667788;
}

static uint32_t told(const struct number *number) {
    uint32_t value;
    memcpy(&value, &number->value, sizeof value);
    struct number expected;
    memcpy(lend_number(&expected), &value, sizeof value);
    CHECK(memcmp(number, &expected, sizeof expected) == 0);
    return value;
}

/* The block and the image in hand, and what was charged since the fresh image, as long as nothing but events touched
 * it. */
static uint8_t in_hand_block[BLOCK], in_hand_image[IMAGE], plan_block[BLOCK];
static bool counts;
static uint32_t charged[8], ticks[8];

static uint32_t number_at(const uint8_t *bytes) { return bytes[0] + 256U * bytes[1]; }

static void begin_counting(void) {
    counts = true;
    memset(charged, 0, sizeof charged);
    memset(ticks, 0, sizeof ticks);
}

/* Demand 3: exactly the budget in each complete period, and never more. */
static void count_tick(uint32_t subsystem) {
    if (subsystem != SKRZYPOLOT_NONE) {
        charged[subsystem]++;
    }
    for (unsigned row = 0; row < in_hand_block[0]; row++) {
        uint32_t period = number_at(in_hand_block + 4 + 4 * row), budget = number_at(in_hand_block + 6 + 4 * row);
        CHECK(charged[row] <= budget);
        if (++ticks[row] == period) {
            CHECK(charged[row] == budget);
            charged[row] = ticks[row] = 0;
        }
    }
}

static uint32_t read_text(const uint8_t *bytes, size_t length, size_t block_length) {
    struct number beside;
    lend(&text, bytes, length);
    lend(&block, any, block_length);
    uint32_t number = skrzypolot_read(text.bytes, length, block.bytes, block_length, lend_number(&beside));
    CHECK(kept(&text) && guarded(&block));
    CHECK((number == 34) == (block_length != BLOCK));
    if (number == 34) {
        CHECK(kept(&block) && kept_number(&beside));
        see(0, number, 0);
        return number;
    }
    CHECK((number == 20) == (length > TEXT_MOST));
    CHECK(number == 0 || (number >= 20 && number <= 30 && kept(&block)));
    see(0, number, told(&beside));

    /* Margins say the same as the reading. */
    for (uint32_t row = 0;; row++) {
        struct number margin;
        int64_t value;
        lend(&text, bytes, length);
        uint32_t got = skrzypolot_margin(text.bytes, length, row, (int64_t *)(void *)lend_number(&margin));
        CHECK(kept(&text) && margin.front == beside.front && margin.back == beside.back);
        memcpy(&value, &margin.value, sizeof value);
        see(1, got, (uint32_t)(value + 100000) % 64);
        if (got != 0) {
            CHECK(number != 0 || (row > 0 && row <= 8));
            CHECK(number == 0 || number == 30 ? got == 24 && value == 0 : got == number && value == told(&beside));
            CHECK(number != 30 || row > told(&beside));
            break;
        }
        CHECK(number == 30
                  ? (value < 0 && row == told(&beside)) || (value >= 0 && row < told(&beside)) || row > told(&beside)
                  : number == 0 && value >= 0);
    }
    return number;
}

static uint32_t fresh(const uint8_t *bytes, size_t block_length, size_t image_length) {
    lend(&block, bytes, block_length);
    lend(&image, any, image_length);
    uint32_t number = skrzypolot_fresh(block.bytes, block_length, image.bytes, image_length);
    CHECK(kept(&block) && guarded(&image));
    CHECK((number == 34) == (block_length != BLOCK || image_length != IMAGE));
    CHECK(number == 0 || ((number == 31 || number == 34) && kept(&image)));
    see(2, number, 0);
    return number;
}

/* The answers that each kind can be given, bit i for answer i. */
static bool answer_of_kind(uint32_t kind, uint32_t answer) {
    static const uint32_t given[] = {
        1 << 0 | 1 << 2 | 1 << 3,
        1 << 0 | 1 << 1 | 1 << 2 | 1 << 4 | 1 << 5 | 1 << 6 | 1 << 9,
        1 << 0 | 1 << 2 | 1 << 4 | 1 << 7,
        1 << 0 | 1 << 2 | 1 << 4 | 1 << 8,
        1 << 0 | 1 << 10,
    };
    return kind < NO_KIND ? (given[kind] >> answer & 1) != 0 : answer == 11;
}

/* One event on the bytes, whose lengths may be wrong. The image left is in the buffer lent. */
static uint32_t step(const uint8_t *from_block, size_t block_length, const uint8_t *from_image, size_t image_length,
                     const uint32_t event[3], uint32_t *charged_row) {
    struct number subsystem, running, ended;
    lend(&block, from_block, block_length);
    lend(&image, from_image, image_length);
    uint32_t number = skrzypolot_step(block.bytes, block_length, image.bytes, image_length, event[0], event[1],
                                      event[2], lend_number(&subsystem), lend_number(&running), lend_number(&ended));
    CHECK(kept(&block) && guarded(&image));
    CHECK((number == 34) == (block_length != BLOCK || image_length != IMAGE));
    if (number > 11) {
        CHECK(number == 31 || number == 32 || number == 34);
        CHECK(kept(&image) && kept_number(&subsystem) && kept_number(&running) && kept_number(&ended));
        see(3, number, 0);
        return number;
    }
    CHECK(answer_of_kind(event[0], number));
    CHECK(number == 0 || number == 1 || number == 10 || kept(&image));
    CHECK(told(&subsystem) == SKRZYPOLOT_NONE || told(&subsystem) < from_block[0]);
    CHECK(told(&running) == SKRZYPOLOT_NONE || told(&running) < from_block[1]);
    CHECK((told(&ended) != 0) == (number == 10));
    CHECK((uint64_t)told(&ended) >> from_block[1] == 0);
    see(3, number, told(&subsystem) * 32 + told(&running) % 32);
    *charged_row = told(&subsystem);
    return number;
}

static void step_in_hand(const uint32_t event[3]) {
    uint32_t row = SKRZYPOLOT_NONE, other;
    uint32_t number = step(in_hand_block, BLOCK, in_hand_image, IMAGE, event, &row);
    if (number == 31) {
        CHECK(fresh(in_hand_block, BLOCK, IMAGE) == 31);
    } else {
        /* Neither block nor image is refused for a run from the fresh state. */
        CHECK(number <= 11 || !counts);
    }
    if (number > 11) {
        return;
    }
    memcpy(in_hand_image, image.bytes, IMAGE);
    if (counts && event[0] == SKRZYPOLOT_TICK) {
        count_tick(row);
    }
    /* What a step leaves, the next one takes. */
    static const uint32_t none[3] = {NO_KIND, 0, 0};
    CHECK(step(in_hand_block, BLOCK, in_hand_image, IMAGE, none, &other) == 11);
}

/* A line on the bytes in hand, which stay in hand. */
static uint32_t send_line(const uint8_t *bytes, size_t length, uint32_t event_number, size_t room, size_t fill) {
    size_t moved = fill;
    lend(&block, in_hand_block, BLOCK);
    lend(&image, in_hand_image, IMAGE);
    lend(&line, bytes, length);
    lend(&out, any, room);
    uint32_t number = skrzypolot_line(block.bytes, BLOCK, image.bytes, IMAGE, event_number, line.bytes, length,
                                      out.bytes, room, &moved);
    CHECK(kept(&block) && kept(&line) && guarded(&image) && guarded(&out));
    see(4, number, (uint32_t)(moved - fill));
    if (number > 11) {
        CHECK(number >= 31 && number <= 33 && kept(&image) && kept(&out) && moved == fill);
        CHECK(number != 33 || room < 128 || fill > room - 128);
        return number;
    }
    CHECK(number == 11 || memchr(line.bytes, '\n', length) == line.bytes + length - 1);
    CHECK(moved > fill && moved <= room && moved - fill <= 128);
    CHECK(memcmp(out.bytes, out.before, fill) == 0);
    CHECK(memcmp(out.bytes + moved, out.before + moved, room - moved) == 0);
    char front[32];
    int front_length = snprintf(front, sizeof front, "%u %u ", (unsigned)event_number, (unsigned)number);
    CHECK(memcmp(out.bytes + fill, front, (size_t)front_length) == 0);
    CHECK(memchr(out.bytes + fill, '\n', moved - fill) == out.bytes + moved - 1);
    return number;
}

static size_t say(const uint32_t event[3], char said[64]) {
    static const char *const names[] = {"release", "lock", "unlock", "end", "tick"};
    static const int rows[] = {1, 2, 2, 1, 0};
    int length = snprintf(said, 64, "%s", names[event[0]]);
    for (int i = 0; i < rows[event[0]]; i++) {
        length += snprintf(said + length, 64 - (size_t)length, "\t%u", (unsigned)event[1 + i]);
    }
    length += snprintf(said + length, 64 - (size_t)length, "\n");
    return (size_t)length;
}

/* A line and the event it says come to the same. */
static void line_beside_step(const uint32_t event[3], uint32_t event_number) {
    char said[64];
    uint8_t left[IMAGE];
    uint32_t row;
    size_t length = say(event, said);
    uint32_t number = send_line((const uint8_t *)said, length, event_number, 128, 0);
    memcpy(left, image.bytes, IMAGE);
    CHECK(step(in_hand_block, BLOCK, in_hand_image, IMAGE, event, &row) == number);
    CHECK(memcmp(left, image.bytes, IMAGE) == 0);
}

/* A line that is cut off, or has one byte changed. */
static void damaged_line(const uint32_t event[3], uint32_t event_number, uint32_t place, uint32_t byte) {
    char said[64];
    size_t length = say(event, said);
    if (byte < 64) {
        length = place % (length + 1);
    } else {
        said[place % length] = (char)byte;
    }
    send_line((const uint8_t *)said, length, event_number, 128, 0);
}

static const uint8_t *rest, *rest_end;

static uint32_t take(unsigned count) {
    uint32_t number = 0;
    while (count-- > 0) {
        number = number * 256 + (rest < rest_end ? *rest++ : 0);
    }
    return number;
}

static uint32_t take_row(void) { return (take(1) - '0') & 0xff; }

static void fresh_in_hand(void) {
    if (fresh(in_hand_block, BLOCK, IMAGE) == 0) {
        memcpy(in_hand_image, image.bytes, IMAGE);
        begin_counting();
    }
}

static void other_lengths(const uint8_t *data, size_t length) {
    static uint8_t bytes[2400];
    static const uint32_t tick[3] = {SKRZYPOLOT_TICK, 0, 0};
    size_t block_length = take(2) % sizeof bytes, image_length = take(2) % 700;
    uint32_t row;
    memcpy(bytes, in_hand_block, BLOCK);
    fresh(bytes, block_length, image_length);
    step(bytes, block_length, in_hand_image, IMAGE, tick, &row);
    memcpy(bytes, in_hand_image, IMAGE);
    step(in_hand_block, BLOCK, bytes, image_length, tick, &row);
    read_text(data, length, block_length);
}

/* The text over and over, to a length around the longest. */
static void long_text(const uint8_t *data, size_t length, size_t long_length) {
    static uint8_t bytes[ROOM];
    for (size_t i = 0; length > 0 && i < long_length; i++) {
        bytes[i] = data[i % length];
    }
    read_text(bytes, long_length, BLOCK);
}

static void one_operation(const uint8_t *data, size_t length, uint32_t event_number) {
    uint32_t code = take(1) % 16;
    switch (code) {
    case 5: {
        uint32_t event[3] = {take(4), take(4), take(4)};
        step_in_hand(event);
        break;
    }
    case 6:
        in_hand_block[take(2) % BLOCK] = (uint8_t)take(1);
        counts = false;
        break;
    case 7:
        in_hand_image[take(2) % IMAGE] = (uint8_t)take(1);
        counts = false;
        break;
    case 8:
        memcpy(in_hand_block, plan_block, BLOCK);
        fresh_in_hand();
        break;
    case 9:
        fresh_in_hand();
        break;
    case 10:
        other_lengths(data, length);
        break;
    case 11:
    case 12: {
        uint32_t event[3] = {take(1) % NO_KIND, take_row(), take_row()};
        uint32_t place = take(1), byte = take(1);
        damaged_line(event, take(4), place, byte);
        break;
    }
    case 13:
    case 14: {
        size_t room = take(1), fill = code == 13 ? take(1) : SIZE_MAX - take(1), line_length = take(1);
        size_t there = (size_t)(rest_end - rest);
        line_length = line_length < there ? line_length : there;
        send_line(rest, line_length, event_number, room, fill);
        rest += line_length;
        break;
    }
    default: {
        uint32_t event[3] = {code % NO_KIND, take_row(), take_row()};
        line_beside_step(event, event_number);
        step_in_hand(event);
    }
    }
}

int LLVMFuzzerTestOneInput(const uint8_t *data, size_t size) {
    if (size > TEXT_MOST + 64) {
        return 0;
    }
    const uint8_t *zero = size > 0 ? memchr(data, 0, size) : NULL;
    size_t length = zero != NULL ? (size_t)(zero - data) : size;
    rest = zero != NULL ? zero + 1 : data + size;
    rest_end = data + size;
    at_the_end = size % 2 == 0;
    if (any[0] == 0) {
        memset(any, 0x5a, sizeof any);
        atexit(print_returned);
    }
    if (read_text(data, length, BLOCK) != 0) {
        static const char good[] =
            "S\t10\t4\nS\t20\t6\nT\t0\nT\t0\nT\t1\nR\tG\nR\tL\nU\t0\t0\t2\nU\t0\t1\t0\nU\t1\t1\t0\nU\t2\t0\t3\n";
        CHECK(read_text((const uint8_t *)good, sizeof good - 1, BLOCK) == 0);
    }
    memcpy(plan_block, block.bytes, BLOCK);
    memcpy(in_hand_block, block.bytes, BLOCK);
    CHECK(fresh(in_hand_block, BLOCK, IMAGE) == 0);
    memcpy(in_hand_image, image.bytes, IMAGE);
    begin_counting();
    if (rest < rest_end && *rest == 'L') {
        long_text(data, length, TEXT_MOST - 8 + take(2) % 16);
    }
    for (uint32_t number = 1; number <= MOST_OPERATIONS && rest < rest_end; number++) {
        one_operation(data, length, number);
    }
    return 0;
}
