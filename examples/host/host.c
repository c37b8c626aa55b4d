/* A host to start from. It reads a plan file and sends an event file through the scheduler:
 *
 *   host margins PLAN         the admission report: a line a row, with its margin
 *   host steps PLAN EVENTS    sends each event as numbers, by skrzypolot_step
 *   host lines PLAN EVENTS    sends each event as its line, by skrzypolot_line
 *
 * steps and lines print the same, a line an event: event number, answer, subsystem, task, tasks ended; `-` is none. A
 * refused plan is one line, `plan` with the refusal and the number beside it. Messages go to standard error. The exit
 * status is 0, or
 *
 *   1   the plan is refused
 *   2   a wrong command line, or a file that cannot be read or written
 *   3   a call refused what this program kept: a fault of this program
 *
 * A host keeps two things from call to call, the plan's block and the state's image, and nothing else that the
 * scheduler needs. Between calls it may copy them, store them, send them elsewhere and go on from any copy; each pair
 * is a run of its own. It alters neither. */
#include "skrzypolot.h"

#include <errno.h>
#include <inttypes.h>
#include <stdbool.h>
#include <stdio.h>
#include <string.h>

/* One byte more than the longest plan: a longer file is then refused for its length, and never taken for the plan in
 * its front. */
#define TEXT_BYTES (16384 + 1)

/* Some more than the longest event line, which has 19 bytes. */
#define LINE_BYTES 32

/* Small on purpose, so that 33 comes up, but no smaller than a printed line can be. A large buffer is quicker. */
#define OUT_BYTES 128

#define MOST_EVENTS 9999999

/* No event has this kind. Its answer is 11, which alters nothing and tells who is chosen and running now. */
#define NO_KIND 5

enum { DONE = 0, PLAN_REFUSED = 1, NO_FILE = 2, FAULT = 3 };

struct text {
    uint8_t bytes[TEXT_BYTES];
    size_t length;
};

struct kept {
    uint8_t block[SKRZYPOLOT_BLOCK_BYTES];
    uint8_t image[SKRZYPOLOT_IMAGE_BYTES];
};

struct event {
    uint32_t kind, task, resource;
};

static int no_file(const char *name) {
    fprintf(stderr, "host: %s: %s\n", name, strerror(errno));
    return NO_FILE;
}

/* 31, 32 and 34 kept everything, so a run can go on from a good copy of block and image. They do not come up while a
 * host keeps what the calls left; here they end the run, since then something in this program wrote over it. */
static int fault(uint32_t event_number, uint32_t number) {
    static const char *const meanings[] = {"the block is no accepted plan's", "the image is no legal state's",
                                           "an empty buffer is too short for the printed line",
                                           "a buffer has the wrong length"};
    const char *meaning = number >= 31 && number <= 34 ? meanings[number - 31] : "no number of this call";
    fprintf(stderr, "host: event %" PRIu32 ": %" PRIu32 ", %s\n", event_number, number, meaning);
    return FAULT;
}

static int refused(uint32_t number, uint32_t beside) {
    static const char *const meanings[] = {
        "longer than 16384 bytes",
        "a line is not of the grammar",
        "a kind comes after a later kind",
        "too many rows of the kind",
        "names a row that does not exist",
        "period, budget or length out of range",
        "the same task and resource declared twice",
        "a local resource used from two subsystems",
        "length above the subsystem's budget",
        "no S line",
        "a margin is negative",
    };
    if (number < 20 || number > 30) {
        return fault(0, number);
    }
    printf("plan %" PRIu32 " %" PRIu32 "\n", number, beside);
    fprintf(stderr, "host: plan refused: %s", meanings[number - 20]);
    if (number != 20 && number != 29) {
        fprintf(stderr, ", %s %" PRIu32, number == 30 ? "row" : "line", beside);
    }
    fputc('\n', stderr);
    return PLAN_REFUSED;
}

static int read_text(const char *name, struct text *text) {
    FILE *file = fopen(name, "rb");
    if (file == NULL) {
        return no_file(name);
    }
    text->length = fread(text->bytes, 1, sizeof text->bytes, file);
    int status = ferror(file) ? no_file(name) : DONE;
    fclose(file);
    return status;
}

static int show_margins(const char *plan_name) {
    static struct text text;
    int status = read_text(plan_name, &text);
    if (status != DONE) {
        return status;
    }
    uint8_t block[SKRZYPOLOT_BLOCK_BYTES];
    uint32_t beside;
    uint32_t number = skrzypolot_read(text.bytes, text.length, block, sizeof block, &beside);
    /* A plan refused with 30 has margins too, so that one sees by how much it is too full. The first row that it lacks
     * gives 24. */
    if (number == 0 || number == 30) {
        int64_t margin;
        for (uint32_t row = 0; skrzypolot_margin(text.bytes, text.length, row, &margin) == 0; row++) {
            printf("%" PRIu32 " %" PRId64 "\n", row, margin);
        }
    }
    return number == 0 ? DONE : refused(number, beside);
}

/* The next line with its line feed, 0 at the end of the file. Of a line that is longer than any event only the front is
 * kept, which is no event either. */
static size_t next_line(FILE *file, uint8_t line[LINE_BYTES]) {
    size_t length = 0;
    int byte = 0;
    while (byte != '\n' && (byte = getc(file)) != EOF) {
        if (length < LINE_BYTES) {
            line[length++] = (uint8_t)byte;
        }
    }
    return length;
}

/* A tab, then a row: 1 to 5 digits, no leading zero. */
static bool read_row(const uint8_t *line, size_t length, size_t *at, uint32_t *row) {
    if (*at >= length || line[*at] != '\t') {
        return false;
    }
    size_t first = ++*at;
    while (*at < length && *at < first + 5 && line[*at] >= '0' && line[*at] <= '9') {
        *row = *row * 10 + (uint32_t)(line[(*at)++] - '0');
    }
    size_t digits = *at - first;
    return digits == 1 || (digits > 1 && line[first] != '0');
}

/* A name and exactly the rows that its kind uses. Anything else becomes an event of no kind, so that it gets its 11. */
static struct event event_of(const uint8_t *line, size_t length) {
    static const char *const names[] = {"release", "lock", "unlock", "end", "tick"};
    static const int rows[] = {1, 2, 2, 1, 0};
    for (uint32_t kind = SKRZYPOLOT_RELEASE; kind <= SKRZYPOLOT_TICK; kind++) {
        size_t at = strlen(names[kind]);
        if (length <= at || memcmp(line, names[kind], at) != 0) {
            continue;
        }
        struct event event = {kind, 0, 0};
        bool good = rows[kind] < 1 || read_row(line, length, &at, &event.task);
        good = good && (rows[kind] < 2 || read_row(line, length, &at, &event.resource));
        if (good && at + 1 == length && line[at] == '\n') {
            return event;
        }
    }
    return (struct event){NO_KIND, 0, 0};
}

static void print_row(uint32_t row) {
    if (row == SKRZYPOLOT_NONE) {
        printf(" -");
    } else {
        printf(" %" PRIu32, row);
    }
}

static void print_set(uint32_t ended) {
    char before = ' ';
    for (uint32_t row = 0; row < 32; row++) {
        if (ended >> row & 1) {
            printf("%c%" PRIu32, before, row);
            before = ',';
        }
    }
    fputs(ended == 0 ? " -\n" : "\n", stdout);
}

/* The tasks of the set are idle now and hold nothing, while their jobs may be in the middle of a section. A real host
 * stops these jobs and takes the resource from them before any other job goes on. */
static void stop_jobs(uint32_t event_number, uint32_t ended) {
    for (uint32_t row = 0; row < 32; row++) {
        if (ended >> row & 1) {
            fprintf(stderr, "host: event %" PRIu32 ": task %" PRIu32 " outstayed its section and was ended\n",
                    event_number, row);
        }
    }
}

/* What a real host does with an answer: running is for a tick the task that the tick ran, otherwise the one whose job
 * goes on from here. With 1 the job stops until running names its task again. With 2 to 9 and 11 a job asked for what
 * it may not, and nothing was altered. */
static int send_steps(struct kept *kept, FILE *events) {
    uint8_t line[LINE_BYTES];
    size_t length;
    for (uint32_t number = 1; number <= MOST_EVENTS && (length = next_line(events, line)) > 0; number++) {
        struct event event = event_of(line, length);
        uint32_t subsystem, running, ended;
        uint32_t answer = skrzypolot_step(kept->block, sizeof kept->block, kept->image, sizeof kept->image, event.kind,
                                          event.task, event.resource, &subsystem, &running, &ended);
        if (answer > 11) {
            return fault(number, answer); /* The three numbers were not written. */
        }
        printf("%" PRIu32 " %" PRIu32, number, answer);
        print_row(subsystem);
        print_row(running);
        print_set(ended);
        if (answer == 10) {
            stop_jobs(number, ended);
        }
    }
    return DONE;
}

/* The set of a 10 is the last field of the printed line. A host that has jobs to stop sends events as numbers. */
static int send_lines(struct kept *kept, FILE *events) {
    uint8_t line[LINE_BYTES], out[OUT_BYTES];
    size_t length, fill = 0;
    int status = DONE;
    for (uint32_t number = 1; number <= MOST_EVENTS && (length = next_line(events, line)) > 0; number++) {
        uint32_t answer;
        for (;;) {
            answer = skrzypolot_line(kept->block, sizeof kept->block, kept->image, sizeof kept->image, number, line,
                                     length, out, sizeof out, &fill);
            if (answer != 33 || fill == 0) {
                break;
            }
            /* The event has not happened, image, buffer and fill are as before: the same line goes again. */
            fwrite(out, 1, fill, stdout);
            fill = 0;
        }
        if (answer > 11) {
            status = fault(number, answer);
            break;
        }
    }
    fwrite(out, 1, fill, stdout);
    return status;
}

static int run(const char *plan_name, const char *events_name, int (*send)(struct kept *, FILE *)) {
    static struct text text;
    static struct kept kept;
    int status = read_text(plan_name, &text);
    if (status != DONE) {
        return status;
    }
    FILE *events = fopen(events_name, "rb");
    if (events == NULL) {
        return no_file(events_name);
    }
    uint32_t beside;
    uint32_t number = skrzypolot_read(text.bytes, text.length, kept.block, sizeof kept.block, &beside);
    if (number != 0) {
        status = refused(number, beside);
    } else if ((number = skrzypolot_fresh(kept.block, sizeof kept.block, kept.image, sizeof kept.image)) != 0) {
        status = fault(0, number);
    } else {
        status = send(&kept, events);
        if (ferror(events)) {
            status = no_file(events_name);
        }
    }
    fclose(events);
    return status;
}

int main(int argc, char **argv) {
    int status = NO_FILE;
    if (argc == 3 && strcmp(argv[1], "margins") == 0) {
        status = show_margins(argv[2]);
    } else if (argc == 4 && strcmp(argv[1], "steps") == 0) {
        status = run(argv[2], argv[3], send_steps);
    } else if (argc == 4 && strcmp(argv[1], "lines") == 0) {
        status = run(argv[2], argv[3], send_lines);
    } else {
        fprintf(stderr, "usage: host margins PLAN | host steps PLAN EVENTS | host lines PLAN EVENTS\n");
    }
    if (fflush(stdout) != 0 || ferror(stdout)) {
        status = no_file("output");
    }
    return status;
}
