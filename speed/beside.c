/* Times the bench's functions beside those of sheet.c, in one process and in turns, and prints how many times C's time ours takes.

       beside check PACKED      holds both to what the second program said; prints how many files and lines agreed
       beside ratios PACKED     the same, then times each case and prints its ratio
       beside times PACKED      the same, with nanoseconds behind each ratio: ours, then C's

   PACKED is what packed.py writes: numbers of 8 bytes, low byte first. It is a list of cases up to the end. A case is its kind (0 sheets,
   1 lines), the length of its name, the name, the number of its items, the items. An item of kind 0 is a file and its sheet, each a
   length and bytes; one of kind 1 is m, d, 11 inputs, 11 values and the 6 numbers that are due. */
#include "sheet.h"

#include <stdio.h>
#include <stdlib.h>
#include <string.h>
#include <time.h>

/* What our archives export. */
size_t wheattunic_sheet(const uint8_t *file, size_t file_len, uint8_t *out, size_t out_len);
void wheattunic_line(size_t m, uint64_t d, const int64_t x[MOST_POINTS], const int64_t v[MOST_POINTS],
                     int64_t above[3], uint64_t below[3]);

/* Our line as c_line hands on its own. */
static void our_line(size_t m, uint64_t d, const int64_t *x, const int64_t *v, int64_t *out)
{
    int64_t above[3] = {0};
    uint64_t below[3] = {0};
    wheattunic_line(m, d, x, v, above, below);
    for (int i = 0; i < 3; i++) {
        out[2 * i] = above[i];
        out[2 * i + 1] = (int64_t)below[i];
    }
}

typedef size_t sheet_function(const uint8_t *, size_t, uint8_t *, size_t);
typedef void line_function(size_t, uint64_t, const int64_t *, const int64_t *, int64_t *);

enum { OURS, CS, BOTH };
static sheet_function *const SHEETS[BOTH] = {wheattunic_sheet, c_sheet};
static line_function *const LINES[BOTH] = {our_line, c_line};
static const char *const WHOSE[BOTH] = {"ours", "C's"};

enum { SHEET_CASE, LINE_CASE };
enum { MOST_ITEMS = 32768, ROOM = 1024, BATCHES = 201 };
#define BATCH_NANOSECONDS 200000

struct item {
    const uint8_t *file, *due;
    size_t file_len, due_len;
    size_t m;
    uint64_t d;
    int64_t x[MOST_POINTS], v[MOST_POINTS], numbers[6];
};

struct test {
    uint64_t kind;
    char name[64];
    size_t count;
};

static struct item items[MOST_ITEMS];

static void stop(const char *why)
{
    fprintf(stderr, "beside: %s\n", why);
    exit(1);
}

/* ---- The packed file ---- */

static const uint8_t *packed, *packed_end;

static const uint8_t *take(size_t length)
{
    if (length > (size_t)(packed_end - packed))
        stop("the packed file ends too early");
    const uint8_t *at = packed;
    packed += length;
    return at;
}

static uint64_t take_number(void)
{
    uint64_t value;
    memcpy(&value, take(sizeof value), sizeof value);
    return value;
}

static void load(const char *name)
{
    FILE *file = fopen(name, "rb");
    if (!file || fseek(file, 0, SEEK_END) != 0)
        stop("the packed file cannot be read");
    long length = ftell(file);
    uint8_t *bytes = length > 0 ? malloc((size_t)length) : NULL;
    rewind(file);
    if (!bytes || fread(bytes, 1, (size_t)length, file) != (size_t)length)
        stop("the packed file cannot be read");
    fclose(file);
    packed = bytes;
    packed_end = bytes + length;
}

static void take_item(struct item *it, uint64_t kind)
{
    if (kind == SHEET_CASE) {
        it->file_len = take_number();
        it->file = take(it->file_len);
        it->due_len = take_number();
        it->due = take(it->due_len);
        return;
    }
    it->m = take_number();
    it->d = take_number();
    memcpy(it->x, take(sizeof it->x), sizeof it->x);
    memcpy(it->v, take(sizeof it->v), sizeof it->v);
    memcpy(it->numbers, take(sizeof it->numbers), sizeof it->numbers);
}

static struct test take_test(void)
{
    struct test t = {.kind = take_number()};
    size_t length = take_number();
    if (t.kind > LINE_CASE || length >= sizeof t.name)
        stop("a case of the packed file is not understood");
    memcpy(t.name, take(length), length);
    t.count = take_number();
    if (t.count == 0 || t.count > MOST_ITEMS)
        stop("a case has no items, or too many");
    for (size_t i = 0; i < t.count; i++)
        take_item(&items[i], t.kind);
    return t;
}

/* ---- Agreement ---- */

static size_t differences;

static void differ(const struct test *t, size_t which, int whose, const char *how)
{
    if (differences++ < 20)
        fprintf(stderr, "%s, item %zu: %s %s\n", t->name, which, WHOSE[whose], how);
}

/* With this much room the sheet stands at the front, or 0 is returned where it is too short; nothing else is touched. */
static int sheet_agrees(const struct item *it, sheet_function *sheet, size_t room)
{
    uint8_t out[ROOM], due[ROOM];
    memset(out, 170, sizeof out);
    memset(due, 170, sizeof due);
    size_t length = it->due_len <= room ? it->due_len : 0;
    memcpy(due, it->due, length);
    return sheet(it->file, it->file_len, out, room) == length && memcmp(out, due, sizeof out) == 0;
}

static void check_sheet(const struct test *t, size_t which, int whose)
{
    const struct item *it = &items[which];
    if (it->due_len == 0 || it->due_len >= MOST_SHEET)
        stop("a sheet that is due has no length that a sheet has");
    const size_t rooms[] = {ROOM, MOST_SHEET, MOST_SHEET - 1, it->due_len + 1, it->due_len, it->due_len - 1, 0};
    for (size_t i = 0; i < sizeof rooms / sizeof rooms[0]; i++)
        if (!sheet_agrees(it, SHEETS[whose], rooms[i])) {
            differ(t, which, whose, "sheet is not the one that is due");
            return;
        }
}

static void check_line(const struct test *t, size_t which, int whose)
{
    const struct item *it = &items[which];
    int64_t out[6] = {0};
    LINES[whose](it->m, it->d, it->x, it->v, out);
    if (memcmp(out, it->numbers, sizeof out) != 0)
        differ(t, which, whose, "line is not the one that is due");
}

static void check(const struct test *t)
{
    for (size_t i = 0; i < t->count; i++)
        for (int whose = OURS; whose < BOTH; whose++)
            (t->kind == SHEET_CASE ? check_sheet : check_line)(t, i, whose);
}

/* ---- Time ---- */

static double now(void)
{
    struct timespec t;
    clock_gettime(CLOCK_MONOTONIC, &t);
    return (double)t.tv_sec * 1e9 + (double)t.tv_nsec;
}

/* What the functions give is added up here, so that no call can be left out. */
static volatile uint64_t sink;

/* Goes over all items of a case so many times, and returns the nanoseconds. */
static double batch(const struct test *t, int whose, size_t rounds)
{
    static uint8_t out[ROOM];
    int64_t line[6];
    uint64_t sum = 0;
    double began = now();
    for (size_t round = 0; round < rounds; round++) {
        for (size_t i = 0; i < t->count; i++) {
            const struct item *it = &items[i];
            if (t->kind == SHEET_CASE) {
                sum += SHEETS[whose](it->file, it->file_len, out, sizeof out);
            } else {
                LINES[whose](it->m, it->d, it->x, it->v, line);
                sum += (uint64_t)line[0];
            }
        }
    }
    double took = now() - began;
    sink += sum;
    return took;
}

/* So many rounds that a batch is long enough to be timed well; this is the warm-up too. */
static size_t rounds_for(const struct test *t, int whose)
{
    size_t rounds = 1;
    while (batch(t, whose, rounds) < BATCH_NANOSECONDS)
        rounds *= 2;
    return rounds;
}

static int by_size(const void *a, const void *b)
{
    double one = *(const double *)a, other = *(const double *)b;
    return (one > other) - (one < other);
}

static double median(double *values)
{
    qsort(values, BATCHES, sizeof values[0], by_size);
    return values[BATCHES / 2];
}

static void time_case(const struct test *t, int with_times)
{
    static double took[BOTH][BATCHES];
    double each[BOTH];
    size_t rounds[BOTH];
    for (int whose = OURS; whose < BOTH; whose++)
        rounds[whose] = rounds_for(t, whose);
    /* in turns, and each of the two first in every second turn */
    for (int turn = 0; turn < BATCHES; turn++)
        for (int half = 0; half < BOTH; half++) {
            int whose = half ^ (turn & 1);
            took[whose][turn] = batch(t, whose, rounds[whose]) / (double)(rounds[whose] * t->count);
        }
    for (int whose = OURS; whose < BOTH; whose++)
        each[whose] = median(took[whose]);
    printf("%s %.2f", t->name, each[OURS] / each[CS]);
    if (with_times)
        printf(" %.2f %.2f", each[OURS], each[CS]);
    printf("\n");
    fflush(stdout);
}

int main(int argc, char **argv)
{
    if (argc != 3 || (strcmp(argv[1], "check") && strcmp(argv[1], "ratios") && strcmp(argv[1], "times")))
        stop("beside check PACKED, beside ratios PACKED or beside times PACKED");
    int timed = strcmp(argv[1], "check") != 0, with_times = strcmp(argv[1], "times") == 0;
    size_t agreed[2] = {0, 0};
    load(argv[2]);
    while (packed < packed_end) {
        struct test t = take_test();
        check(&t);
        if (differences)
            continue;
        agreed[t.kind] += t.count;
        if (timed)
            time_case(&t, with_times);
    }
    if (differences) {
        fprintf(stderr, "%zu differences\n", differences);
        return 1;
    }
    if (!timed)
        printf("files %zu\nlines %zu\n", agreed[SHEET_CASE], agreed[LINE_CASE]);
    return 0;
}
