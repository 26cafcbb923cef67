// Compares the replays on all schedules of a folder, byte for byte with the text expected, and then times them.
//
//     harness FOLDER TIMES
//     harness FOLDER compare
//
// FOLDER is what generate.py wrote. TIMES is a file that keeps the times of each case: those that harnesses with the code at other places
// left there count too, and this one's are added. With `compare` nothing is timed. Status 1 where a text differs.
#define _POSIX_C_SOURCE 200809L

#include "replay.h"
#ifdef WITH_RATTLE
#include "rattle.h"
#endif

#include <math.h>
#include <stdbool.h>
#include <stdio.h>
#include <stdlib.h>
#include <string.h>
#include <time.h>

enum {
    // Each pass goes over all cases, so that a case that another load disturbs in one pass has its chance in the next.
    PASSES = 12,
    ROUNDS = 2,
    ROOM = TEXT_BYTES,
    MOST_FILE = 1 << 20,
};

// A batch of repetitions takes about so long.
static const double BATCH_NS = 3e6;

typedef size_t replay_fn(const uint8_t *bytes, size_t len, uint8_t *out, size_t room);

static size_t lent_c(const uint8_t *bytes, size_t len, uint8_t *out, size_t room)
{
    return replay_c(bytes, len, (char *)out, room);
}

// The text in a buffer that grows, and then copied.
static size_t grown_c(const uint8_t *bytes, size_t len, uint8_t *out, size_t room)
{
    size_t text_len = 0;
    char *text = replay_c_grown(bytes, len, &text_len);
    if (text == NULL)
        return SIZE_MAX;
    if (text_len <= room)
        memcpy(out, text, text_len);
    free(text);
    return text_len;
}

// The programs that are compared. The first is the one that the others are measured against.
static const struct program {
    const char *name;
    replay_fn *replay;
} programs[] = {
    {"C", lent_c},
    {"C growing", grown_c},
#ifdef WITH_RATTLE
    {"Rattle", marked_list_replay},
#endif
};

enum { PROGRAMS = sizeof programs / sizeof programs[0] };

// A schedule, its text, and what happens in it.
struct schedule {
    char name[80];
    uint8_t *bytes;
    size_t len;
    uint8_t *expected;
    size_t expected_len;
    double records;
    double windows;
    double met;
    double answered;
    // The time with the code at the place that it has here, the best over all places so far, the sum of their logarithms, and how many they are.
    double here[PROGRAMS];
    double ns[PROGRAMS];
    double logs[PROGRAMS];
    int places;
};

static void fail(const char *what, const char *name)
{
    fprintf(stderr, "harness: %s: %s\n", name, what);
    exit(EXIT_FAILURE);
}

static void fail_of(const struct program *program, const char *what, const struct schedule *s)
{
    fprintf(stderr, "harness: %s on %s: %s\n", program->name, s->name, what);
    exit(EXIT_FAILURE);
}

static uint8_t *read_file(const char *folder, const char *name, const char *kind, size_t *len)
{
    char path[4096];
    snprintf(path, sizeof path, "%s/%s.%s", folder, name, kind);
    FILE *file = fopen(path, "rb");
    uint8_t *bytes = malloc(MOST_FILE);
    if (file == NULL || bytes == NULL)
        fail("cannot be read", path);
    *len = fread(bytes, 1, MOST_FILE, file);
    if (ferror(file) || *len == MOST_FILE)
        fail("cannot be read whole", path);
    fclose(file);
    // No spare bytes behind it, so that a read past the end is seen by a checker.
    uint8_t *fitted = realloc(bytes, *len == 0 ? 1 : *len);
    return fitted == NULL ? bytes : fitted;
}

static void load(struct schedule *s, const char *folder)
{
    s->bytes = read_file(folder, s->name, "schedule", &s->len);
    s->expected = read_file(folder, s->name, "expected", &s->expected_len);
    for (int p = 0; p < PROGRAMS; p++)
        s->here[p] = INFINITY;
}

static void unload(struct schedule *s)
{
    free(s->bytes);
    free(s->expected);
}

// One program's text in exactly enough room, in plenty, and its answer where a byte is missing.
static void compare_one(const struct program *program, const struct schedule *s)
{
    const size_t rooms[] = {s->expected_len, ROOM};
    for (size_t r = 0; r < 2; r++) {
        uint8_t *out = malloc(rooms[r] + 1);
        if (out == NULL)
            fail("no memory", s->name);
        memset(out, '?', rooms[r] + 1);
        size_t len = program->replay(s->bytes, s->len, out, rooms[r]);
        if (len != s->expected_len || memcmp(out, s->expected, len) != 0 || out[len] != '?')
            fail_of(program, "not the text expected", s);
        free(out);
    }
    if (s->expected_len > 0) {
        size_t room = s->expected_len - 1;
        uint8_t *out = malloc(room + 1);
        if (out == NULL)
            fail("no memory", s->name);
        if (program->replay(s->bytes, s->len, out, room) <= room)
            fail_of(program, "a text that does not fit is not told", s);
        free(out);
    }
}

static void compare(const struct schedule *s)
{
    for (int p = 0; p < PROGRAMS; p++)
        compare_one(&programs[p], s);
}

static double now_ns(void)
{
    struct timespec t;
    clock_gettime(CLOCK_MONOTONIC, &t);
    return (double)t.tv_sec * 1e9 + (double)t.tv_nsec;
}

// Nanoseconds of one replay, over so many of them.
static double time_batch(const struct program *program, const struct schedule *s, uint8_t *out, int times)
{
    double start = now_ns();
    for (int i = 0; i < times; i++)
        if (program->replay(s->bytes, s->len, out, ROOM) != s->expected_len)
            fail_of(program, "another length than before", s);
    return (now_ns() - start) / times;
}

// One pass over a case: some batches of each program, the programs by turns; the best batch counts.
static void time_case(struct schedule *s, uint8_t *out)
{
    int times[PROGRAMS];
    for (int p = 0; p < PROGRAMS; p++) {
        double once = time_batch(&programs[p], s, out, 2);
        times[p] = once < BATCH_NS ? (int)(BATCH_NS / once) + 1 : 1;
    }
    for (int round = 0; round < ROUNDS; round++)
        for (int p = 0; p < PROGRAMS; p++)
            s->here[p] = fmin(s->here[p], time_batch(&programs[p], s, out, times[p]));
}

static void time_all(struct schedule *all, int count)
{
    uint8_t *out = malloc(ROOM);
    if (out == NULL)
        fail("no memory", "text");
    for (int pass = 0; pass < PASSES; pass++)
        for (int i = 0; i < count; i++)
            time_case(&all[i], out);
    free(out);
}

// What other places of the code took, as they left it in the file; a file that is not there says nothing.
static void read_times(struct schedule *all, int count, const char *path)
{
    FILE *file = fopen(path, "r");
    for (int i = 0; i < count; i++) {
        struct schedule *s = &all[i];
        s->places = 0;
        for (int p = 0; p < PROGRAMS; p++) {
            s->ns[p] = INFINITY;
            s->logs[p] = 0;
        }
        if (file == NULL)
            continue;
        if (fscanf(file, "%d", &s->places) != 1)
            fail("cannot be read", path);
        for (int p = 0; p < PROGRAMS; p++)
            if (fscanf(file, "%lf %lf", &s->ns[p], &s->logs[p]) != 2)
                fail("cannot be read", path);
    }
    if (file != NULL)
        fclose(file);
}

static void write_times(struct schedule *all, int count, const char *path)
{
    FILE *file = fopen(path, "w");
    if (file == NULL)
        fail("cannot be written", path);
    for (int i = 0; i < count; i++) {
        struct schedule *s = &all[i];
        fprintf(file, "%d", ++s->places);
        for (int p = 0; p < PROGRAMS; p++) {
            s->ns[p] = fmin(s->ns[p], s->here[p]);
            s->logs[p] += log(s->here[p]);
            fprintf(file, " %.9g %.9g", s->ns[p], s->logs[p]);
        }
        fprintf(file, "\n");
    }
    if (fclose(file) != 0)
        fail("cannot be written", path);
}

static void print_head(void)
{
    printf("\n%-20s %8s %9s %9s", "case", "windows", "cells met", "answered");
    for (int p = 0; p < PROGRAMS; p++)
        printf(" | %-9s %8s %7s", programs[p].name, "ns/", "ns/");
    for (int p = 1; p < PROGRAMS; p++)
        printf(" | %s", programs[p].name);
    printf("\n%-20s %8s %9s %9s", "", "", "", "");
    for (int p = 0; p < PROGRAMS; p++)
        printf(" | %9s %8s %7s", "windows/s", "window", "cell");
    for (int p = 1; p < PROGRAMS; p++)
        printf(" | %*s", (int)strlen(programs[p].name), "/ C");
    printf("\n");
}

static void print_row(const struct schedule *s)
{
    printf("%-20s %8.0f %9.0f %9.0f", s->name, s->windows, s->met, s->answered);
    for (int p = 0; p < PROGRAMS; p++)
        printf(" | %9.0f %8.2f %7.2f", s->windows / s->ns[p] * 1e9, s->ns[p] / s->windows, s->ns[p] / s->met);
    for (int p = 1; p < PROGRAMS; p++)
        printf(" | %*.3f", (int)strlen(programs[p].name), s->ns[0] / s->ns[p]);
    printf("\n");
}

// The time of a replay as so much for each record and so much for each cell met: the least squares of the relative errors.
static void print_fit(const struct schedule *all, int count, int p)
{
    double rr = 0, rm = 0, mm = 0, rs = 0, ms = 0;
    for (int i = 0; i < count; i++) {
        double r = all[i].records / all[i].ns[p], m = all[i].met / all[i].ns[p];
        rr += r * r;
        rm += r * m;
        mm += m * m;
        rs += r;
        ms += m;
    }
    double det = rr * mm - rm * rm;
    printf("%s: about %.2f ns for each record (read, called, its line written) and %.2f ns for each cell met\n",
        programs[p].name, (rs * mm - ms * rm) / det, (ms * rr - rs * rm) / det);
}

static void print_summary(const struct schedule *all, int count)
{
    printf("\nwindows/s are windows of whole replays, which also read the records and write the text; / C compares windows/s\n");
    for (int p = 1; p < PROGRAMS; p++) {
        double sum = 0, least = INFINITY, most = 0, here = 0, mean = 0;
        for (int i = 0; i < count; i++) {
            double ratio = all[i].ns[0] / all[i].ns[p];
            sum += log(ratio);
            here += log(all[i].here[0] / all[i].here[p]);
            mean += (all[i].logs[0] - all[i].logs[p]) / all[i].places;
            least = fmin(least, ratio);
            most = fmax(most, ratio);
        }
        printf("%s / C: %.3f to %.3f, geometric mean %.3f (with the code at this place alone %.3f, the mean over all places %.3f)\n",
            programs[p].name, least, most, exp(sum / count), exp(here / count), exp(mean / count));
    }
    for (int p = 0; p < PROGRAMS; p++)
        print_fit(all, count, p);
    printf("bytes of a cell: C %zu", replay_c_cell_bytes());
#ifdef WITH_RATTLE
    printf(", Rattle %zu", marked_list_cell_bytes());
#endif
    printf("\n");
}

// Those that are compared only.
static int compare_names(const char *folder)
{
    char path[4096];
    struct schedule s;
    int count = 0;
    snprintf(path, sizeof path, "%s/compared.txt", folder);
    FILE *names = fopen(path, "r");
    if (names == NULL)
        fail("cannot be read", path);
    while (fscanf(names, "%79s", s.name) == 1) {
        load(&s, folder);
        compare(&s);
        unload(&s);
        count++;
    }
    fclose(names);
    return count;
}

static struct schedule *load_timed(const char *folder, int *count)
{
    char path[4096];
    struct schedule *all = NULL;
    struct schedule s;
    snprintf(path, sizeof path, "%s/timed.txt", folder);
    FILE *names = fopen(path, "r");
    if (names == NULL)
        fail("cannot be read", path);
    *count = 0;
    while (fscanf(names, "%79s %lf %lf %lf %lf", s.name, &s.records, &s.windows, &s.met, &s.answered) == 5) {
        load(&s, folder);
        compare(&s);
        all = realloc(all, (size_t)(*count + 1) * sizeof *all);
        if (all == NULL)
            fail("no memory", path);
        all[(*count)++] = s;
    }
    fclose(names);
    return all;
}

int main(int argc, char **argv)
{
    if (argc != 3)
        fail("usage: harness FOLDER TIMES | harness FOLDER compare", "arguments");
    bool timing = strcmp(argv[2], "compare") != 0;
    int count = 0;
    int compared = compare_names(argv[1]);
    struct schedule *all = load_timed(argv[1], &count);
    if (compared == 0 || count == 0)
        fail("has no schedules", argv[1]);
    printf("%d schedules answered alike, byte for byte, by", compared + count);
    for (int p = 0; p < PROGRAMS; p++)
        printf(" %s,", programs[p].name);
    printf(" and the model\n");
    if (timing) {
        fflush(stdout);
        read_times(all, count, argv[2]);
        time_all(all, count);
        write_times(all, count, argv[2]);
        print_head();
        for (int i = 0; i < count; i++)
            print_row(&all[i]);
        print_summary(all, count);
    }
    for (int i = 0; i < count; i++)
        unload(&all[i]);
    free(all);
    return EXIT_SUCCESS;
}
