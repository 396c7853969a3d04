#include "measure.h"

#include <stdlib.h>
#include <time.h>

#include "lines.h"

/* A run is the best of some turns, so that other work on the machine shows less. */
enum { RUNS = 10, TURNS = 8 };
static const double TURN = 4e5;

/* What the runs answer ends here. */
static volatile uint64_t sink;

static double now(void)
{
    struct timespec t;
    clock_gettime(CLOCK_MONOTONIC, &t);
    return (double)t.tv_sec * 1e9 + (double)t.tv_nsec;
}

static double once(Side side, Line *line, size_t times)
{
    uint64_t sum = 0;
    double from = now();
    for (size_t i = 0; i < times; i++)
        sum += side(line);
    double spent = now() - from;
    sink += sum;
    return spent / (double)times;
}

/* As many times as make a turn. */
static size_t enough(Side side, Line *line)
{
    size_t times = 1;
    while (once(side, line, times) * (double)times < TURN)
        times *= 2;
    return times;
}

static double lesser(double a, double b)
{
    return a < b ? a : b;
}

static int compare_doubles(const void *a, const void *b)
{
    double x = *(const double *)a, y = *(const double *)b;
    return (x > y) - (x < y);
}

/* Sorts them. */
static double median(double *values)
{
    qsort(values, RUNS, sizeof *values, compare_doubles);
    return (values[RUNS / 2 - 1] + values[RUNS / 2]) / 2;
}

Times measure(Line *line)
{
    Session plain_kept = line->plain_session;
    LibrarySession library_kept = line->library_session;
    double plain[RUNS], library[RUNS], ratio[RUNS], frames = (double)frames_of(line);
    size_t n = enough(line->plain, line), m = enough(line->library, line);
    for (int i = 0; i < RUNS; i++) {
        plain[i] = library[i] = 1e18;
        for (int k = 0; k < TURNS; k++) {
            /* each turn begins with the same session: a Fetch takes rows away */
            line->plain_session = plain_kept;
            line->library_session = library_kept;
            plain[i] = lesser(plain[i], once(line->plain, line, n) / frames);
            library[i] = lesser(library[i], once(line->library, line, m) / frames);
        }
        ratio[i] = library[i] / plain[i];
    }
    Times t = {.plain = median(plain), .library = median(library), .ratio = median(ratio)};
    t.least = ratio[0];
    t.most = ratio[RUNS - 1];
    return t;
}

uint64_t read_by(Reader reader, const Line *line)
{
    const Frame *f = &line->event.frame;
    return reader(f->bytes[HEAD], f->bytes + HEAD + 1, f->len - HEAD - 1);
}

static double reader_turn(Reader reader, const Line *line)
{
    size_t runs = 0;
    double from = now();
    while (now() - from < TURN)
        for (int k = 0; k < 16; k++, runs++)
            sink += read_by(reader, line);
    return (now() - from) / (double)runs;
}

double measure_reader(Reader reader, const Line *line)
{
    double runs[RUNS];
    for (int i = 0; i < RUNS; i++) {
        runs[i] = 1e18;
        for (int k = 0; k < TURNS; k++)
            runs[i] = lesser(runs[i], reader_turn(reader, line));
    }
    return median(runs);
}

void run_for_long(Line *line)
{
    double from = now();
    while (now() - from < 3e9)
        run_library(line, 100);
}

void run_plain(Line *line, size_t times)
{
    for (size_t i = 0; i < times; i++)
        sink += line->plain(line);
}

void run_library(Line *line, size_t times)
{
    for (size_t i = 0; i < times; i++)
        sink += line->library(line);
}
