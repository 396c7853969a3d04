/* Times of a line. */
#ifndef MEASURE_H
#define MEASURE_H

#include "line.h"
#include "others.h"

/* Nanoseconds of one frame, and the library's over plain C's. */
typedef struct {
    double plain, library;
    double ratio, least, most;
} Times;

/* The median of ten runs of each side, in turn. The ratio is the median of the ten runs' own. */
Times measure(Line *line);
/* What another library's reader answers of the line's frame, and the median of ten runs of it. */
uint64_t read_by(Reader reader, const Line *line);
double measure_reader(Reader reader, const Line *line);
/* The library's side for some seconds, for a profiler. */
void run_for_long(Line *line);
/* Some runs of one side, for a tool that counts their instructions. */
void run_plain(Line *line, size_t times);
void run_library(Line *line, size_t times);

#endif
