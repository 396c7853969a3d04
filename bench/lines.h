/* The lines of the benchmark. */
#ifndef LINES_H
#define LINES_H

#include "line.h"

/* Made once; the others count on it. */
void make_lines(void);
size_t line_count(void);
Line *line_at(size_t i);
/* The first line whose name starts so; ends the program where there is none. */
Line *line_named(const char *name);
bool starts_with(const char *name, const char *start);

/* How many frames one run of it has. */
size_t frames_of(const Line *line);
/* Runs of it that a tool can count in a second or so. */
size_t counted_runs(const Line *line);

#endif
