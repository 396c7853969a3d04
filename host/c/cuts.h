/* A reader under streams that are cut at random. */
#ifndef CUTS_H
#define CUTS_H

#include <stdbool.h>
#include <stdint.h>

/*
 * Calls a reader so many times: streams of good and damaged frames in pieces of any size, frames handed out now
 * and then, start overs, and readers that the library did not make. Each answer must be the one that the rules
 * give, and each frame and the held bytes must be those pushed. Answers whether all were.
 */
bool cuts_survive(uint64_t calls);

#endif
