/* The sheet of a run file, and the independent line alone, written by hand in C: the yardstick of make speed. */
#ifndef SPEED_SHEET_H
#define SPEED_SHEET_H

#include <stddef.h>
#include <stdint.h>

/* No sheet is longer (docs/DECISIONS.md, 29). */
#define MOST_SHEET 831

/* No answer depends on more bytes of a file (docs/DECISIONS.md, 13). */
#define MOST_READ 1837

#define MOST_POINTS 11

/* Puts the sheet of a byte string at the front of out and returns its length. The sheet of a refused file is its one line of
   refusal. Where out is too short it returns 0 and leaves out as it was. */
size_t c_sheet(const uint8_t *file, size_t file_len, uint8_t *out, size_t out_len);

/* The line whose largest deviation from m points is least. The m inputs (3 to 11) rise strictly and are at most 30,000 in size;
   the values count units of 1/d, d from 1 to 200, and are at most 103,000,000 in size. Nothing of this is checked. Fills out with
   width, slope and offset, of each the numerator and the denominator, in lowest terms, the denominator positive. */
void c_line(size_t m, uint64_t d, const int64_t x[MOST_POINTS], const int64_t v[MOST_POINTS], int64_t out[6]);

#endif
