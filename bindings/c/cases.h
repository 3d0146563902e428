/* What the cases of the library share: checks that are counted, and memory that is lent to its last byte. */
#ifndef CASES_H
#define CASES_H

#include "boltmeadow.h"
#include <math.h>
#include <stdio.h>
#include <stdlib.h>
#include <string.h>

/* Counts a check that holds; the first that does not is named, and ends the program with 1. */
#define HOLDS(what) ((what) ? (void)checks++ : fails(__FILE__, __LINE__, #what))
extern unsigned long checks;
void fails(const char *file, int line, const char *what);

/* A copy of so many bytes that ends where a page begins that may be neither read nor written: one byte too far ends the
 * program. The last 256 pieces lent stay; older ones are taken back. NULL where there are none. */
void *lend(const void *from, size_t bytes);

/* A buffer of sentinels, lent as above; and whether it is still all sentinels from a byte on. */
uint8_t *lend_buffer(size_t bytes);
int is_untouched(const uint8_t *buffer, size_t from, size_t bytes);

/* Bytes as hex digits, put into memory that is taken again by the 16th call after it. */
typedef struct bytes {
    const uint8_t *at;
    size_t count;
} bytes;
bytes hex(const char *digits);

uint32_t bits(float number);

/* Lines A and B of 01's bench cases, and the line (0, 0), (1, 0). */
extern const float line_a[4], line_b[4], line_zero[4];

void scene_cases(void);
void obstacle_cases(void);
void list_cases(void);
void log_cases(void);
void session_cases(void);
void forged_cases(void);
void null_cases(void);
void thread_cases(void);

#endif
