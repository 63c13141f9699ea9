/* What the cases share: a line for each, and a count of those that differ. */
#ifndef CHECKS_H
#define CHECKS_H

#include <stddef.h>
#include <stdint.h>

/* What values hold before a call: a call that is refused leaves it. */
#define UNTOUCHED 0x5EED0001

/* Prints the case with what came, and counts it where that is not what is expected. */
void check(const char *name, const uint64_t *came, const uint64_t *expected, size_t count);

void run_framing_cases(void);
void run_cache_cases(void);
void run_budget_cases(void);

/* The cases so far, and those that differ. */
extern unsigned checked;
extern unsigned different;

#endif
