/* Counts and reports checks. A check belongs to the group that was begun last and to a condition, a
 * short text; the two names are string literals. */
#ifndef CHECKS_H
#define CHECKS_H

#include <stdbool.h>
#include <stddef.h>

/* Quiet: nothing is printed, only counted. */
void checks_quiet(bool quiet);

void group_begin(const char *name);
/* Prints the group's line. */
void group_end(void);

/* Counts a check; a and b say which case it is, and are printed where it fails. */
void check(bool ok, const char *condition, size_t a, size_t b);

unsigned long checks_passed(void);
unsigned long checks_failed(void);
/* Sets the counts to zero, and keeps which condition of which group has ever failed. */
void checks_restart(void);
/* Prints each condition of a group that has never failed, and returns how many there are; *all is how many were met. */
unsigned long conditions_never_failed(unsigned long *all);

/* Where the program itself cannot go on: prints why and ends with status 2. */
_Noreturn void give_up(const char *why);

#endif
