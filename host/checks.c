#include "checks.h"

#include <stdio.h>
#include <stdlib.h>
#include <string.h>

#define MOST_CONDITIONS 256
#define MOST_SHOWN 3

struct condition {
    const char *group;
    const char *text;
    unsigned long shown;
    bool has_failed;
};

static struct condition conditions[MOST_CONDITIONS];
static size_t condition_count;
static const char *group = "";
static bool quiet;
static unsigned long passed, failed, passed_before, failed_before;

void give_up(const char *why) {
    fflush(stdout);
    fprintf(stderr, "key_host: %s\n", why);
    exit(2);
}

void checks_quiet(bool now) {
    quiet = now;
}

static struct condition *condition_of(const char *text) {
    for (size_t i = 0; i < condition_count; i++) {
        struct condition *c = &conditions[i];
        if (strcmp(c->group, group) == 0 && strcmp(c->text, text) == 0) {
            return c;
        }
    }
    if (condition_count == MOST_CONDITIONS) {
        give_up("too many conditions");
    }
    conditions[condition_count] = (struct condition){group, text, 0, false};
    return &conditions[condition_count++];
}

void group_begin(const char *name) {
    group = name;
    passed_before = passed;
    failed_before = failed;
}

void group_end(void) {
    if (!quiet) {
        printf("%-66s %6lu passed, %lu failed\n", group, passed - passed_before, failed - failed_before);
    }
}

void check(bool ok, const char *text, size_t a, size_t b) {
    struct condition *c = condition_of(text);
    if (ok) {
        passed++;
        return;
    }
    failed++;
    c->has_failed = true;
    if (!quiet && c->shown < MOST_SHOWN) {
        c->shown++;
        printf("  FAILED: %s (case %zu, %zu)\n", text, a, b);
    }
}

unsigned long checks_passed(void) {
    return passed;
}

unsigned long checks_failed(void) {
    return failed;
}

void checks_restart(void) {
    passed = failed = passed_before = failed_before = 0;
}

unsigned long conditions_never_failed(unsigned long *all) {
    unsigned long never = 0;
    for (size_t i = 0; i < condition_count; i++) {
        if (!conditions[i].has_failed) {
            never++;
            printf("never failed: %s: %s\n", conditions[i].group, conditions[i].text);
        }
    }
    *all = condition_count;
    return never;
}
