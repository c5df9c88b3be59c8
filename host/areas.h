/* Memory in which a slice stands between 64 guard bytes on each side, or against a page that may not
 * be touched. A guard byte shows a write, the page shows a read too. */
#ifndef AREAS_H
#define AREAS_H

#include <stdbool.h>
#include <stddef.h>
#include <stdint.h>

#define ROOM ((size_t)1 << 17)

/* Where the slice stands: guards on both sides, the forbidden page just before it, or just after it. */
enum place { BETWEEN_GUARDS, AFTER_A_WALL, BEFORE_A_WALL };
#define PLACES 3

struct area {
    uint8_t *room;
    size_t at;
    size_t len;
};

void area_open(struct area *area);
/* Puts the slice at its place with this content and sets the guards; returns where it starts. */
uint8_t *area_put(struct area *area, enum place place, const uint8_t *content, size_t len);
bool area_guards_kept(const struct area *area);

/* Does the act; false where it touched a forbidden page and was broken off. */
bool within_walls(void (*act)(void *), void *it);

#endif
