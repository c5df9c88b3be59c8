#define _DEFAULT_SOURCE
#include "areas.h"

#include <setjmp.h>
#include <signal.h>
#include <string.h>
#include <sys/mman.h>
#include <unistd.h>

#include "checks.h"

#define GUARD 64

static sigjmp_buf way_back;
static volatile sig_atomic_t inside;

static uint8_t guard_byte(size_t at) {
    return (uint8_t)(at * 29 + 0x5A);
}

static size_t guards_from(const struct area *area) {
    return area->at < GUARD ? 0 : area->at - GUARD;
}

static size_t guards_to(const struct area *area) {
    size_t end = area->at + area->len;
    return ROOM - end < GUARD ? ROOM : end + GUARD;
}

static bool in_slice(const struct area *area, size_t at) {
    return area->at <= at && at < area->at + area->len;
}

void area_open(struct area *area) {
    size_t page = (size_t)sysconf(_SC_PAGESIZE);
    uint8_t *all = mmap(NULL, ROOM + 2 * page, PROT_NONE, MAP_PRIVATE | MAP_ANONYMOUS, -1, 0);
    if (all == MAP_FAILED || mprotect(all + page, ROOM, PROT_READ | PROT_WRITE) != 0) {
        give_up("no memory between forbidden pages");
    }
    area->room = all + page;
    area->at = area->len = 0;
}

static size_t start_of(enum place place, size_t len) {
    switch (place) {
    case AFTER_A_WALL:
        return 0;
    case BEFORE_A_WALL:
        return ROOM - len;
    default:
        return (ROOM - len) / 2;
    }
}

uint8_t *area_put(struct area *area, enum place place, const uint8_t *content, size_t len) {
    if (len > ROOM) {
        give_up("a slice is longer than its room");
    }
    area->at = start_of(place, len);
    area->len = len;
    for (size_t at = guards_from(area); at < guards_to(area); at++) {
        area->room[at] = guard_byte(at);
    }
    memcpy(area->room + area->at, content, len);
    return area->room + area->at;
}

bool area_guards_kept(const struct area *area) {
    for (size_t at = guards_from(area); at < guards_to(area); at++) {
        if (!in_slice(area, at) && area->room[at] != guard_byte(at)) {
            return false;
        }
    }
    return true;
}

static void touched(int number) {
    if (!inside) {
        signal(number, SIG_DFL);
        return;
    }
    siglongjmp(way_back, 1);
}

static void watch(void) {
    struct sigaction action;
    memset(&action, 0, sizeof action);
    action.sa_handler = touched;
    action.sa_flags = SA_NODEFER;
    if (sigaction(SIGSEGV, &action, NULL) != 0 || sigaction(SIGBUS, &action, NULL) != 0) {
        give_up("forbidden pages cannot be watched");
    }
}

bool within_walls(void (*act)(void *), void *it) {
    static bool watched;
    if (!watched) {
        watch();
        watched = true;
    }
    if (sigsetjmp(way_back, 0) != 0) {
        inside = 0;
        return false;
    }
    inside = 1;
    act(it);
    inside = 0;
    return true;
}
