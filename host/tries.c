#include "tries.h"

#include <string.h>

#include "checks.h"
#include "spoils.h"

struct call {
    uint8_t *in;
    size_t in_len;
    uint8_t *out;
    size_t out_len;
    size_t answer;
};

static struct area in_area, out_area;

static void open_areas(void) {
    static bool opened;
    if (!opened) {
        area_open(&in_area);
        area_open(&out_area);
        opened = true;
    }
}

static void call_pad(void *it) {
    struct call *call = it;
    call->answer = spoiled_pad(call->in, call->in_len, call->out, call->out_len);
}

static void call_strip(void *it) {
    struct call *call = it;
    call->answer = spoiled_strip(call->in, call->in_len);
}

size_t try_pad(enum place place, const uint8_t *message, size_t n, const uint8_t *before, size_t len, uint8_t *after) {
    open_areas();
    struct call call = {area_put(&in_area, place, message, n), n, area_put(&out_area, place, before, len), len, 0};
    check(within_walls(call_pad, &call), "pad stays within its slices", n, len);
    check(area_guards_kept(&in_area) && area_guards_kept(&out_area), "the guards of pad's slices are kept", n, len);
    check(memcmp(call.in, message, n) == 0, "pad leaves the message", n, len);
    memcpy(after, call.out, len);
    return call.answer;
}

size_t try_strip(enum place place, const uint8_t *block, size_t len) {
    open_areas();
    struct call call = {area_put(&in_area, place, block, len), len, NULL, 0, 0};
    check(within_walls(call_strip, &call), "strip stays within its slice", len, place);
    check(area_guards_kept(&in_area), "the guards of strip's slice are kept", len, place);
    check(memcmp(call.in, block, len) == 0, "strip leaves the block", len, place);
    return call.answer;
}
