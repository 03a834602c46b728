/* Sirvoltha in plain C: plate_chain and plate_preview (sirvoltha.h) over one block of memory, and what they find as structs.

   Static inline functions, in C99 or later or in C++, over libchain.a. They are not proved: they hand on to the two entries, which are and
   which decide what is refused and what is written, and they read the bytes that these write. examples/room.c tests every function and
   number of this header. What the caller sees to (sirvoltha.h) holds here too; so room is not null, also where room_len is 0. */
#ifndef PLATE_H
#define PLATE_H

#include <string.h>
#include "sirvoltha.h"

#ifdef __cplusplus
extern "C" {
#endif

/* The version of the interface, which is this header and sirvoltha.h. The major number goes up when a parameter list, the layout of a buffer
   or of a struct, or a number changes, and the minor one begins at 0 again; the minor one goes up when something is added to what stays. */
#define PLATE_VERSION_MAJOR 1
#define PLATE_VERSION_MINOR 0
#define PLATE_VERSION "1.0"

/* The most detections that a picture has. */
#define PLATE_MAX_DETECTIONS 3

/* The room that plate_find and plate_find_finders need for a picture of w x h pixels: their eight buffers, one behind the other. It cannot
   overflow for sides up to PLATE_MAX_SIDE, even if size_t has 32 bits. Larger sides are refused, and of them it may be any number: ask for no
   memory by it. */
#define PLATE_ROOM_BYTES(w, h) (PLATE_GRAY_BYTES(w, h) + 2 * PLATE_BIT_BYTES(w, h) + 5 * PLATE_BLOCKS(w, h))

/* ---- what is found */

/* A place in the picture, in pixels from its upper left corner; the middle of the first pixel is at (0.5, 0.5). */
struct plate_point {
    double x, y;
};

/* A finder: its middle and the size of its modules, in pixels, and how often it was confirmed. */
struct plate_finder {
    float x, y, module;
    uint32_t confirmations;
};

/* A plate: its finders top left, top right and bottom left; its version; its alignment marker, (0, 0) unless has_marker; and m0 to m7 of the
   map from modules to pixels, for plate_point_at. */
struct plate_detection {
    struct plate_finder tl, tr, bl;
    uint8_t version, has_marker;
    struct plate_point marker;
    double transform[8];
};

/* ---- numbers and floats of so many bytes, little-endian whatever the machine is; used below */

typedef char plate_floats_are_of_4_and_8_bytes[sizeof(float) == 4 && sizeof(double) == 8 ? 1 : -1];

static inline uint64_t plate_number(const uint8_t *p, int bytes) {
    uint64_t n = 0;
    while (bytes--)
        n = n << 8 | p[bytes];
    return n;
}

static inline float plate_f32(const uint8_t *p) {
    uint32_t n = (uint32_t)plate_number(p, 4);
    float x;
    memcpy(&x, &n, 4);
    return x;
}

static inline double plate_f64(const uint8_t *p) {
    uint64_t n = plate_number(p, 8);
    double x;
    memcpy(&x, &n, 8);
    return x;
}

/* The finder with x and y at the one place, module and confirmations at the other. */
static inline struct plate_finder plate_finder_at(const uint8_t *place, const uint8_t *size) {
    struct plate_finder f;
    f.x = plate_f32(place);
    f.y = plate_f32(place + 4);
    f.module = plate_f32(size);
    f.confirmations = (uint32_t)plate_number(size + 4, 4);
    return f;
}

/* ---- reading the detections that plate_find or plate_chain wrote, if it returned PLATE_DONE; detections[0] is their count */

/* Fills d with detection i, best first from 0 on, and returns 1; returns 0 and leaves d where there is none, or the count is over
   PLATE_MAX_DETECTIONS. */
static inline int plate_read(const uint8_t *detections, int i, struct plate_detection *d) {
    const uint8_t *p = detections + 1;
    if (i < 0 || i >= detections[0] || detections[0] > PLATE_MAX_DETECTIONS)
        return 0;
    p += i * ((PLATE_DETECTION_BYTES - 1) / PLATE_MAX_DETECTIONS);
    d->tl = plate_finder_at(p, p + 8);
    d->tr = plate_finder_at(p + 16, p + 24);
    d->bl = plate_finder_at(p + 32, p + 40);
    d->version = p[48];
    d->has_marker = p[49];
    d->marker.x = plate_f32(p + 50);
    d->marker.y = plate_f32(p + 54);
    for (int k = 0; k < 8; k++)
        d->transform[k] = plate_f64(p + 58 + 8 * k);
    return 1;
}

/* How many modules a side of the plate has. */
static inline int plate_side(const struct plate_detection *d) {
    return 17 + 4 * d->version;
}

/* Where module coordinates (u, v) are in the picture. (0, 0) is the plate's outer corner at its top left finder, (side, 0) the one at the top
   right finder, (0, side) the one at the bottom left. */
static inline struct plate_point plate_point_at(const struct plate_detection *d, double u, double v) {
    const double *m = d->transform;
    double below = m[6] * u + m[7] * v + 1;
    struct plate_point p;
    if (-1e-9 < below && below < 1e-9)
        below = 1e-9;
    p.x = (m[0] * u + m[1] * v + m[2]) / below;
    p.y = (m[3] * u + m[4] * v + m[5]) / below;
    return p;
}

/* ---- reading the finders that plate_find_finders or plate_preview wrote, if it returned PLATE_DONE: a stored list of form 2 */

/* How many there are; 0 in a list of another form, or with a count over PLATE_MAX_FINDERS. */
static inline int plate_list_count(const uint8_t *list) {
    int count = list[0] == 2 ? (int)plate_number(list + 5, 2) : 0;
    return count <= PLATE_MAX_FINDERS ? count : 0;
}

/* Fills f with finder i, most confirmed first from 0 on, and returns 1; returns 0 and leaves f where there is none. */
static inline int plate_read_finder(const uint8_t *list, int i, struct plate_finder *f) {
    int count = plate_list_count(list);
    const uint8_t *places = list + PLATE_LIST_BYTES(0), *sizes = places + 8 * count;
    if (i < 0 || i >= count)
        return 0;
    *f = plate_finder_at(places + 8 * i, sizes + 8 * i);
    return 1;
}

/* ---- looking for plates and finders */

/* Room, cut into the buffers gray, bits, denoised, means, least, greatest, edges and nears, in this order. */
struct plate_buffers {
    uint8_t *at[8];
    size_t len[8];
};

/* Where room runs out, and of sides that are refused, buffers are short or have no byte, and none reaches beyond room. */
static inline struct plate_buffers plate_cut(uint8_t *room, size_t room_len, uint32_t width, uint32_t height) {
    struct plate_buffers cut;
    int large = width > PLATE_MAX_SIDE || height > PLATE_MAX_SIDE;
    for (int i = 0; i < 8; i++) {
        size_t len = large    ? 0
                     : i == 0 ? PLATE_GRAY_BYTES(width, height)
                     : i <= 2 ? PLATE_BIT_BYTES(width, height)
                              : PLATE_BLOCKS(width, height);
        cut.at[i] = room;
        cut.len[i] = len < room_len ? len : room_len;
        room += cut.len[i];
        room_len -= cut.len[i];
    }
    return cut;
}

/* plate_chain, with its eight buffers in room: PLATE_ROOM_BYTES(width, height), or more. found takes the detections, for plate_read.

   Returns what plate_chain returns, PLATE_DONE or the first of 1 to 6 that holds, in that order; 5 if room is too short. After 1 to 5 no byte
   has been written. After 0, and after 6, room holds the buffers from gray to nears, one behind the other. */
static inline uint8_t plate_find(const uint8_t *picture, size_t picture_len,
                                 uint32_t width, uint32_t height, uint32_t stride, uint8_t format,
                                 uint8_t *room, size_t room_len, uint8_t found[PLATE_DETECTION_BYTES]) {
    struct plate_buffers b = plate_cut(room, room_len, width, height);
    return plate_chain(picture, picture_len, width, height, stride, format, b.at[0], b.len[0], b.at[1], b.len[1], b.at[2], b.len[2],
                       b.at[3], b.len[3], b.at[4], b.len[4], b.at[5], b.len[5], b.at[6], b.len[6], b.at[7], b.len[7],
                       found, PLATE_DETECTION_BYTES);
}

/* plate_preview in the same way: the finders of a frame, for plate_read_finder. Returns the first of 1, 10 and 3 to 6 that holds. */
static inline uint8_t plate_find_finders(const uint8_t *picture, size_t picture_len,
                                         uint32_t width, uint32_t height, uint32_t stride, uint8_t format,
                                         uint8_t *room, size_t room_len, uint8_t list[PLATE_LIST_BYTES(PLATE_MAX_FINDERS)]) {
    struct plate_buffers b = plate_cut(room, room_len, width, height);
    return plate_preview(picture, picture_len, width, height, stride, format, b.at[0], b.len[0], b.at[1], b.len[1], b.at[2], b.len[2],
                         b.at[3], b.len[3], b.at[4], b.len[4], b.at[5], b.len[5], b.at[6], b.len[6], b.at[7], b.len[7],
                         list, PLATE_LIST_BYTES(PLATE_MAX_FINDERS));
}

/* What a number that a call returned says; also of 7 and 8, which the Rattle functions and programs have and no function for C returns. */
static inline const char *plate_refusal_name(int n) {
    switch (n) {
    case PLATE_DONE: return "done";
    case PLATE_ZERO_SIDE: return "a side is 0";
    case PLATE_LARGE_SIDE: return "a side is too large";
    case PLATE_UNKNOWN_FORMAT: return "unknown pixel format";
    case PLATE_SHORT_PICTURE: return "stride or picture too short";
    case PLATE_SHORT_OUTPUT: return "too little room";
    case PLATE_FULL_TABLE: return "too many finders";
    case 7: return "no such version";
    case 8: return "bad stored list";
    case PLATE_LARGE_FRAME: return "frame too large for the preview";
    default: return "unknown";
    }
}

#ifdef __cplusplus
}
#endif

#endif
