/* Holds include/plate.h to sirvoltha.h: its numbers and names; the place of every byte that plate_read and plate_read_finder read, on lists
   whose bytes tell their own places; that plate_find and plate_find_finders write into one block what plate_chain and plate_preview write
   into eight buffers, use it up to its last byte and nothing behind it, and refuse in the same order; and what plate_read and
   plate_read_finder say of the plate on standard input (examples/plate.gray), in the bits that the listing program has for it
   (examples/listings.expected). */
#include <inttypes.h>
#include <stdio.h>
#include <string.h>
#include "plate.h"

/* The plate's sides, less of it so that its bits end within a byte and its blocks are cut, and the largest frame of the preview. */
enum { SIDE = 200, W = 197, H = 195, FW = PLATE_PREVIEW_WIDTH, FH = PLATE_PREVIEW_HEIGHT };
enum { FRAME = FW * FH, GUARD = 64, PAINT = 0x5a, LIST = PLATE_LIST_BYTES(PLATE_MAX_FINDERS) };

static uint8_t plate[4 + SIDE * SIDE], picture[PLATE_RGBA8 * SIDE * SIDE], frame[FRAME], blank[FRAME], buffer[8][FRAME];
static uint8_t room[PLATE_ROOM_BYTES(FW, FH) + GUARD], found[PLATE_DETECTION_BYTES + GUARD], list[LIST + GUARD];

static void hex32(float x) {
    uint32_t n;
    memcpy(&n, &x, 4);
    printf(" %08" PRIx32, n);
}

static void hex64(double x) {
    uint64_t n;
    memcpy(&n, &x, 8);
    printf(" %016" PRIx64, n);
}

/* Confirmations in decimal as in the listing, or in hexadecimal digits. */
static void print_finder(const char *what, const struct plate_finder *f, int decimal) {
    printf("  %s", what);
    hex32(f->x);
    hex32(f->y);
    hex32(f->module);
    printf(decimal ? " %" PRIu32 "\n" : " %08" PRIx32 "\n", f->confirmations);
}

static void print_detection(const struct plate_detection *d, int decimal) {
    print_finder("top left", &d->tl, decimal);
    print_finder("top right", &d->tr, decimal);
    print_finder("bottom left", &d->bl, decimal);
    printf("  side %d, marker %d\n  %d", plate_side(d), d->has_marker, d->version);
    hex32((float)d->marker.x);
    hex32((float)d->marker.y);
    for (int k = 0; k < 8; k++)
        hex64(d->transform[k]);
    printf("\n");
}

/* ---- numbers, names and the layout of what is read */

static void numbers(void) {
    printf("version %s, %d.%d\n", PLATE_VERSION, PLATE_VERSION_MAJOR, PLATE_VERSION_MINOR);
    for (int n = -1; n <= 256; n++)
        if (strcmp(plate_refusal_name(n), "unknown") != 0)
            printf("%d: %s\n", n, plate_refusal_name(n));
    printf("detections %d, room for 1 x 1 %zu, twice 16 x 8 %zu, 9 x 17 %zu, 4096 x 4096 %zu\n", PLATE_MAX_DETECTIONS,
           PLATE_ROOM_BYTES(1, 1), 2 * PLATE_ROOM_BYTES(8 + 8, 4 + 4), PLATE_ROOM_BYTES(9, 17),
           PLATE_ROOM_BYTES(PLATE_MAX_SIDE, PLATE_MAX_SIDE));
}

/* Detections in whose place i byte k is i + k, but for the marker flag of i; so many of them. */
static void places(void) {
    struct plate_detection d;
    for (int i = 0; i < 3; i++)
        for (int k = 0; k < 122; k++)
            found[1 + 122 * i + k] = (uint8_t)(k == 49 ? i : i + k);
    for (int count = 0; count <= 4; count++) {
        found[0] = (uint8_t)count;
        printf("of %d detections, read:", count);
        for (int i = -2; i <= 256; i++)
            if (plate_read(found, i, &d))
                printf(" %d", i);
        printf("\n");
    }
    found[0] = 3;
    for (int i = 0; plate_read(found, i, &d); i++)
        print_detection(&d, 0);
}

/* Lists in which byte k is k modulo 127, but for form and count. */
static void lists(void) {
    static const int count[] = {0, 1, 300, PLATE_MAX_FINDERS, PLATE_MAX_FINDERS + 1};
    struct plate_finder f;
    for (int k = 0; k < LIST; k++)
        list[k] = (uint8_t)(k % 127);
    for (int c = 0; c < 5; c++)
        for (list[0] = 1; list[0] <= 3; list[0]++) {
            list[5] = (uint8_t)count[c];
            list[6] = (uint8_t)(count[c] >> 8);
            int read = 0, last = 0;
            for (int i = -2; i <= 2000; i++)
                if (plate_read_finder(list, i, &f)) {
                    read++;
                    last = i;
                }
            printf("form %d, count %d: %d read, count %d, last %d\n", list[0], count[c], read, plate_list_count(list), last);
            for (int i = 0; i < 300 && plate_read_finder(list, i, &f); i += 299)
                print_finder(i ? "finder 299" : "finder 0", &f, 0);
        }
}

/* The members of the structs, in their order. */
static void members(void) {
    struct plate_detection d = {{1, 2, 3, 4}, {5, 6, 7, 8}, {9, 10, 11, 12}, 13, 14, {15, 16}, {17, 18, 19, 20, 21, 22, 23, 24}};
    const struct plate_finder *f[3] = {&d.tl, &d.tr, &d.bl};
    printf("members");
    for (int i = 0; i < 3; i++)
        printf(" %g %g %g %" PRIu32, f[i]->x, f[i]->y, f[i]->module, f[i]->confirmations);
    printf(" %d %d %g %g", d.version, d.has_marker, d.marker.x, d.marker.y);
    for (int k = 0; k < 8; k++)
        printf(" %g", d.transform[k]);
    printf("\n");
}

/* Points by a map whose numbers are all different, also where its divisor is near 0. */
static void points(void) {
    struct plate_detection d;
    static const double m[8] = {2, 3, 5, 7, 11, 13, 0.25, 0.5}, near[] = {0, 9e-10, -9e-10, 1.1e-9, -1.1e-9};
    memset(&d, 0, sizeof d);
    memcpy(d.transform, m, sizeof m);
    struct plate_point p = plate_point_at(&d, 4, 12);
    printf("(4, 12) is at (%.4f, %.4f)\n", p.x, p.y);
    memset(d.transform + 6, 0, 16);
    d.transform[6] = -1;
    for (int i = 0; i < 5; i++) {
        p = plate_point_at(&d, 1 - near[i], 0);
        printf("divisor %.1e: (%.4e, %.4e)\n", near[i], p.x, p.y);
    }
}

/* ---- calls over one block */

/* Which bytes of so many hold paint no longer, counted up to the last one that does not. */
static size_t written(const uint8_t *p, size_t len) {
    while (len && p[len - 1] == PAINT)
        len--;
    return len;
}

/* plate_find, or plate_find_finders, with so much room; all that may be written is painted before. */
static uint8_t call(int preview, const uint8_t *p, size_t len, uint32_t w, uint32_t h, uint32_t stride, uint8_t format, size_t room_len) {
    size_t painted = room_len + GUARD;
    memset(room, PAINT, painted < sizeof room ? painted : sizeof room);
    memset(found, PAINT, sizeof found);
    memset(list, PAINT, sizeof list);
    return preview ? plate_find_finders(p, len, w, h, stride, format, room, room_len, list)
                   : plate_find(p, len, w, h, stride, format, room, room_len, found);
}

/* Says what a call returned, and how far it wrote into room, and into detections or list. */
static void say(int preview, const char *what, const uint8_t *p, size_t len, uint32_t w, uint32_t h, uint32_t stride, uint8_t format,
                size_t room_len) {
    uint8_t r = call(preview, p, len, w, h, stride, format, room_len);
    printf("%s, %s: %d, %s; written %zu of %zu, %zu\n", preview ? "finders" : "find", what, r, plate_refusal_name(r),
           written(room, room_len + GUARD), room_len, preview ? written(list, sizeof list) : written(found, sizeof found));
}

/* What is refused, each refusal where all that is asked after it is refused too; and a byte too few of room. */
static void refusals(int preview) {
    size_t exact = PLATE_ROOM_BYTES(W, H);
    const uint8_t *p = plate + 4;
    say(preview, "no width", p, 0, 0, UINT32_MAX, 0, 2, 0);
    say(preview, "no height", p, 0, 65536, 0, 0, 2, 1000);
    say(preview, "width 641", p, 0, FW + 1, 1, 0, 2, 0);
    say(preview, "height 481", p, 0, 1, FH + 1, 0, 2, 0);
    say(preview, "width 4096", p, 0, PLATE_MAX_SIDE, 1, 0, 2, 0);
    say(preview, "width 4097", p, 0, PLATE_MAX_SIDE + 1, 1, 0, 2, 0);
    say(preview, "height 4097", p, 0, 1, PLATE_MAX_SIDE + 1, 0, 2, 1000);
    say(preview, "sides of 65536", p, 0, 65536, 65536, 0, 2, 1000);
    say(preview, "sides of 2^32 - 1", p, 0, UINT32_MAX, UINT32_MAX, 0, 2, 1000);
    say(preview, "format 2", p, 0, W, H, 0, 2, 0);
    say(preview, "a short stride", p, sizeof plate - 4, W, H, W - 1, PLATE_GRAY8, 0);
    say(preview, "a short picture", p, (H - 1) * SIDE + W - 1, W, H, SIDE, PLATE_GRAY8, 0);
    say(preview, "no room", p, (H - 1) * SIDE + W, W, H, SIDE, PLATE_GRAY8, 0);
    say(preview, "a byte short", p, (H - 1) * SIDE + W, W, H, SIDE, PLATE_GRAY8, exact - 1);
    say(preview, "exact room", p, (H - 1) * SIDE + W, W, H, SIDE, PLATE_GRAY8, exact);
    say(preview, "more room", p, (H - 1) * SIDE + W, W, H, SIDE, PLATE_GRAY8, exact + GUARD);
    say(preview, "4096 x 1", blank, FRAME, PLATE_MAX_SIDE, 1, PLATE_MAX_SIDE, PLATE_GRAY8, PLATE_ROOM_BYTES(PLATE_MAX_SIDE, 1));
    say(preview, "1 x 4096", blank, FRAME, 1, PLATE_MAX_SIDE, 1, PLATE_GRAY8, PLATE_ROOM_BYTES(1, PLATE_MAX_SIDE));
    say(preview, "1,001 finders", frame, FRAME, FW, FH, FW, PLATE_GRAY8, PLATE_ROOM_BYTES(FW, FH));
}

/* Of all pictures of up to so many pixels on a side, and of every shorter room: how many calls are as they must be. */
static void sizes(int preview) {
    enum { MOST = 33 };
    unsigned right = 0, calls = 0;
    for (uint32_t w = 1; w <= MOST; w++)
        for (uint32_t h = 1; h <= MOST; h++) {
            size_t exact = PLATE_ROOM_BYTES(w, h), short_by = w == 9 && h == 17 ? exact : 1;
            for (size_t len = exact - short_by; len <= exact; len++) {
                uint8_t r = call(preview, blank, FRAME, w, h, w, PLATE_GRAY8, len);
                size_t out = preview ? written(list, sizeof list) : written(found, sizeof found);
                size_t needed = preview ? PLATE_LIST_BYTES(0) : PLATE_DETECTION_BYTES;
                right += len < exact ? r == PLATE_SHORT_OUTPUT && written(room, len + GUARD) == 0 && out == 0
                                     : r == PLATE_DONE && written(room, len + GUARD) == len && out == needed;
                calls++;
            }
        }
    printf("%s, sides up to %d: %u calls, %u right\n", preview ? "finders" : "find", MOST, calls, right);
}

/* The plate with as many bytes a pixel as the format says, in rows of SIDE pixels, and what the entries write for it. */
static void same(uint8_t format) {
    uint8_t direct[PLATE_DETECTION_BYTES], finders[LIST];
    size_t len[8] = {PLATE_GRAY_BYTES(W, H), PLATE_BIT_BYTES(W, H), PLATE_BIT_BYTES(W, H)}, bytes = (size_t)SIDE * SIDE * format;
    for (int i = 3; i < 8; i++)
        len[i] = PLATE_BLOCKS(W, H);
    for (size_t i = 0; i < bytes; i++)
        picture[i] = plate[4 + i / format];
#define LENT(i) buffer[i], len[i]
#define ARGUMENTS picture, bytes, W, H, (uint32_t)SIDE * format, format
    for (int preview = 0; preview <= 1; preview++) {
        memset(buffer, PAINT, sizeof buffer);
        memset(finders, PAINT, sizeof finders);
        int r = preview ? plate_preview(ARGUMENTS, LENT(0), LENT(1), LENT(2), LENT(3), LENT(4), LENT(5), LENT(6), LENT(7), finders, LIST)
                        : plate_chain(ARGUMENTS, LENT(0), LENT(1), LENT(2), LENT(3), LENT(4), LENT(5), LENT(6), LENT(7), direct, sizeof direct);
        int equal = call(preview, ARGUMENTS, PLATE_ROOM_BYTES(W, H)) == r;
        equal &= preview ? memcmp(list, finders, LIST) == 0 : memcmp(found, direct, sizeof direct) == 0;
        const uint8_t *p = room;
        for (int i = 0; i < 8; p += len[i++])
            equal &= memcmp(p, buffer[i], len[i]) == 0;
        printf("%s, format %d: %d, %d found, %s\n", preview ? "finders" : "find", format, r, preview ? plate_list_count(list) : found[0],
               equal ? "all bytes the same" : "OTHER BYTES");
    }
}

/* The finders and detections of the whole plate. */
static void listing(void) {
    struct plate_finder f;
    struct plate_detection d;
    call(1, plate + 4, SIDE * SIDE, SIDE, SIDE, SIDE, PLATE_GRAY8, PLATE_ROOM_BYTES(SIDE, SIDE));
    for (int i = 0; plate_read_finder(list, i, &f); i++)
        print_finder("finder", &f, 1);
    call(0, plate + 4, SIDE * SIDE, SIDE, SIDE, SIDE, PLATE_GRAY8, PLATE_ROOM_BYTES(SIDE, SIDE));
    for (int i = 0; plate_read(found, i, &d); i++)
        print_detection(&d, 1);
}

int main(void) {
    if (fread(plate, 1, sizeof plate, stdin) != sizeof plate)
        return fprintf(stderr, "room: no picture of %d x %d\n", SIDE, SIDE), 2;
    memset(blank, 255, sizeof blank);
    memset(frame, 255, sizeof frame);
    /* 1,001 finders of 14 x 14 pixels, 16 apart: seven modules on a side, a ring of them and a core of three by three */
    for (int i = 0; i < FRAME; i++) {
        int x = i % FW, y = i / FW, u = x % 16 / 2 - 3, v = y % 16 / 2 - 3, far = u * u > v * v ? u * u : v * v;
        if (y / 16 * (FW / 16) + x / 16 <= PLATE_MAX_FINDERS && (far <= 1 || far == 9))
            frame[i] = 0;
    }
    numbers();
    places();
    lists();
    members();
    points();
    for (int preview = 0; preview <= 1; preview++) {
        refusals(preview);
        sizes(preview);
    }
    same(PLATE_GRAY8);
    same(PLATE_RGB8);
    same(PLATE_RGBA8);
    listing();
    return 0;
}
