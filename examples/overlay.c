/* Draws what the detector finds: reads a picture (width and height of two bytes each, little-endian, then gray bytes) from standard input, looks
   for plates, and writes the gray picture with the detections on it to standard output, as binary PPM (P6). It is enlarged by the largest whole
   factor with which no side is over 800 (by 1 if there is none). The first detection is opaque: the plate's outline and module grid red, a blue
   ring about the seven modules of each finder and a dot in its middle, the marker an orange cross. The others are faint and violet, behind it.
   A refusal goes to standard error.

   Every byte is the same from any compiler whose doubles are those of IEEE 754 and which rounds after each step: no root and no other function
   of libm is used. */
#include <stdio.h>
#include <stdlib.h>
#include <string.h>
#include "plate.h"

enum { SIDE = 800 };

/* The sides of what is written, and how many of its pixels a pixel of the picture has on a side. */
static int wide, high, factor;
/* Its pixels, and how much the shapes that are now drawn cover of each, 0 to 255. */
static uint8_t *pixels, *covered;

static struct plate_point enlarged(double x, double y) {
    struct plate_point p = {x * factor, y * factor};
    return p;
}

/* a rounded down, but within 0 to most; 0 of a NaN. */
static int within(double a, int most) {
    return !(a > 0) ? 0 : a < most ? (int)a : most;
}

/* Covers pixel (x, y) for a line of half width r, where d2 is the squared distance of the pixel's middle from the line's: whole up to a
   distance of r - 1/2, not at all from r + 1/2 on, and between them less and less, in step with the square. */
static void cover(int x, int y, double d2, double r) {
    double in = (r - 0.5) * (r - 0.5), out = (r + 0.5) * (r + 0.5);
    uint8_t *c = covered + (size_t)y * (size_t)wide + x, now = (uint8_t)within(255 * (out - d2) / (out - in) + 0.5, 255);
    if (now > *c)
        *c = now;
}

/* A line from a to b; none if it were longer than both sides of the picture together, as where the map's horizon lies between a and b. */
static void line(struct plate_point a, struct plate_point b, double r) {
    double dx = b.x - a.x, dy = b.y - a.y, len2 = dx * dx + dy * dy, reach = (double)wide + high;
    if (!(len2 <= reach * reach))
        return;
    int left = within((a.x < b.x ? a.x : b.x) - r - 1, wide), right = within((a.x < b.x ? b.x : a.x) + r + 2, wide);
    int top = within((a.y < b.y ? a.y : b.y) - r - 1, high), bottom = within((a.y < b.y ? b.y : a.y) + r + 2, high);
    for (int y = top; y < bottom; y++)
        for (int x = left; x < right; x++) {
            double px = x + 0.5 - a.x, py = y + 0.5 - a.y, t = len2 > 0 ? (px * dx + py * dy) / len2 : 0;
            t = t < 0 ? 0 : t > 1 ? 1 : t;
            cover(x, y, (px - t * dx) * (px - t * dx) + (py - t * dy) * (py - t * dy), r);
        }
}

/* A ring about c. Near it the distance from the ring is (d^2 - radius^2) / (2 radius), where d is that from c. */
static void ring(struct plate_point c, double radius, double r) {
    int left = within(c.x - radius - r - 1, wide), right = within(c.x + radius + r + 2, wide);
    int top = within(c.y - radius - r - 1, high), bottom = within(c.y + radius + r + 2, high);
    for (int y = top; y < bottom; y++)
        for (int x = left; x < right; x++) {
            double px = x + 0.5 - c.x, py = y + 0.5 - c.y, d = (px * px + py * py - radius * radius) / (2 * radius);
            cover(x, y, d * d, r);
        }
}

/* The line of modules from (u, v) to (to_u, to_v), which leads right or down, module by module. */
static void modules(const struct plate_detection *d, int u, int v, int to_u, int to_v, double r) {
    while (u < to_u || v < to_v) {
        struct plate_point a = plate_point_at(d, u, v), b;
        u += u < to_u;
        v += v < to_v;
        b = plate_point_at(d, u, v);
        line(enlarged(a.x, a.y), enlarged(b.x, b.y), r);
    }
}

static void symbol(const struct plate_detection *d) {
    int side = plate_side(d);
    for (int i = 0; i <= side; i++) {
        double r = i % side ? 0.6 : 1.8;
        modules(d, i, 0, i, side, r);
        modules(d, 0, i, side, i, r);
    }
}

static void finders(const struct plate_detection *d) {
    const struct plate_finder *f[3] = {&d->tl, &d->tr, &d->bl};
    for (int i = 0; i < 3; i++) {
        struct plate_point c = enlarged(f[i]->x, f[i]->y);
        ring(c, 3.5 * f[i]->module * factor, 1.8);
        line(c, c, 4);
    }
}

static void marker(const struct plate_detection *d) {
    double x = d->marker.x, y = d->marker.y, arm = 2.5 * d->tl.module;
    if (!d->has_marker)
        return;
    line(enlarged(x - arm, y), enlarged(x + arm, y), 1.8);
    line(enlarged(x, y - arm), enlarged(x, y + arm), 1.8);
}

/* Lays a colour over what was covered, as strong as is said, 255 for opaque, and takes the cover away. */
static void paint(int red, int green, int blue, int strength) {
    const int colour[3] = {red, green, blue};
    size_t n = (size_t)wide * (size_t)high;
    for (size_t i = 0; i < n; i++) {
        int c = covered[i] * strength / 255;
        for (size_t k = 3 * i; k < 3 * i + 3; k++)
            pixels[k] = (uint8_t)((pixels[k] * (255 - c) + colour[k - 3 * i] * c + 127) / 255);
    }
    memset(covered, 0, n);
}

/* The picture and its detections, the first on top. */
static int draw(const uint8_t *picture, int w, int h, const uint8_t *found) {
    int longest = w > h ? w : h;
    factor = longest > SIDE ? 1 : SIDE / longest;
    wide = w * factor;
    high = h * factor;
    size_t n = (size_t)wide * (size_t)high;
    pixels = (uint8_t *)malloc(3 * n);
    covered = (uint8_t *)calloc(n, 1);
    if (!pixels || !covered)
        return 0;
    for (size_t i = 0; i < n; i++)
        memset(pixels + 3 * i, picture[i / (size_t)(wide * factor) * (size_t)w + i % (size_t)wide / (size_t)factor], 3);
    for (int i = PLATE_MAX_DETECTIONS; i-- > 0;) {
        struct plate_detection d;
        if (!plate_read(found, i, &d))
            continue;
        symbol(&d);
        if (i == 0)
            paint(230, 30, 40, 255);
        finders(&d);
        if (i == 0)
            paint(0, 110, 255, 255);
        marker(&d);
        if (i == 0)
            paint(255, 140, 0, 255);
        else
            paint(130, 60, 220, 90);
    }
    return 1;
}

int main(void) {
    uint8_t head[4], found[PLATE_DETECTION_BYTES];
    if (fread(head, 1, 4, stdin) != 4)
        return fprintf(stderr, "overlay: no picture\n"), 2;
    uint32_t w = head[0] | (uint32_t)head[1] << 8, h = head[2] | (uint32_t)head[3] << 8;
    int large = w > PLATE_MAX_SIDE || h > PLATE_MAX_SIDE;
    size_t n = large ? 0 : PLATE_GRAY_BYTES(w, h), room = large ? 0 : PLATE_ROOM_BYTES(w, h);
    uint8_t *picture = (uint8_t *)malloc(n + room + 1);
    if (!picture)
        return fprintf(stderr, "overlay: no memory\n"), 2;
    size_t got = fread(picture, 1, n, stdin);
    uint8_t refused = plate_find(picture, got, w, h, w, PLATE_GRAY8, picture + n, room, found);
    if (refused)
        return fprintf(stderr, "refused %d, %s\n", refused, plate_refusal_name(refused)), 1;
    if (!draw(picture, (int)w, (int)h, found))
        return fprintf(stderr, "overlay: no memory\n"), 2;
    printf("P6\n%d %d\n255\n", wide, high);
    fwrite(pixels, 3, (size_t)wide * (size_t)high, stdout);
    return 0;
}
