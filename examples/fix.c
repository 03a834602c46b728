/* Reads a picture (width and height of two bytes each, little-endian, then gray bytes) from standard input, looks for plates, and prints
   each detection: version, where the finders, the marker and the symbol's corners are, and the mean module, all in pixels. */
#include <stdio.h>
#include <stdlib.h>
#include "plate.h"

static void print_point(double x, double y) {
    printf(" (%.2f, %.2f)", x, y);
}

/* Where module coordinates are in the picture. */
static void print_place(const struct plate_detection *d, int u, int v) {
    struct plate_point p = plate_point_at(d, u, v);
    print_point(p.x, p.y);
}

static void print_fix(const struct plate_detection *d) {
    int side = plate_side(d);
    printf("version %d, module %.3f\n  finders", d->version, (d->tl.module + d->tr.module + d->bl.module) / 3);
    print_point(d->tl.x, d->tl.y);
    print_point(d->tr.x, d->tr.y);
    print_point(d->bl.x, d->bl.y);
    printf(d->has_marker ? "\n  marker" : "\n  no marker");
    if (d->has_marker)
        print_point(d->marker.x, d->marker.y);
    printf("\n  corners");
    print_place(d, 0, 0);
    print_place(d, side, 0);
    print_place(d, side, side);
    print_place(d, 0, side);
    printf("\n");
}

int main(void) {
    uint8_t head[4], found[PLATE_DETECTION_BYTES];
    struct plate_detection d;
    if (fread(head, 1, 4, stdin) != 4)
        return fprintf(stderr, "fix: no picture\n"), 2;
    uint32_t w = head[0] | (uint32_t)head[1] << 8, h = head[2] | (uint32_t)head[3] << 8;
    /* one block for the picture and the room behind it; none for sides that are refused whatever there is */
    int large = w > PLATE_MAX_SIDE || h > PLATE_MAX_SIDE;
    size_t n = large ? 0 : PLATE_GRAY_BYTES(w, h), room = large ? 0 : PLATE_ROOM_BYTES(w, h);
    uint8_t *picture = (uint8_t *)malloc(n + room + 1);
    if (!picture)
        return fprintf(stderr, "fix: no memory\n"), 2;
    size_t got = fread(picture, 1, n, stdin);
    uint8_t refused = plate_find(picture, got, w, h, w, PLATE_GRAY8, picture + n, room, found);
    free(picture);
    if (refused)
        return printf("refused %d\n", refused), 1;
    printf("%d found\n", found[0]);
    for (int i = 0; plate_read(found, i, &d); i++)
        print_fix(&d);
    return 0;
}
