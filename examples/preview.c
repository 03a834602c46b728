/* What a display does while the unit is aimed: reads a frame (width and height of two bytes each, little-endian, then gray bytes) from
   standard input, asks for its finders, and prints each: where its middle is, its module, both in pixels, and its confirmations. */
#include <stdio.h>
#include "plate.h"

/* Room for the largest frame, which a smaller one does with too. */
enum { W = PLATE_PREVIEW_WIDTH, H = PLATE_PREVIEW_HEIGHT };
static uint8_t frame[PLATE_GRAY_BYTES(W, H)], room[PLATE_ROOM_BYTES(W, H)], list[PLATE_LIST_BYTES(PLATE_MAX_FINDERS)];

int main(void) {
    uint8_t head[4];
    struct plate_finder f;
    if (fread(head, 1, 4, stdin) != 4)
        return fprintf(stderr, "preview: no frame\n"), 2;
    uint32_t w = head[0] | (uint32_t)head[1] << 8, h = head[2] | (uint32_t)head[3] << 8;
    size_t got = fread(frame, 1, sizeof frame, stdin);
    uint8_t refused = plate_find_finders(frame, got, w, h, w, PLATE_GRAY8, room, sizeof room, list);
    if (refused)
        return printf("refused %d\n", refused), 1;
    printf("%d finders\n", plate_list_count(list));
    for (int i = 0; plate_read_finder(list, i, &f); i++)
        printf("  (%.2f, %.2f), module %.3f, %u confirmations\n", f.x, f.y, f.module, (unsigned)f.confirmations);
    return 0;
}
