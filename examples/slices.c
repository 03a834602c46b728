/* Calls every exported function on a picture of each pixel format, drawn from the plate on standard input (examples/plate.gray): neither
   square nor symmetric, in colour, darker to the right, with specks and with bytes between its rows. Prints each number that is returned and,
   of each lent slice, its length and the hash (FNV-1a, 64 bits) of its bytes as the call left them. No two slices hold the same, so that no
   two parameters can change places unseen. The stored output is the Rust's (examples/slices.py). */
#include <inttypes.h>
#include <stdio.h>
#include "sirvoltha_stages.h"

enum { SIDE = 200, W = 203, H = 197, GAP = 5, TAIL = 3, ROOM = W * H + 100 };
enum { GRAY, BITS, DENOISED, MEANS, LEAST, GREATEST, EDGES, NEARS, LIST, DETECTIONS, SLICES };

static const char *const name[SLICES] = {"gray", "bits", "denoised", "means", "least", "greatest", "edges", "nears", "list", "detections"};
static uint8_t plate[4 + SIDE * SIDE], picture[(W * PLATE_RGBA8 + GAP) * H], slice[SLICES][ROOM];
static size_t len[SLICES];
static uint32_t state;

static uint8_t chance(void) {
    state = state * 1664525 + 1013904223;
    return (uint8_t)(state >> 24);
}

/* The plate without its lowest rows and wider on the right, with so many bytes a pixel. */
static void draw(uint8_t format) {
    uint8_t *p = picture;
    state = format;
    for (int y = 0; y < H; y++) {
        for (int x = 0; x < W; x++) {
            int light = (x < SIDE ? plate[4 + y * SIDE + x] : 215) * (400 - x) / 400;
            uint8_t last = chance(), green = (uint8_t)(last < 3 ? 255 - light : light);
            uint8_t pixel[4] = {(uint8_t)(green / 2 + y / 4), green, chance() / 4, last};
            for (int i = 0; i < format; i++)
                *p++ = pixel[format == PLATE_GRAY8 ? 1 : i];
        }
        for (int i = 0; i < GAP; i++)
            *p++ = chance();
    }
}

/* Lends slices again, a few bytes longer than they must be, each byte its place modulo 251. */
static void lend(void) {
    size_t bits = PLATE_BIT_BYTES(W, H), blocks = PLATE_BLOCKS(W, H);
    size_t need[SLICES] = {PLATE_GRAY_BYTES(W, H), bits, bits, blocks, blocks, blocks, blocks, blocks,
                           PLATE_LIST_BYTES(PLATE_MAX_FINDERS), PLATE_DETECTION_BYTES};
    for (int i = 0; i < SLICES; i++) {
        len[i] = need[i] + TAIL;
        for (size_t k = 0; k < ROOM; k++)
            slice[i][k] = (uint8_t)(k % 251);
    }
}

static void print(int i) {
    uint64_t hash = 0xcbf29ce484222325;
    for (size_t k = 0; k < len[i]; k++)
        hash = (hash ^ slice[i][k]) * 0x100000001b3;
    const char *beyond = "";
    for (size_t k = len[i]; k < ROOM; k++)
        if (slice[i][k] != k % 251)
            beyond = " BEYOND ITS END";
    printf("  %s %zu %016" PRIx64 "%s\n", name[i], len[i], hash, beyond);
}

#define LENT(i) slice[i], len[i]

static void whole_chain(const char *what, uint8_t format, uint32_t stride) {
    lend();
    printf("plate_chain, %s: %d\n", what,
           plate_chain(picture, stride * H, W, H, stride, format, LENT(GRAY), LENT(BITS), LENT(DENOISED), LENT(MEANS), LENT(LEAST),
                       LENT(GREATEST), LENT(EDGES), LENT(NEARS), LENT(DETECTIONS)));
    for (int i = 0; i < SLICES; i++)
        if (i != LIST)
            print(i);
}

static void preview(const char *what, uint8_t format, uint32_t stride) {
    lend();
    printf("plate_preview, %s: %d\n", what,
           plate_preview(picture, stride * H, W, H, stride, format, LENT(GRAY), LENT(BITS), LENT(DENOISED), LENT(MEANS), LENT(LEAST),
                         LENT(GREATEST), LENT(EDGES), LENT(NEARS), LENT(LIST)));
    for (int i = 0; i < SLICES; i++)
        if (i != DETECTIONS)
            print(i);
}

static void each_stage(const char *what, uint8_t format, uint32_t stride) {
    lend();
    printf("plate_gray, %s: %d\n", what, plate_gray(picture, stride * H, W, H, stride, format, LENT(GRAY)));
    print(GRAY);
    printf("plate_binarize: %d\n",
           plate_binarize(LENT(GRAY), W, H, LENT(MEANS), LENT(LEAST), LENT(GREATEST), LENT(EDGES), LENT(NEARS), LENT(BITS)));
    for (int i = MEANS; i <= NEARS; i++)
        print(i);
    print(BITS);
    printf("plate_denoised: %d\n", plate_denoised(LENT(BITS), W, H, LENT(DENOISED)));
    print(DENOISED);
    printf("plate_finders: %d\n", plate_finders(LENT(DENOISED), W, H, LENT(LIST)));
    print(LIST);
    printf("plate_candidates: %d\n", plate_candidates(LENT(DENOISED), W, H, LENT(DETECTIONS)));
    print(DETECTIONS);
}

static void try_format(const char *what, uint8_t format) {
    uint32_t stride = W * format + GAP;
    draw(format);
    whole_chain(what, format, stride);
    preview(what, format, stride);
    each_stage(what, format, stride);
}

int main(void) {
    if (fread(plate, 1, sizeof plate, stdin) != sizeof plate)
        return fprintf(stderr, "slices: no picture of %d x %d\n", SIDE, SIDE), 2;
    printf("lengths for 16 x 8: %zu %zu %zu\n", PLATE_GRAY_BYTES(16, 8), PLATE_BIT_BYTES(16, 8), PLATE_BLOCKS(16, 8));
    try_format("gray8", PLATE_GRAY8);
    try_format("rgb8", PLATE_RGB8);
    try_format("rgba8", PLATE_RGBA8);
    return 0;
}
