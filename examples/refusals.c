/* Calls plate_chain with a blank picture, with the longest side, and with what it refuses, plate_preview with the frames about its limit
   and with what it refuses, and both of them and the stages that have refusals of their own with the plate on standard input and with
   pictures of some finders, of as many as there may be, and of one more. Prints each number by its name, which buffers were written and how
   many finders the list has, and whether the deepest call stayed within PLATE_STACK_BYTES. */
#define _POSIX_C_SOURCE 200809L
#include <pthread.h>
#include <stdio.h>
#include <string.h>
#include "bytes.h"
#include "sirvoltha_stages.h"

/* The pictures are as large as the preview takes them; there is room for one pixel more each way. */
enum { W = PLATE_PREVIEW_WIDTH, H = PLATE_PREVIEW_HEIGHT, N = W * H, ROOM = (W + 1) * (H + 1), PAINT = 0x5a, STACK = 4 * PLATE_STACK_BYTES };
enum { DENOISED = 2, DETECTIONS = 8, LIST = 9, BUFFERS = 10 };

static const char *const answer[] = {[PLATE_DONE] = "0, done", [PLATE_ZERO_SIDE] = "1, zero side", [PLATE_LARGE_SIDE] = "2, large side",
                                     [PLATE_UNKNOWN_FORMAT] = "3, unknown format", [PLATE_SHORT_PICTURE] = "4, short picture",
                                     [PLATE_SHORT_OUTPUT] = "5, short output", [PLATE_FULL_TABLE] = "6, full table",
                                     [PLATE_LARGE_FRAME] = "10, large frame"};
static const char *const name[BUFFERS] = {"gray", "bits", "denoised", "means", "least", "greatest", "edges", "nears", "detections", "list"};
static uint8_t blank[ROOM], plate[N], finders[N], bits[N / 8], out[BUFFERS][ROOM + 1], stack[STACK];
static size_t len[BUFFERS];

/* The picture on standard input, in the upper left of a blank one. */
static int read_plate(void) {
    uint8_t head[4];
    if (fread(head, 1, 4, stdin) != 4)
        return 0;
    uint32_t w = (uint32_t)number(head, 2), h = (uint32_t)number(head + 2, 2);
    if (w > W || h > H)
        return 0;
    memset(plate, 255, N);
    for (uint32_t y = 0; y < h; y++)
        if (fread(plate + y * W, 1, w, stdin) != w)
            return 0;
    return 1;
}

/* A picture with so many finders of 14 x 14 pixels, 16 apart, row by row; there is room for 40 x 30. */
static void draw(int count) {
    memset(finders, 255, N);
    for (int y = 0; y < H; y++)
        for (int x = 0; x < W; x++) {
            int u = x % 16 / 2, v = y % 16 / 2; /* the module within the finder's field of 8 x 8 */
            int ring = u == 0 || u == 6 || v == 0 || v == 6, core = u >= 2 && u <= 4 && v >= 2 && v <= 4;
            if (u <= 6 && v <= 6 && (ring || core) && y / 16 * (W / 16) + x / 16 < count)
                finders[y * W + x] = 0;
        }
}

/* The lengths that the buffers must have for w x h pixels. */
static void fit(uint32_t w, uint32_t h) {
    size_t need[BUFFERS] = {PLATE_GRAY_BYTES(w, h), PLATE_BIT_BYTES(w, h), PLATE_BIT_BYTES(w, h)};
    for (int i = 3; i < DETECTIONS; i++)
        need[i] = PLATE_BLOCKS(w, h);
    need[DETECTIONS] = PLATE_DETECTION_BYTES;
    need[LIST] = PLATE_LIST_BYTES(PLATE_MAX_FINDERS);
    memcpy(len, need, sizeof len);
}

/* The count in the list. */
static int listed(void) {
    return (int)number(out[LIST] + 5, 2);
}

/* Where what may be written of a buffer ends: at its length, and a list where its count says. */
static size_t end(int i) {
    size_t list = PLATE_LIST_BYTES(listed());
    return i == LIST && list < len[i] ? list : len[i];
}

/* The number that a function returned, and the buffers that it wrote; they are then painted and fit again. */
static void say(const char *function, const char *what, int r) {
    printf("%s, %s: %s, written:", function, what, answer[r]);
    const char *none = " none";
    for (int i = 0; i < BUFFERS; i++) {
        size_t last = ROOM + 1;
        while (last && out[i][last - 1] == PAINT)
            last--;
        if (last) {
            printf(" %s%s", name[i], last > end(i) ? " BEYOND ITS END" : "");
            if (i == LIST)
                printf(" of %d", listed());
            none = "";
        }
    }
    printf("%s\n", none);
    fit(W, H);
    memset(out, PAINT, sizeof out);
}

#define LENT(i) out[i], len[i]
#define EIGHT LENT(0), LENT(1), LENT(2), LENT(3), LENT(4), LENT(5), LENT(6), LENT(7)

/* One call with buffers of the lengths in len: of plate_chain where the last is DETECTIONS, of plate_preview where it is LIST. Keeps the
   denoised bits. */
static void call(int last, const char *what, const uint8_t *picture, size_t bytes, uint32_t w, uint32_t h, uint32_t stride, uint8_t format) {
    int r = last == LIST ? plate_preview(picture, bytes, w, h, stride, format, EIGHT, LENT(LIST))
                         : plate_chain(picture, bytes, w, h, stride, format, EIGHT, LENT(DETECTIONS));
    memcpy(bits, out[DENOISED], sizeof bits);
    say(last == LIST ? "plate_preview" : "plate_chain", what, r);
}

/* The preview of a blank frame that has all it needs but for its sides. */
static void frame(const char *what, uint32_t w, uint32_t h) {
    fit(w, h);
    call(LIST, what, blank, (size_t)w * h, w, h, w, PLATE_GRAY8);
}

/* The stages after denoising, on the bits, with so much room. */
static void stages(const char *what, size_t list, size_t detections) {
    len[LIST] = list;
    say("plate_finders", what, plate_finders(bits, sizeof bits, W, H, out[LIST], list));
    len[DETECTIONS] = detections;
    say("plate_candidates", what, plate_candidates(bits, sizeof bits, W, H, out[DETECTIONS], detections));
}

/* Both functions and the stages on a picture with so many finders, the stages also with a byte too few and with none. */
static void each(const char *name, const uint8_t *picture, int count) {
    char what[40];
    size_t list = PLATE_LIST_BYTES(count), detections = PLATE_DETECTION_BYTES;
    call(DETECTIONS, name, picture, N, W, H, W, PLATE_GRAY8);
    call(LIST, name, picture, N, W, H, W, PLATE_GRAY8);
    stages(name, list, detections);
    sprintf(what, "%s, a byte short", name);
    stages(what, list - 1, detections - 1);
    sprintf(what, "%s and no room", name);
    stages(what, 0, 0);
}

static void crowd(int count) {
    char what[40];
    draw(count);
    sprintf(what, "%d finders", count);
    each(what, finders, count);
}

/* All calls, on a stack of their own; says where in it they begin. */
static void *calls(void *top) {
    *(uint8_t **)top = (uint8_t *)&top;
    call(DETECTIONS, "blank", blank, N, W, H, W, PLATE_GRAY8);
    call(DETECTIONS, "the longest width", blank, N, PLATE_MAX_SIDE, 1, PLATE_MAX_SIDE, PLATE_GRAY8);
    call(DETECTIONS, "no width", blank, N, 0, H, W, PLATE_GRAY8);
    call(DETECTIONS, "no width, height 5000", blank, N, 0, 5000, W, PLATE_GRAY8);
    call(DETECTIONS, "height one too long", blank, N, W, PLATE_MAX_SIDE + 1, W, PLATE_GRAY8);
    frame("640 x 480", W, H);
    frame("0 x 481", 0, H + 1);
    frame("641 x 0", W + 1, 0);
    frame("641 x 480", W + 1, H);
    frame("640 x 481", W, H + 1);
    frame("480 x 640", H, W);
    frame("4097 x 1", PLATE_MAX_SIDE + 1, 1);
    frame("1 x 4097", 1, PLATE_MAX_SIDE + 1);
    call(LIST, "641 x 480, format 2", blank, ROOM, W + 1, H, W + 1, 2);
    call(LIST, "641 x 480, no picture byte", blank, 0, W + 1, H, W + 1, PLATE_GRAY8);
    memset(len, 0, sizeof len);
    call(LIST, "641 x 480, no room", blank, ROOM, W + 1, H, W + 1, PLATE_GRAY8);
    for (int last = DETECTIONS; last <= LIST; last++) {
        char what[40];
        call(last, "format 2", blank, N, W, H, W, 2);
        call(last, "stride below width", blank, N, W, H, W - 1, PLATE_GRAY8);
        call(last, "a picture byte too few", blank, N - 1, W, H, W, PLATE_GRAY8);
        for (int i = 0; i < BUFFERS; i++)
            if (i < DETECTIONS || i == last) {
                len[i]--;
                sprintf(what, "%s a byte short", name[i]);
                call(last, what, blank, N, W, H, W, PLATE_GRAY8);
            }
        len[last] = 0;
        sprintf(what, "format 2 and no room for %s", name[last]);
        call(last, what, blank, N, W, H, W, 2);
    }
    each("a plate", plate, 4);
    crowd(12);
    crowd(132);
    crowd(PLATE_MAX_FINDERS);
    crowd(PLATE_MAX_FINDERS + 1);
    return NULL;
}

int main(void) {
    uint8_t *top = NULL;
    pthread_t thread;
    pthread_attr_t attributes;
    if (!read_plate())
        return fprintf(stderr, "refusals: no picture\n"), 2;
    fit(W, H);
    memset(blank, 255, ROOM);
    memset(out, PAINT, sizeof out);
    memset(stack, PAINT, STACK); /* what is still painted afterwards was never used */
    pthread_attr_init(&attributes);
    if (pthread_attr_setstack(&attributes, stack, STACK) || pthread_create(&thread, &attributes, calls, &top) || pthread_join(thread, NULL))
        return fprintf(stderr, "refusals: no thread\n"), 2;
    const uint8_t *deepest = stack;
    while (deepest < top && *deepest == PAINT)
        deepest++;
    size_t used = (size_t)(top - deepest);
    fprintf(stderr, "stack: %zu bytes\n", used);
    printf("stack within %d bytes: %s\n", PLATE_STACK_BYTES, used <= PLATE_STACK_BYTES ? "yes" : "no");
    return 0;
}
