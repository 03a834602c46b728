/* The quay plate detector for C: the whole chain in one call, and the preview of a frame in another.
   plate.h has both over one block of memory, and reads what they write into structs.

   `tools/staticlib chain` builds target/staticlib/libchain.a (x86-64, needs only memcpy and memset). The two functions allocate nothing, keep
   nothing between calls, and may run in several threads on different buffers. They take any numbers and lengths: what is unfit is refused.
   Their contracts, which are proved, stand in crates/chain/src/entry.rt and crates/preview/src/entry.rt, and in crates/chain_c/src/lib.rt
   over the calls that C makes.

   What the caller sees to, since no length or number says it:
   - A pointer is not null, also where its length is 0, and leads to as many bytes as its length says. No buffer that is written overlaps
     another one.
   - The floating-point environment is the one that a C program starts in: rounding to nearest, every exception masked, neither flush to
     zero nor denormals are zero (MXCSR as 0x1f80, status flags aside). With another rounding detections and list are other bytes; with
     invalid or inexact unmasked an ordinary picture traps. A call leaves status flags set, as float operations do, and changes nothing
     else of it.
   - There are PLATE_STACK_BYTES of stack. */
#ifndef SIRVOLTHA_H
#define SIRVOLTHA_H

#include <stddef.h>
#include <stdint.h>

#ifdef __cplusplus
extern "C" {
#endif

/* What a call returns: PLATE_DONE, or the first refusal of these that holds, in this order. */
enum {
    PLATE_DONE = 0,
    PLATE_ZERO_SIDE = 1,      /* a side is 0 */
    PLATE_LARGE_FRAME = 10,   /* plate_preview only: wider than PLATE_PREVIEW_WIDTH or higher than PLATE_PREVIEW_HEIGHT */
    PLATE_LARGE_SIDE = 2,     /* a side is over PLATE_MAX_SIDE */
    PLATE_UNKNOWN_FORMAT = 3, /* the pixel format is none of the three below */
    PLATE_SHORT_PICTURE = 4,  /* stride below width * format, or fewer picture bytes than (height - 1) * stride + width * format */
    PLATE_SHORT_OUTPUT = 5,   /* a buffer is shorter than it must be */
    PLATE_FULL_TABLE = 6      /* a 1,001st distinct finder: too much in the picture looks like one */
};

/* Pixel formats: the number of bytes of a pixel. Gray, or red, green, blue, or these and one more byte, which is not read. */
enum { PLATE_GRAY8 = 1, PLATE_RGB8 = 3, PLATE_RGBA8 = 4 };

#define PLATE_MAX_SIDE 4096

/* The widest and the highest frame that plate_preview takes. */
#define PLATE_PREVIEW_WIDTH 640
#define PLATE_PREVIEW_HEIGHT 480

/* The lengths that the buffers must have for a picture of w x h pixels, in bytes. */
#define PLATE_GRAY_BYTES(w, h) ((size_t)(w) * (size_t)(h))
#define PLATE_BIT_BYTES(w, h) (((size_t)(w) * (size_t)(h) + 7) / 8)
#define PLATE_BLOCKS(w, h) ((((size_t)(w) + 7) / 8) * (((size_t)(h) + 7) / 8))
#define PLATE_DETECTION_BYTES 367

/* The most finders that a picture may have, and the bytes of a stored list of n finders. In the list, all numbers little-endian: a byte 2,
   width and height (u16 each), the count (u16), then x and y of each finder in pixels (f32 each), most confirmed first, and then module in
   pixels (f32) and confirmations (u32) of each. A list that begins with a byte 1 is of form 1, which is no longer written: its count is one
   byte, at most 128, so that all behind it stands one byte earlier. */
#define PLATE_MAX_FINDERS 1000
#define PLATE_LIST_BYTES(n) (7 + 16 * (size_t)(n))

/* A call takes less stack than this, whatever the picture: some 35,000 bytes of plate_chain and 49,000 of plate_preview, most of them for
   tables of PLATE_MAX_FINDERS, and where the dynamic linker binds memcpy at its first call what it takes for that, some 3,000 bytes as
   measured (README.md). It holds for the single stages of sirvoltha_stages.h too. */
#define PLATE_STACK_BYTES 65536

/* Looks for plates in a picture.

     picture     width x height pixels, from the top left one on, row by row; a row's first pixel is stride bytes after that of the row
                 above. A longer slice is fine.
     width, height   in pixels, 1 to PLATE_MAX_SIDE
     stride      bytes from row to row, at least width * format; what is between the end of a row and the next one is not read
     format      PLATE_GRAY8, PLATE_RGB8 or PLATE_RGBA8

   Then the buffers that are written. Each is followed by its length in bytes; a longer one is fine, and its tail is not touched.

     gray        PLATE_GRAY_BYTES       the gray picture: of a colour the nearest whole number, halves up,
                                        (54 r + 183 g + 19 b + 128) / 256 rounded down; a gray pixel keeps its value
     bits        PLATE_BIT_BYTES        black and white: pixel number y * width + x is bit 7 - number % 8 of its byte, 1 for dark;
                                        unused bits of the last byte are 0
     denoised    PLATE_BIT_BYTES        the same, denoised
     means, least, greatest, edges, nears
                 PLATE_BLOCKS each      of each block of 8 x 8 pixels: mean, least and greatest gray value, edge mark, near mark (1 or 0)
     detections  PLATE_DETECTION_BYTES  what was found, all numbers little-endian: the count (0 to 3) in one byte, then three places of
                                        122 bytes, best first, all zero where nothing was found. In a place, by offset:
                                           0  three finders (top left, top right, bottom left), 16 bytes each:
                                              x, y, module in pixels (f32), confirmations (u32)
                                          48  version, 1 to 32 (u8)
                                          49  marker flag, 1 or 0 (u8)
                                          50  marker x and y in pixels (f32), 0 without a marker
                                          58  eight transform numbers m0 to m7 (f64): module coordinates (u, v) are at pixel
                                              ((m0 u + m1 v + m2) / d, (m3 u + m4 v + m5) / d), d = m6 u + m7 v + 1,
                                              but d = 1e-9 where this is less than 1e-9 from 0; no lens is behind it

   Returns PLATE_DONE or a refusal. After 1 to 5 no byte has been written. After 6 detections is untouched, and the other buffers hold
   what they would hold after 0.

   Another exposure moves no detection: with one whole number added to every byte of a PLATE_GRAY8 picture, none going below 0 or above
   255, the same bytes are written to bits, denoised and detections, and the same number is returned (proved: crates/exposure).

   A long dark wall is no finder: what looks like one is dropped where a run down or across its middle goes on after 5 modules and 4
   pixels. The Rust original keeps it (docs/DIFFERENCES.md, N7). */
uint8_t plate_chain(const uint8_t *picture, size_t picture_len,
                    uint32_t width, uint32_t height, uint32_t stride, uint8_t format,
                    uint8_t *gray, size_t gray_len,
                    uint8_t *bits, size_t bits_len,
                    uint8_t *denoised, size_t denoised_len,
                    uint8_t *means, size_t means_len,
                    uint8_t *least, size_t least_len,
                    uint8_t *greatest, size_t greatest_len,
                    uint8_t *edges, size_t edges_len,
                    uint8_t *nears, size_t nears_len,
                    uint8_t *detections, size_t detections_len);

/* Looks for the finders of a frame alone, for a display while the unit is aimed. The parameters are those of plate_chain, but for these:

     width, height   in pixels, 1 to PLATE_PREVIEW_WIDTH and 1 to PLATE_PREVIEW_HEIGHT
     list        in place of detections, PLATE_LIST_BYTES(PLATE_MAX_FINDERS) whatever is found: the finders as a stored list; what is
                 behind it is not touched

   Returns PLATE_DONE or a refusal: the first of 1, 10, 3, 4, 5, 6 that holds; never 2, since such a side is refused by 10. After 1 to 5
   and 10 no byte has been written. After 6 list is untouched, and the other buffers hold what they would hold after 0.

   A frame that both functions take has the same finders in both: plate_chain makes its detections of those in list. Both leave the same
   bytes in the buffers gray to nears, and both return 6 or neither does (proved: crates/preview). */
uint8_t plate_preview(const uint8_t *picture, size_t picture_len,
                      uint32_t width, uint32_t height, uint32_t stride, uint8_t format,
                      uint8_t *gray, size_t gray_len,
                      uint8_t *bits, size_t bits_len,
                      uint8_t *denoised, size_t denoised_len,
                      uint8_t *means, size_t means_len,
                      uint8_t *least, size_t least_len,
                      uint8_t *greatest, size_t greatest_len,
                      uint8_t *edges, size_t edges_len,
                      uint8_t *nears, size_t nears_len,
                      uint8_t *list, size_t list_len);

#ifdef __cplusplus
}
#endif

#endif
