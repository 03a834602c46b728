/* The single stages of the quay plate detector for C, for measurements and tests; the firmware has plate_chain and plate_preview
   (sirvoltha.h).

   `tools/staticlib bench_entries` builds target/staticlib/libbench_entries.a. All that sirvoltha.h says of plate_chain holds here too: its refusals, pixel
   formats, lengths and layouts, what the caller sees to, and the floating-point environment. Each function returns PLATE_DONE, or the
   first refusal in the order given with it, and no byte has been written then. Contracts: crates/bench_entries/src/lib.rt. */
#ifndef SIRVOLTHA_STAGES_H
#define SIRVOLTHA_STAGES_H

#include "sirvoltha.h"

#ifdef __cplusplus
extern "C" {
#endif

/* Gray conversion, into gray. 1, 2, 3, 4, 5. */
uint8_t plate_gray(const uint8_t *picture, size_t picture_len,
                   uint32_t width, uint32_t height, uint32_t stride, uint8_t format,
                   uint8_t *gray, size_t gray_len);

/* Black and white conversion of a gray picture: values and marks of its blocks, and its bits. 1, 2, 4, 5. */
uint8_t plate_binarize(const uint8_t *gray, size_t gray_len,
                       uint32_t width, uint32_t height,
                       uint8_t *means, size_t means_len,
                       uint8_t *least, size_t least_len,
                       uint8_t *greatest, size_t greatest_len,
                       uint8_t *edges, size_t edges_len,
                       uint8_t *nears, size_t nears_len,
                       uint8_t *bits, size_t bits_len);

/* Denoising, from bits into denoised. 1, 2, 4, 5. */
uint8_t plate_denoised(const uint8_t *bits, size_t bits_len,
                       uint32_t width, uint32_t height,
                       uint8_t *denoised, size_t denoised_len);

/* The finders of a bit picture, as a stored list (sirvoltha.h) into list. 1, 2, 4, 6, and then 5, since the length that is needed,
   PLATE_LIST_BYTES of their count, is known after the search. */
uint8_t plate_finders(const uint8_t *bits, size_t bits_len,
                      uint32_t width, uint32_t height,
                      uint8_t *list, size_t list_len);

/* The detections of a bit picture, into detections. 1, 2, 4, 5, 6. */
uint8_t plate_candidates(const uint8_t *bits, size_t bits_len,
                         uint32_t width, uint32_t height,
                         uint8_t *detections, size_t detections_len);

#ifdef __cplusplus
}
#endif

#endif
