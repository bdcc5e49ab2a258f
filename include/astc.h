/* A proved ASTC decoder: blocks and images of 2D ASTC texture data to 32-bit words, and blocks to
 * bytes and floats.
 *
 * Every function takes unchecked input, always ends, and answers by number. All that a caller owes
 * is that each pointer has as many places as the length after it says (a length of 0 needs none),
 * and that an output overlaps nothing else that is passed.
 *
 * A word holds blue in its bits 0 to 7, green in 8 to 15, red in 16 to 23 and alpha in 24 to 31.
 * Texels, pixels and blocks are row-major, from the first row on.
 *
 * The footprints are 4x4 5x4 5x5 6x5 6x6 8x5 8x6 8x8 10x5 10x6 10x8 10x10 12x10 12x12, width by
 * height.
 *
 * Threads: there is no state, no allocation and no global. Calls may run at once on any threads,
 * as long as their outputs are apart.
 *
 * Cost: the time grows with the number of blocks painted, and a refused call paints none. A call
 * takes less than 8 KiB of stack.
 */
#ifndef ASTC_H
#define ASTC_H

#include <stddef.h>
#include <stdint.h>

/* The version of this header and of the archive that belongs to it. ASTC_VERSION is the same as
 * one number, by which versions can be compared. */
#define ASTC_VERSION_MAJOR 0
#define ASTC_VERSION_MINOR 1
#define ASTC_VERSION_PATCH 0
#define ASTC_VERSION (ASTC_VERSION_MAJOR * 1000000 + ASTC_VERSION_MINOR * 1000 + ASTC_VERSION_PATCH)

/* The proofs are of a machine whose sizes have 64 bits. */
#if SIZE_MAX != UINT64_MAX
#error "astc.h: the archive is proved for machines on which size_t has 64 bits"
#endif

#define ASTC_BLOCK_BYTES 16 /* the bytes of a block */
#define ASTC_MOST_TEXELS 144 /* the texels of the largest footprint, 12x12 */
#define ASTC_MOST_SIDE 4096 /* the most pixels that a side of an image may have */

#ifdef __cplusplus
extern "C" {
#endif

/* The answers, in the order in which they are looked for: 23, where a function takes options; a
 * block's 20, 21, 22, then 1, then 10 to 16; an image's 21, 30, 31, 22; a step's those of the
 * image, then 33 and 34. A block that answers 10 to 16 breaks a rule and is painted magenta
 * (255, 0, 255, 255). */
enum astc_answer {
    ASTC_LEGAL = 0,                /* a legal block, painted; an accepted image or step */
    ASTC_VOID_EXTENT = 1,          /* a void-extent block, painted in its one colour */
    ASTC_RESERVED_MODE = 10,       /* a reserved block mode */
    ASTC_GRID_TOO_LARGE = 11,      /* a grid of weights wider or higher than the footprint */
    ASTC_TOO_MANY_WEIGHTS = 12,    /* more than 64 weights */
    ASTC_WEIGHT_BITS = 13,         /* fewer than 24 or more than 96 bits of weights */
    ASTC_DUAL_PLANE_OF_FOUR = 14,  /* two planes with four partitions */
    ASTC_TOO_MANY_VALUES = 15,     /* more than 18 endpoint values */
    ASTC_TOO_LITTLE_ROOM = 16,     /* too few bits for the endpoint values */
    ASTC_BLOCK_LENGTH = 20,        /* the block is not 16 bytes */
    ASTC_FOOTPRINT = 21,           /* the footprint is not one of the fourteen */
    ASTC_OUTPUT_TOO_SHORT = 22,    /* an output has too few places */
    ASTC_OPTIONS = 23,             /* options that the function does not take */
    ASTC_IMAGE_SIDE = 30,          /* a side of the image is 0 or over 4096 */
    ASTC_DATA_LENGTH = 31,         /* the data is not exactly 16 bytes a block */
    ASTC_NO_BLOCKS = 33,           /* a step of 0 blocks */
    ASTC_PAST_THE_END = 34         /* a step from above the number of blocks */
};

/* The places of the numbers of a map. Starts and lengths are in bits. */
enum astc_map_place {
    ASTC_MAP_LARGEST = 0,          /* the largest value of the endpoints' range */
    ASTC_MAP_LOW_START = 1,        /* the low configuration */
    ASTC_MAP_LOW_LENGTH = 2,
    ASTC_MAP_ENDPOINTS_START = 3,  /* the endpoints */
    ASTC_MAP_ENDPOINTS_LENGTH = 4,
    ASTC_MAP_EXTRA_START = 5,      /* the extra field */
    ASTC_MAP_EXTRA_LENGTH = 6,
    ASTC_MAP_WEIGHTS_START = 7,    /* the weights */
    ASTC_MAP_WEIGHTS_LENGTH = 8,
    ASTC_MAP_NUMBERS = 9           /* how many numbers a map has */
};

/* The places of the numbers that a step writes. */
enum astc_step_place {
    ASTC_STEP_NEXT = 0,            /* the block from which the next step is to start */
    ASTC_STEP_PAINTED = 1,         /* the blocks that this step painted */
    ASTC_STEP_BAD = 2,             /* how many of them answered 10 to 16 */
    ASTC_STEP_NUMBERS = 3          /* how many numbers a step writes */
};

/* Paints the first bw * bh words of out with a block's texels, and gives the block's answer. For
 * 20, 21 and 22 out is as it was; words after the painted ones never change. */
uint32_t astc_decode_block(const uint8_t *block, size_t block_len, size_t bw, size_t bh,
                           uint32_t *out, size_t out_len);

/* Writes the map of a block to map, nine numbers, and gives the block's answer: the largest value
 * of the endpoints' range; then start and length, in bits, of low configuration, endpoints, extra
 * field and weights (enum astc_map_place). All nine are 0 for an answer of 1 or 10 to 16. For 20,
 * 21 and 22 (fewer than nine places) map is as it was. No bit outside the four fields changes a
 * legal block's words. */
uint32_t astc_block_map(const uint8_t *block, size_t block_len, size_t bw, size_t bh,
                        uint32_t *map, size_t map_len);

/* Writes the channels of a block's texels, and gives the block's answer. Texel i has four numbers
 * in channels, red, green, blue and alpha, from place 4 * i on, and a byte in floats. A number is
 * 0 to 255, or the 32 bits of an IEEE float where the texel's byte has the channel's bit: 1 for
 * red, 2 for green, 4 for blue, 8 for alpha; its other bits are 0. Bytes are those of the texel's
 * word.
 *
 * In a block with endpoints a channel is a float where its pair of endpoints is HDR. The float
 * equals the half that ASTC blends, exactly, with the largest finite half, 65504, in place of
 * infinity and NaN. In a void-extent block all four channels are floats, or none: its halves as
 * they are, infinities, minus zero and subnormals too, and a NaN as 0x7fc00000 or, with its sign,
 * 0xffc00000. Magenta is in bytes.
 *
 * options is 0; any other number answers 23. 22 is for fewer than 4 * bw * bh places in channels
 * or fewer than bw * bh in floats. For 23, 20, 21 and 22 both outputs are as they were; places
 * after a block's texels never change. */
uint32_t astc_block_channels(uint32_t options, const uint8_t *block, size_t block_len, size_t bw,
                             size_t bh, uint32_t *channels, size_t channels_len, uint8_t *floats,
                             size_t floats_len);

/* Paints the first width * height words of out with an image of
 * ceil(width / bw) * ceil(height / bh) blocks, edge blocks clipped, and answers 0; blocks that
 * break a rule are magenta. For 21, 30, 31 and 22 out is as it was. */
uint32_t astc_decode_image(const uint8_t *data, size_t data_len, size_t width, size_t height,
                           size_t bw, size_t bh, uint32_t *out, size_t out_len);

/* Paints at most `blocks` blocks of an image, from block `next` on, and answers 0. Three numbers
 * are written to moved (enum astc_step_place): the next block, the blocks painted, and how many of
 * them answered 10 to 16. A step from the last block's end is accepted and paints nothing. A
 * refused step leaves out as it was and writes next as given and two zeros; with fewer than three
 * places in moved it answers 22, after the image's own refusals and before 33 and 34, and writes
 * nothing. */
uint32_t astc_image_step(const uint8_t *data, size_t data_len, size_t width, size_t height,
                         size_t bw, size_t bh, size_t next, size_t blocks, uint32_t *out,
                         size_t out_len, uint64_t *moved, size_t moved_len);

#ifdef __cplusplus
}
#endif

#endif
