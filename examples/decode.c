/* Decodes a block to words, one to bytes and floats, and an image of three blocks in steps of two: the use of the C surface in full. */
#include "astc.h"
#include <stdio.h>
#include <string.h>

/* A legal block, a void one in one colour, and one of a reserved mode. */
static const uint8_t DATA[3 * ASTC_BLOCK_BYTES] = {
    0x42, 0x00, 0x00, 0xfe, 0x01, 0x00, 0x00, 0x00, 0x00, 0x00, 0x00, 0x00, 0x00, 0x00, 0x00, 0xe0,
    0xfc, 0xfd, 0xff, 0xff, 0xff, 0xff, 0xff, 0xff, 0x00, 0x00, 0x00, 0x80, 0x00, 0x40, 0xff, 0xff,
};

/* A legal block whose colour is HDR and whose alpha is not. */
static const uint8_t HDR[ASTC_BLOCK_BYTES] = {
    0x42, 0xc0, 0xf1, 0x20, 0x01, 0x31, 0x89, 0xa1, 0x01, 0xff, 0x01, 0x00, 0x00, 0x00, 0x00, 0xc0,
};

static void print_word(uint32_t word) {
    printf(" (%u %u %u %u)", (unsigned)(word >> 16 & 255), (unsigned)(word >> 8 & 255), (unsigned)(word & 255), (unsigned)(word >> 24));
}

static void show_block(void) {
    uint32_t words[16];
    uint32_t map[ASTC_MAP_NUMBERS];
    uint32_t answer = astc_decode_block(DATA, ASTC_BLOCK_BYTES, 4, 4, words, 16);
    printf("block: answer %u, first texels", (unsigned)answer);
    print_word(words[0]);
    print_word(words[1]);
    printf("\n");
    answer = astc_block_map(DATA, ASTC_BLOCK_BYTES, 4, 4, map, ASTC_MAP_NUMBERS);
    printf("map: answer %u, largest endpoint value %u, fields", (unsigned)answer, (unsigned)map[ASTC_MAP_LARGEST]);
    for (int i = ASTC_MAP_LOW_START; i < ASTC_MAP_NUMBERS; i += 2) {
        printf(" %u+%u", (unsigned)map[i], (unsigned)map[i + 1]);
    }
    printf("\n");
}

/* A texel's four channels, each a byte or the bits of a float. */
static void print_channels(const uint32_t *channels, uint8_t floats) {
    for (int k = 0; k < 4; k++) {
        printf(k == 0 ? " (" : " ");
        if (floats >> k & 1) {
            float value;
            memcpy(&value, &channels[k], sizeof value);
            printf("%.1f", (double)value);
        } else {
            printf("%u", (unsigned)channels[k]);
        }
    }
    printf(")");
}

static void show_channels(void) {
    uint32_t channels[64];
    uint8_t floats[16];
    uint32_t answer = astc_block_channels(0, HDR, sizeof HDR, 4, 4, channels, 64, floats, 16);
    printf("channels: answer %u, first texels", (unsigned)answer);
    print_channels(channels, floats[0]);
    print_channels(channels + 4, floats[1]);
    printf("\n");
}

/* An image of 10x4 pixels: the last block's right half is clipped. */
static void show_steps(void) {
    enum { WIDTH = 10, HEIGHT = 4, PIXELS = WIDTH * HEIGHT };
    uint32_t words[PIXELS];
    uint64_t moved[ASTC_STEP_NUMBERS] = {0, 0, 0};
    do {
        size_t next = (size_t)moved[ASTC_STEP_NEXT];
        uint32_t answer = astc_image_step(DATA, sizeof DATA, WIDTH, HEIGHT, 4, 4, next, 2, words, PIXELS, moved, ASTC_STEP_NUMBERS);
        printf("step: answer %u, next %u, painted %u, bad %u\n", (unsigned)answer, (unsigned)moved[ASTC_STEP_NEXT],
               (unsigned)moved[ASTC_STEP_PAINTED], (unsigned)moved[ASTC_STEP_BAD]);
    } while (moved[ASTC_STEP_PAINTED] != 0);
    printf("first row:");
    for (int x = 0; x < WIDTH; x++) {
        print_word(words[x]);
    }
    printf("\n");
}

int main(void) {
    uint32_t words[40];
    show_block();
    show_channels();
    show_steps();
    printf("whole: answer %u\n", (unsigned)astc_decode_image(DATA, sizeof DATA, 10, 4, 4, 4, words, 40));
    printf("short output: answer %u\n", (unsigned)astc_decode_image(DATA, sizeof DATA, 10, 4, 4, 4, words, 39));
    return 0;
}
