/* Holds the numbers that the header names to what the archive does: where a call has one place, byte or pixel less or more than they say, it
 * answers otherwise, and the places of a map and of a step have what their names say. It prints the header's version. */
#include <astc.h>
#include <stdio.h>
#include <stdlib.h>

/* A legal block, a void one and one of a reserved mode, and a byte more. */
static const uint8_t DATA[3 * ASTC_BLOCK_BYTES + 1] = {
    0x42, 0x00, 0x00, 0xfe, 0x01, 0x00, 0x00, 0x00, 0x00, 0x00, 0x00, 0x00, 0x00, 0x00, 0x00, 0xe0,
    0xfc, 0xfd, 0xff, 0xff, 0xff, 0xff, 0xff, 0xff, 0x00, 0x00, 0x00, 0x80, 0x00, 0x40, 0xff, 0xff,
};

static void hold(int right, const char *what) {
    if (!right) {
        printf("the header is wrong: %s\n", what);
        exit(1);
    }
}

static void hold_block(void) {
    uint32_t out[ASTC_MOST_TEXELS];
    hold(astc_decode_block(DATA, ASTC_BLOCK_BYTES, 12, 12, out, ASTC_MOST_TEXELS) == ASTC_LEGAL, "the largest block");
    hold(astc_decode_block(DATA, ASTC_BLOCK_BYTES, 12, 12, out, ASTC_MOST_TEXELS - 1) == ASTC_OUTPUT_TOO_SHORT, "ASTC_MOST_TEXELS");
    hold(astc_decode_block(DATA, ASTC_BLOCK_BYTES - 1, 12, 12, out, ASTC_MOST_TEXELS) == ASTC_BLOCK_LENGTH, "ASTC_BLOCK_BYTES, one less");
    hold(astc_decode_block(DATA, ASTC_BLOCK_BYTES + 1, 12, 12, out, ASTC_MOST_TEXELS) == ASTC_BLOCK_LENGTH, "ASTC_BLOCK_BYTES, one more");
}

static void hold_map(void) {
    uint32_t map[ASTC_MAP_NUMBERS];
    hold(astc_block_map(DATA, ASTC_BLOCK_BYTES, 4, 4, map, ASTC_MAP_NUMBERS) == ASTC_LEGAL, "a map of ASTC_MAP_NUMBERS places");
    hold(astc_block_map(DATA, ASTC_BLOCK_BYTES, 4, 4, map, ASTC_MAP_NUMBERS - 1) == ASTC_OUTPUT_TOO_SHORT, "ASTC_MAP_NUMBERS");
    hold(map[ASTC_MAP_LARGEST] == 255, "ASTC_MAP_LARGEST");
    hold(map[ASTC_MAP_LOW_START] == 0 && map[ASTC_MAP_LOW_LENGTH] == 17, "ASTC_MAP_LOW_START or _LENGTH");
    hold(map[ASTC_MAP_ENDPOINTS_START] == 17 && map[ASTC_MAP_ENDPOINTS_LENGTH] == 16, "ASTC_MAP_ENDPOINTS_START or _LENGTH");
    hold(map[ASTC_MAP_EXTRA_START] == 96 && map[ASTC_MAP_EXTRA_LENGTH] == 0, "ASTC_MAP_EXTRA_START or _LENGTH");
    hold(map[ASTC_MAP_WEIGHTS_START] == 96 && map[ASTC_MAP_WEIGHTS_LENGTH] == 32, "ASTC_MAP_WEIGHTS_START or _LENGTH");
}

/* Two blocks of three, from the second on: the last one breaks a rule. */
static void hold_step(void) {
    enum { WIDTH = 12, HEIGHT = 4, PIXELS = WIDTH * HEIGHT, SIZE = 3 * ASTC_BLOCK_BYTES };
    uint32_t words[PIXELS];
    uint64_t moved[ASTC_STEP_NUMBERS];
    hold(astc_image_step(DATA, SIZE, WIDTH, HEIGHT, 4, 4, 1, 2, words, PIXELS, moved, ASTC_STEP_NUMBERS) == ASTC_LEGAL, "a step of ASTC_STEP_NUMBERS places");
    hold(moved[ASTC_STEP_NEXT] == 3 && moved[ASTC_STEP_PAINTED] == 2 && moved[ASTC_STEP_BAD] == 1, "ASTC_STEP_NEXT, _PAINTED or _BAD");
    hold(astc_image_step(DATA, SIZE, WIDTH, HEIGHT, 4, 4, 1, 2, words, PIXELS, moved, ASTC_STEP_NUMBERS - 1) == ASTC_OUTPUT_TOO_SHORT, "ASTC_STEP_NUMBERS");
}

/* An image of one row of blocks, as wide as may be, and one pixel wider. */
static void hold_side(void) {
    enum { BLOCKS = (ASTC_MOST_SIDE + 11) / 12 };
    static uint8_t data[BLOCKS * ASTC_BLOCK_BYTES];
    static uint32_t words[ASTC_MOST_SIDE + 1];
    hold(astc_decode_image(data, sizeof data, ASTC_MOST_SIDE, 1, 12, 12, words, ASTC_MOST_SIDE) == ASTC_LEGAL, "the widest image");
    hold(astc_decode_image(data, sizeof data, ASTC_MOST_SIDE + 1, 1, 12, 12, words, ASTC_MOST_SIDE + 1) == ASTC_IMAGE_SIDE, "ASTC_MOST_SIDE");
}

int main(void) {
    hold_block();
    hold_map();
    hold_step();
    hold_side();
    printf("%d.%d.%d\n", ASTC_VERSION / 1000000, ASTC_VERSION / 1000 % 1000, ASTC_VERSION % 1000);
    return 0;
}
