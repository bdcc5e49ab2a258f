/* Calls the C surface with inputs and outputs on the heap of exactly the sizes that it is told, so that valgrind sees each read and write
 * outside of them; and with outputs that nothing has written yet, so that it sees each word that is left out when they are compared.
 *
 * The blocks are those of the stored list, whose file is the only argument: of each a byte for width, height and answer, the block,
 * and its words, four bytes each, least first. */
#include "astc.h"
#include <stdio.h>
#include <stdlib.h>
#include <string.h>

enum { CHANNELS = 4, HEAD = 3 + ASTC_BLOCK_BYTES, FOOTPRINTS = 14, MARK = 0x5a };

static const uint8_t SIDES[FOOTPRINTS][2] = {{4, 4}, {5, 4}, {5, 5}, {6, 5}, {6, 6}, {8, 5}, {8, 6}, {8, 8}, {10, 5}, {10, 6}, {10, 8}, {10, 10}, {12, 10}, {12, 12}};

static unsigned long blocks, images, steps, refusals;

static void hold(int right, const char *what) {
    if (!right) {
        printf("difference: %s\n", what);
        exit(1);
    }
}

/* So many bytes that nothing has written yet, and nothing beside them. */
static void *fresh(size_t size) {
    void *place = malloc(size);
    hold(place != NULL, "there is no memory");
    return place;
}

static void *copy(const void *bytes, size_t size) {
    void *place = fresh(size);
    if (size > 0) {
        memcpy(place, bytes, size);
    }
    return place;
}

static void *marked(size_t size) {
    void *place = fresh(size);
    memset(place, MARK, size);
    return place;
}

/* Holds an output of a refused call to what it was, and ends it. */
static void hold_marked(void *place, size_t size) {
    const uint8_t *bytes = place;
    for (size_t i = 0; i < size; i++) {
        hold(bytes[i] == MARK, "a refused call wrote to its output");
    }
    free(place);
}

/* The records of the stored list. */
static size_t bw_of(const uint8_t *record) { return record[0]; }
static size_t bh_of(const uint8_t *record) { return record[1]; }
static uint32_t answer_of(const uint8_t *record) { return record[2]; }
static const uint8_t *block_of(const uint8_t *record) { return record + 3; }
static size_t texels_of(const uint8_t *record) { return bw_of(record) * bh_of(record); }
static size_t size_of(const uint8_t *record) { return HEAD + 4 * texels_of(record); }

static uint32_t word_of(const uint8_t *record, size_t texel) {
    const uint8_t *b = record + HEAD + 4 * texel;
    return b[0] | (uint32_t)b[1] << 8 | (uint32_t)b[2] << 16 | (uint32_t)b[3] << 24;
}

static void paint_block(const uint8_t *record) {
    size_t texels = texels_of(record);
    uint8_t *block = copy(block_of(record), ASTC_BLOCK_BYTES);
    uint32_t *words = fresh(4 * texels);
    uint32_t answer = astc_decode_block(block, ASTC_BLOCK_BYTES, bw_of(record), bh_of(record), words, texels);
    hold(answer == answer_of(record), "the answer of a block");
    for (size_t i = 0; i < texels; i++) {
        hold(words[i] == word_of(record, i), "a word of a block");
    }
    free(words);
    free(block);
}

static void map_block(const uint8_t *record) {
    uint8_t *block = copy(block_of(record), ASTC_BLOCK_BYTES);
    uint32_t *map = fresh(4 * ASTC_MAP_NUMBERS);
    uint32_t answer = astc_block_map(block, ASTC_BLOCK_BYTES, bw_of(record), bh_of(record), map, ASTC_MAP_NUMBERS);
    uint32_t end = 0;
    hold(answer == answer_of(record), "the answer of a map");
    hold(map[0] <= 255, "the largest value of a map");
    for (int i = 1; i < ASTC_MAP_NUMBERS; i += 2) {
        hold(end <= map[i] && map[i] + map[i + 1] <= 128, "the fields of a map");
        end = map[i] + map[i + 1];
    }
    hold(end == (answer == 0 ? 128 : 0), "the end of a map's fields");
    free(map);
    free(block);
}

static float float_of(uint32_t bits) {
    float f;
    memcpy(&f, &bits, 4);
    return f;
}

/* The byte that a channel comes to: as it is, or 255 times a float, rounded down, of 0 to 255; minus infinity comes to 255. */
static uint32_t byte_of(uint32_t number, int is_float) {
    float f = float_of(number);
    if (!is_float) {
        return number;
    }
    if (number == 0xff800000u || f >= 1) {
        return 255;
    }
    return f > 0 ? (uint32_t)(255 * f) : 0;
}

/* Each channel and each mark is defined, and a texel's channels come to its word. */
static void channel_block(const uint8_t *record) {
    static const int PLACES[CHANNELS] = {16, 8, 0, 24};
    size_t texels = texels_of(record);
    uint8_t *block = copy(block_of(record), ASTC_BLOCK_BYTES), *floats = fresh(texels);
    uint32_t *numbers = fresh(4 * CHANNELS * texels);
    uint32_t answer = astc_block_channels(0, block, ASTC_BLOCK_BYTES, bw_of(record), bh_of(record), numbers, CHANNELS * texels, floats, texels);
    hold(answer == answer_of(record), "the answer of channels");
    for (size_t i = 0; i < texels; i++) {
        uint32_t word = 0;
        hold(floats[i] < (answer < ASTC_RESERVED_MODE ? 16 : 1), "a mark of channels");
        for (int k = 0; k < CHANNELS; k++) {
            uint32_t byte = byte_of(numbers[CHANNELS * i + k], floats[i] >> k & 1);
            hold(byte <= 255, "a byte of channels");
            word |= byte << PLACES[k];
        }
        hold(word == word_of(record, i), "the word of channels");
    }
    free(numbers);
    free(floats);
    free(block);
}

/* The block and its map take the same arguments. */
typedef uint32_t (*block_call)(const uint8_t *, size_t, size_t, size_t, uint32_t *, size_t);

static void refuse(block_call call, size_t length, size_t bw, size_t bh, size_t room, uint32_t answer) {
    uint8_t *block = marked(length);
    uint32_t *out = marked(4 * room);
    hold(call(block, length, bw, bh, out, room) == answer, "the answer of a refused block or map");
    hold_marked(out, 4 * room);
    free(block);
    refusals++;
}

static void refuse_channels(uint32_t options, size_t length, size_t bw, size_t bh, size_t numbers, size_t floats, uint32_t answer) {
    uint8_t *block = marked(length), *marks = marked(floats);
    uint32_t *out = marked(4 * numbers);
    hold(astc_block_channels(options, block, length, bw, bh, out, numbers, marks, floats) == answer, "the answer of refused channels");
    hold_marked(out, 4 * numbers);
    hold_marked(marks, floats);
    free(block);
    refusals++;
}

/* Either output too short, or both, and options that are not known. */
static void refuse_options_and_rooms(size_t bw, size_t bh) {
    static const uint32_t OPTIONS[] = {1, 2, 4, 8, 0x80000000u};
    size_t texels = bw * bh, numbers = CHANNELS * texels;
    refuse_channels(0, ASTC_BLOCK_BYTES, bw, bh, numbers - 1, texels, ASTC_OUTPUT_TOO_SHORT);
    refuse_channels(0, ASTC_BLOCK_BYTES, bw, bh, numbers, texels - 1, ASTC_OUTPUT_TOO_SHORT);
    refuse_channels(0, ASTC_BLOCK_BYTES, bw, bh, texels, texels, ASTC_OUTPUT_TOO_SHORT);
    refuse_channels(0, ASTC_BLOCK_BYTES, bw, bh, 0, 0, ASTC_OUTPUT_TOO_SHORT);
    for (size_t i = 0; i < sizeof OPTIONS / sizeof OPTIONS[0]; i++) {
        refuse_channels(OPTIONS[i], ASTC_BLOCK_BYTES, bw, bh, numbers, texels, ASTC_OPTIONS);
        refuse_channels(OPTIONS[i], ASTC_BLOCK_BYTES - 1, bw, bh, numbers, texels, ASTC_OPTIONS);
        refuse_channels(OPTIONS[i], ASTC_BLOCK_BYTES, bw, bh, 0, 0, ASTC_OPTIONS);
        refuse_channels(OPTIONS[i], 0, SIZE_MAX, bh, 0, 0, ASTC_OPTIONS);
    }
}

static int listed(size_t bw, size_t bh) {
    for (int i = 0; i < FOOTPRINTS; i++) {
        if (SIDES[i][0] == bw && SIDES[i][1] == bh) {
            return 1;
        }
    }
    return 0;
}

static void refuse_blocks(void) {
    for (size_t bw = 0; bw <= 20; bw++) {
        for (size_t bh = 0; bh <= 20; bh++) {
            for (size_t length = 0; length <= 33; length++) {
                uint32_t answer = length != ASTC_BLOCK_BYTES ? ASTC_BLOCK_LENGTH : listed(bw, bh) ? ASTC_OUTPUT_TOO_SHORT : ASTC_FOOTPRINT;
                refuse(astc_decode_block, length, bw, bh, 0 < bw * bh ? bw * bh - 1 : 0, answer);
                refuse(astc_block_map, length, bw, bh, ASTC_MAP_NUMBERS - 1, answer);
                refuse_channels(0, length, bw, bh, 0, 0, answer);
            }
        }
    }
    refuse(astc_decode_block, ASTC_BLOCK_BYTES, SIZE_MAX, SIZE_MAX, 1, ASTC_FOOTPRINT);
    refuse(astc_decode_block, ASTC_BLOCK_BYTES, SIZE_MAX / 2 + 1, 2, 0, ASTC_FOOTPRINT);
    refuse(astc_decode_block, 0, 4, 4, 0, ASTC_BLOCK_LENGTH);
    refuse(astc_decode_block, ASTC_BLOCK_BYTES, 4, 4, 0, ASTC_OUTPUT_TOO_SHORT);
    refuse(astc_block_map, ASTC_BLOCK_BYTES, 12, 12, 0, ASTC_OUTPUT_TOO_SHORT);
}

/* An image of stored blocks, one beside the other. */
struct image {
    size_t width, height, bw, bh;
    const uint8_t **records;
};

static size_t blocks_a_row(const struct image *image) { return (image->width + image->bw - 1) / image->bw; }

static size_t blocks_of(const struct image *image) { return blocks_a_row(image) * ((image->height + image->bh - 1) / image->bh); }

static uint8_t *data_of(const struct image *image) {
    size_t total = blocks_of(image);
    uint8_t *data = fresh(ASTC_BLOCK_BYTES * total);
    for (size_t i = 0; i < total; i++) {
        memcpy(data + ASTC_BLOCK_BYTES * i, block_of(image->records[i]), ASTC_BLOCK_BYTES);
    }
    return data;
}

static void hold_pixels(const struct image *image, const uint32_t *out) {
    for (size_t y = 0; y < image->height; y++) {
        for (size_t x = 0; x < image->width; x++) {
            const uint8_t *record = image->records[y / image->bh * blocks_a_row(image) + x / image->bw];
            uint32_t word = word_of(record, y % image->bh * image->bw + x % image->bw);
            hold(out[y * image->width + x] == word, "a pixel of an image");
        }
    }
}

static void paint_whole(const struct image *image) {
    size_t size = ASTC_BLOCK_BYTES * blocks_of(image), pixels = image->width * image->height;
    uint8_t *data = data_of(image);
    uint32_t *out = fresh(4 * pixels);
    uint32_t answer = astc_decode_image(data, size, image->width, image->height, image->bw, image->bh, out, pixels);
    hold(answer == ASTC_LEGAL, "the answer of an image");
    hold_pixels(image, out);
    free(out);
    free(data);
    images++;
}

static uint64_t bad_between(const struct image *image, size_t start, size_t end) {
    uint64_t bad = 0;
    for (size_t i = start; i < end; i++) {
        bad += answer_of(image->records[i]) >= ASTC_RESERVED_MODE;
    }
    return bad;
}

/* Paints the image in steps of so many blocks, and one more when all is painted. */
static void paint_in_steps(const struct image *image, size_t pace) {
    size_t total = blocks_of(image), pixels = image->width * image->height, next = 0, end;
    uint8_t *data = data_of(image);
    uint32_t *out = fresh(4 * pixels);
    do {
        uint64_t *moved = fresh(8 * ASTC_STEP_NUMBERS);
        uint32_t answer = astc_image_step(data, ASTC_BLOCK_BYTES * total, image->width, image->height, image->bw, image->bh, next, pace, out, pixels,
                                          moved, ASTC_STEP_NUMBERS);
        hold(answer == ASTC_LEGAL, "the answer of a step");
        end = pace < total - next ? next + pace : total;
        hold(moved[ASTC_STEP_NEXT] == end && moved[ASTC_STEP_PAINTED] == end - next, "the next block of a step, or how many it painted");
        hold(moved[ASTC_STEP_BAD] == bad_between(image, next, end), "the bad blocks of a step");
        pace = next == total ? 0 : pace;
        next = end;
        free(moved);
        steps++;
    } while (pace > 0);
    hold_pixels(image, out);
    free(out);
    free(data);
}

/* The sizes of an image or a step that is refused. */
struct sizes {
    size_t length, width, height, bw, bh, next, blocks, room, places;
};

static void refuse_step(struct sizes s, uint32_t answer) {
    uint8_t *data = marked(s.length);
    uint32_t *out = marked(4 * s.room);
    uint64_t *moved = marked(8 * s.places);
    hold(astc_image_step(data, s.length, s.width, s.height, s.bw, s.bh, s.next, s.blocks, out, s.room, moved, s.places) == answer, "the answer of a refused step");
    if (s.places < ASTC_STEP_NUMBERS) {
        hold_marked(moved, 8 * s.places);
    } else {
        hold(moved[ASTC_STEP_NEXT] == s.next && moved[ASTC_STEP_PAINTED] == 0 && moved[ASTC_STEP_BAD] == 0, "the numbers of a refused step");
        free(moved);
    }
    hold_marked(out, 4 * s.room);
    free(data);
    refusals++;
}

/* An image, and a step with places for its numbers and with too few. */
static void refuse_image(struct sizes s, uint32_t answer) {
    uint8_t *data = marked(s.length);
    uint32_t *out = marked(4 * s.room);
    hold(astc_decode_image(data, s.length, s.width, s.height, s.bw, s.bh, out, s.room) == answer, "the answer of a refused image");
    hold_marked(out, 4 * s.room);
    free(data);
    refusals++;
    for (s.places = 0; s.places <= ASTC_STEP_NUMBERS; s.places++) {
        refuse_step(s, answer);
    }
}

/* Sizes of three blocks by two, one of them wrong, or more with those that are looked at later. */
static void refuse_images(size_t bw, size_t bh) {
    struct sizes right = {ASTC_BLOCK_BYTES * 6, 3 * bw - 1, bh + 1, bw, bh, 0, 1, (3 * bw - 1) * (bh + 1), ASTC_STEP_NUMBERS}, s;
    static const size_t FOREIGN[][2] = {{0, 4}, {4, 0}, {4, 5}, {13, 13}, {SIZE_MAX, SIZE_MAX}, {SIZE_MAX / 2 + 5, 4}};
    static const size_t LONG[][2] = {{0, 1}, {1, 0}, {4097, 1}, {1, 4097}, {SIZE_MAX, SIZE_MAX}, {SIZE_MAX / 2 + 1, 2}};
    for (size_t i = 0; i < sizeof FOREIGN / sizeof FOREIGN[0]; i++) {
        s = right;
        s.bw = FOREIGN[i][0];
        s.bh = FOREIGN[i][1];
        refuse_image(s, ASTC_FOOTPRINT);
    }
    for (size_t i = 0; i < sizeof LONG / sizeof LONG[0]; i++) {
        s = right;
        s.width = LONG[i][0];
        s.height = LONG[i][1];
        refuse_image(s, ASTC_IMAGE_SIDE);
    }
    for (s = right, s.length = 0; s.length <= right.length + ASTC_BLOCK_BYTES; s.length++) {
        if (s.length != right.length) {
            refuse_image(s, ASTC_DATA_LENGTH);
        }
    }
    s = right;
    s.room--;
    refuse_image(s, ASTC_OUTPUT_TOO_SHORT);
    s.room = 0;
    refuse_image(s, ASTC_OUTPUT_TOO_SHORT);
    for (s = right, s.places = 0; s.places < ASTC_STEP_NUMBERS; s.places++) {
        refuse_step(s, ASTC_OUTPUT_TOO_SHORT);
    }
    s = right;
    s.blocks = 0;
    refuse_step(s, ASTC_NO_BLOCKS);
    s.next = 7;
    refuse_step(s, ASTC_NO_BLOCKS);
    s.blocks = SIZE_MAX;
    refuse_step(s, ASTC_PAST_THE_END);
    s.next = SIZE_MAX;
    refuse_step(s, ASTC_PAST_THE_END);
}

static void paint_image(struct image image) {
    static const size_t PACES[] = {1, 2, 3, 7, 1000, SIZE_MAX};
    paint_whole(&image);
    for (size_t i = 0; i < sizeof PACES / sizeof PACES[0]; i++) {
        paint_in_steps(&image, PACES[i]);
    }
}

/* Images of all blocks of a footprint: one of them all, with clipped edges, and small ones. */
static void paint_images(size_t bw, size_t bh, const uint8_t **records, size_t count) {
    const size_t small[][2] = {{1, 1}, {bw, bh}, {bw - 1, bh}, {bw, bh - 1}, {bw + 1, bh}, {bw, bh + 1}, {3 * bw - 1, 2 * bh - 1}, {1, 5 * bh}, {5 * bw, 1}};
    enum { WIDE = 10 };
    hold(count >= WIDE, "the list has too few blocks of a footprint");
    paint_image((struct image){WIDE * bw - 1, count / WIDE * bh - 1, bw, bh, records});
    for (size_t i = 0; i < sizeof small / sizeof small[0]; i++) {
        paint_image((struct image){small[i][0], small[i][1], bw, bh, records + i});
    }
}

/* All that a footprint has: its blocks one by one, as images, and images that are refused. */
static void try_footprint(size_t bw, size_t bh, const uint8_t *list, size_t size) {
    const uint8_t **records = fresh(size); /* a record has more bytes than its pointer */
    size_t count = 0;
    for (const uint8_t *record = list; record < list + size; record += size_of(record)) {
        if (bw_of(record) == bw && bh_of(record) == bh) {
            paint_block(record);
            map_block(record);
            channel_block(record);
            records[count++] = record;
        }
    }
    paint_images(bw, bh, records, count);
    refuse_images(bw, bh);
    refuse_options_and_rooms(bw, bh);
    blocks += count;
    free(records);
}

static uint8_t *read_list(const char *name, size_t *size) {
    FILE *file = fopen(name, "rb");
    uint8_t *list;
    hold(file != NULL && fseek(file, 0, SEEK_END) == 0, "the stored list was not read");
    *size = (size_t)ftell(file);
    rewind(file);
    list = fresh(*size);
    hold(fread(list, 1, *size, file) == *size, "the stored list was not read");
    fclose(file);
    return list;
}

int main(int argc, char **argv) {
    size_t size;
    uint8_t *list;
    hold(argc == 2, "the stored list was not named");
    list = read_list(argv[1], &size);
    for (int i = 0; i < FOOTPRINTS; i++) {
        try_footprint(SIDES[i][0], SIDES[i][1], list, size);
    }
    refuse_blocks();
    free(list);
    printf("%lu blocks, maps and channels, %lu images at once, %lu steps, %lu refused calls\n", blocks, images, steps, refusals);
    return 0;
}
