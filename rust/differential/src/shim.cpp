// astcenc's library behind plain C functions: what it finds in a block, the pixels that it paints, and the blocks that it encodes.

#include <astcenc.h>
#include <cstddef>
#include <cstdint>

static const astcenc_swizzle as_it_is = {ASTCENC_SWZ_R, ASTCENC_SWZ_G, ASTCENC_SWZ_B, ASTCENC_SWZ_A};

struct Findings {
    uint32_t error;
    uint32_t dual;
    uint32_t channel;
    uint32_t partitions;
    uint32_t partition_number;
    uint32_t modes[4];
    uint32_t endpoint_levels;
    uint32_t weight_levels;
    uint32_t width;
    uint32_t height;
};

extern "C" {

// A context for blocks of one footprint, or null. Block info needs the HDR profile, since the LDR one refuses HDR modes.
void *shim_context(unsigned int bw, unsigned int bh, int hdr) {
    astcenc_config config;
    astcenc_context *context = nullptr;
    astcenc_profile profile = hdr ? ASTCENC_PRF_HDR : ASTCENC_PRF_LDR;
    unsigned int flags = ASTCENC_FLG_DECOMPRESS_ONLY;
    if (astcenc_config_init(profile, bw, bh, 1, ASTCENC_PRE_FASTEST, flags, &config) != ASTCENC_SUCCESS ||
        astcenc_context_alloc(&config, 1, &context) != ASTCENC_SUCCESS) {
        return nullptr;
    }
    return context;
}

void shim_free(void *context) {
    astcenc_context_free(static_cast<astcenc_context *>(context));
}

// What astcenc finds in a block; 0 if it answered.
int shim_findings(void *context, const uint8_t *block, Findings *findings) {
    astcenc_block_info info = {};
    if (astcenc_get_block_info(static_cast<astcenc_context *>(context), block, &info) != ASTCENC_SUCCESS) {
        return 1;
    }
    *findings = Findings {};
    findings->error = info.is_error_block;
    if (info.is_error_block || info.is_constant_block) {
        return 0;
    }
    findings->dual = info.is_dual_plane_block;
    findings->partitions = info.partition_count;
    // the channel, the partition number and the last modes mean something only where a block has them
    if (info.is_dual_plane_block) {
        findings->channel = info.dual_plane_component;
    }
    if (info.partition_count > 1) {
        findings->partition_number = info.partition_index;
    }
    for (unsigned int i = 0; i < info.partition_count; i++) {
        findings->modes[i] = info.color_endpoint_modes[i];
    }
    findings->endpoint_levels = info.color_level_count;
    findings->weight_levels = info.weight_level_count;
    findings->width = info.weight_x;
    findings->height = info.weight_y;
    return 0;
}

// Paints an image of blocks as red, green, blue, alpha, in bytes or in floats; 0 if it was painted.
int shim_paint(void *context, const uint8_t *blocks, size_t len, unsigned int width, unsigned int height, void *pixels, int floats) {
    astcenc_context *c = static_cast<astcenc_context *>(context);
    astcenc_image image = {width, height, 1, floats ? ASTCENC_TYPE_F32 : ASTCENC_TYPE_U8, &pixels};
    astcenc_error error = astcenc_decompress_image(c, blocks, len, &image, &as_it_is, 0);
    astcenc_decompress_reset(c);
    return error != ASTCENC_SUCCESS;
}

// Encodes an image of red, green, blue, alpha at medium quality, from bytes as LDR, or from floats as HDR with an LDR alpha; 0 if
// it was encoded.
int shim_encode(unsigned int bw, unsigned int bh, int hdr, const void *pixels, unsigned int width, unsigned int height,
                uint8_t *blocks, size_t len) {
    astcenc_config config;
    astcenc_context *context = nullptr;
    astcenc_profile profile = hdr ? ASTCENC_PRF_HDR_RGB_LDR_A : ASTCENC_PRF_LDR;
    if (astcenc_config_init(profile, bw, bh, 1, ASTCENC_PRE_MEDIUM, 0, &config) != ASTCENC_SUCCESS ||
        astcenc_context_alloc(&config, 1, &context) != ASTCENC_SUCCESS) {
        return 1;
    }
    // an image to be encoded is only read
    void *slice = const_cast<void *>(pixels);
    astcenc_image image = {width, height, 1, hdr ? ASTCENC_TYPE_F32 : ASTCENC_TYPE_U8, &slice};
    astcenc_error error = astcenc_compress_image(context, &image, &as_it_is, blocks, len, 0);
    astcenc_context_free(context);
    return error != ASTCENC_SUCCESS;
}

}
