/* libwebp's decoder, for bench/filter: a WebP file to Y, U and V, with its loop filter or without. */
#include <stddef.h>
#include <stdint.h>
#include <webp/decode.h>

/* Answers 0 where it is decoded; y_len, u_len and v_len are the planes' lengths, their rows unpadded. */
int webp_decode(const uint8_t *file, size_t file_len, int without_filter, uint8_t *y, size_t y_len, uint8_t *u,
                size_t u_len, uint8_t *v, size_t v_len) {
    WebPDecoderConfig config;
    if (!WebPInitDecoderConfig(&config) || WebPGetFeatures(file, file_len, &config.input) != VP8_STATUS_OK) return 1;
    config.options.bypass_filtering = without_filter;
    config.output.colorspace = MODE_YUV;
    config.output.is_external_memory = 1;
    WebPYUVABuffer *out = &config.output.u.YUVA;
    out->y = y, out->u = u, out->v = v;
    out->y_size = y_len, out->u_size = u_len, out->v_size = v_len;
    out->y_stride = config.input.width;
    out->u_stride = out->v_stride = (config.input.width + 1) / 2;
    return WebPDecode(file, file_len, &config) != VP8_STATUS_OK;
}
