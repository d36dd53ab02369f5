/* Decodes a stream to a PGM picture: decode STREAM PICTURE.pgm */
#include "fuji_compressed.h"
#include <stdio.h>
#include <stdlib.h>

static uint8_t *read_file(const char *name, size_t *length)
{
    FILE *file = fopen(name, "rb");
    uint8_t *bytes = NULL;
    long end = -1;
    if (file && fseek(file, 0, SEEK_END) == 0) end = ftell(file);
    if (end >= 0 && fseek(file, 0, SEEK_SET) == 0) bytes = (uint8_t *)malloc((size_t)end + 1);
    if (bytes && fread(bytes, 1, (size_t)end, file) != (size_t)end) {
        free(bytes);
        bytes = NULL;
    }
    if (file) fclose(file);
    *length = bytes ? (size_t)end : 0;
    return bytes;
}

int main(int count, char **words)
{
    static const uint8_t bayer[36] = FUJI_TILE_BAYER, xtrans[36] = FUJI_TILE_XTRANS;
    static uint16_t scratch[FUJI_SCRATCH_SAMPLES];
    static fuji_record records[FUJI_SCRATCH_RECORDS];
    size_t header[FUJI_HEADER_WORDS], refusal[FUJI_REFUSAL_WORDS], length, samples, i;
    uint8_t *stream;
    uint16_t *image;
    FILE *out;
    if (count != 3) {
        fprintf(stderr, "usage: decode STREAM PICTURE.pgm\n");
        return 2;
    }
    stream = read_file(words[1], &length);
    if (!stream) {
        fprintf(stderr, "%s cannot be read\n", words[1]);
        return 1;
    }
    fuji_open(stream, length, header, refusal);
    if (refusal[FUJI_REFUSAL_NUMBER] != FUJI_OK) {
        fprintf(stderr, "%s: %s\n", words[1], fuji_refusal_text(refusal[FUJI_REFUSAL_NUMBER]));
        free(stream);
        return 1;
    }
    samples = header[FUJI_HEADER_WIDTH] * header[FUJI_HEADER_HEIGHT];
    image = (uint16_t *)calloc(samples, sizeof *image);
    if (!image) {
        free(stream);
        return 1;
    }
    fuji_decode(stream, length, header[FUJI_HEADER_WIDTH], header[FUJI_HEADER_HEIGHT], header[FUJI_HEADER_XTRANS] ? xtrans : bayer, image, samples,
                scratch, FUJI_SCRATCH_SAMPLES, records, FUJI_SCRATCH_RECORDS, refusal);
    free(stream);
    if (refusal[FUJI_REFUSAL_NUMBER] != FUJI_OK) {
        fprintf(stderr, "block %zu, line %zu: %s\n", refusal[FUJI_REFUSAL_BLOCK], refusal[FUJI_REFUSAL_LINE], fuji_refusal_text(refusal[FUJI_REFUSAL_NUMBER]));
        free(image);
        return 1;
    }
    out = fopen(words[2], "wb");
    if (!out) {
        free(image);
        return 1;
    }
    fprintf(out, "P5\n%zu %zu\n%u\n", header[FUJI_HEADER_WIDTH], header[FUJI_HEADER_HEIGHT], (1u << header[FUJI_HEADER_BITS]) - 1);
    for (i = 0; i < samples; i++) {
        fputc(image[i] >> 8, out);
        fputc(image[i] & 255, out);
    }
    free(image);
    return fclose(out) == 0 ? 0 : 1;
}
