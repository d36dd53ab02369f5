#include "fuji_compressed.h"
#include <stdio.h>

int main(void) {
    static uint16_t scratch[FUJI_WINDOW_SAMPLES];
    static fuji_record records[FUJI_SCRATCH_RECORDS];
    uint8_t stream[20] = {0x49, 0x53, 1, 0, 0x0E, 0, 6, 3, 0, 3, 0, 3, 0, 1, 0, 1};
    uint8_t tile[36] = {0};
    uint16_t image[2] = {7, 7};
    size_t header[9], refusal[4];
    fuji_parse(stream, sizeof stream, header, refusal);
    for (int i = 0; i < 9; i++)
        printf("%zu%s", header[i], i < 8 ? " " : ", ");
    printf("refusal %zu, ", refusal[0]);
    /* its block has no bytes */
    fuji_decode_region_windowed(stream, sizeof stream, 10, 2, 1, 1, tile, image, 2, scratch, FUJI_WINDOW_SAMPLES, records,
                                FUJI_SCRATCH_RECORDS, refusal);
    printf("%zu with samples %d %d, ", refusal[0], image[0], image[1]);
    stream[4] = 0x0D;
    fuji_parse(stream, sizeof stream, header, refusal);
    printf("then %zu\n", refusal[0]);
    return 0;
}
