/* Writes the tight stream of a stream: tighten STREAM OUT */
#include "fuji_compressed.h"
#include <stdio.h>
#include <stdlib.h>

int main(int count, char **words)
{
    static uint16_t scratch[FUJI_SCRATCH_SAMPLES];
    static fuji_record records[FUJI_SCRATCH_RECORDS];
    size_t header[FUJI_HEADER_WORDS], refusal[FUJI_REFUSAL_WORDS], made[1], length = 0, room, more;
    uint8_t *stream = NULL, *larger, *out;
    uint16_t *set;
    FILE *file;
    int status = 1;
    if (count != 3) {
        fprintf(stderr, "usage: tighten STREAM OUT\n");
        return 2;
    }
    file = fopen(words[1], "rb");
    if (!file) {
        fprintf(stderr, "%s cannot be read\n", words[1]);
        return 1;
    }
    do {
        larger = (uint8_t *)realloc(stream, length + 65536);
        if (!larger) break;
        stream = larger;
        more = fread(stream + length, 1, 65536, file);
        length += more;
    } while (more);
    fclose(file);
    fuji_open(stream, length, header, refusal);
    if (refusal[FUJI_REFUSAL_NUMBER] != FUJI_OK) {
        fprintf(stderr, "%s: %s\n", words[1], fuji_refusal_text(refusal[FUJI_REFUSAL_NUMBER]));
        free(stream);
        return 1;
    }
    room = FUJI_TIGHT_BOUND(header);
    out = (uint8_t *)calloc(room, 1);
    set = (uint16_t *)calloc(FUJI_SET_SAMPLES(header), sizeof *set);
    if (out && set) {
        fuji_tighten(stream, length, out, room, set, FUJI_SET_SAMPLES(header), scratch, FUJI_SCRATCH_SAMPLES, records, FUJI_SCRATCH_RECORDS, made, refusal);
        if (refusal[FUJI_REFUSAL_NUMBER] != FUJI_OK) {
            fprintf(stderr, "block %zu, line %zu: %s\n", refusal[FUJI_REFUSAL_BLOCK], refusal[FUJI_REFUSAL_LINE], fuji_refusal_text(refusal[FUJI_REFUSAL_NUMBER]));
        } else if ((file = fopen(words[2], "wb")) != NULL) {
            status = fwrite(out, 1, made[0], file) == made[0] ? 0 : 1;
            status |= fclose(file) != 0;
        }
    }
    free(set);
    free(out);
    free(stream);
    return status;
}
