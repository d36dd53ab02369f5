/* Fuji compressed raw streams: the functions of libfuji_compressed.a and libfuji_compressed.so. x86-64 Linux, C99 and C++.
 *
 * Each function meets a proved contract (crates/fuji_compressed, and crates/tight_diagnosis_c for fuji_bad_code). No function asks anything of its numbers:
 * every call either does its work or hands back a refusal. What a caller has to keep:
 *
 * - A pointer points to as many items as its length says. With length 0 it may be NULL.
 * - What a function reads is initialised memory. Scratch and records may hold anything, but they must be initialised too.
 * - What a function writes overlaps with nothing else that it is given.
 *
 * `refusal`, where a function has it, is written by every call: the number (enum fuji_refusal, 0 if nothing is refused), then the block, the line and the
 * index that the refusal names, 0 where it names none. fuji_refusal_text gives a sentence for the number.
 *
 * What a refused call leaves: with refusals 1 to 10, 16 to 20 and 24 to 26 image, output, set and scratch are as they were. After 11 to 15 and 21 to 23, and
 * after a call that read or wrote a block, the used part of scratch is samples 0 and records (0, n 1); but fuji_tighten and fuji_lossy_copy leave everything
 * as it was if 13 comes because there is no room for what stands before the blocks.
 * Refusal 14 of a decoding function leaves in the image the rows of each block before its failing line (fuji_decode_region_windowed: and 0 in the rows of
 * that line); 23 leaves those of the blocks before and of its own before that line. fuji_write_block and fuji_write_lossy leave the output as it was with
 * every refusal; fuji_tighten and fuji_lossy_copy do not once their blocks are begun. Lengths and other results are 0 where a call is refused; what holds of
 * totals, of stored states (13, 21, 22) and of quantiser entries is said at the functions.
 *
 * Each call stands alone: there is no state, and any number of threads may call at the same time with buffers of their own. The code is position-independent,
 * makes no system call, and needs nothing but memcpy and memset. Decoding takes less than 16 KiB of stack (a test holds it to that). fuji_bad_code has scratch
 * of its own on the stack, and fuji_plan_bases counts of 44 KB. */
#ifndef FUJI_COMPRESSED_H
#define FUJI_COMPRESSED_H

#include <stddef.h>
#include <stdint.h>

#ifdef __cplusplus
extern "C" {
#endif

#define FUJI_COMPRESSED_VERSION_MAJOR 0
#define FUJI_COMPRESSED_VERSION_MINOR 1
#define FUJI_COMPRESSED_VERSION_PATCH 0

/* The refusals, refusal[0] of every function that has it. */
enum fuji_refusal {
    FUJI_OK = 0,
    FUJI_SHORT_HEADER = 1,   /* fewer than 16 bytes of header */
    FUJI_BAD_HEADER = 2,     /* a header rule is broken */
    FUJI_SHORT_SIZES = 3,    /* fewer than 4 * blocks bytes follow the header */
    FUJI_SHORT_BASES = 4,    /* a lossy base row is not whole; names the block */
    FUJI_NO_BLOCK = 5,       /* the block number is not below blocks */
    FUJI_WRONG_SIZE = 6,     /* the size is not the picture's */
    FUJI_OUTSIDE_IMAGE = 7,  /* the region passes the picture's edge, or the image is too short for it */
    FUJI_LOSSY = 8,          /* the header is lossy */
    FUJI_WRONG_COUNT = 9,    /* the number of samples is not lines * 12 * W */
    FUJI_SHORT_SCRATCH = 10, /* scratch is too short */
    FUJI_ABOVE_LARGEST = 11, /* a sample is above 2^bits - 1; names the index */
    FUJI_NOT_PREDICTED = 12, /* an interpolated sample is not its prediction; names the index */
    FUJI_SHORT_OUTPUT = 13,  /* the output is too short */
    FUJI_TRUNCATED = 14,     /* a line is truncated; names the block and the line */
    FUJI_NOT_TIGHT = 15,     /* the block reads, but is not tight; names the line */
    FUJI_LOSSLESS = 16,      /* the header is lossless */
    FUJI_WRONG_BASES = 17,   /* the number of base bytes is wrong */
    FUJI_BAD_RECORD = 18,    /* a record of the plan is malformed; names its number as the index */
    FUJI_HELD_TWICE = 19,    /* two records of the plan hold a line; names the line */
    FUJI_NOT_HELD = 20,      /* no record of the plan holds a line; names the line */
    FUJI_BAD_STATE = 21,     /* the stored state is malformed, or the line to store after is not there */
    FUJI_OTHER_STATE = 22,   /* the stored state is of another header or block */
    FUJI_NO_ENTRY = 23,      /* all 16 quantiser entries are held; names the block and the line */
    FUJI_OUTSIDE_SHEET = 24, /* depth, k or length of a sheet of short codes is out of range */
    FUJI_WRONG_LENGTHS = 25, /* there is not one length for each block */
    FUJI_LONG_BLOCK = 26     /* a block has 2^32 bytes or more; names the block */
};

/* A sentence for a refusal's number. */
static inline const char *fuji_refusal_text(size_t number)
{
    switch (number) {
    case FUJI_OK: return "nothing is refused";
    case FUJI_SHORT_HEADER: return "fewer than 16 bytes of header";
    case FUJI_BAD_HEADER: return "a header rule is broken";
    case FUJI_SHORT_SIZES: return "the block sizes are cut short";
    case FUJI_SHORT_BASES: return "a lossy base row is not whole";
    case FUJI_NO_BLOCK: return "there is no such block";
    case FUJI_WRONG_SIZE: return "the size is not the picture's";
    case FUJI_OUTSIDE_IMAGE: return "the region passes the picture's edge, or the image is too short for it";
    case FUJI_LOSSY: return "the stream is lossy";
    case FUJI_WRONG_COUNT: return "the number of samples is not the block's";
    case FUJI_SHORT_SCRATCH: return "the scratch is too short";
    case FUJI_ABOVE_LARGEST: return "a sample is above the largest";
    case FUJI_NOT_PREDICTED: return "an interpolated sample is not its prediction";
    case FUJI_SHORT_OUTPUT: return "the output is too short";
    case FUJI_TRUNCATED: return "a line is truncated";
    case FUJI_NOT_TIGHT: return "the block is not tight";
    case FUJI_LOSSLESS: return "the header is lossless";
    case FUJI_WRONG_BASES: return "the number of base bytes is not that of the lines";
    case FUJI_BAD_RECORD: return "the plan's record is malformed, runs backwards, passes the last line or has a base above 255";
    case FUJI_HELD_TWICE: return "two records of the plan hold it";
    case FUJI_NOT_HELD: return "no record of the plan holds it";
    case FUJI_BAD_STATE: return "the line to store after is not there, or the stored state is malformed";
    case FUJI_OTHER_STATE: return "the stored state is of another header or block";
    case FUJI_NO_ENTRY: return "the line's depth and base have no entry, and all 16 are held";
    case FUJI_OUTSIDE_SHEET: return "the depth is not 12, 14 or 16, k is above 15, or the length is not 1 to 16";
    case FUJI_WRONG_LENGTHS: return "there is not one length for each block";
    case FUJI_LONG_BLOCK: return "the block has 2^32 bytes or more";
    default: return "refused";
    }
}

/* The words of `header`. */
enum fuji_header_word {
    FUJI_HEADER_LOSSLESS,      /* 0 or 1 */
    FUJI_HEADER_XTRANS,        /* 0 or 1 */
    FUJI_HEADER_BITS,          /* 12, 14 or 16 */
    FUJI_HEADER_HEIGHT,
    FUJI_HEADER_ROUNDED_WIDTH, /* 768 * blocks */
    FUJI_HEADER_WIDTH,
    FUJI_HEADER_BLOCK_SIZE,    /* 768 */
    FUJI_HEADER_BLOCKS,
    FUJI_HEADER_LINES,         /* lines of six rows */
    FUJI_HEADER_WORDS
};

/* The words of `refusal`. */
enum fuji_refusal_word { FUJI_REFUSAL_NUMBER, FUJI_REFUSAL_BLOCK, FUJI_REFUSAL_LINE, FUJI_REFUSAL_INDEX, FUJI_REFUSAL_WORDS };

/* The words of `spot` of fuji_bad_code, and its reasons. */
enum fuji_spot_word { FUJI_SPOT_LINE, FUJI_SPOT_PASS, FUJI_SPOT_COLOUR, FUJI_SPOT_POSITION, FUJI_SPOT_BIT, FUJI_SPOT_REASON, FUJI_SPOT_WORDS };
enum fuji_reason { FUJI_REASON_LARGE = 1, FUJI_REASON_ESCAPE = 2, FUJI_REASON_ZEROS = 3, FUJI_REASON_TAIL = 4 };

/* Usual tiles, as initialisers: six rows of six colours, 0 red, 1 green, 2 blue. A stream does not say its tile; these are those of all cameras that are
 * known to write compressed streams. */
#define FUJI_TILE_BAYER {0,1,0,1,0,1, 1,2,1,2,1,2, 0,1,0,1,0,1, 1,2,1,2,1,2, 0,1,0,1,0,1, 1,2,1,2,1,2}
#define FUJI_TILE_XTRANS {1,1,0,1,1,2, 1,1,2,1,1,0, 2,0,1,0,2,1, 1,1,2,1,1,0, 1,1,0,1,1,2, 0,2,1,2,0,1}

/* How many samples a set of colour lines has, a length that no block exceeds, and lengths of a tight stream and of a lossy one that suffice, all from the words of
 * a header that was not refused. */
#define FUJI_SET_SAMPLES(h) ((h)[FUJI_HEADER_LINES] * 12 * ((h)[FUJI_HEADER_XTRANS] ? 512 : 384))
#define FUJI_BLOCK_BOUND(h) ((h)[FUJI_HEADER_LINES] * 2304 * (h)[FUJI_HEADER_BITS])
#define FUJI_TIGHT_BOUND(h) (16 + ((h)[FUJI_HEADER_BLOCKS] * 4 + 15) / 16 * 16 + (h)[FUJI_HEADER_BLOCKS] * FUJI_BLOCK_BOUND(h))
#define FUJI_LOSSY_BOUND(h) (FUJI_TIGHT_BOUND(h) + (h)[FUJI_HEADER_BLOCKS] * (((h)[FUJI_HEADER_LINES] + 15) / 16 * 16))

/* Scratch that a decode needs: so many samples (less for Bayer: 6,948), and so many records. Their contents do not matter. */
#define FUJI_SCRATCH_SAMPLES 9252
#define FUJI_SCRATCH_RECORDS 336

/* The samples that fuji_decode_region_windowed needs (less for Bayer: 3,474). */
#define FUJI_WINDOW_SAMPLES 4626

typedef struct fuji_record {
    uint32_t sum;
    uint32_t n;
} fuji_record;

/* The header, from its first 16 bytes: enum fuji_header_word. All 0 where it is refused. Refusals 1 and 2. */
void fuji_parse(const uint8_t *header_bytes, size_t header_length, size_t header[9], size_t refusal[4]);

/* The same once the sizes and, if the stream is lossy, all base rows are there. Refusals 1 to 4. */
void fuji_open(const uint8_t *stream, size_t stream_length, size_t header[9], size_t refusal[4]);

/* The columns of a block, from a header's first 16 bytes. Refusals 1, 2 and 5. The block is a 32-bit number: a caller with a larger one must not let it be cut. */
void fuji_block_width(const uint8_t *header_bytes, size_t header_length, uint32_t block, size_t width[1], size_t refusal[4]);

/* Where a block lies in the stream: an offset and a length. */
void fuji_block_range(const uint8_t *stream, size_t stream_length, size_t block, size_t range[2], size_t refusal[4]);

/* Where the base row of a block lies in the stream. */
void fuji_base_row_range(const uint8_t *stream, size_t stream_length, size_t block, size_t range[2], size_t refusal[4]);

/* Decodes the whole picture, whose size is named, row after row. The tile has six rows of six colours: 0 red, 2 blue, else green. */
void fuji_decode(const uint8_t *stream, size_t stream_length, size_t width, size_t height, const uint8_t tile[36], uint16_t *image,
                 size_t image_length, uint16_t *scratch, size_t scratch_length, fuji_record *records, size_t records_length,
                 size_t refusal[4]);

/* Decodes a region into an image that holds the region alone. */
void fuji_decode_region(const uint8_t *stream, size_t stream_length, size_t x, size_t y, size_t width, size_t height,
                        const uint8_t tile[36], uint16_t *image, size_t image_length, uint16_t *scratch, size_t scratch_length,
                        fuji_record *records, size_t records_length, size_t refusal[4]);

/* The same in half the samples of scratch: three colour lines of each colour are kept, and each goes to the image when it has been read. It is refused by 10
 * only with fewer than 9 * (384 + 2) samples (X-Trans: 9 * (512 + 2)) or 336 records. Samples and answers are those of fuji_decode_region, but with refusal 14 the six
 * rows of a block's truncated line, within its columns and the region, are 0. */
void fuji_decode_region_windowed(const uint8_t *stream, size_t stream_length, size_t x, size_t y, size_t width, size_t height,
                                 const uint8_t tile[36], uint16_t *image, size_t image_length, uint16_t *scratch, size_t scratch_length,
                                 fuji_record *records, size_t records_length, size_t refusal[4]);

/* fuji_decode_region for one of two cameras, whose streams share 16 quantiser entries. Camera 1 is 1, and any other number is camera 2. The entries are handed
 * back; all 0 is a set of which none is held. Entry e has the words 8e to 8e + 7: bits, base, weight, total, raw, limit, held by camera 1, held by camera 2 (0 or
 * 1; any number but 0 is read as 1). Each line that is read needs the entry of its depth and base (0 in a lossless stream): a held one is shared, or else the lowest that
 * nobody holds is taken. Refusal 23 names the block and the line that has none while all 16 are held: nothing of that line or of a later block is read. Every refusal gives
 * back all holds of the camera. Where it is not 23, answer, image and scratch are those of fuji_decode_region. Any words are safe. */
void fuji_decode_region_shared(uint32_t camera, uint32_t entries[128], const uint8_t *stream, size_t stream_length, size_t x, size_t y,
                               size_t width, size_t height, const uint8_t tile[36], uint16_t *image, size_t image_length,
                               uint16_t *scratch, size_t scratch_length, fuji_record *records, size_t records_length, size_t refusal[4]);

/* The stream of a camera ends: all its holds are given back. */
void fuji_end_stream(uint32_t camera, uint32_t entries[128]);

/* Reads a whole block, lossless or lossy, and shows nothing. `totals` are the bits of its codes and how many of them are long: of all lines where nothing is
 * refused, of the lines before the truncated one with refusal 14, and 0 and 0 with every other refusal. */
void fuji_read_block(const uint8_t *stream, size_t stream_length, size_t block, uint16_t *scratch, size_t scratch_length,
                     fuji_record *records, size_t records_length, size_t totals[2], size_t refusal[4]);

/* The tight reading of a block: not refused are exactly the tight blocks of a lossless stream. Totals as above; with refusal 15 those of the lines before
 * the one that is named. */
void fuji_read_tight(const uint8_t *stream, size_t stream_length, size_t block, uint16_t *scratch, size_t scratch_length,
                     fuji_record *records, size_t records_length, size_t totals[2], size_t refusal[4]);

/* Stores the state of a block after a line, counted from 0, in the first 1,707 + 12 * 384 bytes (X-Trans: 1,707 + 12 * 512) of `state`; what follows them is as it was.
 * The lines up to it are read, and `totals` are theirs, as above. Refusals 1, 2, 3, 4, 5, 10, 21 (the line is not below the lines), 13 (`state` is shorter) and 14, in
 * this order; each leaves `state` as it was. */
void fuji_store_checkpoint(const uint8_t *stream, size_t stream_length, size_t block, size_t line, uint8_t *state, size_t state_length,
                           uint16_t *scratch, size_t scratch_length, fuji_record *records, size_t records_length, size_t totals[2],
                           size_t refusal[4]);

/* Goes on in a block from a stored state of it, of exactly that many bytes: fills the region's rows from the state's next line on, within that block's columns, and leaves
 * all other samples as they were. Samples and answers are those of a reading from the top, if the state was stored from a stream with the same header, and the same bytes
 * and base row of that block; any other bytes are safe. `totals` are those of the lines that are read now. Refusals 1, 2, 3, 4, 5 and 7; an empty region is accepted then;
 * 10, 21 (no such state), 22 (of another header or block) and 14, in this order. */
void fuji_resume_region(const uint8_t *stream, size_t stream_length, size_t block, const uint8_t *state, size_t state_length, size_t x,
                        size_t y, size_t width, size_t height, const uint8_t tile[36], uint16_t *image, size_t image_length,
                        uint16_t *scratch, size_t scratch_length, fuji_record *records, size_t records_length, size_t totals[2],
                        size_t refusal[4]);

/* Why a block is not tight: of its first bad code in coding order the line of six rows, the pass (1 to 6), the colour line (2 to 17), the position, the first bit, counted
 * from the block's first, and the reason: 1 large, the code is 2^bits or more; 2 escape, it is long where the short form fits; 3 zeros, it has more zeros than the limit.
 * If every code is tight but the tail is not: the number of lines, 0, 0, 0, the first bit after the last code, and 4. All 0 where the refusal is not 15. `refusal` is what
 * fuji_read_tight gives with scratch that is long enough; none is needed here. */
void fuji_bad_code(const uint8_t *stream, size_t stream_length, size_t block, size_t spot[6], size_t refusal[4]);

/* Writes the tight block of a set of colour lines to the start of the output: for each line of six rows red 2 to 4, green 7 to 12 and blue 15 to 17,
 * with 384 samples each (X-Trans: 512). Its length is handed back, a multiple of 16 bytes of which the last are filled with zero bits, and 0 where it is
 * refused; then the output is as it was. With fuji_length_bound bytes of output or more the block is written in one walk, with fewer in two. */
void fuji_write_block(const uint8_t *header, size_t header_length, const uint16_t *samples, size_t samples_length, uint8_t *out,
                      size_t out_length, uint16_t *scratch, size_t scratch_length, fuji_record *records, size_t records_length,
                      size_t length[1], size_t refusal[4]);

/* Writes the block of such a set under a lossy header, with one base byte for each line of six rows, to the start of the output; it has no base row, which is the
 * stream's. Each sample that has a code reads back within the base of the quantiser that coded it, which is at most that of its line. X-Trans interpolates some
 * samples, and those of the set are ignored there. The length is as above. Each code has at most 4 * bits bits, so that lines * 2304 * bits bytes of output are enough,
 * and with so many it is written in one walk. Refusals 1, 2, 16, 17, 9, 10, 11 and 13, in this order; then the length is 0, and the output is as it was. Up to 10 scratch
 * is as it was too. */
void fuji_write_lossy(const uint8_t *header, size_t header_length, const uint8_t *bases, size_t bases_length, const uint16_t *samples,
                      size_t samples_length, uint8_t *out, size_t out_length, uint16_t *scratch, size_t scratch_length,
                      fuji_record *records, size_t records_length, size_t length[1], size_t refusal[4]);

/* The length in bytes that no tight block under a lossless header exceeds: lines * 2304 * bits. Refusals 1, 2 and 8; then it is 0. */
void fuji_length_bound(const uint8_t *header, size_t header_length, size_t length[1], size_t refusal[4]);

/* The length that fuji_write_block would hand back, with no output to write to. It is refused as the writer is, but never by 13; then it is 0. */
void fuji_measure_block(const uint8_t *header, size_t header_length, const uint16_t *samples, size_t samples_length, uint16_t *scratch,
                        size_t scratch_length, fuji_record *records, size_t records_length, size_t length[1], size_t refusal[4]);

/* The colour lines of a block, lossless or lossy: the set that fuji_write_block and fuji_write_lossy take. `set` has exactly lines * 12 * 384 samples
 * (X-Trans: lines * 12 * 512). `totals` and the refusal are those of fuji_read_block. Refusals 1, 2, 3, 4, 5, 9 (a set of another size), 10 and 14, in this
 * order. With 14 the lines before the truncated one are in the set, and the rest of it is as it was. The others leave set and scratch as they were. Where
 * the block is read, scratch is cleared: its used samples are 0, its records (0, n 1). */
void fuji_read_set(const uint8_t *stream, size_t stream_length, size_t block, uint16_t *set, size_t set_length, uint16_t *scratch,
                   size_t scratch_length, fuji_record *records, size_t records_length, size_t totals[2], size_t refusal[4]);

/* Puts what stands before the blocks of a stream to the start of the output: the header's 16 bytes, the blocks' sizes and the base rows, each filled with
 * zeros to a multiple of 16 bytes. `rows` has a byte for each line of each block, block after block, and none if the header is lossless. `lengths` has one
 * length for each block. The length that is handed back is that of the whole stream: its blocks follow, one after the other. So many bytes suffice: 16,
 * 4 * blocks rounded up to a multiple of 16 and, if the header is lossy, for each block `lines` rounded up to a multiple of 16; at most 43,856. Refusals 1,
 * 2, 25 (not one length for each block), 17 (another number of bases), 26 (the lowest block of 2^32 bytes or more is named) and 13, in this order. Then
 * the length is 0, and the output is as it was. */
void fuji_put_front(const uint8_t *header, size_t header_length, const uint8_t *rows, size_t rows_length, const size_t *lengths,
                    size_t lengths_length, uint8_t *out, size_t out_length, size_t length[1], size_t refusal[4]);

/* Writes the tight stream of a stream, lossless or lossy, to the start of the output, and hands back its length; what follows it is as it was. It has the
 * same header but for the lossless flag, only tight blocks, and the same samples. `set` has exactly as many samples as for fuji_read_set, and is scratch.
 * So many bytes of output suffice: 16, 4 * blocks rounded up to a multiple of 16, and blocks * lines * 2304 * bits. Refusals 1, 2, 3, 4, 9, 10 and 13 (no
 * room for what stands before the blocks), in this order, leave everything as it was. Then the blocks are read and written, one after the other: 14 for a
 * truncated line, or 13 for a block that has no room, names or means the lowest such block. The output then begins with zeros in the place of what stands
 * before the blocks, at least 16 of them, so that it does not open; the blocks before the failing one follow; the rest is as it was. Once the blocks are
 * begun, the set is all 0 at the end, and scratch is cleared. Where it is refused the length is 0. */
void fuji_tighten(const uint8_t *stream, size_t stream_length, uint8_t *out, size_t out_length, uint16_t *set, size_t set_length,
                  uint16_t *scratch, size_t scratch_length, fuji_record *records, size_t records_length, size_t length[1],
                  size_t refusal[4]);

/* Writes a lossy working copy of a stream, lossless or lossy, to the start of the output. `bases` has a byte for each line of each block, block after block.
 * Each sample that has a code reads back within the base of its line. All else is as with fuji_tighten; refusal 17, for another number of bases, comes
 * after 4. So many bytes of output suffice: those for fuji_tighten, and for each block `lines` rounded up to a multiple of 16. */
void fuji_lossy_copy(const uint8_t *stream, size_t stream_length, const uint8_t *bases, size_t bases_length, uint8_t *out, size_t out_length,
                     uint16_t *set, size_t set_length, uint16_t *scratch, size_t scratch_length, fuji_record *records,
                     size_t records_length, size_t length[1], size_t refusal[4]);

/* The full sheet of short codes: every bit string of at most `length` bits (1 to 16) that is one tight lossless code for a depth of 12, 14 or 16 and
 * a k of 0 to 15, as 65536 * (its bits) + its value, by length and then by value. The count is that of the whole sheet, at most 32,768, and 0 where it
 * is refused (24). A list that is shorter than the sheet is left as it was, and so is the rest of a longer one. */
void fuji_short_codes(uint32_t depth, uint32_t k, uint32_t length, uint32_t *list, size_t list_length, size_t count[1], size_t refusal[4]);

/* The base bytes of a lossy header's lines, as a plan says: text with one record a line, which is first line, last line and base, in decimal with 1 to 5 digits
 * each, tab-separated and ended by a newline. Every line lies in exactly one record. There are as many bytes as lines, and byte n becomes the base of the record that
 * holds line n. Refusals 1, 2, 16, 17, 18 (the record's number, from 1 on, is the index), 19 and 20 (the line is named); each leaves the bytes as they were. */
void fuji_plan_bases(const uint8_t *header, size_t header_length, const uint8_t *plan, size_t plan_length, uint8_t *bases, size_t bases_length,
                     size_t refusal[4]);

#ifdef __cplusplus
}
#endif

#endif
