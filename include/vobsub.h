/* The functions of libvobsub_c.a, for C. Each returns 0 where it accepts, and otherwise the number of a refusal: the numbers, what each
   means and the order in which they are tried are in docs/FORMAT.md, section 9 (`refusals` in crates/outcome).

   A pointer that has a length beside it may be null where that length is 0. Where it is said how much stack a function takes, a thread whose
   stack is sized to that figure needs 8 KiB more, for the C library: with glibc 2.36 it keeps 4,464 bytes there, and takes 3,040 more where a
   first call of memset or memcpy is bound (bench/stack/run). The figures of stack were measured on builds by an
   older kit; bench/stack/run fails where a build takes more. */
#ifndef VOBSUB_H
#define VOBSUB_H

#include <stddef.h>
#include <stdint.h>

#ifdef __cplusplus
extern "C" {
#endif

/* Words of the colour bands of a unit or of a payload, which has at most 32 of them, each with at most 15 entries. A band is 3 words, its first
   line, its last line and the number of its entries, and 3 more for each entry: its column, its four selectors and its four alphas (colour 0
   in the top nibble). */
enum { VOBSUB_BANDS = 1536 };

/* Reads the colour bands in payload, the payload_len bytes after a colour change's size word. bands has VOBSUB_BANDS words, and all of them are
   written: the words of the bands, one band after the other, and 0 after them. *count is set to the number of words that the bands take. bands
   and count are not null, and the three regions do not overlap. On a refusal (19, then 34, more than 32 bands) bands and *count are as they
   were. It takes up to 4 KiB of stack. */
uint8_t vobsub_parse_chg_colcon_payload(const uint8_t *payload, size_t payload_len,
                                        uint16_t bands[VOBSUB_BANDS],
                                        size_t *count);

/* Finds the unit of a stream at position of file, which has file_len bytes; position and stream may be any numbers. Streams are numbered 0 to 31,
   and of the packets those count whose body starts with 0x20 + stream; a bare unit is found for each of them. A unit that packets hold is joined
   in the front of scratch, which has scratch_len bytes, and *joined is set to 1; a bare unit stays where it is, from file[position] on, and
   *joined is set to 0. *length is set to the unit's length, which may be 0. length and joined are not null, and the four regions do not overlap.
   On a refusal (32, which comes first, 12, 13, 14) scratch, *length and *joined are as they were, and after a unit scratch past its length is. */
uint8_t vobsub_extract_spu(const uint8_t *file, size_t file_len,
                           size_t position, size_t stream,
                           uint8_t *scratch, size_t scratch_len,
                           size_t *length, uint8_t *joined);

/* Finds the body of a PES, the pes_len bytes after the length word of a private_stream_1 packet. *body is set to its place in pes, which is
   pes_len where the body is empty. body is not null, and the two regions do not overlap. On a refusal (13) *body is as it was. */
uint8_t vobsub_parse_pes_body(const uint8_t *pes, size_t pes_len,
                              size_t *body);

/* Decodes the run codes of a field, which has field_len bytes, into rows start_row, start_row + 2, .. of a map of that width and height, one
   byte a pixel from pixels[0] on. pixels has pixels_len bytes; width, height and start_row may be any numbers. *codes is set to the number of
   codes read, and *clipped to how many of them name a run longer than what was left of their row; a fill never does. codes and clipped are not
   null, and the four regions do not overlap. Only the rows named are written; on a refusal (22, 26) pixels, *codes and *clipped are as they
   were. It takes up to 129 KiB of stack. */
uint8_t vobsub_decode_rle_field(const uint8_t *field, size_t field_len,
                                size_t width, size_t height, size_t start_row,
                                uint8_t *pixels, size_t pixels_len,
                                size_t *codes, size_t *clipped);

/* Places of the numbers of a record: area, words of four selectors and of four alphas (colour 0 in the top nibble), whether there is a start
   and its delay, whether there is a stop and its delay (both in 1024/90000 of a second), whether a start is forced, the places of the two
   fields, whether there is a colour change, the number of words that the bands take, the number of codes read, the number of those that are
   clipped: longer than what was left of their row. What is not given is 0. */
enum vobsub_number {
    VOBSUB_X1, VOBSUB_Y1, VOBSUB_X2, VOBSUB_Y2,
    VOBSUB_PALETTE_SEL, VOBSUB_ALPHA,
    VOBSUB_STARTED, VOBSUB_START_DELAY_RAW,
    VOBSUB_STOPPED, VOBSUB_STOP_DELAY_RAW,
    VOBSUB_FORCED_DISPLAY,
    VOBSUB_TOP_RLE_OFF, VOBSUB_BOT_RLE_OFF,
    VOBSUB_SAW_CHG_COLCON, VOBSUB_BAND_WORDS,
    VOBSUB_CODES, VOBSUB_CLIPPED,
    VOBSUB_NUMBERS
};

/* Decodes a unit, the unit_len bytes from its length word on. Its picture goes to the front of pixels, which has pixels_len bytes, one byte a
   pixel, row after row; bands has VOBSUB_BANDS words, and gets the bands of all its colour changes in the order in which they are read, at
   most 32; numbers has VOBSUB_NUMBERS numbers, and gets those of the record. bands and numbers are not null, and the four regions do not
   overlap. Of pixels the first (x2 - x1 + 1) * (y2 - y1 + 1) bytes are written, of bands all: as many words as numbers[VOBSUB_BAND_WORDS]
   says, and 0 after them. On a refusal (15 to 21, then 34, more than 32 bands, then 22, 25, 26) all three are as they were. It takes up to 263
   KiB of stack. */
uint8_t vobsub_parse_and_decode_spu(const uint8_t *unit, size_t unit_len,
                                    uint8_t *pixels, size_t pixels_len,
                                    uint16_t bands[VOBSUB_BANDS],
                                    size_t numbers[VOBSUB_NUMBERS]);

/* Places of the numbers of an index text: the size, 0 where none is given, whether a palette is given (1) or none (0), how many cues there are. */
enum vobsub_index_number {
    VOBSUB_WIDTH, VOBSUB_HEIGHT,
    VOBSUB_HAS_PALETTE,
    VOBSUB_CUES,
    VOBSUB_INDEX_NUMBERS
};

/* Bytes of a palette: red, green and blue of 16 entries, in turn. */
enum { VOBSUB_PALETTE = 48 };

/* Reads an index text, the text_len bytes of a .idx file. The start of each cue, in microseconds, goes to the front of starts, which has
   starts_len numbers, and its position in the file to the front of positions, which has positions_len numbers of 32 bits; palette has
   VOBSUB_PALETTE bytes, and gets the palette, black where no entry is given; numbers has VOBSUB_INDEX_NUMBERS numbers. palette and numbers are
   not null, and the five regions do not overlap. Of starts and positions as many are written as there are cues; on a refusal (1 to 10, and 41,
   a position above 4,294,967,295: of 2 to 10 and 41 the first faulty line counts, and in it 41 comes before 10) all four are as they were. A
   text that has such a position in any line is refused whole, so that every position that is stored is the text's. A text of no bytes,
   text_len 0, is one cue whose start and position are 0, and so needs a place in starts and in positions (else 10); it gives no size and no
   palette, and what palette gets is grey: red, green and blue of entry i are 17 * i. No other text is read so: one of blanks alone has no cue,
   and its palette is black. */
uint8_t vobsub_parse_idx(const uint8_t *text, size_t text_len,
                         int64_t *starts, size_t starts_len,
                         uint32_t *positions, size_t positions_len,
                         uint8_t palette[VOBSUB_PALETTE],
                         size_t numbers[VOBSUB_INDEX_NUMBERS]);

/* Places of the numbers of a cue: its position in the file, whether another cue follows (1) or none (0), the microseconds up to that one, 0
   where none follows, and whether the text gives a palette. */
enum vobsub_cue_number {
    VOBSUB_POSITION,
    VOBSUB_HAS_DURATION, VOBSUB_DURATION,
    VOBSUB_CUE_HAS_PALETTE,
    VOBSUB_CUE_NUMBERS
};

/* Finds one cue of an index text, the text_len bytes of a .idx file; cues are numbered from 0, and cue may be any number. *start is set to its
   start in microseconds; palette has VOBSUB_PALETTE bytes, and gets the text's palette; numbers has VOBSUB_CUE_NUMBERS numbers, and gets those
   of the cue. start, palette and numbers are not null, and the four regions do not overlap. Every line is checked all the same; on a refusal
   (1 to 9 and 41, a position above 4,294,967,295 in any line, then 11) *start, palette and numbers are as they were. A text of no bytes has cue
   0 and no other, as for vobsub_parse_idx. */
uint8_t vobsub_pick_cue(const uint8_t *text, size_t text_len,
                        size_t cue,
                        int64_t *start,
                        uint8_t palette[VOBSUB_PALETTE],
                        uint64_t numbers[VOBSUB_CUE_NUMBERS]);

/* Places of the times of a painted cue, in microseconds: its start in the index text, when it is shown and when it is hidden. The unit's delays
   are converted, ticks * 102400 / 9 rounded down, before they are added to the start: the delay of the first start gives the show time, that
   of the last stop the hide time. Without a start there is neither, and without a stop no hide time; a time that there is not is 0. The hide
   time may be the show time, or before it. */
enum vobsub_time {
    VOBSUB_TIME_START, VOBSUB_TIME_SHOW, VOBSUB_TIME_HIDE,
    VOBSUB_TIMES
};

/* Places of the numbers of a painted cue: whether another cue follows (1) or none (0), the microseconds up to that one, 0 where none follows,
   the delays of the unit's first start and last stop (both in ticks of 1024/90000 of a second, 0 where there is none), the place of the first
   pixel on the display, the size, the number of codes read, the number of those that are clipped, whether there is a start (1) or none (0), and
   with it a show time, whether there is a stop, and whether there is a hide time, which takes both. */
enum vobsub_shown_number {
    VOBSUB_SHOWN_HAS_DURATION, VOBSUB_SHOWN_DURATION,
    VOBSUB_SHOWN_START_DELAY, VOBSUB_SHOWN_STOP_DELAY,
    VOBSUB_SHOWN_X1, VOBSUB_SHOWN_Y1,
    VOBSUB_SHOWN_WIDTH, VOBSUB_SHOWN_HEIGHT,
    VOBSUB_SHOWN_CODES, VOBSUB_SHOWN_CLIPPED,
    VOBSUB_SHOWN_STARTED, VOBSUB_SHOWN_STOPPED, VOBSUB_SHOWN_HAS_HIDE,
    VOBSUB_SHOWN_NUMBERS
};

/* Paints one cue of a title: text has the text_len bytes of its .idx file, file the file_len bytes of its .sub file; cues are numbered from 0,
   and cue may be any number; so may stream, and 0 to 31 are streams, as for vobsub_extract_spu. The canvas goes to the front of canvas, which has
   canvas_len bytes: red, green, blue and alpha of each pixel, row after row. The picture as colour numbers goes to the front of pixels, which has
   pixels_len bytes; a unit that packets hold is joined in the front of scratch, which has scratch_len bytes. times has VOBSUB_TIMES numbers, and
   gets the cue's times; numbers has VOBSUB_SHOWN_NUMBERS numbers, and gets those of the cue. times and numbers are not null, and the seven
   regions do not overlap. Of canvas 4 * width * height bytes are written, of pixels width * height, of scratch as many as the joined unit takes.
   On a refusal (1 to 9 and 41, then 32, then 11 to 21, then 34, more than 32 bands, then 22, 24, 25, 26, then 33, where a time that there is
   does not fit int64_t) all are as they were, but that after those behind 14 a unit that packets hold is in the front of scratch. A text of no
   bytes has cue 0, at the front of file, painted in greys as for vobsub_parse_idx. A unit has 65535 bytes at most, a picture 4096 by 4096
   pixels. It takes up to 264 KiB of stack. */
uint8_t vobsub_decode_cue(const uint8_t *text, size_t text_len,
                          const uint8_t *file, size_t file_len,
                          size_t cue, size_t stream,
                          uint8_t *scratch, size_t scratch_len,
                          uint8_t *pixels, size_t pixels_len,
                          uint8_t *canvas, size_t canvas_len,
                          int64_t times[VOBSUB_TIMES],
                          uint64_t numbers[VOBSUB_SHOWN_NUMBERS]);

/* Writes a picture of that width and height as a unit into the front of out, which has out_len bytes. indices has indices_len bytes, the
   colour numbers 0 to 3 of its pixels, row after row; width and height may be any numbers. *length is set to the unit's length. length is not
   null, and the three regions do not overlap. On a refusal (27 to 31) out and *length are as they were, and after a unit out past its
   length is. */
uint8_t vobsub_build_demo_spu(size_t width, size_t height,
                              const uint8_t *indices, size_t indices_len,
                              uint8_t *out, size_t out_len,
                              size_t *length);

#ifdef __cplusplus
}
#endif

#endif
