/* Lists the unit of a stream at a position of a file: its record, its bands and its picture.
   unit [FILE POSITION [STREAM]]   (the position in hexadecimal; stream 0 where none is named)
   Without words it lists the two languages of a small file of its own, and paints the cue of a small title in both;
   then the cue of the file with an empty index; then the cue tables of three index texts. */
#include <inttypes.h>
#include <stdio.h>
#include <stdlib.h>

#include "vobsub.h"

/* two languages, each a unit in two packets: stream 0 has the id 0x20 before its bytes, stream 1 has 0x21; the last code
   of stream 1, 0xD, names three pixels in a row of two, its colour change, 0x07, gives line 2 other colours from column 1
   on, and its second block stops the display after 0x64 ticks */
static const uint8_t own[] = {
    0x00, 0x00, 0x01, 0xBD, 0x00, 0x11, 0x80, 0x00, 0x00, 0x20,
    0x00, 0x21, 0x00, 0x09, 0x00, 0x01, 0x60, 0x00, 0x30, 0x00, 0x00, 0x00, 0x09,
    0x00, 0x00, 0x01, 0xBD, 0x00, 0x17, 0x80, 0x00, 0x00, 0x21,
    0x00, 0x34, 0x00, 0x09, 0x70, 0x00, 0x20, 0xD0, 0x00, 0x00, 0x00, 0x00, 0x2E, 0x03, 0x01, 0x32, 0x04, 0x0F, 0xFF,
    0x00, 0x00, 0x01, 0xBD, 0x00, 0x18, 0x80, 0x00, 0x00, 0x20,
    0x03, 0x01, 0x32, 0x04, 0x0F, 0xFF, 0x05, 0x00, 0x00, 0x01, 0x00, 0x00, 0x01, 0x06, 0x00, 0x04, 0x00, 0x06, 0x01, 0xFF,
    0x00, 0x00, 0x01, 0xBD, 0x00, 0x25, 0x80, 0x00, 0x00, 0x21,
    0x05, 0x00, 0x00, 0x01, 0x00, 0x20, 0x03, 0x06, 0x00, 0x04, 0x00, 0x07,
    0x07, 0x00, 0x0C, 0x00, 0x02, 0x10, 0x02, 0x00, 0x01, 0x01, 0x21, 0x0F, 0x8F,
    0x01, 0xFF, 0x00, 0x64, 0x00, 0x2E, 0x02, 0xFF,
};

/* the index text of the title whose file is the packets above */
static const char index_text[] =
    "size: 720x576\n"
    "palette: 000000, ff0000, 00ff00, 0000ff\n"
    "timestamp: 00:00:01:000, filepos: 0\n";

/* cues at the front of a file and at the last position that the cue table holds; and the second one byte further on */
static const char table_text[] =
    "timestamp: 00:00:01:000, filepos: 000000000\n"
    "timestamp: 00:00:03:000, filepos: 0ffffffff\n";
static const char large_text[] =
    "timestamp: 00:00:01:000, filepos: 000000000\n"
    "timestamp: 00:00:03:000, filepos: 100000000\n";

/* as long as any unit, and as large as any picture */
static uint8_t scratch[65535], pixels[4096 * 4096];
static uint16_t bands[VOBSUB_BANDS];

/* The line of a cue in one stream of the packets above under an index text, with the number of its clipped codes; when it
   is shown and hidden; and its pixels as red, green, blue and alpha. */
static void paint(const char *text, size_t text_len, size_t cue, size_t stream)
{
    uint8_t canvas[16], refusal;
    uint64_t numbers[VOBSUB_SHOWN_NUMBERS];
    int64_t times[VOBSUB_TIMES];
    size_t i, x, y;

    refusal = vobsub_decode_cue((const uint8_t *)text, text_len, own, sizeof own, cue, stream, scratch, sizeof scratch,
                                pixels, sizeof pixels, canvas, sizeof canvas, times, numbers);
    printf("%sstream %zu, cue %zu: ", text_len == 0 ? "empty index, " : "", stream, cue);
    if (refusal != 0) {
        printf("refused %u\n", refusal);
        return;
    }
    printf("%" PRId64 " ", times[VOBSUB_TIME_START]);
    if (numbers[VOBSUB_SHOWN_HAS_DURATION])
        printf("%" PRIu64, numbers[VOBSUB_SHOWN_DURATION]);
    else
        printf("-");
    for (i = VOBSUB_SHOWN_X1; i <= VOBSUB_SHOWN_HEIGHT; i++)
        printf(" %" PRIu64, numbers[i]);
    printf(" %" PRIu64 " %" PRIu64, numbers[VOBSUB_SHOWN_START_DELAY], numbers[VOBSUB_SHOWN_STOP_DELAY]);
    printf(" %" PRIu64 ", %" PRIu64 " clipped\n", numbers[VOBSUB_SHOWN_CODES], numbers[VOBSUB_SHOWN_CLIPPED]);
    if (!numbers[VOBSUB_SHOWN_STARTED])
        printf("never shown\n");
    else if (!numbers[VOBSUB_SHOWN_HAS_HIDE])
        printf("shown at %" PRId64 ", no hide time\n", times[VOBSUB_TIME_SHOW]);
    else
        printf("shown at %" PRId64 ", hidden at %" PRId64 "\n", times[VOBSUB_TIME_SHOW], times[VOBSUB_TIME_HIDE]);
    for (y = 0; y < numbers[VOBSUB_SHOWN_HEIGHT]; y++) {
        for (x = 0; x < numbers[VOBSUB_SHOWN_WIDTH]; x++) {
            for (i = 0; i < 4; i++)
                printf("%02X", canvas[4 * (y * numbers[VOBSUB_SHOWN_WIDTH] + x) + i]);
            putchar(x + 1 < numbers[VOBSUB_SHOWN_WIDTH] ? ' ' : '\n');
        }
    }
}

static uint8_t *whole_file(const char *path, size_t *length)
{
    FILE *file = fopen(path, "rb");
    uint8_t *bytes = NULL;
    size_t room = 0;
    if (file == NULL) {
        perror(path);
        exit(2);
    }
    *length = 0;
    do {
        room += (size_t)1 << 20;
        bytes = realloc(bytes, room);
        if (bytes == NULL)
            exit(2);
        *length += fread(bytes + *length, 1, room - *length, file);
    } while (*length == room);
    fclose(file);
    return bytes;
}

/* The unit of a stream at a position: 1 where it is refused. */
static int list(const uint8_t *file, size_t file_len, size_t position, size_t stream)
{
    const uint8_t *unit;
    uint8_t joined, refusal;
    size_t length, width, height, i, next, x, y, numbers[VOBSUB_NUMBERS];

    refusal = vobsub_extract_spu(file, file_len, position, stream, scratch, sizeof scratch, &length, &joined);
    printf("stream %zu: ", stream);
    if (refusal != 0) {
        printf("refused %u\n", refusal);
        return 1;
    }
    unit = joined ? scratch : file + position;
    printf("%zu bytes, %s\n", length, joined ? "joined from packets" : "bare");

    refusal = vobsub_parse_and_decode_spu(unit, length, pixels, sizeof pixels, bands, numbers);
    if (refusal != 0) {
        printf("refused %u\n", refusal);
        return 1;
    }
    width = numbers[VOBSUB_X2] - numbers[VOBSUB_X1] + 1;
    height = numbers[VOBSUB_Y2] - numbers[VOBSUB_Y1] + 1;
    printf("%zu by %zu at %zu, %zu; selectors %04zX, alphas %04zX\n", width, height, numbers[VOBSUB_X1], numbers[VOBSUB_Y1],
           numbers[VOBSUB_PALETTE_SEL], numbers[VOBSUB_ALPHA]);
    if (numbers[VOBSUB_STARTED])
        printf("starts after %zu%s\n", numbers[VOBSUB_START_DELAY_RAW], numbers[VOBSUB_FORCED_DISPLAY] ? ", forced" : "");
    if (numbers[VOBSUB_STOPPED])
        printf("stops after %zu\n", numbers[VOBSUB_STOP_DELAY_RAW]);
    for (i = 0; i < numbers[VOBSUB_BAND_WORDS]; i = next) {
        next = i + 3 + 3 * (size_t)bands[i + 2];
        printf("lines %u to %u\n", bands[i], bands[i + 1]);
        for (i += 3; i < next; i += 3)
            printf("    from column %u: selectors %04X, alphas %04X\n", bands[i], bands[i + 1], bands[i + 2]);
    }
    printf("%zu codes, %zu clipped\n", numbers[VOBSUB_CODES], numbers[VOBSUB_CLIPPED]);
    if (width <= 100) {
        for (y = 0; y < height; y++) {
            for (x = 0; x < width; x++)
                putchar('0' + pixels[y * width + x]);
            putchar('\n');
        }
    }
    return 0;
}

/* The cue table of an index text: starts of 64 bits, positions of 32. */
static void table(const char *text, size_t text_len)
{
    int64_t starts[4];
    uint32_t positions[4];
    uint8_t palette[VOBSUB_PALETTE], refusal;
    size_t i, numbers[VOBSUB_INDEX_NUMBERS];

    refusal = vobsub_parse_idx((const uint8_t *)text, text_len, starts, 4, positions, 4, palette, numbers);
    if (refusal != 0) {
        printf("index refused %u\n", refusal);
        return;
    }
    printf("cues %zu, %zu bytes\n", numbers[VOBSUB_CUES], numbers[VOBSUB_CUES] * (sizeof starts[0] + sizeof positions[0]));
    for (i = 0; i < numbers[VOBSUB_CUES]; i++)
        printf("%" PRId64 " at %08" PRIX32 "\n", starts[i], positions[i]);
}

int main(int count, char **words)
{
    /* two that the file has, one that it has not, and a number above those of streams, which are 0 to 31 */
    static const size_t streams[] = {0, 1, 2, 32};
    size_t file_len, i;

    if (count == 3 || count == 4) {
        const uint8_t *file = whole_file(words[1], &file_len);
        return list(file, file_len, strtoull(words[2], NULL, 16), count == 4 ? strtoull(words[3], NULL, 10) : 0);
    }
    if (count != 1) {
        fprintf(stderr, "unit [FILE POSITION [STREAM]]\n");
        return 2;
    }
    for (i = 0; i < sizeof streams / sizeof streams[0]; i++)
        list(own, sizeof own, 0, streams[i]);
    for (i = 0; i < sizeof streams / sizeof streams[0]; i++)
        paint(index_text, sizeof index_text - 1, 0, streams[i]);
    /* the title has one cue, so the next is refused */
    paint(index_text, sizeof index_text - 1, 1, 0);
    /* an empty index is one cue at the front of the file, in greys */
    paint(NULL, 0, 0, 0);
    paint(NULL, 0, 1, 0);
    table(index_text, sizeof index_text - 1);
    table(table_text, sizeof table_text - 1);
    /* no cue of it is stored, also not the first */
    table(large_text, sizeof large_text - 1);
    return 0;
}
