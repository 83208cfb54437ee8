/* Calls the functions whose stack the header names, each in a thread with a stack of its own, and prints what they gave and how much of that
   stack was written to below the frame of the function that calls them, whose own bytes there count too. Ends with 1 where a refusal is not the
   expected one, or where more is taken than the header says. */
#define _POSIX_C_SOURCE 200809L
#include <pthread.h>
#include <stdio.h>
#include <stdlib.h>
#include <string.h>

#include "vobsub.h"

enum { STACK = 512 * 1024, MARK = 0xA5, LONG = 16 * 1024 * 1024, BAND = 4 + 15 * 6, MOST = 32 };

/* a picture whose pixels are a code each, and the bytes of each of its two fields: more than 8192, so that the most room is made for codes */
enum { WIDTH = 16, HEIGHT = 2200, LONG_FIELD = HEIGHT / 2 * WIDTH / 2 };

/* what the header says, in KiB; the last is what a thread needs beside the others */
enum { PAYLOAD = 4, FIELD = 129, UNIT = 263, CUE = 264, BESIDE = 8 };

static const char text[] = "timestamp: 0:0:1, filepos: 0";
static const uint8_t field[] = {0, 1, 0, 2};
static uint8_t payload[LONG], unit[65535], file[65535], scratch[65535], pixels[WIDTH * HEIGHT], canvas[4 * WIDTH * HEIGHT], refusal;
static uint16_t bands[VOBSUB_BANDS];
static size_t payload_len, unit_len, file_len, count, codes, clipped, numbers[VOBSUB_NUMBERS];
static uint64_t shown[VOBSUB_SHOWN_NUMBERS];
static int64_t times[VOBSUB_TIMES];

/* where the frame of the function stands that is run */
static unsigned char *frame;

static void *nothing(void *unused)
{
    frame = __builtin_frame_address(0);
    return unused;
}

static void *read_payload(void *unused)
{
    frame = __builtin_frame_address(0);
    refusal = vobsub_parse_chg_colcon_payload(payload, payload_len, bands, &count);
    return unused;
}

static void *decode_field(void *unused)
{
    frame = __builtin_frame_address(0);
    refusal = vobsub_decode_rle_field(field, sizeof field, 4, 4, 0, pixels, sizeof pixels, &codes, &clipped);
    return unused;
}

static void *decode_long_field(void *unused)
{
    frame = __builtin_frame_address(0);
    refusal = vobsub_decode_rle_field(unit + 4, LONG_FIELD, WIDTH, HEIGHT, 0, pixels, sizeof pixels, &codes, &clipped);
    return unused;
}

static void *decode_unit(void *unused)
{
    frame = __builtin_frame_address(0);
    refusal = vobsub_parse_and_decode_spu(unit, unit_len, pixels, sizeof pixels, bands, numbers);
    return unused;
}

static void *decode_cue(void *unused)
{
    frame = __builtin_frame_address(0);
    refusal = vobsub_decode_cue((const uint8_t *)text, sizeof text - 1, file, file_len, 0, 0, scratch, sizeof scratch,
                                pixels, sizeof pixels, canvas, sizeof canvas, times, shown);
    return unused;
}

/* runs a function in a thread, and gives the bytes of its stack that were written to, and those of them below the function's frame; it calls no
   memset */
static size_t run(void *(*function)(void *), size_t *below)
{
    pthread_t thread;
    pthread_attr_t attr;
    unsigned char *stack = aligned_alloc(STACK, STACK);
    volatile unsigned char *marked = stack;
    size_t i;
    if (stack == NULL || pthread_attr_init(&attr) != 0)
        exit(2);
    for (i = 0; i < STACK; i++)
        marked[i] = MARK;
    if (pthread_attr_setstack(&attr, stack, STACK) != 0)
        exit(2);
    if (pthread_create(&thread, &attr, function, NULL) != 0 || pthread_join(thread, NULL) != 0)
        exit(2);
    for (i = 0; i < STACK && marked[i] == MARK; i++)
        ;
    *below = (size_t)(frame - stack) - i;
    free(stack);
    return STACK - i;
}

/* ends the program unless a function gives that refusal and takes so many KiB at most */
static void take(const char *name, void *(*function)(void *), uint8_t expected, size_t kib)
{
    size_t used;
    run(function, &used);
    printf("%s: refusal %u, %zu bytes of stack\n", name, refusal, used);
    if (refusal != expected || used > kib * 1024)
        exit(1);
}

/* that many bands of 15 entries; gives the bytes that they take */
static size_t put_bands(uint8_t *out, size_t many)
{
    size_t i, n;
    memset(out, 0, many * BAND);
    for (n = 0; n < many; n++) {
        out[n * BAND + 2] = 0xF0;
        for (i = 0; i < 15; i++)
            out[n * BAND + 4 + 6 * i + 1] = (uint8_t)i;
    }
    return many * BAND;
}

/* a file with the unit in a packet */
static void put_file(void)
{
    static const uint8_t packet[] = {0, 0, 1, 0xBD, 0, 0, 0x80, 0, 0, 0x20};
    memcpy(file, packet, sizeof packet);
    file[4] = (uint8_t)((unit_len + 4) / 256);
    file[5] = (uint8_t)(unit_len + 4);
    memcpy(file + sizeof packet, unit, unit_len);
    file_len = sizeof packet + unit_len;
}

/* a unit with those two long fields, without bands */
static void put_long_unit(void)
{
    static const uint8_t area[] = {0x03, 0x01, 0x32, 0x04, 0x0F, 0xFF, 0x05, 0, 0, WIDTH - 1, 0, (HEIGHT - 1) / 256, (HEIGHT - 1) % 256, 0x06, 0, 4};
    size_t bottom = 4 + LONG_FIELD, control = bottom + LONG_FIELD, at = control + 4;
    unit[2] = unit[control + 2] = (uint8_t)(control / 256);
    unit[3] = unit[control + 3] = (uint8_t)control;
    memset(unit + 4, 0x55, 2 * LONG_FIELD);
    unit[control] = unit[control + 1] = 0;
    memcpy(unit + at, area, sizeof area);
    at += sizeof area;
    unit[at] = (uint8_t)(bottom / 256);
    unit[at + 1] = (uint8_t)bottom;
    unit[at + 2] = 0x01;
    unit[at + 3] = 0xFF;
    unit_len = at + 4;
    unit[0] = (uint8_t)(unit_len / 256);
    unit[1] = (uint8_t)unit_len;
    put_file();
}

/* a unit of four by four pixels with that many bands of 15 entries and its first field at that place */
static void put_unit(size_t many, uint8_t top)
{
    static const uint8_t front[] = {0, 0, 0, 12, 0, 1, 0, 2, 0, 3, 0, 0, 0, 0, 0, 12, 0x03, 0x01, 0x32, 0x04, 0x0F, 0xFF,
                                    0x05, 0, 0, 3, 0, 0, 3, 0x06, 0, 0, 0, 8, 0x01, 0x07};
    size_t size = many * BAND + 2, at = sizeof front;
    memcpy(unit, front, at);
    unit[31] = top;
    unit[at] = (uint8_t)(size / 256);
    unit[at + 1] = (uint8_t)size;
    unit_len = at + 2 + put_bands(unit + at + 2, many);
    unit[0] = (uint8_t)(unit_len / 256);
    unit[1] = (uint8_t)unit_len;
    put_file();
}

int main(void)
{
    size_t below, bare = run(nothing, &below), first = run(decode_field, &below) - bare;

    /* where a call of memset or memcpy is the program's first, the loader finds the function then, on the same stack */
    printf("a thread that calls nothing: %zu bytes of stack\n", bare);
    printf("field, with the program's first call of memset: %zu bytes of stack\n", first);
    if (bare + first > (FIELD + BESIDE) * 1024)
        return 1;
    take("field", decode_field, 0, FIELD);

    put_unit(MOST, 4);
    take("unit, 32 bands of 15 entries", decode_unit, 0, UNIT);
    take("cue, 32 bands of 15 entries", decode_cue, 0, CUE);
    put_unit(MOST, 12);
    take("unit, no bytes in its first field", decode_unit, 26, UNIT);
    take("cue, no bytes in its first field", decode_cue, 26, CUE);
    put_long_unit();
    take("field, 8,800 bytes", decode_long_field, 0, FIELD);
    take("unit, fields of 8,800 bytes", decode_unit, 0, UNIT);
    take("cue, fields of 8,800 bytes", decode_cue, 0, CUE);
    put_unit(MOST + 1, 4);
    take("unit, 33 bands of 15 entries", decode_unit, 34, UNIT);
    take("cue, 33 bands of 15 entries", decode_cue, 34, CUE);

    payload_len = put_bands(payload, MOST);
    take("payload, 32 bands of 15 entries", read_payload, 0, PAYLOAD);
    payload_len = put_bands(payload, MOST + 1);
    take("payload, 33 bands of 15 entries", read_payload, 34, PAYLOAD);
    /* every four bytes a header: lines 0 to 0, no entry */
    memset(payload, 0, payload_len);
    payload_len = 4 * MOST;
    take("payload, 32 bands without entries", read_payload, 0, PAYLOAD);
    /* read to its end, as no list would come before too many bands: the stack does not grow with it */
    payload_len = LONG;
    take("payload, 16 MiB of headers", read_payload, 34, PAYLOAD);
    return 0;
}
