/* Finds the units of titles, those of stream 0, or times the joining of one. */
#define _POSIX_C_SOURCE 200809L
#include <stdio.h>
#include <stdlib.h>
#include <string.h>
#include <time.h>

#include "vobsub.h"

enum { STREAM = 0, UNIT = 65535, SECTOR = 2048, HEAD = 14 + 6 + 3 + 1, TURNS = 2000, RUNS = 7 };

static uint8_t scratch[65536], copy[65536];

static uint8_t *whole_file(const char *folder, const char *name, size_t *length)
{
    char path[4096];
    uint8_t *bytes = NULL;
    size_t room = 0;
    FILE *file;
    snprintf(path, sizeof path, "%s/%s", folder, name);
    file = fopen(path, "rb");
    if (file == NULL) {
        perror(path);
        exit(2);
    }
    *length = 0;
    do {
        room += 1 << 20;
        bytes = realloc(bytes, room);
        if (bytes == NULL)
            exit(2);
        *length += fread(bytes + *length, 1, room - *length - 1, file);
    } while (*length == room - 1);
    fclose(file);
    bytes[*length] = 0;
    return bytes;
}

/* the units at the positions that title.idx names; 1 where one is refused or not as long as its first word says */
static int title(const char *folder)
{
    size_t file_len, text_len, length, cues = 0, packets = 0;
    uint8_t *file = whole_file(folder, "title.sub", &file_len);
    char *text = (char *)whole_file(folder, "title.idx", &text_len), *at = text;
    int bad = 0;
    while ((at = strstr(at, "filepos:")) != NULL) {
        size_t position = strtoull(at + 8, &at, 16);
        uint8_t joined, refusal = vobsub_extract_spu(file, file_len, position, STREAM, scratch, sizeof scratch, &length, &joined);
        const uint8_t *unit = refusal == 0 && joined ? scratch : file + position;
        if (refusal != 0)
            printf("cue %zu at %zX: refused %u\n", cues, position, refusal);
        if (refusal != 0 || length < 2 || length != (size_t)unit[0] * 256 + unit[1])
            bad = 1;
        else
            packets += joined;
        cues++;
    }
    printf("%zu cues, %zu of them in packets, %s\n", cues, packets, bad ? "NOT all as long as they say" : "each as long as its first word says");
    free(file);
    free(text);
    return bad;
}

static double now(void)
{
    struct timespec t;
    clock_gettime(CLOCK_MONOTONIC, &t);
    return (double)t.tv_sec + (double)t.tv_nsec * 1e-9;
}

/* the longest unit in sectors of a pack and a private_stream_1 packet each; gives the file's length */
static size_t sectors(uint8_t *file)
{
    static const uint8_t pack[14] = {0, 0, 1, 0xBA, 0x44, 0, 4, 0, 4, 1, 1, 0x89, 0xC3, 0xF8};
    size_t done = 0, at = 0;
    while (done < UNIT) {
        size_t part = UNIT - done < SECTOR - HEAD ? UNIT - done : SECTOR - HEAD, i;
        const uint8_t head[10] = {0, 0, 1, 0xBD, (uint8_t)((part + 4) / 256), (uint8_t)((part + 4) % 256), 0x80, 0, 0, 0x20 + STREAM};
        memcpy(file + at, pack, sizeof pack);
        memcpy(file + at + sizeof pack, head, sizeof head);
        at += HEAD;
        for (i = 0; i < part; i++)
            file[at + i] = done + i < 2 ? 0xFF : (uint8_t)((done + i) % 251);
        at += part;
        done += part;
    }
    return at;
}

static void timed(void)
{
    static uint8_t file[2 * UNIT];
    size_t file_len = sectors(file), length, run, turn;
    uint8_t joined;
    for (run = 0; run < RUNS; run++) {
        double start = now(), middle, end;
        for (turn = 0; turn < TURNS; turn++)
            if (vobsub_extract_spu(file, file_len, 0, STREAM, scratch, sizeof scratch, &length, &joined) != 0 || length != UNIT)
                exit(1);
        middle = now();
        for (turn = 0; turn < TURNS; turn++) {
            memcpy(copy, file, UNIT);
            __asm__ volatile("" : : "r"(copy) : "memory");
        }
        end = now();
        printf("joined %.2f GB/s, plain copy %.2f GB/s\n", (double)TURNS * UNIT / (middle - start) * 1e-9, (double)TURNS * UNIT / (end - middle) * 1e-9);
    }
}

int main(int count, char **words)
{
    int i, bad = 0;
    if (count == 1)
        timed();
    for (i = 1; i < count; i++)
        bad |= title(words[i]);
    return bad;
}
