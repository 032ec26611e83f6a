/* A track is built, read, damaged, and read again. */
#include <stdio.h>
#include <string.h>

#include "fielbmaru.h"

enum { TRACK = 18, SECTORS = FIELBMARU_SECTORS(TRACK), BYTES = FIELBMARU_TRACK_BYTES(TRACK) };

static uint8_t ring[BYTES];
static uint8_t payloads[256 * SECTORS];
static uint8_t read_back[256 * SECTORS];
static uint8_t statuses[SECTORS];

/* Reads the whole track from a start bit on, and says which sectors are as they were built, which are missing, with their
   status, and where the first bad symbol is. */
static void show(const char *what, uint64_t start_bit)
{
    uint64_t found = 0, block = 0, symbol = 0, bit = 0;
    uint64_t refusal = fielbmaru_decode_track(ring, sizeof ring, TRACK, start_bit, read_back, sizeof read_back, statuses,
                                              sizeof statuses, &found, &block, &symbol, &bit);
    if (refusal != FIELBMARU_DONE) {
        printf("%s: refused %llu\n", what, (unsigned long long)refusal);
        return;
    }
    unsigned same = 0;
    for (unsigned s = 0; s < SECTORS; s++)
        if (statuses[s] == FIELBMARU_HANDED_OUT && memcmp(read_back + 256 * s, payloads + 256 * s, 256) == 0)
            same++;
    printf("%s: %llu of %u sectors, %u of them as built; missing:", what, (unsigned long long)found, (unsigned)SECTORS, same);
    for (unsigned s = 0; s < SECTORS; s++)
        if (statuses[s] != FIELBMARU_HANDED_OUT)
            printf(" %u (%u)", s, (unsigned)statuses[s]);
    if (block != FIELBMARU_NO_BAD_SYMBOL)
        printf("; first bad symbol: %llu of a %s, at bit %llu", (unsigned long long)symbol,
               block == FIELBMARU_BAD_HEADER ? "header" : "data block", (unsigned long long)bit);
    printf("\n");
}

int main(void)
{
    uint8_t sector[256];
    uint8_t codes[SECTORS];
    uint64_t refusal;

    for (unsigned i = 0; i < sizeof payloads; i++)
        payloads[i] = (uint8_t)(i / 256 + 7 * i);

    /* All sectors good, but for sector 3, whose data checksum is false (error code 5). */
    memset(codes, 1, sizeof codes);
    codes[3] = 5;
    refusal = fielbmaru_build_track(TRACK, payloads, sizeof payloads, codes, sizeof codes, 0x41, 0x30, ring, sizeof ring);
    if (refusal != FIELBMARU_DONE) {
        printf("not built: refused %llu\n", (unsigned long long)refusal);
        return 1;
    }
    show("built", 0);
    show("from bit 31337", 31337);

    /* A scratch over 400 bytes. */
    memset(ring + 1000, 0, 400);
    show("scratched", 0);

    /* One sector of the scratched ring, and one that is left. */
    refusal = fielbmaru_read_unique(ring, sizeof ring, TRACK, 3, sector);
    printf("sector 3: %s\n", refusal == FIELBMARU_NO_RECORD ? "no record" : "not as expected");
    refusal = fielbmaru_read_unique(ring, sizeof ring, TRACK, 10, sector);
    printf("sector 10: answer %llu, first byte %02X\n", (unsigned long long)refusal, sector[0]);

    /* It is replaced on the ring, and read again. */
    memset(sector, 0xA5, sizeof sector);
    refusal = fielbmaru_replace_unique(ring, sizeof ring, TRACK, 10, sector);
    memset(sector, 0, sizeof sector);
    if (refusal == FIELBMARU_DONE)
        refusal = fielbmaru_read_unique(ring, sizeof ring, TRACK, 10, sector);
    printf("sector 10 replaced: answer %llu, first byte %02X\n", (unsigned long long)refusal, sector[0]);
    return 0;
}
