/* Calls each function as C does, and holds the answers and the lent bytes to what include/fielbmaru.h says of them. */
#include <stdio.h>
#include <stdlib.h>
#include <string.h>

#include "fielbmaru.h"

static int failed;

#define CHECK(x) do { if (!(x)) { printf("%s:%d: not so: %s\n", __FILE__, __LINE__, #x); failed++; } } while (0)

static uint8_t tracks[36][7692];  /* tracks 1 to 35, all sectors 0xE5 but for the directory */
static const uint8_t none[1];

static int all(const uint8_t *bytes, size_t n, uint8_t value)
{
    while (n > 0)
        if (bytes[--n] != value)
            return 0;
    return 1;
}

/* Blocks of every length to a data block's: coded and decoded in just the room they need, and refused in a byte less. */
static void blocks(void)
{
    static uint8_t bytes[261], code[326], back[261];
    for (unsigned i = 0; i < sizeof bytes; i++)
        bytes[i] = 7 * i + i / 256;
    for (size_t n = 0; n <= 260; n++) {
        size_t coded = FIELBMARU_CODE_BYTES(n), decoded = FIELBMARU_BLOCK_BYTES(coded);
        uint64_t symbol = 777;
        memset(code, 0xAA, sizeof code);
        memset(back, 0xAA, sizeof back);
        if (n > 0) {
            CHECK(fielbmaru_encode_block(bytes, n, code, coded - 1) == FIELBMARU_NO_ROOM && all(code, sizeof code, 0xAA));
            CHECK(fielbmaru_encode_block(bytes, n, code, coded) == FIELBMARU_DONE);
            CHECK(fielbmaru_decode_block(code, coded, back, decoded - 1, &symbol) == FIELBMARU_NO_ROOM);
        }
        CHECK(fielbmaru_encode_block(bytes, n, code, sizeof code) == FIELBMARU_DONE);
        CHECK(all(code + coded, sizeof code - coded, 0xAA) && all(back, sizeof back, 0xAA));
        CHECK(fielbmaru_decode_block(code, coded, back, sizeof back, &symbol) == FIELBMARU_DONE);
        CHECK(memcmp(back, bytes, n) == 0 && all(back + n, decoded - n, 0));
        CHECK(all(back + decoded, sizeof back - decoded, 0xAA) && symbol == 777);
    }
}

/* The symbols of a header and of a data block, each zeroed: the index tells which it was, and nothing is written. */
static void bad_symbols(void)
{
    static const uint8_t zeros[260], expected[] = {0x52, 0x94, 0xA5, 0x29, 0x4A};
    static uint8_t code[330], bad[330], back[260];
    static const size_t lengths[] = {8, 260};
    for (unsigned which = 0; which < 2; which++) {
        size_t n = lengths[which], coded = FIELBMARU_CODE_BYTES(n);
        uint64_t symbol = 777;
        CHECK(fielbmaru_encode_block(zeros, n, code, sizeof code) == FIELBMARU_DONE && memcmp(code, expected, 5) == 0);
        memset(back, 0xAA, sizeof back);
        for (size_t k = 0; k < 2 * n; k++) {
            memcpy(bad, code, sizeof bad);
            for (size_t bit = 5 * k; bit < 5 * k + 5; bit++)
                bad[bit / 8] &= ~(0x80 >> bit % 8);
            symbol = 777;
            CHECK(fielbmaru_decode_block(bad, coded, back, n, &symbol) == FIELBMARU_ILLEGAL_SYMBOL && symbol == k);
            /* the first of several; and room is asked for first */
            memset(bad + coded - 5, 0, 5);
            CHECK(fielbmaru_decode_block(bad, coded, back, n, &symbol) == FIELBMARU_ILLEGAL_SYMBOL);
            CHECK(symbol == (k < 2 * n - 8 ? k : 2 * n - 8));
            symbol = 777;
            CHECK(fielbmaru_decode_block(bad, coded, back, n - 1, &symbol) == FIELBMARU_NO_ROOM && symbol == 777);
        }
        CHECK(all(back, sizeof back, 0xAA));
        /* up to four bytes after the groups are not looked at */
        memset(code + coded, 0, 4);
        CHECK(fielbmaru_decode_block(code, coded + 4, back, n, &symbol) == FIELBMARU_DONE && all(back, n, 0));
        CHECK(fielbmaru_decode_block(code, coded + 4, back, n, &symbol) == FIELBMARU_DONE && symbol == 777);
    }
}

/* The sizes of the header, for every track byte: the room that the header tells is enough, and a byte less is refused. */
/* The three numbers of the first bad symbol, lent to a scan. */
static uint64_t bad[3];

#define BAD bad, bad + 1, bad + 2

static int told(uint64_t block, uint64_t symbol, uint64_t bit)
{
    return bad[0] == block && bad[1] == symbol && bad[2] == bit;
}

static void sizes(void)
{
    static uint8_t ring[7692], payloads[256 * 21], statuses[21];
    for (unsigned t = 0; t < 256; t++) {
        size_t bytes = FIELBMARU_TRACK_BYTES(t), sectors = FIELBMARU_SECTORS(t);
        uint64_t found = 99;
        bad[0] = bad[1] = bad[2] = 99;
        memset(ring, 0xAA, sizeof ring);
        CHECK(fielbmaru_build_track(t, none, 0, none, 0, 1, 2, ring, bytes - 1) == FIELBMARU_NO_ROOM);
        CHECK(all(ring, sizeof ring, 0xAA));
        CHECK(fielbmaru_build_track(t, none, 0, none, 0, 1, 2, ring, bytes) == FIELBMARU_DONE);
        CHECK(all(ring + bytes, sizeof ring - bytes, 0xAA));
        CHECK(fielbmaru_decode_track(ring, bytes, t, 0, payloads, 256 * sectors - 1, statuses, sectors, &found, BAD)
              == FIELBMARU_NO_ROOM);
        CHECK(fielbmaru_decode_track(ring, bytes, t, 0, payloads, 256 * sectors, statuses, sectors - 1, &found, BAD)
              == FIELBMARU_NO_ROOM);
        CHECK(found == 99 && told(99, 99, 99));
        CHECK(fielbmaru_decode_track(ring, bytes, t, t, payloads, 256 * sectors, statuses, sectors, &found, BAD)
              == FIELBMARU_DONE);
        CHECK(found == sectors && all(statuses, sectors, FIELBMARU_HANDED_OUT) && all(payloads, 256 * sectors, 0));
        CHECK(told(FIELBMARU_NO_BAD_SYMBOL, 0, 0));
    }
}

/* Each error code is read back as its status; 3 as 2, unless no sector has a sync. */
static void statuses(void)
{
    static uint8_t ring[7142], payloads[256 * 19], list[20];
    static const uint8_t codes[] = {1, 2, 3, 4, 5, 9, 11};
    static const uint8_t expected[] = {FIELBMARU_HANDED_OUT, FIELBMARU_NO_HEADER,    FIELBMARU_NO_HEADER, FIELBMARU_NO_DATA,
                                       FIELBMARU_FALSE_DATA, FIELBMARU_FALSE_HEADER, FIELBMARU_HANDED_OUT};
    uint8_t bare[19];
    uint64_t found = 99;
    memset(list, 0xAA, sizeof list);
    CHECK(fielbmaru_build_track(18, none, 0, codes, sizeof codes, 1, 2, ring, sizeof ring) == FIELBMARU_DONE);
    CHECK(fielbmaru_decode_track(ring, sizeof ring, 18, 777, payloads, sizeof payloads, list, 20, &found, BAD)
          == FIELBMARU_DONE);
    CHECK(found == 19 - 5 && memcmp(list, expected, sizeof expected) == 0 && all(list + 7, 12, FIELBMARU_HANDED_OUT));
    CHECK(list[19] == 0xAA);
    memset(bare, 3, sizeof bare);
    CHECK(fielbmaru_build_track(18, none, 0, bare, sizeof bare, 1, 2, ring, sizeof ring) == FIELBMARU_DONE);
    CHECK(fielbmaru_decode_track(ring, sizeof ring, 18, 777, payloads, sizeof payloads, list, 20, &found, BAD)
          == FIELBMARU_DONE);
    CHECK(found == 0 && all(list, 19, FIELBMARU_NO_SYNC));
}

/* Bits forced to zero, and the first symbol outside the table that is then met. */
static void forced(uint8_t *ring, unsigned from, unsigned count)
{
    for (unsigned bit = from; bit < from + count; bit++)
        ring[bit / 8] &= (uint8_t)~(0x80 >> bit % 8);
}

static void symbols(void)
{
    static uint8_t whole[7692], ring[7692], payloads[256 * 21], list[21];
    static const struct { unsigned from, start, block, symbol, bit; } known[] = {
        {100, 0, FIELBMARU_BAD_HEADER, 12, 100},
        {98, 0, FIELBMARU_BAD_HEADER, 11, 95},
        {267, 0, FIELBMARU_BAD_DATA, 7, 267},
        {267, 60, FIELBMARU_BAD_HEADER, 7, 267},  /* the data block is met as a header */
    };
    uint64_t found;
    CHECK(fielbmaru_build_track(1, none, 0, none, 0, 0, 0, whole, sizeof whole) == FIELBMARU_DONE);
    for (unsigned i = 0; i < sizeof known / sizeof known[0]; i++) {
        memcpy(ring, whole, sizeof ring);
        forced(ring, known[i].from, 5);
        CHECK(fielbmaru_decode_track(ring, sizeof ring, 1, known[i].start, payloads, sizeof payloads, list, 21, &found, BAD)
              == FIELBMARU_DONE);
        CHECK(told(known[i].block, known[i].symbol, known[i].bit));
    }
    CHECK(fielbmaru_decode_track((const uint8_t *)"\xFF\xFE", 2, 1, 0, payloads, sizeof payloads, list, 21, &found, BAD)
          == FIELBMARU_DONE);
    CHECK(told(FIELBMARU_BAD_HEADER, 1, 4));
}

static void sectors(void)
{
    static uint8_t ring[7142], copy[7142], hello[256] = "hello", bye[256] = "bye", back[258], payload[255];
    memset(ring, 0xAA, sizeof ring);
    CHECK(fielbmaru_build_track(18, payload, 255, none, 0, 1, 2, ring, sizeof ring) == FIELBMARU_WRONG_SUM);
    CHECK(all(ring, sizeof ring, 0xAA));
    CHECK(fielbmaru_build_track(18, hello, 256, none, 0, 0x41, 0x30, ring, sizeof ring) == FIELBMARU_DONE);
    memset(back, 0xAA, sizeof back);
    CHECK(fielbmaru_read_unique(ring, 0, 18, 0, back + 1) == FIELBMARU_RING_EMPTY);
    CHECK(fielbmaru_read_unique(ring, sizeof ring, 18, 19, back + 1) == FIELBMARU_NO_RECORD);
    CHECK(fielbmaru_read_unique(ring, sizeof ring, 17, 0, back + 1) == FIELBMARU_NO_RECORD);
    CHECK(fielbmaru_read_consistent(ring, sizeof ring, 17, 0, back + 1) == FIELBMARU_NO_RECORD);
    CHECK(all(back, sizeof back, 0xAA));
    CHECK(fielbmaru_read_unique(ring, sizeof ring, 18, 0, back + 1) == FIELBMARU_DONE);
    CHECK(memcmp(back + 1, hello, 256) == 0 && back[0] == 0xAA && back[257] == 0xAA);
    CHECK(fielbmaru_read_consistent(ring, sizeof ring, 18, 1, back + 1) == FIELBMARU_DONE);
    CHECK(all(back + 1, 256, 0) && back[0] == 0xAA && back[257] == 0xAA);

    /* Replaced: only the 325 bytes of the data block differ, the first of which is byte 29. */
    memcpy(copy, ring, sizeof ring);
    CHECK(fielbmaru_replace_unique(ring, sizeof ring, 18, 30, bye) == FIELBMARU_NO_RECORD);
    CHECK(memcmp(copy, ring, sizeof ring) == 0);
    CHECK(fielbmaru_replace_unique(ring, sizeof ring, 18, 0, bye) == FIELBMARU_DONE);
    CHECK(memcmp(copy, ring, 29) == 0 && memcmp(copy + 29, ring + 29, 325) != 0);
    CHECK(memcmp(copy + 354, ring + 354, sizeof ring - 354) == 0);
    CHECK(fielbmaru_read_unique(ring, sizeof ring, 18, 0, back + 1) == FIELBMARU_DONE && memcmp(back + 1, bye, 256) == 0);
    CHECK(fielbmaru_replace_consistent(ring, sizeof ring, 18, 0, hello) == FIELBMARU_DONE);
    CHECK(memcmp(copy, ring, sizeof ring) == 0);

    /* The header's own example. */
    memset(ring + 60, 0, 8);
    memset(back, 0xAA, sizeof back);
    CHECK(fielbmaru_read_unique(ring, sizeof ring, 18, 0, back + 1) == FIELBMARU_NO_RECORD && all(back, sizeof back, 0xAA));
}

static void scan(void)
{
    static uint64_t rows[FIELBMARU_SCAN_ROWS + 1];
    static uint8_t payloads[FIELBMARU_SCAN_PAYLOADS + 1], ring[65536], five[256 * 5];
    static uint64_t count = 77;
    for (unsigned i = 0; i < sizeof five; i++)
        five[i] = 1 + i / 256;
    bad[0] = bad[1] = bad[2] = 99;
    memset(rows, 0xAA, sizeof rows);
    memset(payloads, 0xAA, sizeof payloads);
    CHECK(fielbmaru_build_track(31, five, sizeof five, none, 0, 1, 2, ring, sizeof ring) == FIELBMARU_DONE);
    CHECK(fielbmaru_scan(ring, 6250, 31, 0, rows, FIELBMARU_SCAN_ROWS - 1, payloads, FIELBMARU_SCAN_PAYLOADS, &count, BAD)
          == FIELBMARU_NO_ROOM);
    CHECK(fielbmaru_scan(ring, 6250, 31, 0, rows, FIELBMARU_SCAN_ROWS, payloads, FIELBMARU_SCAN_PAYLOADS - 1, &count, BAD)
          == FIELBMARU_NO_ROOM);
    CHECK(fielbmaru_scan(ring, 0, 31, 0, rows, FIELBMARU_SCAN_ROWS, payloads, FIELBMARU_SCAN_PAYLOADS, &count, BAD)
          == FIELBMARU_RING_EMPTY);
    CHECK(fielbmaru_scan(ring, 65536, 31, 0, rows, FIELBMARU_SCAN_ROWS, payloads, FIELBMARU_SCAN_PAYLOADS, &count, BAD)
          == FIELBMARU_RING_TOO_LONG);
    CHECK(count == 77 && told(99, 99, 99) && all((uint8_t *)rows, sizeof rows, 0xAA) && all(payloads, sizeof payloads, 0xAA));
    CHECK(fielbmaru_scan(ring, 6250, 31, 8 * 200, rows, FIELBMARU_SCAN_ROWS, payloads, FIELBMARU_SCAN_PAYLOADS, &count, BAD)
          == FIELBMARU_DONE);
    CHECK(count == 17 && told(FIELBMARU_NO_BAD_SYMBOL, 0, 0));
    for (unsigned i = 0; i < 17; i++) {
        unsigned s = (i + 1) % 17;  /* from byte 200 on the first header met is that of sector 1 */
        unsigned slot = s * 367 + (s < 11 ? s : 11) + (i == 16 ? 6250 : 0);
        CHECK(rows[2 * i] == s && rows[2 * i + 1] == 8 * (slot + 29));
        CHECK(all(payloads + 256 * i, 256, s < 5 ? 1 + s : 0));
    }
    CHECK(all((uint8_t *)(rows + 34), sizeof rows - 34 * sizeof rows[0], 0xAA));
    CHECK(all(payloads + 256 * 17, sizeof payloads - 256 * 17, 0xAA));
}

/* A disk: 18/0 has the sectors of track 1 free, and all of track 2 but sector 0; 18/1 is the directory, marked free as well. */
static void disk(uint8_t *bam, uint8_t *directory)
{
    memset(bam, 0, 256);
    memset(directory, 0xE5, 256);
    bam[0] = 18;
    bam[1] = 1;
    bam[4 + 1] = 0xFF, bam[4 + 2] = 0xFF, bam[4 + 3] = 0x1F;
    bam[8 + 1] = 0xFE, bam[8 + 2] = 0xFF, bam[8 + 3] = 0xFF;
    bam[4 + 4 * 17 + 1] = 0x03;
    directory[0] = 0;
}

static void build_disk(void)
{
    static uint8_t payloads[256 * 21];
    for (unsigned t = 1; t <= 35; t++) {
        memset(payloads, 0xE5, sizeof payloads);
        if (t == 18)
            disk(payloads, payloads + 256);
        CHECK(fielbmaru_build_track(t, payloads, sizeof payloads, none, 0, 0x41, 0x30, tracks[t], sizeof tracks[t])
              == FIELBMARU_DONE);
    }
}

static void clear_d64(void)
{
    static uint8_t image[174848], copy[174848];
    uint64_t free_sectors = 5, changed = 6;
    CHECK(fielbmaru_clear_d64(image, sizeof image - 1, &free_sectors, &changed) == FIELBMARU_WRONG_IMAGE);
    CHECK(fielbmaru_clear_d64(image, sizeof image, &free_sectors, &changed) == FIELBMARU_WRONG_LINK);
    CHECK(free_sectors == 5 && changed == 6 && all(image, sizeof image, 0));
    memset(image, 0xE5, sizeof image);
    memset(image + 256 * 3, 0, 256);
    disk(image + 91392, image + 91648);
    memcpy(copy, image, sizeof image);
    CHECK(fielbmaru_clear_d64(image, sizeof image, &free_sectors, &changed) == FIELBMARU_DONE);
    CHECK(free_sectors == 41 && changed == 40);
    CHECK(all(image, 256 * 21, 0) && all(image + 256 * 22, 256 * 20, 0));
    CHECK(memcmp(image + 256 * 21, copy + 256 * 21, 256) == 0);
    CHECK(memcmp(image + 256 * 42, copy + 256 * 42, sizeof image - 256 * 42) == 0);
    CHECK(fielbmaru_clear_d64(image, sizeof image, &free_sectors, &changed) == FIELBMARU_DONE);
    CHECK(free_sectors == 41 && changed == 0);
}

static void clear_g64(void)
{
    enum { HEAD = 12 + 8 * 84, STEP = 2 + 7928 };
    static uint8_t image[HEAD + 35 * STEP];
    uint64_t free_sectors = 5, changed = 6;
    uint8_t back[256];
    CHECK(fielbmaru_clear_g64(image, sizeof image, &free_sectors, &changed) == FIELBMARU_WRONG_IMAGE);
    memcpy(image, "GCR-1541", 8);
    CHECK(fielbmaru_clear_g64(image, sizeof image, &free_sectors, &changed) == FIELBMARU_WRONG_ENTRIES);
    image[9] = 84;
    image[10] = 7928 % 256, image[11] = 7928 / 256;
    CHECK(fielbmaru_clear_g64(image, sizeof image, &free_sectors, &changed) == FIELBMARU_NO_DIRECTORY);
    CHECK(free_sectors == 5 && changed == 6);
    for (unsigned t = 1; t <= 35; t++) {
        unsigned place = HEAD + (t - 1) * STEP, length = FIELBMARU_TRACK_BYTES(t);
        uint8_t *offset = image + 12 + 8 * (t - 1);
        offset[0] = place, offset[1] = place >> 8, offset[2] = place >> 16;
        image[place] = length, image[place + 1] = length >> 8;
        memcpy(image + place + 2, tracks[t], length);
    }
    CHECK(fielbmaru_clear_g64(image, sizeof image, &free_sectors, &changed) == FIELBMARU_DONE);
    CHECK(free_sectors == 41 && changed == 41);
    CHECK(fielbmaru_read_unique(image + HEAD + 2, 7692, 1, 20, back) == FIELBMARU_DONE && all(back, 256, 0));
    CHECK(fielbmaru_read_unique(image + HEAD + STEP + 2, 7692, 2, 0, back) == FIELBMARU_DONE && all(back, 256, 0xE5));
}

static void nib(void)
{
    static uint64_t lengths[FIELBMARU_SLOTS];
    static uint8_t zones[FIELBMARU_SLOTS], rings[35 * 7692], image[FIELBMARU_NIB_HEAD + 35 * FIELBMARU_WINDOW + 1];
    static uint8_t before[FIELBMARU_WINDOW], back[256];
    uint64_t written = 9, at = 1, span = 2, zone = 3, free_sectors = 5, changed = 6;
    size_t sum = 0;
    for (unsigned t = 1; t <= 35; t++) {
        lengths[2 * (t - 1)] = FIELBMARU_TRACK_BYTES(t);
        zones[2 * (t - 1)] = FIELBMARU_BY_ZONE(t, 3, 2, 1, 0);
        memcpy(rings + sum, tracks[t], FIELBMARU_TRACK_BYTES(t));
        sum += FIELBMARU_TRACK_BYTES(t);
    }
    memset(image, 0xAA, sizeof image);
    CHECK(fielbmaru_encode_nib(lengths, 84, zones, 84, rings, sum - 1, image, sizeof image, &written) == FIELBMARU_WRONG_SUM);
    CHECK(fielbmaru_encode_nib(lengths, 0, zones, 84, rings, 0, image, sizeof image, &written) == FIELBMARU_NO_RING);
    CHECK(fielbmaru_encode_nib(lengths, 84, zones, 84, rings, sum, image, sizeof image - 2, &written) == FIELBMARU_NO_ROOM);
    CHECK(written == 9 && all(image, sizeof image, 0xAA));
    CHECK(fielbmaru_encode_nib(lengths, 84, zones, 84, rings, sum, image, sizeof image, &written) == FIELBMARU_DONE);
    CHECK(written == sizeof image - 1 && image[sizeof image - 1] == 0xAA);

    CHECK(fielbmaru_nib_slot(image, 255, 0, &at, &span, &zone) == FIELBMARU_WRONG_IMAGE);
    CHECK(fielbmaru_nib_slot(image, sizeof image, 84, &at, &span, &zone) == FIELBMARU_WRONG_ENTRIES);
    CHECK(at == 1 && span == 2 && zone == 3);
    CHECK(fielbmaru_nib_slot(image, sizeof image, 34, &at, &span, &zone) == FIELBMARU_DONE);
    CHECK(at == 256 + 17 * 8192 && span == 7142 && zone == 2);
    CHECK(fielbmaru_orbit(image + at, FIELBMARU_WINDOW, zone) == span && fielbmaru_orbit(image + at, 8191, zone) == 0);
    CHECK(memcmp(image + at, tracks[18], span) == 0);
    CHECK(fielbmaru_nib_slot(image, sizeof image, 1, &at, &span, &zone) == FIELBMARU_DONE && at == 0 && span == 0 && zone == 0);
    memset(before, 0, sizeof before);
    CHECK(fielbmaru_orbit(before, sizeof before, 0) == 6247);

    memcpy(before, image + 256 + 8192, sizeof before);
    CHECK(fielbmaru_clear_nib(image, 255, &free_sectors, &changed) == FIELBMARU_WRONG_IMAGE);
    CHECK(free_sectors == 5 && changed == 6);
    CHECK(fielbmaru_clear_nib(image, sizeof image, &free_sectors, &changed) == FIELBMARU_DONE);
    CHECK(free_sectors == 41 && changed == 41);
    CHECK(fielbmaru_read_consistent(image + 256, 8192, 1, 0, back) == FIELBMARU_DONE && all(back, 256, 0));
    CHECK(fielbmaru_read_consistent(image + 256 + 8192, 8192, 2, 0, back) == FIELBMARU_DONE && all(back, 256, 0xE5));
    CHECK(memcmp(before, image + 256 + 8192, 354) == 0 && memcmp(before, image + 256 + 8192, sizeof before) != 0);
}

int main(void)
{
    blocks();
    bad_symbols();
    sizes();
    statuses();
    symbols();
    sectors();
    scan();
    build_disk();
    clear_d64();
    clear_g64();
    nib();
    printf(failed ? "%d checks failed\n" : "all checks hold\n", failed);
    return failed != 0;
}
