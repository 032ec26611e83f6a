/* Makes masters of disks of every size, and holds them to what include/fielbmaru.h says: refusals first, then the head, the tables, every
   entry, and every sector read back. */
#include <stdio.h>
#include <string.h>

#include "fielbmaru.h"

_Static_assert(FIELBMARU_G64_BYTES(35) == 278234, "a disk of 35 tracks");
_Static_assert(FIELBMARU_G64_BYTES(42) == FIELBMARU_G64_MOST, "the longest master is of 42 tracks");

static int failed;

#define CHECK(x) do { if (!(x)) { printf("%s:%d: not so: %s\n", __FILE__, __LINE__, #x); failed++; } } while (0)

enum { SECTORS_MOST = 802, SPARE = 100, BAM = 256 * 357, HALF_TRACKS = 84, OFFSETS = 12, SPEEDS = 348, HEAD = 684, ENTRY = 7930 };

static uint8_t d64[257 * SECTORS_MOST + 1], out[FIELBMARU_G64_MOST + SPARE], ring[7692];

static int all(const uint8_t *bytes, size_t n, uint8_t value)
{
    while (n > 0)
        if (bytes[--n] != value)
            return 0;
    return 1;
}

static size_t sectors_to(unsigned tracks)
{
    size_t n = 0;
    for (unsigned t = 1; t <= tracks; t++)
        n += FIELBMARU_SECTORS(t);
    return n;
}

/* A disk: its sectors, and behind them error bytes of every kind, if it has them; its length. */
static size_t disk(unsigned tracks, int errors)
{
    static const uint8_t codes[] = {1, 2, 3, 4, 5, 9, 0x0B, 0, 6, 0x0F, 0xFF};
    size_t sectors = sectors_to(tracks);
    for (size_t i = 0; i < 256 * sectors; i++)
        d64[i] = (uint8_t)(i * 7 + i / 256 + tracks);
    for (size_t i = 0; i < sectors; i++)
        d64[256 * sectors + i] = codes[(i + i / 11) % sizeof codes];
    d64[BAM + 0xA2] = 0x4D, d64[BAM + 0xA3] = 0x32;
    return (errors ? 257 : 256) * sectors;
}

static int spoils(uint8_t code)
{
    return code == 2 || code == 3 || code == 4 || code == 5 || code == 9;
}

static size_t number(const uint8_t *at, int bytes)
{
    size_t n = 0;
    while (bytes-- > 0)
        n = n * 256 + at[bytes];
    return n;
}

/* Refused, for the size before the room, all is as it came. */
static void refusals(unsigned tracks, size_t length)
{
    size_t size = FIELBMARU_G64_BYTES(tracks);
    uint64_t written = 77;
    memset(out, 0xAA, sizeof out);
    CHECK(fielbmaru_d64_to_g64(d64, length - 1, out, sizeof out, &written) == FIELBMARU_WRONG_IMAGE);
    CHECK(fielbmaru_d64_to_g64(d64, length + 1, out, sizeof out, &written) == FIELBMARU_WRONG_IMAGE);
    CHECK(fielbmaru_d64_to_g64(d64, length - 1, out, 0, &written) == FIELBMARU_WRONG_IMAGE);
    CHECK(fielbmaru_d64_to_g64(d64, 0, out, sizeof out, &written) == FIELBMARU_WRONG_IMAGE);
    CHECK(fielbmaru_d64_to_g64(d64, length, out, size - 1, &written) == FIELBMARU_NO_ROOM);
    CHECK(fielbmaru_d64_to_g64(d64, length, out, 0, &written) == FIELBMARU_NO_ROOM);
    CHECK(written == 77 && all(out, sizeof out, 0xAA));
}

static void head(unsigned tracks)
{
    CHECK(memcmp(out, "GCR-1541\0\x54\xF8\x1E", 12) == 0);
    for (unsigned half = 0; half < HALF_TRACKS; half++) {
        unsigned track = half / 2 + 1;
        int present = half % 2 == 0 && track <= tracks;
        CHECK(number(out + OFFSETS + 4 * half, 4) == (present ? HEAD + ENTRY * (track - 1) : 0));
        CHECK(number(out + SPEEDS + 4 * half, 4) == (present ? FIELBMARU_BY_ZONE(track, 3, 2, 1, 0) : 0));
    }
}

/* An entry: the length, the track as it is built, zeros; and its sectors, each as it stands in the D64, but for those that are spoiled. */
static void entry(unsigned track, const uint8_t *codes)
{
    size_t before = sectors_to(track - 1), bytes = FIELBMARU_TRACK_BYTES(track), count = FIELBMARU_SECTORS(track);
    const uint8_t *at = out + HEAD + ENTRY * (track - 1), *payloads = d64 + 256 * before;
    uint8_t back[256];
    CHECK(number(at, 2) == bytes);
    CHECK(fielbmaru_build_track(track, payloads, 256 * count, codes ? codes + before : d64, codes ? count : 0, 0x4D, 0x32, ring,
                                sizeof ring) == FIELBMARU_DONE);
    CHECK(memcmp(at + 2, ring, bytes) == 0 && all(at + 2 + bytes, ENTRY - 2 - bytes, 0));
    for (size_t s = 0; s < count; s++) {
        uint64_t answer = fielbmaru_read_unique(at + 2, bytes, track, s, back);
        if (codes && spoils(codes[before + s]))
            CHECK(answer == FIELBMARU_NO_RECORD);
        else
            CHECK(answer == FIELBMARU_DONE && memcmp(back, payloads + 256 * s, 256) == 0);
    }
}

static void master(unsigned tracks, int errors)
{
    static uint8_t kept[sizeof d64];
    size_t length = disk(tracks, errors), size = FIELBMARU_G64_BYTES(tracks);
    uint64_t written = 77;
    refusals(tracks, length);
    memcpy(kept, d64, sizeof d64);
    CHECK(fielbmaru_d64_to_g64(d64, length, out, size, &written) == FIELBMARU_DONE && written == size);
    CHECK(all(out + size, sizeof out - size, 0xAA));
    memset(out, 0xAA, sizeof out);
    CHECK(fielbmaru_d64_to_g64(d64, length, out, sizeof out, &written) == FIELBMARU_DONE && written == size);
    CHECK(all(out + size, sizeof out - size, 0xAA) && memcmp(kept, d64, sizeof d64) == 0);
    head(tracks);
    for (unsigned track = 1; track <= tracks; track++)
        entry(track, errors ? d64 + 256 * sectors_to(tracks) : NULL);
}

/* Bytes that were worked out by hand: the first two tracks and the eighteenth, and the first track's length. */
static void by_hand(void)
{
    CHECK(memcmp(out + 12, "\xAC\x02\x00\x00", 4) == 0);
    CHECK(memcmp(out + 20, "\xA6\x21\x00\x00", 4) == 0);
    CHECK(memcmp(out + 148, "\x46\x11\x02\x00", 4) == 0);
    CHECK(memcmp(out + 348, "\x03\x00\x00\x00", 4) == 0);
    CHECK(memcmp(out + 684, "\x0C\x1E", 2) == 0);
}

int main(void)
{
    for (unsigned tracks = 35; tracks <= 42; tracks++)
        for (int errors = 0; errors < 2; errors++) {
            master(tracks, errors);
            by_hand();
        }
    printf(failed ? "%d checks of masters failed\n" : "all checks of masters hold\n", failed);
    return failed != 0;
}
