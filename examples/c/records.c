/* Scans into an array of records, and holds it to the flat scan: the layout of a record first, then rings of every track, whole and
   scratched, from many start bits, and the refusals. */
#include <stdio.h>
#include <string.h>

#include "fielbmaru.h"

_Static_assert(sizeof(struct fielbmaru_record) == 272, "a record is 272 bytes");
_Static_assert(_Alignof(struct fielbmaru_record) == 8, "a record lies as its numbers do");
_Static_assert(offsetof(struct fielbmaru_record, sector) == 0, "the sector comes first");
_Static_assert(offsetof(struct fielbmaru_record, place) == 8, "then the place");
_Static_assert(offsetof(struct fielbmaru_record, payload) == 16, "then the payload");

static int failed;

#define CHECK(x) do { if (!(x)) { printf("%s:%d: not so: %s\n", __FILE__, __LINE__, #x); failed++; } } while (0)

enum { LENT = FIELBMARU_SCAN_RECORDS + 2 };

static struct fielbmaru_record records[LENT], untouched;
static const uint8_t none[1];
static uint64_t rows[FIELBMARU_SCAN_ROWS];
static uint8_t payloads[FIELBMARU_SCAN_PAYLOADS];

static void lend(void)
{
    memset(records, 0xAA, sizeof records);
    memset(&untouched, 0xAA, sizeof untouched);
}

static int as_lent(size_t from)
{
    for (size_t i = from; i < LENT; i++)
        if (memcmp(records + i, &untouched, sizeof untouched) != 0)
            return 0;
    return 1;
}

/* Both scans of a ring: the same answer, the same count, and record by record the same. */
static uint64_t both(const uint8_t *ring, size_t length, uint8_t track, uint64_t start)
{
    uint64_t flat = 77, count = 77, one[3] = {77, 77, 77}, two[3] = {78, 78, 78};
    lend();
    CHECK(fielbmaru_scan(ring, length, track, start, rows, FIELBMARU_SCAN_ROWS, payloads, FIELBMARU_SCAN_PAYLOADS, &flat, one, one + 1,
                         one + 2) == FIELBMARU_DONE);
    CHECK(fielbmaru_scan_records(ring, length, track, start, records, LENT, &count, two, two + 1, two + 2) == FIELBMARU_DONE);
    CHECK(count == flat && as_lent(count) && memcmp(one, two, sizeof one) == 0);
    for (uint64_t i = 0; i < count; i++)
        CHECK(records[i].sector == rows[2 * i] && records[i].place == rows[2 * i + 1]
              && memcmp(records[i].payload, payloads + 256 * i, 256) == 0);
    return count;
}

static uint64_t tracks(void)
{
    static uint8_t ring[7692], bytes[256 * 21];
    uint64_t found = 0;
    for (unsigned i = 0; i < sizeof bytes; i++)
        bytes[i] = (uint8_t)(i * 7 + i / 256);
    for (unsigned t = 0; t < 256; t++) {
        size_t length = FIELBMARU_TRACK_BYTES(t);
        CHECK(fielbmaru_build_track(t, bytes, sizeof bytes, none, 0, 0x41, 0x30, ring, sizeof ring) == FIELBMARU_DONE);
        CHECK(both(ring, length, t, 0) == FIELBMARU_SECTORS(t));
        for (unsigned scratch = 0; scratch < 8; scratch++) {
            memset(ring + (t * 977 + scratch * 1373) % (length - 40), scratch % 2 ? 0xFF : 0, 5 + scratch);
            found += both(ring, length, t, (uint64_t)t * 4099 + scratch * 6151);
        }
        found += both(ring, length - 1 - t % 400, t, 12345);
    }
    return found;
}

static void refusals(void)
{
    static uint8_t ring[65536];
    uint64_t count = 77, bad[3] = {77, 77, 77};
    lend();
    CHECK(fielbmaru_scan_records(ring, 100, 18, 0, records, FIELBMARU_SCAN_RECORDS - 1, &count, bad, bad + 1, bad + 2)
          == FIELBMARU_NO_ROOM);
    CHECK(fielbmaru_scan_records(ring, 0, 18, 0, records, FIELBMARU_SCAN_RECORDS - 1, &count, bad, bad + 1, bad + 2)
          == FIELBMARU_NO_ROOM);
    CHECK(fielbmaru_scan_records(ring, 0, 18, 0, records, LENT, &count, bad, bad + 1, bad + 2) == FIELBMARU_RING_EMPTY);
    CHECK(fielbmaru_scan_records(ring, 65536, 18, 0, records, LENT, &count, bad, bad + 1, bad + 2) == FIELBMARU_RING_TOO_LONG);
    CHECK(count == 77 && bad[0] == 77 && bad[1] == 77 && bad[2] == 77 && as_lent(0));
    CHECK(fielbmaru_scan_records(ring, 65535, 18, 0, records, FIELBMARU_SCAN_RECORDS, &count, bad, bad + 1, bad + 2)
          == FIELBMARU_DONE);
    CHECK(count == 0 && bad[0] == FIELBMARU_NO_BAD_SYMBOL && bad[1] == 0 && bad[2] == 0 && as_lent(0));
}

int main(void)
{
    uint64_t found = tracks();
    refusals();
    CHECK(found > 0);
    if (!failed)
        printf("records: all as they should be, %llu records on scratched rings\n", (unsigned long long)found);
    return failed != 0;
}
