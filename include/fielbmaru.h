/*
 * Fielbmaru: Commodore 1541 disk images, for C.
 *
 * Every function here is proved against a definition, for every input (see the repository's README.md): it reads and writes
 * inside what it is lent, it ends, and it returns what the definition says. It keeps nothing between calls, allocates nothing,
 * and may be called from several threads at once on different buffers. The rules are in docs/RULES.md.
 *
 * Build and link (x86-64 Linux):
 *
 *     bin/library                                               # proves it, and writes target/staticlib/libfielbmaru.a
 *     gcc -I include mine.c target/staticlib/libfielbmaru.a
 *
 * WHAT IS RETURNED. Each function but fielbmaru_orbit returns 0 when it is done, or a refusal number. Refused, nothing that was
 * lent has changed: no byte, no row, no number behind a pointer, but for the one number of fielbmaru_decode_block that says which
 * symbol was refused. Where several refusals apply, the first in a function's own list is returned.
 *
 * WHAT A CALLER MUST SEE TO. The proof says nothing about a call that breaks these:
 *   - a pointer is never NULL, also where its length is 0, and leads to as many bytes (or uint64_t or records, aligned) as its
 *     length says; uint8_t x[256] leads to 256 bytes;
 *   - what a function writes to (any pointer without const) overlaps nothing else that is lent in the same call, and no other
 *     thread touches it meanwhile.
 *
 * WORDS. A ring is one circular track, 1 to 65,535 bytes as they pass under the head, high bit first. A payload is the 256 bytes
 * of a sector. A start bit is any number; it is taken modulo the ring's bits. Zones are numbered by density: 3 for tracks 1 to
 * 17, 2 for 18 to 24, 1 for 25 to 30, 0 for every other track byte.
 *
 * EXAMPLE. Sector 0 of a track is built, read, scratched, and missed:
 *
 *     uint8_t ring[FIELBMARU_TRACK_BYTES(18)], hello[256] = "hello", back[256], no_codes[1];
 *     fielbmaru_build_track(18, hello, 256, no_codes, 0, 0x41, 0x30, ring, sizeof ring);    // 0
 *     fielbmaru_read_unique(ring, sizeof ring, 18, 0, back);                                // 0, and back is hello
 *     memset(ring + 60, 0, 8);
 *     fielbmaru_read_unique(ring, sizeof ring, 18, 0, back);                                // FIELBMARU_NO_RECORD, back as it was
 *
 * A longer one is examples/c/example.c.
 */
#ifndef FIELBMARU_H
#define FIELBMARU_H

#include <stddef.h>
#include <stdint.h>

#ifdef __cplusplus
extern "C" {
#endif

/* The version of the library; the file VERSION has the same. */
#define FIELBMARU_VERSION "0.14.0"

/* The refusal numbers. (tests/refusals holds them to the library's other lists.) */
#define FIELBMARU_DONE            0
#define FIELBMARU_RING_EMPTY      1  /* the ring has no byte */
#define FIELBMARU_RING_TOO_LONG   2  /* the ring has more than 65,535 bytes */
#define FIELBMARU_WRONG_IMAGE     3  /* D64 size, G64 or NIB length or signature is wrong */
#define FIELBMARU_WRONG_ENTRIES   4  /* G64 counts or entries, NIB catalogue or total length are wrong; a slot above 83 */
#define FIELBMARU_NO_DIRECTORY    5  /* track 18 is missing, or 18/0 is not readable */
#define FIELBMARU_WRONG_LINK      6  /* a directory link is out of range, repeated, or unreadable */
#define FIELBMARU_NO_ROOM         7  /* a lent output is shorter than needed */
#define FIELBMARU_NO_RING         8  /* NIB encoding with no ring */
/* 9 is not used. */
#define FIELBMARU_WRONG_SUM      10  /* payload bytes not a multiple of 256; ring bytes not the sum of the ring lengths */
#define FIELBMARU_NO_RECORD      11  /* no valid record of that sector */
#define FIELBMARU_AMBIGUOUS      12  /* several records (unique rule), or differing ones (consistent rule) */
#define FIELBMARU_ILLEGAL_SYMBOL 13  /* a five-bit symbol outside the table; fielbmaru_decode_block alone returns it */

/* Sizes. */
#define FIELBMARU_MAX_RING       65535  /* bytes of the longest ring */
#define FIELBMARU_SCAN_ROWS        390  /* numbers that a scan needs for its rows: 195 rows of two */
#define FIELBMARU_SCAN_PAYLOADS  49920  /* bytes that a scan needs for its payloads: 195 of 256 */
#define FIELBMARU_SCAN_RECORDS     195  /* records that a scan into a list of them needs */
#define FIELBMARU_WINDOW          8192  /* bytes of a NIB window */
#define FIELBMARU_NIB_HEAD         256  /* bytes before the first window of a NIB file */
#define FIELBMARU_SLOTS             84  /* half-track slots of a NIB file; slot 2 * (t - 1) is track t */
#define FIELBMARU_G64_MOST      333744  /* bytes of the longest master, of 42 tracks */
#define FIELBMARU_G64_BYTES(tracks) (684 + 7930 * (tracks))  /* bytes of a master of so many tracks, 35 to 42 */

/* The bytes of a built track, and the sectors of a track. (Published numbers, here for sizing buffers: examples/c/check.c holds
   them against the library for every track byte.) */
#define FIELBMARU_BY_ZONE(track, z3, z2, z1, z0) \
    ((track) >= 1 && (track) <= 17 ? (z3) : (track) >= 18 && (track) <= 24 ? (z2) : (track) >= 25 && (track) <= 30 ? (z1) : (z0))
#define FIELBMARU_TRACK_BYTES(track) FIELBMARU_BY_ZONE(track, 7692, 7142, 6666, 6250)
#define FIELBMARU_SECTORS(track)     FIELBMARU_BY_ZONE(track, 21, 19, 18, 17)

/* The bytes of the code of a block of n bytes, and the bytes that a code of n bytes stands for. */
#define FIELBMARU_CODE_BYTES(n)  (5 * (((n) + 3) / 4))
#define FIELBMARU_BLOCK_BYTES(n) (4 * ((n) / 5))

/* What fielbmaru_decode_track says of a sector: it was handed out, or why it is missing. They are the numbers of the error codes that
   build such a sector (below), and none of them is a refusal. */
#define FIELBMARU_HANDED_OUT   1
#define FIELBMARU_NO_HEADER    2  /* no header of the sector was met */
#define FIELBMARU_NO_SYNC      3  /* no sync was met on the whole ring; all sectors have it then */
#define FIELBMARU_NO_DATA      4  /* a true header, and no data block behind it: no sync, an illegal symbol, another marker or header */
#define FIELBMARU_FALSE_DATA   5  /* a true header, and a data block whose checksum is false */
#define FIELBMARU_FALSE_HEADER 9  /* no true header, but one with this sector number whose checksum is false */

/*
 * Codes a block of any length, group after group: four bytes give eight symbols of five bits, which are five bytes. A last group of
 * fewer than four bytes is filled up with zeros. (A header is 8 bytes in 10, a data block 260 in 325.)
 *
 * out  FIELBMARU_CODE_BYTES(bytes_len) bytes at its front; what follows them is kept.
 *
 * Refused: NO_ROOM.
 */
uint64_t fielbmaru_encode_block(const uint8_t *bytes, size_t bytes_len, uint8_t *out, size_t out_len);

/*
 * Decodes the whole groups of a code; up to four bytes after them are not looked at.
 *
 * out     FIELBMARU_BLOCK_BYTES(code_len) bytes at its front; what follows them is kept.
 * symbol  refused ILLEGAL_SYMBOL: the index of the first symbol outside the table, from 0 on, among all of the code's; symbol k is
 *         the bits 5k to 5k + 4. It is where decoding stops, not where the damage lies. In every other case it is as it came.
 *
 * Refused: NO_ROOM, ILLEGAL_SYMBOL. Refused, `out` is as it came.
 */
uint64_t fielbmaru_decode_block(const uint8_t *code, size_t code_len, uint8_t *out, size_t out_len, uint64_t *symbol);

/*
 * Builds a track: FIELBMARU_TRACK_BYTES(track) bytes at the front of `out`; what follows them in `out` is kept.
 *
 * payloads  256 bytes for each sector, from sector 0 on. Sectors without a payload are zeros; surplus is not looked at.
 * codes     an error code for each sector, as in the error bytes of a D64. Sectors without one have code 1, which is no error.
 *           2: no header (its place is gap); 3: no sector at all; 4: marker 00 for the data block's 07; 5: data checksum inverted;
 *           9: header checksum inverted; 0x0B: both ids inverted. Every other code builds a normal sector.
 * id1, id2  the disk's id, as in the header blocks.
 *
 * Refused: WRONG_SUM (payloads_len is not a multiple of 256), NO_ROOM (out_len is below the track's bytes).
 */
uint64_t fielbmaru_build_track(uint8_t track, const uint8_t *payloads, size_t payloads_len, const uint8_t *codes, size_t codes_len,
                               uint8_t id1, uint8_t id2, uint8_t *out, size_t out_len);

/*
 * Where blocks stop being legal. fielbmaru_scan, fielbmaru_scan_records and fielbmaru_decode_track tell the first symbol outside the
 * table that the scan met in a header or in a data block, in the order of meeting:
 *
 * bad_block   FIELBMARU_NO_BAD_SYMBOL, FIELBMARU_BAD_HEADER or FIELBMARU_BAD_DATA.
 * bad_symbol  its index among the 16 symbols of a header, or the 520 of a data block.
 * bad_bit     the ring bit where it begins, below 8 * ring_len.
 *
 * Where none was met the last two are 0. It is where decoding stopped, which need not be where the damage is.
 */
#define FIELBMARU_NO_BAD_SYMBOL 0
#define FIELBMARU_BAD_HEADER    1
#define FIELBMARU_BAD_DATA      2

/*
 * Lists every sector record of a ring, in the order in which one revolution from the start bit on meets them. A sector may be
 * met more than once.
 *
 * rows      two numbers for each record: its sector, and the bit where its data block begins, counted on from the scan's start past the
 *           ring's end (not reduced).
 * payloads  256 bytes for each record.
 * count     how many records there are. Rows and payloads behind them are kept.
 * bad_block, bad_symbol, bad_bit  the first bad symbol (above).
 *
 * rows_len counts numbers, not bytes. Room for 195 records is needed, whatever is found: FIELBMARU_SCAN_ROWS and
 * FIELBMARU_SCAN_PAYLOADS.
 *
 * Refused: NO_ROOM, RING_EMPTY, RING_TOO_LONG.
 */
uint64_t fielbmaru_scan(const uint8_t *ring, size_t ring_len, uint8_t track, uint64_t start_bit, uint64_t *rows, size_t rows_len,
                        uint8_t *payloads, size_t payloads_len, uint64_t *count, uint64_t *bad_block, uint64_t *bad_symbol,
                        uint64_t *bad_bit);

/* A record: what is a row and a payload above. 272 bytes, with nothing between (examples/c/records.c holds the layout). */
struct fielbmaru_record {
    uint64_t sector;
    uint64_t place;  /* the bit where its data block begins */
    uint8_t payload[256];
};

/*
 * Lists the same in an array of records. records_len counts records: FIELBMARU_SCAN_RECORDS are needed, whatever is found.
 * Records behind the last one found are kept.
 *
 * Refused: NO_ROOM, RING_EMPTY, RING_TOO_LONG.
 */
uint64_t fielbmaru_scan_records(const uint8_t *ring, size_t ring_len, uint8_t track, uint64_t start_bit,
                                struct fielbmaru_record *records, size_t records_len, uint64_t *count, uint64_t *bad_block,
                                uint64_t *bad_symbol, uint64_t *bad_bit);

/*
 * Reads all sectors of a track, each by its first record.
 *
 * payloads  256 bytes for each sector, from sector 0 on; zeros where a sector is missing. Needs 256 * FIELBMARU_SECTORS(track) bytes.
 * statuses  a byte for each sector: FIELBMARU_HANDED_OUT, or one of the five numbers above that say why it is missing; the first true
 *           header of the sector that is met decides. Needs FIELBMARU_SECTORS(track) bytes.
 * found     how many sectors were handed out. Bytes behind the track's sectors are kept.
 * bad_block, bad_symbol, bad_bit  the first bad symbol (above).
 *
 * Refused: NO_ROOM, RING_EMPTY, RING_TOO_LONG.
 */
uint64_t fielbmaru_decode_track(const uint8_t *ring, size_t ring_len, uint8_t track, uint64_t start_bit, uint8_t *payloads,
                                size_t payloads_len, uint8_t *statuses, size_t statuses_len, uint64_t *found, uint64_t *bad_block,
                                uint64_t *bad_symbol, uint64_t *bad_bit);

/*
 * Reads one sector of a ring, scanned from bit 0. The unique rule wants exactly one record of it; the consistent rule wants at
 * least one, and all with the same payload (a NIB window shows parts of a track twice).
 *
 * Refused: RING_EMPTY, RING_TOO_LONG, NO_RECORD, AMBIGUOUS. Refused, `out` is as it came.
 */
uint64_t fielbmaru_read_unique(const uint8_t *ring, size_t ring_len, uint8_t track, uint8_t sector, uint8_t out[256]);
uint64_t fielbmaru_read_consistent(const uint8_t *ring, size_t ring_len, uint8_t track, uint8_t sector, uint8_t out[256]);

/*
 * Replaces the payload of one sector on a ring: by the unique rule its one data block, by the consistent rule each of its data
 * blocks. Only the 325 bytes of a data block change (which need not begin at a whole byte). Refused as the readers above.
 */
uint64_t fielbmaru_replace_unique(uint8_t *ring, size_t ring_len, uint8_t track, uint8_t sector, const uint8_t data[256]);
uint64_t fielbmaru_replace_consistent(uint8_t *ring, size_t ring_len, uint8_t track, uint8_t sector, const uint8_t data[256]);

/*
 * The span of a NIB window's orbit: so many of its first bytes are taken for one revolution, which is an estimate. It returns
 * the span, not a refusal number; 0 where the window does not have FIELBMARU_WINDOW bytes. The zone is taken modulo 4.
 */
uint64_t fielbmaru_orbit(const uint8_t *window, size_t window_len, uint8_t zone);

/*
 * Where the ring of a slot lies in a NIB file: it begins at byte `at` of the image and has `span` bytes; `zone` is 0 to 3. For
 * a slot that the file does not have, all three are 0, which is not a refusal.
 *
 * Refused: WRONG_IMAGE, WRONG_ENTRIES (also for a slot above 83).
 */
uint64_t fielbmaru_nib_slot(const uint8_t *image, size_t image_len, uint64_t slot, uint64_t *at, uint64_t *span, uint64_t *zone);

/*
 * Makes a NIB file of rings, each repeated over a window of its own.
 *
 * lengths  the length of each slot's ring, from slot 0 on; 0 for a slot without one. At most 84 are looked at; missing ones are 0.
 * zones    the zone of each slot, taken modulo 4; missing ones are 0.
 * rings    the bytes of all rings, joined in the order of the slots.
 * written  the size of the file: 256 + 8192 for each ring. `out` behind it is kept.
 *
 * lengths_len counts numbers, not bytes.
 *
 * Refused: WRONG_SUM (rings_len is not the sum of the lengths), RING_TOO_LONG, NO_RING, NO_ROOM.
 */
uint64_t fielbmaru_encode_nib(const uint64_t *lengths, size_t lengths_len, const uint8_t *zones, size_t zones_len,
                              const uint8_t *rings, size_t rings_len, uint8_t *out, size_t out_len, uint64_t *written);

/*
 * Makes a master: the G64 of a D64 of 35 to 42 tracks, with error bytes or without. Each track is built as fielbmaru_build_track
 * builds it, with its sectors' error bytes for codes (1 for each where there are none), and with the ids of 18/0, byte 0xA2 (id1) and
 * byte 0xA3 (id2), as they stand in the D64.
 *
 * out      the G64: version 0, 84 half-tracks, largest ring 7,928. The entry of track t, which is half-track 2 * (t - 1), is at
 *          684 + 7930 * (t - 1): the ring's length in two bytes, the lower first, the ring, and zeros up to 7,930 bytes. Its speed
 *          is its zone. Every other half-track is absent: offset 0, speed 0. `out` behind the G64 is kept.
 * written  the size of the G64: FIELBMARU_G64_BYTES(tracks), 278,234 for 35 tracks.
 *
 * A sector whose error byte is 2, 3, 4, 5 or 9 does not read from the master; every other reads from its ring, by the unique rule,
 * as it stands in the D64.
 *
 * Refused: WRONG_IMAGE (the size of no D64), NO_ROOM.
 */
uint64_t fielbmaru_d64_to_g64(const uint8_t *d64, size_t d64_len, uint8_t *out, size_t out_len, uint64_t *written);

/*
 * Clears a disk image: takes every sector of tracks 1 to 35 that the BAM has free, except 18/0 and the sectors of the directory,
 * by track and sector.
 *
 * In a D64 each becomes 256 zeros. In a G64 or a NIB each is read at its turn, from the image as it then is (rings may overlap):
 * one that reads and has a byte that is not zero gets a data block of zeros at each of its records, and one that is not readable
 * is kept. G64 sectors are read by the unique rule, NIB sectors by the consistent rule on the whole window.
 *
 * free_sectors  how many sectors are free, and neither 18/0 nor of the directory.
 * changed       how many of those were zeroed: they read, and had a byte that was not zero.
 *
 * Refused: a D64 WRONG_IMAGE, WRONG_LINK; a G64 or a NIB WRONG_IMAGE, WRONG_ENTRIES, NO_DIRECTORY, WRONG_LINK.
 */
uint64_t fielbmaru_clear_d64(uint8_t *image, size_t image_len, uint64_t *free_sectors, uint64_t *changed);
uint64_t fielbmaru_clear_g64(uint8_t *image, size_t image_len, uint64_t *free_sectors, uint64_t *changed);
uint64_t fielbmaru_clear_nib(uint8_t *image, size_t image_len, uint64_t *free_sectors, uint64_t *changed);

#ifdef __cplusplus
}
#endif

#endif
