/* How deep the stack of each exported function goes: it is called on a stack of paint, and what is paint no longer is counted. What an
 * empty call takes is taken off, so that a figure is the function's own frames and those below them, its return address with them. */
#define _POSIX_C_SOURCE 200809L
#include "fielbmaru.h"

#include <pthread.h>
#include <stdio.h>
#include <stdlib.h>
#include <string.h>

enum { STACK = 1 << 20, PAINT = 0xA5, TRACKS = 35, HEAD = 684, ENTRY = 7930 };

static uint8_t ring[FIELBMARU_WINDOW], disk[174848], g64[HEAD + TRACKS * ENTRY], nib[FIELBMARU_NIB_HEAD + TRACKS * FIELBMARU_WINDOW];
static uint8_t image[sizeof nib > sizeof g64 ? sizeof nib : sizeof g64];
static uint8_t payloads[21 * 256], scanned[FIELBMARU_SCAN_PAYLOADS], statuses[21], data[256];
static uint64_t rows[FIELBMARU_SCAN_ROWS], lengths[FIELBMARU_SLOTS], count, bad[3], at, span, zone, answer;
static uint8_t zones[FIELBMARU_SLOTS];
static struct fielbmaru_record records[FIELBMARU_SCAN_RECORDS];
static size_t ring_len;

static uint8_t *stack;
static void (*asked)(void);
static uintptr_t called_at;

static void nothing(void) {}
static void encode_block(void) { answer = fielbmaru_encode_block(payloads, 260, scanned, sizeof scanned); }
static void decode_block(void) { answer = fielbmaru_decode_block(ring + 29, 325, scanned, sizeof scanned, &at); }
static void build(void) { answer = fielbmaru_build_track(1, payloads, sizeof payloads, NULL, 0, 65, 66, ring, sizeof ring); }
static void scan(void)
{
    answer = fielbmaru_scan(ring, ring_len, 1, 0, rows, FIELBMARU_SCAN_ROWS, scanned, sizeof scanned, &count, bad, bad + 1, bad + 2);
}
static void scan_records(void)
{
    answer = fielbmaru_scan_records(ring, ring_len, 1, 0, records, FIELBMARU_SCAN_RECORDS, &count, bad, bad + 1, bad + 2);
}
static void decode(void)
{
    answer = fielbmaru_decode_track(ring, ring_len, 1, 0, scanned, sizeof scanned, statuses, 21, &count, bad, bad + 1, bad + 2);
}
static void read_unique(void) { answer = fielbmaru_read_unique(ring, ring_len, 1, 10, data); }
static void read_consistent(void) { answer = fielbmaru_read_consistent(ring, ring_len, 1, 10, data); }
static void replace_unique(void) { answer = fielbmaru_replace_unique(ring, ring_len, 1, 10, data); }
static void replace_consistent(void) { answer = fielbmaru_replace_consistent(ring, ring_len, 1, 10, data); }
static void orbit(void) { answer = !fielbmaru_orbit(nib + FIELBMARU_NIB_HEAD, FIELBMARU_WINDOW, 3); }
static void slot(void) { answer = fielbmaru_nib_slot(nib, sizeof nib, 0, &at, &span, &zone); }
static void encode(void) { answer = fielbmaru_encode_nib(lengths, 84, zones, 84, ring, ring_len, image, sizeof image, &count); }
static void master(void) { answer = fielbmaru_d64_to_g64(disk, sizeof disk, image, sizeof image, &count); }
static void clear_d64(void) { answer = fielbmaru_clear_d64(image, sizeof disk, &count, &span); }
static void clear_g64(void) { answer = fielbmaru_clear_g64(image, sizeof g64, &count, &span); }
static void clear_nib(void) { answer = fielbmaru_clear_nib(image, sizeof nib, &count, &span); }

/* The call stands in a frame of its own, whose place is noted. */
static void *painted(void *unused) {
    called_at = (uintptr_t)__builtin_frame_address(0);
    asked();
    return unused;
}

static size_t depth(void (*function)(void), const void *from, size_t bytes) {
    pthread_attr_t attributes;
    pthread_t thread;
    size_t low = 0;
    asked = function;
    /* once to have every name bound, then on paint */
    for (int turn = 0; turn < 2; turn++) {
        if (bytes) memcpy(image, from, bytes);
        memset(stack, PAINT, STACK);
        if (pthread_attr_init(&attributes) || pthread_attr_setstack(&attributes, stack, STACK)) exit(2);
        if (pthread_create(&thread, &attributes, painted, NULL) || pthread_join(thread, NULL)) exit(2);
        pthread_attr_destroy(&attributes);
    }
    while (low < STACK && stack[low] == PAINT) low++;
    return called_at - (uintptr_t)(stack + low);
}

static void line(const char *name, void (*function)(void), const void *from, size_t bytes) {
    size_t deep = depth(function, from, bytes) - depth(nothing, NULL, 0);
    depth(function, from, bytes);
    if (answer != 0) {
        fprintf(stderr, "stack: %s was refused\n", name);
        exit(1);
    }
    printf("| `%s` | %zu |\n", name, deep);
}

static void put(uint8_t *to, size_t value, int bytes) {
    for (int i = 0; i < bytes; i++) to[i] = value >> 8 * i & 255;
}

/* A disk whose sectors are all free and hold something, but for the directory, and its images. */
static void make_images(void) {
    size_t place = 0;
    for (size_t i = 0; i < sizeof disk; i++) disk[i] = (uint8_t)(i * 7 + i / 256);
    memset(disk + 91392, 255, 256);
    disk[91392] = 18, disk[91393] = 1, disk[91648] = 0;
    memcpy(g64, "GCR-1541", 8);
    g64[9] = 84;
    put(g64 + 10, 7928, 2);
    memcpy(nib, "MNIB-1541-RAW", 13);
    nib[13] = 1;
    for (int track = 1; track <= TRACKS; track++) {
        uint8_t *entry = g64 + HEAD + (track - 1) * ENTRY, *window = nib + FIELBMARU_NIB_HEAD + (track - 1) * FIELBMARU_WINDOW;
        size_t bytes = FIELBMARU_TRACK_BYTES(track), sectors = 256 * FIELBMARU_SECTORS(track);
        if (fielbmaru_build_track(track, disk + place, sectors, NULL, 0, 65, 66, ring, sizeof ring)) exit(1);
        place += sectors;
        put(g64 + 12 + 8 * (track - 1), entry - g64, 4);
        put(entry, bytes, 2);
        memcpy(entry + 2, ring, bytes);
        for (size_t i = 0; i < FIELBMARU_WINDOW; i++) window[i] = ring[i % bytes];
        nib[14 + 2 * track] = 2 * track;
        nib[15 + 2 * track] = FIELBMARU_BY_ZONE(track, 3, 2, 1, 0);
    }
}

int main(void) {
    stack = aligned_alloc(4096, STACK);
    if (!stack) return 2;
    make_images();
    ring_len = FIELBMARU_TRACK_BYTES(1);
    build();
    lengths[0] = ring_len, zones[0] = 3;
    printf("| function | bytes of stack |\n|---|---:|\n");
    line("fielbmaru_encode_block", encode_block, NULL, 0);
    line("fielbmaru_decode_block", decode_block, NULL, 0);
    line("fielbmaru_build_track", build, NULL, 0);
    line("fielbmaru_scan", scan, NULL, 0);
    line("fielbmaru_scan_records", scan_records, NULL, 0);
    line("fielbmaru_decode_track", decode, NULL, 0);
    line("fielbmaru_read_unique", read_unique, NULL, 0);
    line("fielbmaru_read_consistent", read_consistent, NULL, 0);
    line("fielbmaru_replace_unique", replace_unique, NULL, 0);
    line("fielbmaru_replace_consistent", replace_consistent, NULL, 0);
    line("fielbmaru_orbit", orbit, NULL, 0);
    line("fielbmaru_nib_slot", slot, NULL, 0);
    line("fielbmaru_encode_nib", encode, NULL, 0);
    line("fielbmaru_d64_to_g64", master, NULL, 0);
    line("fielbmaru_clear_d64", clear_d64, disk, sizeof disk);
    line("fielbmaru_clear_g64", clear_g64, g64, sizeof g64);
    line("fielbmaru_clear_nib", clear_nib, nib, sizeof nib);
    return 0;
}
