// Times the reading of AMF0 bodies: the proved functions, linked from crates/bench/out/libbench.a, on bodies made here.
#include <stdint.h>
#include <stdio.h>
#include <stdlib.h>
#include <string.h>
#include <time.h>

size_t bench_values(const uint8_t *s, size_t n);
size_t bench_find(const uint8_t *s, size_t n, size_t at);

static double now(void) {
    struct timespec t;
    clock_gettime(CLOCK_MONOTONIC, &t);
    return t.tv_sec * 1e9 + t.tv_nsec;
}

static int order(const void *a, const void *b) {
    double x = *(const double *)a, y = *(const double *)b;
    return (x > y) - (x < y);
}

// The median of 9 rounds of each, beside a plain copy of the same bytes.
static void measure(const char *what, const uint8_t *s, size_t n, size_t at) {
    double read[9], find[9], copy[9];
    uint8_t *to = malloc(n);
    size_t runs = n < 1000000 ? 2000 : 1, values = 0, place = 0;
    for (int r = 0; r < 9; r++) {
        double a = now();
        for (size_t i = 0; i < runs; i++) values = bench_values(s, n);
        double b = now();
        for (size_t i = 0; i < runs; i++) place = bench_find(s, n, at);
        double c = now();
        for (size_t i = 0; i < runs; i++) {
            memcpy(to, s, n);
            __asm__ volatile("" : : "r"(to) : "memory");
        }
        double d = now();
        read[r] = (b - a) / runs, find[r] = (c - b) / runs, copy[r] = (d - c) / runs;
    }
    qsort(read, 9, sizeof *read, order), qsort(find, 9, sizeof *find, order), qsort(copy, 9, sizeof *copy, order);
    printf("%-44s %9zu bytes  read %12.0f ns (%5.2f ns/byte, %zd values)  find %12.0f ns (%zd)  copy %10.0f ns\n", what, n, read[4], read[4] / n,
           (ssize_t)values, find[4], (ssize_t)place, copy[4]);
    free(to);
}

static uint8_t *s;
static size_t n;

static void put(const void *b, size_t k) { memcpy(s + n, b, k), n += k; }

static void named(const char *name) {
    uint8_t len[2] = {0, (uint8_t)strlen(name)};
    put(len, 2), put(name, strlen(name));
}

int main(void) {
    size_t large = 16777215;
    s = malloc(large + 65536);
    // onMetaData with an object of 64 KiB: eleven fields, then texts of 200 bytes under names of their own
    n = 0;
    put("\x02\x00\x0aonMetaData\x03", 14);
    size_t object = 13;
    const char *fields[] = {"width", "height", "videocodecid", "framerate", "videodatarate", "audiocodecid", "audiodatarate", "audiosamplerate", "audiochannels"};
    for (int i = 0; i < 9; i++) named(fields[i]), put("\x00\x40\x9e\x00\x00\x00\x00\x00\x00", 9);
    named("stereo"), put("\x01\x01", 2);
    for (int i = 0; n + 230 < 65536; i++) {
        char name[16];
        sprintf(name, "field%d", i);
        named(name), put("\x02\x00\xc8", 3);
        memset(s + n, 'a' + i % 26, 200), n += 200;
    }
    put("\x00\x00\x09", 3);
    measure("onMetaData of 64 KiB", s, n, object);
    // the largest body: a strict array whose count lies
    memset(s, 5, large), memcpy(s, "\x0a\xff\xff\xff\xff", 5);
    measure("strict array, count 4294967295, nulls", s, large, 0);
    // one object of the smallest properties
    for (n = 0, put("\x03", 1); n + 8 < large;) put("\x00\x01\x61\x05", 4);
    put("\x00\x00\x09", 3);
    measure("object of 4 million properties", s, n, 0);
    // arrays in arrays, eight deep, again and again
    for (n = 0; n + 41 < large;) {
        for (int d = 0; d < 7; d++) put("\x0a\x00\x00\x00\x01", 5);
        put("\x05", 1);
    }
    measure("values of depth 8", s, n, 0);
    // arrays in arrays without an end
    for (n = 0; n + 5 < large;) put("\x0a\x00\x00\x00\x01", 5);
    measure("arrays without an end", s, n, 0);
    // long texts of two-byte characters
    for (n = 0; n + 65537 < large;) {
        put("\x02\xff\xfe", 3);
        for (int i = 0; i < 32767; i++) put("\xc3\xa9", 2);
    }
    measure("texts of 65,534 bytes", s, n, 0);
    return 0;
}
