// The measures of crates/sums_bench in C, with the same output: sums FILE.
#include <stdint.h>
#include <stdio.h>
#include <stdlib.h>
#include <string.h>
#include <time.h>
#ifdef __x86_64__
#include <immintrin.h>
#endif

enum { ROUNDS = 5, PAGE_BYTES = 4096 };

static uint64_t now(void) {
    struct timespec t;
    clock_gettime(CLOCK_MONOTONIC, &t);
    return (uint64_t)t.tv_sec * 1000000000u + t.tv_nsec;
}

static void report(const char *name, uint64_t value, uint64_t start) {
    printf("%s %llu %llu\n", name, (unsigned long long)value, (unsigned long long)(now() - start));
}

static uint64_t word_at(const uint8_t *p) {
    uint64_t word;
    memcpy(&word, p, 8);
    return word;
}

// A word at a time: x^64 is x^4 + x^3 + x + 1.
static uint64_t after_word(uint64_t reg, uint64_t word) {
    uint64_t v = reg ^ word;
    v ^= v << 63 ^ v << 61 ^ v << 60;
    return v ^ v >> 1 ^ v >> 3 ^ v >> 4;
}

static uint64_t check_by_words(const uint8_t *p, size_t n) {
    uint64_t reg = ~0ull;
    for (; n >= 8; n -= 8, p += 8) reg = after_word(reg, word_at(p));
    for (; n > 0; n--, p++) {
        reg ^= *p;
        for (int i = 0; i < 8; i++) reg = reg >> 1 ^ (reg & 1 ? 0xD800000000000000ull : 0);
    }
    return ~reg;
}

// Words in a ring of 512 bytes: x^4096 is x^256 + x^192 + x^64 + 1.
__attribute__((noinline)) static uint64_t check_by_ring(const uint8_t *p, size_t n) {
    if (n < 1024) return check_by_words(p, n);
    uint64_t ring[64] = {~0ull};
    for (; n >= 1024; n -= 512, p += 512) {
        for (int k = 0; k < 60; k++) ring[k] ^= word_at(p + 8 * k) ^ ring[k + 1] ^ ring[k + 3] ^ ring[k + 4];
        for (int k = 60; k < 64; k++) ring[k] ^= word_at(p + 8 * k) ^ ring[(k + 1) % 64] ^ ring[(k + 3) % 64] ^ ring[(k + 4) % 64];
    }
    uint64_t wide[68] = {0};
    memcpy(wide, ring, sizeof ring);
    uint64_t reg = 0;
    for (int k = 0; k < 64; k++) {
        uint64_t w = wide[k] ^ wide[k + 1] ^ wide[k + 3] ^ wide[k + 4];
        reg = after_word(reg, word_at(p + 8 * k) ^ w);
    }
    p += 512, n -= 512;
    for (; n >= 8; n -= 8, p += 8) reg = after_word(reg, word_at(p));
    for (; n > 0; n--, p++) {
        reg ^= *p;
        for (int i = 0; i < 8; i++) reg = reg >> 1 ^ (reg & 1 ? 0xD800000000000000ull : 0);
    }
    return ~reg;
}

#ifdef __x86_64__
// The register after n zero bits, that began as the power 0.
static uint64_t power(int n) {
    uint64_t reg = 1ull << 63;
    for (int i = 0; i < n; i++) reg = reg >> 1 ^ (reg & 1 ? 0xD800000000000000ull : 0);
    return reg;
}

// The 16 bytes moved on by the powers in `by`, onto those at p.
__attribute__((target("pclmul,sse4.1"))) static inline __m128i moved(__m128i x, __m128i by, const uint8_t *p) {
    __m128i both = _mm_xor_si128(_mm_clmulepi64_si128(x, by, 0x00), _mm_clmulepi64_si128(x, by, 0x11));
    return _mm_xor_si128(both, _mm_loadu_si128((const __m128i *)p));
}

// By carry-less multiplication, four times 16 bytes at once.
__attribute__((target("pclmul,sse4.1"), noinline)) static uint64_t check_by_products(const uint8_t *p, size_t n) {
    static __m128i by_64, by_16;
    static int known;
    if (!known) {
        by_64 = _mm_set_epi64x(power(511), power(575));
        by_16 = _mm_set_epi64x(power(127), power(191));
        known = 1;
    }
    if (n < 128) return check_by_words(p, n);
    __m128i lanes[4];
    for (int k = 0; k < 4; k++) lanes[k] = _mm_loadu_si128((const __m128i *)(p + 16 * k));
    lanes[0] = _mm_xor_si128(lanes[0], _mm_set_epi64x(0, ~0ll));
    for (n -= 64, p += 64; n >= 64; n -= 64, p += 64)
        for (int k = 0; k < 4; k++) lanes[k] = moved(lanes[k], by_64, p + 16 * k);
    uint8_t last[64];
    for (int k = 0; k < 4; k++) _mm_storeu_si128((__m128i *)(last + 16 * k), lanes[k]);
    __m128i lane = moved(moved(moved(lanes[0], by_16, last + 16), by_16, last + 32), by_16, last + 48);
    uint64_t reg = after_word(after_word(0, _mm_extract_epi64(lane, 0)), _mm_extract_epi64(lane, 1));
    for (; n >= 8; n -= 8, p += 8) reg = after_word(reg, word_at(p));
    for (; n > 0; n--, p++) {
        reg ^= *p;
        for (int i = 0; i < 8; i++) reg = reg >> 1 ^ (reg & 1 ? 0xD800000000000000ull : 0);
    }
    return ~reg;
}
#endif

static uint64_t checks_of_pages(uint64_t (*check)(const uint8_t *, size_t), const uint8_t *p, size_t n) {
    uint64_t checks = 0;
    for (; n > 0;) {
        size_t page = n < PAGE_BYTES ? n : PAGE_BYTES;
        checks ^= check(p, page);
        p += page, n -= page;
    }
    return checks;
}

static uint64_t sum_of(int big, const uint8_t *p, size_t n) {
    uint32_t s0 = 0, s1 = 0;
    for (; n >= 8; n -= 8, p += 8) {
        uint32_t x, y;
        memcpy(&x, p, 4);
        memcpy(&y, p + 4, 4);
        if (big) x = __builtin_bswap32(x), y = __builtin_bswap32(y);
        s0 += x + s1;
        s1 += y + s0;
    }
    return (uint64_t)s0 << 32 | s1;
}

int main(int count, char **words) {
    FILE *file = count > 1 ? fopen(words[1], "rb") : NULL;
    if (!file) return 1;
    fseek(file, 0, SEEK_END);
    size_t n = ftell(file);
    rewind(file);
    uint8_t *bytes = malloc(n), *copy = calloc(n, 1);
    if (!bytes || !copy || fread(bytes, 1, n, file) != n) return 1;
    for (int round = 0; round < ROUNDS; round++) {
        uint64_t start = now();
        memcpy(copy, bytes, n);
        report("copy", 0, start);
        start = now();
        report("check", check_by_ring(bytes, n), start);
        start = now();
        report("words", check_by_words(bytes, n), start);
        start = now();
        report("pages", checks_of_pages(check_by_ring, bytes, n), start);
#ifdef __x86_64__
        start = now();
        report("product", check_by_products(bytes, n), start);
        start = now();
        report("p-pages", checks_of_pages(check_by_products, bytes, n), start);
#endif
        start = now();
        report("little", sum_of(0, bytes, n), start);
        start = now();
        report("big", sum_of(1, bytes, n), start);
    }
    // The copy is read, so that it isn't left out.
    return copy[n - 1] == bytes[n - 1] ? 0 : 1;
}
