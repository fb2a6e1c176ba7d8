/* Keys whose hashes have one home in the cache's table: 10,000 of them, one a line.
   crafted_keys known     by SipHash-1-3 under a key of zeros, the hasher of Rust's standard library where nobody gives it a secret
   crafted_keys script    by the same behind the secret of `cached --script`, which is drawn from the seed 0 and so is no secret

   Two keys of one 64-bit hash are beyond reach: each is one in 2^64. What costs a table is that keys are looked for from one slot on,
   so these are keys whose hashes, spread as the table spreads them, agree in their upper 13 bits: one in 8,192 that were tried. */
#include <stdint.h>
#include <stdio.h>
#include <string.h>

enum { COUNT = 10000, UPPER_BITS = 13 };

static const uint64_t SPREAD = 0x9E3779B97F4A7C15u;

static uint64_t rotated(uint64_t word, int bits) { return word << bits | word >> (64 - bits); }

static void round_of(uint64_t v[4]) {
    v[0] += v[1]; v[2] += v[3];
    v[1] = rotated(v[1], 13) ^ v[0]; v[3] = rotated(v[3], 16) ^ v[2];
    v[0] = rotated(v[0], 32);
    v[2] += v[1]; v[0] += v[3];
    v[1] = rotated(v[1], 17) ^ v[2]; v[3] = rotated(v[3], 21) ^ v[0];
    v[2] = rotated(v[2], 32);
}

/* SipHash-1-3 under a key of zeros, of so many whole words. */
static uint64_t hash_of(const uint64_t *words, int count) {
    uint64_t v[4] = {0x736f6d6570736575u, 0x646f72616e646f6du, 0x6c7967656e657261u, 0x7465646279746573u};
    for (int k = 0; k <= count; k++) {
        uint64_t word = k < count ? words[k] : (uint64_t)count * 8 << 56;
        v[3] ^= word;
        round_of(v);
        v[0] ^= word;
    }
    v[2] ^= 0xff;
    for (int k = 0; k < 3; k++) round_of(v);
    return v[0] ^ v[1] ^ v[2] ^ v[3];
}

/* The next word of Xoshiro256++. */
static uint64_t drawn(uint64_t s[4]) {
    uint64_t word = rotated(s[0] + s[3], 23) + s[0], shifted = s[1] << 17;
    s[2] ^= s[0]; s[3] ^= s[1]; s[1] ^= s[2]; s[0] ^= s[3];
    s[2] ^= shifted;
    s[3] = rotated(s[3], 45);
    return word;
}

/* The secret of the namespace of `cached --script`: two words, 2^192 behind the start of a generator that one of seed 0 seeds. */
static void find_secret(uint64_t secret[2]) {
    static const uint64_t far[4] = {0x76e15d3efefdcbbfu, 0xc5004e441c522fb3u, 0x77710069854ee241u, 0x39109bb02acbe635u};
    uint64_t first[4] = {0xe220a8397b1dcdafu, 0x6e789e6aa1b965f4u, 0x06c45d188009454fu, 0xf88bb8a8724c81ecu};
    uint64_t own[4], jumped[4] = {0, 0, 0, 0};
    for (int k = 0; k < 4; k++) own[k] = drawn(first);
    for (int bit = 0; bit < 256; bit++) {
        if (far[bit / 64] >> bit % 64 & 1)
            for (int k = 0; k < 4; k++) jumped[k] ^= own[k];
        drawn(own);
    }
    secret[0] = drawn(jumped);
    secret[1] = drawn(jumped);
}

int main(int count, char **words) {
    int is_script = count == 2 && strcmp(words[1], "script") == 0;
    if (!is_script && !(count == 2 && strcmp(words[1], "known") == 0)) return 2;
    uint64_t input[4];
    int before = is_script ? 2 : 0;
    if (is_script) find_secret(input);
    for (uint64_t tried = 0, found = 0; found < COUNT; tried++) {
        char key[17];
        for (int k = 0; k < 16; k++) key[k] = (char)('a' + (tried >> (60 - 4 * k) & 15));
        memcpy(input + before, key, 16);
        if (hash_of(input, before + 2) * SPREAD >> (64 - UPPER_BITS)) continue;
        key[16] = 0;
        puts(key);
        found++;
    }
    return 0;
}
