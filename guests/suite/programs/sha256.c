/* SHA-256 (FIPS 180-4) of four texts: rotations, sums that wrap, tables, loops. */
#include <stddef.h>

typedef unsigned word;

static const word constants[64] = {
    0x428a2f98, 0x71374491, 0xb5c0fbcf, 0xe9b5dba5, 0x3956c25b, 0x59f111f1, 0x923f82a4, 0xab1c5ed5,
    0xd807aa98, 0x12835b01, 0x243185be, 0x550c7dc3, 0x72be5d74, 0x80deb1fe, 0x9bdc06a7, 0xc19bf174,
    0xe49b69c1, 0xefbe4786, 0x0fc19dc6, 0x240ca1cc, 0x2de92c6f, 0x4a7484aa, 0x5cb0a9dc, 0x76f988da,
    0x983e5152, 0xa831c66d, 0xb00327c8, 0xbf597fc7, 0xc6e00bf3, 0xd5a79147, 0x06ca6351, 0x14292967,
    0x27b70a85, 0x2e1b2138, 0x4d2c6dfc, 0x53380d13, 0x650a7354, 0x766a0abb, 0x81c2c92e, 0x92722c85,
    0xa2bfe8a1, 0xa81a664b, 0xc24b8b70, 0xc76c51a3, 0xd192e819, 0xd6990624, 0xf40e3585, 0x106aa070,
    0x19a4c116, 0x1e376c08, 0x2748774c, 0x34b0bcb5, 0x391c0cb3, 0x4ed8aa4a, 0x5b9cca4f, 0x682e6ff3,
    0x748f82ee, 0x78a5636f, 0x84c87814, 0x8cc70208, 0x90befffa, 0xa4506ceb, 0xbef9a3f7, 0xc67178f2,
};

static const word beginning[8] = {
    0x6a09e667, 0xbb67ae85, 0x3c6ef372, 0xa54ff53a, 0x510e527f, 0x9b05688c, 0x1f83d9ab, 0x5be0cd19,
};

static word rotated(word x, unsigned by)
{
    return x >> by | x << (32 - by);
}

static void digest_block(word state[8], const unsigned char block[64])
{
    word w[64];
    word s[8];

    for (int i = 0; i < 16; i++)
        w[i] = (word)block[4 * i] << 24 | (word)block[4 * i + 1] << 16 | (word)block[4 * i + 2] << 8 | block[4 * i + 3];
    for (int i = 16; i < 64; i++) {
        word low = rotated(w[i - 15], 7) ^ rotated(w[i - 15], 18) ^ w[i - 15] >> 3;
        word high = rotated(w[i - 2], 17) ^ rotated(w[i - 2], 19) ^ w[i - 2] >> 10;

        w[i] = w[i - 16] + low + w[i - 7] + high;
    }
    for (int i = 0; i < 8; i++)
        s[i] = state[i];
    for (int i = 0; i < 64; i++) {
        word high = rotated(s[4], 6) ^ rotated(s[4], 11) ^ rotated(s[4], 25);
        word low = rotated(s[0], 2) ^ rotated(s[0], 13) ^ rotated(s[0], 22);
        word choice = (s[4] & s[5]) ^ (~s[4] & s[6]);
        word majority = (s[0] & s[1]) ^ (s[0] & s[2]) ^ (s[1] & s[2]);
        word first = s[7] + high + choice + constants[i] + w[i];

        for (int k = 7; k > 0; k--)
            s[k] = s[k - 1];
        s[4] += first;
        s[0] = first + low + majority;
    }
    for (int i = 0; i < 8; i++)
        state[i] += s[i];
}

/* The digest of `length` bytes, in the order of the standard. */
static void digest(const unsigned char *bytes, size_t length, unsigned char out[32])
{
    unsigned char block[64];
    word state[8];
    size_t at = 0;

    for (int i = 0; i < 8; i++)
        state[i] = beginning[i];
    for (; length - at >= 64; at += 64)
        digest_block(state, bytes + at);
    for (size_t i = 0; i < 64; i++)
        block[i] = at + i < length ? bytes[at + i] : at + i == length ? 0x80 : 0;
    if (length - at >= 56) {
        digest_block(state, block);
        for (size_t i = 0; i < 64; i++)
            block[i] = 0;
    }
    for (int i = 0; i < 4; i++)
        block[63 - i] = (unsigned char)(length * 8 >> 8 * i);
    digest_block(state, block);
    for (int i = 0; i < 32; i++)
        out[i] = (unsigned char)(state[i / 4] >> (24 - 8 * (i % 4)));
}

/* The texts are: nothing, `abc`, the 56 bytes, and `a` a thousand times. */
unsigned *program(unsigned *out)
{
    static const unsigned char long_text[] = "abcdbcdecdefdefgefghfghighijhijkijkljklmklmnlmnomnopnopq";
    static unsigned char many[1000];

    for (size_t i = 0; i < sizeof many; i++)
        many[i] = 'a';
    digest(many, 0, (unsigned char *)out);
    digest((const unsigned char *)"abc", 3, (unsigned char *)out + 32);
    digest(long_text, 56, (unsigned char *)out + 64);
    digest(many, 1000, (unsigned char *)out + 96);
    return out + 32;
}
