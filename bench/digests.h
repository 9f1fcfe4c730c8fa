/* SHA-256 of eight messages of one length at once, one in each lane of vectors of 32 bytes. */
#include <stdint.h>
#include <string.h>

enum { LANES = 8, BLOCK = 64, ROUNDS = 64, WORDS = 8 };

typedef uint32_t lanes __attribute__((vector_size(32)));
typedef uint8_t bytes __attribute__((vector_size(32)));

static const uint32_t round_constants[ROUNDS] = {
    0x428a2f98, 0x71374491, 0xb5c0fbcf, 0xe9b5dba5, 0x3956c25b, 0x59f111f1, 0x923f82a4, 0xab1c5ed5, 0xd807aa98, 0x12835b01, 0x243185be,
    0x550c7dc3, 0x72be5d74, 0x80deb1fe, 0x9bdc06a7, 0xc19bf174, 0xe49b69c1, 0xefbe4786, 0x0fc19dc6, 0x240ca1cc, 0x2de92c6f, 0x4a7484aa,
    0x5cb0a9dc, 0x76f988da, 0x983e5152, 0xa831c66d, 0xb00327c8, 0xbf597fc7, 0xc6e00bf3, 0xd5a79147, 0x06ca6351, 0x14292967, 0x27b70a85,
    0x2e1b2138, 0x4d2c6dfc, 0x53380d13, 0x650a7354, 0x766a0abb, 0x81c2c92e, 0x92722c85, 0xa2bfe8a1, 0xa81a664b, 0xc24b8b70, 0xc76c51a3,
    0xd192e819, 0xd6990624, 0xf40e3585, 0x106aa070, 0x19a4c116, 0x1e376c08, 0x2748774c, 0x34b0bcb5, 0x391c0cb3, 0x4ed8aa4a, 0x5b9cca4f,
    0x682e6ff3, 0x748f82ee, 0x78a5636f, 0x84c87814, 0x8cc70208, 0x90befffa, 0xa4506ceb, 0xbef9a3f7, 0xc67178f2};

static const uint32_t first_state[WORDS] = {0x6a09e667, 0xbb67ae85, 0x3c6ef372, 0xa54ff53a, 0x510e527f, 0x9b05688c, 0x1f83d9ab, 0x5be0cd19};

static inline lanes rotated(lanes x, int by)
{
    return (x >> by) | (x << (32 - by));
}

/* Half a block of each message, as eight words of big-endian bytes in eight lanes. */
static inline void load_words(lanes words[8], const unsigned char *const blocks[LANES], size_t at)
{
    const bytes turned = {3,  2,  1,  0,  7,  6,  5,  4,  11, 10, 9,  8,  15, 14, 13, 12,
                          19, 18, 17, 16, 23, 22, 21, 20, 27, 26, 25, 24, 31, 30, 29, 28};
    const lanes low = {0, 8, 1, 9, 4, 12, 5, 13}, high = {2, 10, 3, 11, 6, 14, 7, 15};
    const lanes even = {0, 1, 8, 9, 4, 5, 12, 13}, odd = {2, 3, 10, 11, 6, 7, 14, 15};
    const lanes front = {0, 1, 2, 3, 8, 9, 10, 11}, back = {4, 5, 6, 7, 12, 13, 14, 15};
    lanes row[8], pair[8], four[8];
    for (int i = 0; i < 8; i++) {
        bytes raw;
        memcpy(&raw, blocks[i] + at, sizeof raw);
        row[i] = (lanes)__builtin_shuffle(raw, turned);
    }
    for (int i = 0; i < 8; i += 2) {
        pair[i] = __builtin_shuffle(row[i], row[i + 1], low);
        pair[i + 1] = __builtin_shuffle(row[i], row[i + 1], high);
    }
    for (int i = 0; i < 8; i += 4)
        for (int j = 0; j < 2; j++) {
            four[i + 2 * j] = __builtin_shuffle(pair[i + j], pair[i + j + 2], even);
            four[i + 2 * j + 1] = __builtin_shuffle(pair[i + j], pair[i + j + 2], odd);
        }
    for (int i = 0; i < 4; i++) {
        words[i] = __builtin_shuffle(four[i], four[i + 4], front);
        words[i + 4] = __builtin_shuffle(four[i], four[i + 4], back);
    }
}

static void absorb(lanes state[WORDS], const unsigned char *const blocks[LANES])
{
    lanes w[16], a = state[0], b = state[1], c = state[2], d = state[3], e = state[4], f = state[5], g = state[6], h = state[7];
    load_words(w, blocks, 0);
    load_words(w + 8, blocks, 32);
    for (int t = 0; t < ROUNDS; t++) {
        if (t >= 16) {
            lanes x = w[(t + 1) % 16], y = w[(t + 14) % 16];
            w[t % 16] += w[(t + 9) % 16] + (rotated(x, 7) ^ rotated(x, 18) ^ (x >> 3)) + (rotated(y, 17) ^ rotated(y, 19) ^ (y >> 10));
        }
        lanes first = h + (rotated(e, 6) ^ rotated(e, 11) ^ rotated(e, 25)) + ((e & f) ^ (~e & g)) + round_constants[t] + w[t % 16];
        lanes second = (rotated(a, 2) ^ rotated(a, 13) ^ rotated(a, 22)) + ((a & b) ^ (a & c) ^ (b & c));
        h = g, g = f, f = e, e = d + first, d = c, c = b, b = a, a = first + second;
    }
    state[0] += a, state[1] += b, state[2] += c, state[3] += d, state[4] += e, state[5] += f, state[6] += g, state[7] += h;
}

/* The digests of eight messages of `length` bytes. */
static void digest_eight(const unsigned char *const messages[LANES], size_t length, unsigned char digests[LANES][32])
{
    static const unsigned char mark = 0x80;
    const unsigned char *at[LANES];
    unsigned char tails[LANES][2 * BLOCK] = {{0}};
    size_t whole = length / BLOCK * BLOCK, rest = length - whole, tail = rest < BLOCK - 8 ? BLOCK : 2 * BLOCK;
    lanes state[WORDS];
    for (int i = 0; i < WORDS; i++)
        state[i] = first_state[i] - (lanes){0};
    for (size_t start = 0; start < whole; start += BLOCK) {
        for (int lane = 0; lane < LANES; lane++)
            at[lane] = messages[lane] + start;
        absorb(state, at);
    }
    for (int lane = 0; lane < LANES; lane++) {
        memcpy(tails[lane], messages[lane] + whole, rest);
        tails[lane][rest] = mark;
        for (int i = 0; i < 8; i++)
            tails[lane][tail - 1 - i] = (unsigned char)((uint64_t)length * 8 >> 8 * i);
    }
    for (size_t start = 0; start < tail; start += BLOCK) {
        for (int lane = 0; lane < LANES; lane++)
            at[lane] = tails[lane] + start;
        absorb(state, at);
    }
    for (int lane = 0; lane < LANES; lane++)
        for (int i = 0; i < WORDS; i++)
            for (int j = 0; j < 4; j++)
                digests[lane][4 * i + j] = (unsigned char)(state[i][lane] >> (24 - 8 * j));
}
