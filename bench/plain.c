/* The keeper in plain C: the bench's yardstick, and an independent reading of document 01 and requests [1] to [10] and [13].
 * Portable C, no intrinsics. Blocks are counted where they are compressed, and added up on the way out. */
#include "plain.h"

#include <inttypes.h>
#include <stdio.h>
#include <string.h>

static inline keeper_result done(uint64_t blocks)
{
    return (keeper_result){KEEPER_DONE, blocks};
}

/* Before anything was hashed. */
static inline keeper_result refused(uint64_t number)
{
    return (keeper_result){number, 0};
}

/* ---- big-endian numbers ---- */

static inline uint32_t get16(const uint8_t *p)
{
    return (uint32_t)p[0] << 8 | p[1];
}

static inline uint32_t get32(const uint8_t *p)
{
    return (uint32_t)p[0] << 24 | (uint32_t)p[1] << 16 | (uint32_t)p[2] << 8 | p[3];
}

static inline uint64_t get64(const uint8_t *p)
{
    return (uint64_t)get32(p) << 32 | get32(p + 4);
}

static inline void put16(uint8_t *p, uint32_t x)
{
    p[0] = (uint8_t)(x >> 8);
    p[1] = (uint8_t)x;
}

static inline void put32(uint8_t *p, uint32_t x)
{
    p[0] = (uint8_t)(x >> 24);
    p[1] = (uint8_t)(x >> 16);
    p[2] = (uint8_t)(x >> 8);
    p[3] = (uint8_t)x;
}

static inline void put64(uint8_t *p, uint64_t x)
{
    put32(p, (uint32_t)(x >> 32));
    put32(p + 4, (uint32_t)x);
}

/* ---- SHA-256, FIPS 180-4 ---- */

typedef struct {
    uint32_t h[8];
    uint64_t blocks; /* compressed so far */
} sha_state;

static const sha_state sha_initial = {
    {0x6a09e667, 0xbb67ae85, 0x3c6ef372, 0xa54ff53a, 0x510e527f, 0x9b05688c, 0x1f83d9ab, 0x5be0cd19}, 0};

static const uint32_t sha_k[64] = {
    0x428a2f98, 0x71374491, 0xb5c0fbcf, 0xe9b5dba5, 0x3956c25b, 0x59f111f1, 0x923f82a4, 0xab1c5ed5,
    0xd807aa98, 0x12835b01, 0x243185be, 0x550c7dc3, 0x72be5d74, 0x80deb1fe, 0x9bdc06a7, 0xc19bf174,
    0xe49b69c1, 0xefbe4786, 0x0fc19dc6, 0x240ca1cc, 0x2de92c6f, 0x4a7484aa, 0x5cb0a9dc, 0x76f988da,
    0x983e5152, 0xa831c66d, 0xb00327c8, 0xbf597fc7, 0xc6e00bf3, 0xd5a79147, 0x06ca6351, 0x14292967,
    0x27b70a85, 0x2e1b2138, 0x4d2c6dfc, 0x53380d13, 0x650a7354, 0x766a0abb, 0x81c2c92e, 0x92722c85,
    0xa2bfe8a1, 0xa81a664b, 0xc24b8b70, 0xc76c51a3, 0xd192e819, 0xd6990624, 0xf40e3585, 0x106aa070,
    0x19a4c116, 0x1e376c08, 0x2748774c, 0x34b0bcb5, 0x391c0cb3, 0x4ed8aa4a, 0x5b9cca4f, 0x682e6ff3,
    0x748f82ee, 0x78a5636f, 0x84c87814, 0x8cc70208, 0x90befffa, 0xa4506ceb, 0xbef9a3f7, 0xc67178f2,
};

#define ROR(x, n) ((x) >> (n) | (x) << (32 - (n)))
#define CH(x, y, z) ((z) ^ ((x) & ((y) ^ (z))))
#ifdef STANDARD_FORMULAS
#define BIG0(x) (ROR(x, 2) ^ ROR(x, 13) ^ ROR(x, 22))
#define BIG1(x) (ROR(x, 6) ^ ROR(x, 11) ^ ROR(x, 25))
#define SMALL0(x) (ROR(x, 7) ^ ROR(x, 18) ^ (x) >> 3)
#define SMALL1(x) (ROR(x, 17) ^ ROR(x, 19) ^ (x) >> 10)
#define MAJ(x, y, z) (((x) & (y)) ^ ((x) & (z)) ^ ((y) & (z)))
#else
/* The same with the rotations nested: fewer copies where a rotation works in place, and a fifth faster by gcc -O3. */
#define BIG0(x) ROR((x) ^ ROR((x) ^ ROR(x, 9), 11), 2)
#define BIG1(x) ROR((x) ^ ROR((x) ^ ROR(x, 14), 5), 6)
#define SMALL0(x) (ROR((x) ^ ROR(x, 11), 7) ^ (x) >> 3)
#define SMALL1(x) (ROR((x) ^ ROR(x, 2), 17) ^ (x) >> 10)
#define MAJ(x, y, z) ((y) ^ (((x) ^ (y)) & ((y) ^ (z)))) /* x ^ y is the next round's y ^ z */
#endif

#define ROUND(a, b, c, d, e, f, g, h, k, word)                                                                         \
    do {                                                                                                               \
        uint32_t t = (h) + BIG1(e) + CH(e, f, g) + (k) + (word);                                                       \
        (d) += t;                                                                                                      \
        (h) = t + BIG0(a) + MAJ(a, b, c);                                                                              \
    } while (0)

/* A round of the first 48: the word that it takes gives place to the one 16 on. */
#define TURN(a, b, c, d, e, f, g, h, j)                                                                                \
    do {                                                                                                               \
        uint32_t word = w[j];                                                                                          \
        w[j] += SMALL1(w[((j) + 14) & 15]) + w[((j) + 9) & 15] + SMALL0(w[((j) + 1) & 15]);                            \
        ROUND(a, b, c, d, e, f, g, h, sha_k[i + (j)], word);                                                           \
    } while (0)

/* A round of the last 16. */
#define LAST(a, b, c, d, e, f, g, h, j) ROUND(a, b, c, d, e, f, g, h, sha_k[48 + (j)], w[j])

/* Eight rounds bring the working variables back to their places. */
#define EIGHT(ONE, j)                                                                                                  \
    ONE(a, b, c, d, e, f, g, h, j);                                                                                    \
    ONE(h, a, b, c, d, e, f, g, j + 1);                                                                                \
    ONE(g, h, a, b, c, d, e, f, j + 2);                                                                                \
    ONE(f, g, h, a, b, c, d, e, j + 3);                                                                                \
    ONE(e, f, g, h, a, b, c, d, j + 4);                                                                                \
    ONE(d, e, f, g, h, a, b, c, j + 5);                                                                                \
    ONE(c, d, e, f, g, h, a, b, j + 6);                                                                                \
    ONE(b, c, d, e, f, g, h, a, j + 7)

/* Sixteen rounds at a time, not all 64 unrolled: the loop's code stays in the processor's cache of decoded code. */
static void sha_blocks(sha_state *s, const uint8_t *block, size_t count)
{
    for (; count > 0; count--, block += 64) {
        uint32_t a = s->h[0], b = s->h[1], c = s->h[2], d = s->h[3], e = s->h[4], f = s->h[5], g = s->h[6], h = s->h[7];
        uint32_t w[16];
        for (int i = 0; i < 16; i++)
            w[i] = get32(block + 4 * i);
        for (int i = 0; i < 48; i += 16) {
            EIGHT(TURN, 0);
            EIGHT(TURN, 8);
        }
        EIGHT(LAST, 0);
        EIGHT(LAST, 8);
        s->h[0] += a;
        s->h[1] += b;
        s->h[2] += c;
        s->h[3] += d;
        s->h[4] += e;
        s->h[5] += f;
        s->h[6] += g;
        s->h[7] += h;
        s->blocks++;
    }
}

/* Hashes the last part of a message and writes the digest; before is what was hashed already, whole blocks. Gives the number of
 * blocks of the whole message. */
static uint64_t sha_finish(sha_state *s, uint64_t before, const uint8_t *message, size_t bytes, uint8_t *digest)
{
    size_t whole = bytes / 64, rest = bytes % 64;
    sha_blocks(s, message, whole);
    uint8_t last[128] = {0};
    memcpy(last, message + 64 * whole, rest);
    last[rest] = 0x80;
    size_t blocks = rest < 56 ? 1 : 2;
    put64(last + 64 * blocks - 8, (before + bytes) * 8);
    sha_blocks(s, last, blocks);
    for (int i = 0; i < 8; i++)
        put32(digest + 4 * i, s->h[i]);
    return s->blocks;
}

static uint64_t sha256(const uint8_t *message, size_t bytes, uint8_t *digest)
{
    sha_state s = sha_initial;
    return sha_finish(&s, 0, message, bytes, digest);
}

/* FIPS 180-4 allows fewer than 2^64 bits. */
static const uint64_t too_long = UINT64_C(1) << 61;

keeper_result plain_hash(const uint8_t *message, size_t message_bytes, uint8_t *digest, size_t digest_bytes)
{
    if (digest_bytes != 32 || message_bytes >= too_long)
        return refused(KEEPER_LENGTH);
    return done(sha256(message, message_bytes, digest));
}

/* ---- HMAC, RFC 2104 ---- */

/* Gives the number of blocks hashed, a long key's own among them. */
static uint64_t hmac(const uint8_t *key, size_t key_bytes, const uint8_t *text, size_t text_bytes, uint8_t *tag)
{
    uint8_t pad[64] = {0}, inner[32];
    uint64_t blocks = 0;
    if (key_bytes > 64)
        blocks = sha256(key, key_bytes, pad);
    else
        memcpy(pad, key, key_bytes);

    for (int i = 0; i < 64; i++)
        pad[i] ^= 0x36;
    sha_state s = sha_initial;
    sha_blocks(&s, pad, 1);
    blocks += sha_finish(&s, 64, text, text_bytes, inner);

    for (int i = 0; i < 64; i++)
        pad[i] ^= 0x36 ^ 0x5c;
    s = sha_initial;
    sha_blocks(&s, pad, 1);
    return blocks + sha_finish(&s, 64, inner, 32, tag);
}

keeper_result plain_tag(const uint8_t *key, size_t key_bytes, const uint8_t *text, size_t text_bytes, uint8_t *tag,
                        size_t tag_bytes)
{
    if (tag_bytes != 32 || key_bytes >= too_long || text_bytes >= too_long - 64)
        return refused(KEEPER_LENGTH);
    return done(hmac(key, key_bytes, text, text_bytes, tag));
}

/* ---- the table's bytes ---- */

enum { HEADER = 54, ROW = 22, SLOT = 76, MAX_LOGS = 16, MAX_SLOTS = 800 };

static const uint8_t mark[4] = {'A', '2', 'M', 'U'};

/* Offsets in the header, a row and a slot. */
enum { H_LOGS = 4, H_ZERO = 5, H_SLOTS = 6, H_KEEPER = 8, H_FREE = 16, H_COUNT = 18, H_KEY = 20, H_FREE_LAST = 52 };
enum { R_LOW = 0, R_HIGH = 8, R_FIRST = 16, R_LAST = 18, R_RESERVE = 20 };
enum { S_OWNER = 0, S_ZERO = 1, S_NEXT = 2, S_POSITION = 4, S_VALUE = 12, S_DIGEST = 44 };

static inline size_t row_at(uint64_t log)
{
    return HEADER + ROW * log;
}

/* Slots count from 1. */
static inline size_t slot_at(uint32_t logs, uint32_t slot)
{
    return HEADER + ROW * (size_t)logs + SLOT * (size_t)(slot - 1);
}

static inline int all_zero(const uint8_t *p, size_t words)
{
    uint64_t any = 0;
    for (size_t i = 0; i < words; i++) {
        uint64_t x;
        memcpy(&x, p + 8 * i, 8);
        any |= x;
    }
    return any == 0;
}

/* The walks give how many slots a chain has, or this. */
static const uint32_t no_chain = UINT32_MAX;

/* The free chain from slot i on, and its last slot, 0 if it has none. Slot 1 stands at base. A chain that goes on for more than
 * S slots has a loop. */
static inline uint32_t walk_free(const uint8_t *base, uint32_t slots, uint32_t i, uint32_t *last)
{
    uint32_t count = 0;
    *last = 0;
    while (i != 0) {
        if (i > slots || ++count > slots)
            return no_chain;
        const uint8_t *s = base + SLOT * ((size_t)i - 1);
        if (s[S_OWNER] != 0 || s[S_ZERO] != 0 || !all_zero(s + S_POSITION, 9))
            return no_chain;
        *last = i;
        i = get16(s + S_NEXT);
    }
    return count;
}

/* The chain of log g, whose row is r. It ends, since its positions rise. */
static inline uint32_t walk_log(const uint8_t *base, uint32_t slots, uint32_t g, const uint8_t *r)
{
    uint64_t low = get64(r + R_LOW), high = get64(r + R_HIGH);
    uint32_t i = get16(r + R_FIRST), last = get16(r + R_LAST), count = 0, at;
    if (i == 0)
        return low == 1 && high == 0 && last == 0 ? 0 : no_chain;
    if (low < 1 || low > high)
        return no_chain;
    uint64_t above = low - 1; /* the next position must be above this one */
    do {
        if (i > slots)
            return no_chain;
        const uint8_t *s = base + SLOT * ((size_t)i - 1);
        uint64_t position = get64(s + S_POSITION);
        if (s[S_OWNER] != g + 1 || s[S_ZERO] != 0 || position <= above)
            return no_chain;
        above = position;
        count++;
        at = i;
        i = get16(s + S_NEXT);
    } while (i != 0);
    return at == last && above == high ? count : no_chain;
}

/* What the check of a whole table counts on its way. */
typedef struct {
    uint32_t free;
    uint32_t lack;           /* what the logs together lack of their reserves */
    uint32_t held[MAX_LOGS]; /* entries of each log */
} tally;

/* The number of logs of a whole table, 0 of a torn one. Each chain is walked once. */
static inline uint32_t whole(const uint8_t *t, size_t bytes, tally *seen)
{
    if (bytes < HEADER || memcmp(t, mark, 4) != 0 || t[H_ZERO] != 0)
        return 0;
    uint32_t logs = t[H_LOGS], slots = get16(t + H_SLOTS);
    if (logs < 1 || logs > MAX_LOGS || slots < 1 || slots > MAX_SLOTS || bytes != KEEPER_TABLE_BYTES(logs, slots))
        return 0;
    const uint8_t *base = t + HEADER + ROW * logs;

    uint32_t last, free = walk_free(base, slots, get16(t + H_FREE), &last);
    if (free == no_chain || free != get16(t + H_COUNT) || last != get16(t + H_FREE_LAST))
        return 0;

    uint32_t count = free, lack = 0;
    for (uint32_t g = 0; g < logs; g++) {
        const uint8_t *r = t + row_at(g);
        uint32_t held = walk_log(base, slots, g, r), reserve = get16(r + R_RESERVE);
        if (held == no_chain)
            return 0;
        seen->held[g] = held;
        count += held;
        if (held < reserve)
            lack += reserve - held;
    }
    seen->free = free;
    seen->lack = lack;
    return count == slots && lack <= free ? logs : 0;
}

uint8_t plain_check(const uint8_t *table, size_t table_bytes)
{
    tally seen;
    return whole(table, table_bytes, &seen) != 0 ? KEEPER_DONE : KEEPER_TORN;
}

uint8_t plain_free(const uint8_t *table, size_t table_bytes, uint64_t *free)
{
    if (table_bytes < HEADER || memcmp(table, mark, 4) != 0)
        return KEEPER_TORN;
    *free = get16(table + H_COUNT);
    return KEEPER_DONE;
}

uint64_t plain_two_bytes(const uint8_t *table)
{
    return get16(table + H_COUNT);
}

keeper_result plain_format(uint8_t *table, size_t table_bytes, uint64_t logs, uint64_t slots, uint64_t keeper,
                           const uint8_t *key, size_t key_bytes, const uint64_t *reserves, size_t reserve_count)
{
    if (logs < 1 || logs > MAX_LOGS || slots < 1 || slots > MAX_SLOTS)
        return refused(KEEPER_COUNTS);
    if (table_bytes != KEEPER_TABLE_BYTES(logs, slots) || key_bytes != 32 || reserve_count != logs)
        return refused(KEEPER_LENGTH);
    uint64_t together = 0; /* 16 reserves of 800 at most */
    for (uint32_t g = 0; g < logs; g++) {
        if (reserves[g] > slots)
            return refused(KEEPER_COUNTS);
        together += reserves[g];
    }
    if (together > slots)
        return refused(KEEPER_COUNTS);
    memset(table, 0, table_bytes);
    memcpy(table, mark, 4);
    table[H_LOGS] = (uint8_t)logs;
    put16(table + H_SLOTS, (uint32_t)slots);
    put64(table + H_KEEPER, keeper);
    put16(table + H_FREE, 1);
    put16(table + H_COUNT, (uint32_t)slots);
    memcpy(table + H_KEY, key, 32);
    put16(table + H_FREE_LAST, (uint32_t)slots);
    for (uint32_t g = 0; g < logs; g++) {
        put64(table + row_at(g) + R_LOW, 1);
        put16(table + row_at(g) + R_RESERVE, (uint32_t)reserves[g]);
    }
    for (uint32_t i = 1; i < slots; i++)
        put16(table + slot_at((uint32_t)logs, i) + S_NEXT, i + 1);
    return done(0);
}

/* ---- tables of document 01's own layout, and the carry ---- */

enum { HEADER_01 = 52, ROW_01 = 20 };

static const uint8_t mark_01[4] = {'A', '2', 'M', 'T'};

/* The number of logs of a table that document 01 calls whole, with the number of its free slots and the last of them; 0 of any
 * other. Where the present header has the number, such a table has zero bytes. */
static uint32_t whole_01(const uint8_t *t, size_t bytes, uint32_t *free, uint32_t *last)
{
    if (bytes < HEADER_01 || memcmp(t, mark_01, 4) != 0 || t[H_ZERO] != 0 || get16(t + H_COUNT) != 0)
        return 0;
    uint32_t logs = t[H_LOGS], slots = get16(t + H_SLOTS);
    size_t first = HEADER_01 + ROW_01 * (size_t)logs; /* where the slots start */
    if (logs < 1 || logs > MAX_LOGS || slots < 1 || slots > MAX_SLOTS || bytes != first + SLOT * (size_t)slots)
        return 0;
    const uint8_t *base = t + first;
    uint32_t count = *free = walk_free(base, slots, get16(t + H_FREE), last);
    if (count == no_chain)
        return 0;
    for (uint32_t g = 0; g < logs; g++) {
        uint32_t held = walk_log(base, slots, g, t + HEADER_01 + ROW_01 * (size_t)g);
        if (held == no_chain)
            return 0;
        count += held;
    }
    return count == slots ? logs : 0;
}

keeper_result plain_carry(const uint8_t *old, size_t old_bytes, uint8_t *table, size_t table_bytes)
{
    uint32_t free, last, logs = whole_01(old, old_bytes, &free, &last);
    if (logs == 0)
        return refused(KEEPER_TORN);
    uint32_t slots = get16(old + H_SLOTS);
    if (table_bytes != KEEPER_TABLE_BYTES(logs, slots))
        return refused(KEEPER_LENGTH);
    memcpy(table, old, HEADER_01);
    memcpy(table, mark, 4);
    put16(table + H_COUNT, free);
    put16(table + H_FREE_LAST, last);
    for (uint32_t g = 0; g < logs; g++) {
        memcpy(table + row_at(g), old + HEADER_01 + ROW_01 * (size_t)g, ROW_01);
        put16(table + row_at(g) + R_RESERVE, 0);
    }
    memcpy(table + slot_at(logs, 1), old + HEADER_01 + ROW_01 * (size_t)logs, SLOT * (size_t)slots);
    return done(0);
}

/* ---- the calls that change a table ---- */

/* The 72 bytes whose SHA-256 is an entry's digest. */
static void block_of(uint8_t *block, uint64_t position, const uint8_t *value, const uint8_t *previous)
{
    put64(block, position);
    memcpy(block + 8, value, 32);
    memcpy(block + 40, previous, 32);
}

/* Whether an entry of the log may take a free slot: 0, or why not. A log that holds less than its reserve always may, since the
 * table is whole. Another lacks nothing, so what all logs lack is what the others lack, and one slot has to be free beyond it. */
static uint64_t no_slot(const uint8_t *t, const tally *seen, uint64_t log)
{
    if (seen->free == 0)
        return KEEPER_FULL;
    if (seen->held[log] < get16(t + row_at(log) + R_RESERVE) || seen->free > seen->lack)
        return KEEPER_DONE;
    return KEEPER_PROMISED;
}

/* Puts an entry into the first free slot, which exists, at the end of the log's chain. Gives the number of blocks hashed. */
static uint64_t put_entry(uint8_t *t, uint32_t logs, uint64_t log, uint64_t position, const uint8_t *value,
                          const uint8_t *previous, uint64_t *low, uint64_t *high)
{
    uint8_t *r = t + row_at(log);
    uint32_t i = get16(t + H_FREE), last = get16(r + R_LAST);
    uint8_t *s = t + slot_at(logs, i);
    uint32_t next = get16(s + S_NEXT);
    uint8_t block[72];
    block_of(block, position, value, previous);

    put16(t + H_FREE, next);
    if (next == 0)
        put16(t + H_FREE_LAST, 0);
    put16(t + H_COUNT, get16(t + H_COUNT) - 1);
    s[S_OWNER] = (uint8_t)(log + 1);
    put16(s + S_NEXT, 0);
    memcpy(s + S_POSITION, block, 40);
    uint64_t blocks = sha256(block, 72, s + S_DIGEST);
    put16(last == 0 ? r + R_FIRST : t + slot_at(logs, last) + S_NEXT, i);
    put16(r + R_LAST, i);
    put64(r + R_HIGH, position);
    *low = get64(r + R_LOW);
    *high = position;
    return blocks;
}

keeper_result plain_append(uint8_t *table, size_t table_bytes, uint64_t log, const uint8_t *value, size_t value_bytes,
                           uint64_t *low, uint64_t *high)
{
    static const uint8_t zeros[32];
    if (value_bytes != 32)
        return refused(KEEPER_LENGTH);
    tally seen;
    uint32_t logs = whole(table, table_bytes, &seen);
    if (logs == 0)
        return refused(KEEPER_TORN);
    if (log >= logs)
        return refused(KEEPER_NO_LOG);
    const uint8_t *r = table + row_at(log);
    uint64_t top = get64(r + R_HIGH);
    if (top == UINT64_MAX)
        return refused(KEEPER_SPENT);
    uint64_t why = no_slot(table, &seen, log);
    if (why != KEEPER_DONE)
        return refused(why);
    uint32_t last = get16(r + R_LAST);
    const uint8_t *previous = last == 0 ? zeros : table + slot_at(logs, last) + S_DIGEST;
    return done(put_entry(table, logs, log, top + 1, value, previous, low, high));
}

keeper_result plain_advance(uint8_t *table, size_t table_bytes, uint64_t log, uint64_t position, const uint8_t *digest,
                            size_t digest_bytes, const uint8_t *value, size_t value_bytes, uint64_t *low, uint64_t *high)
{
    if (digest_bytes != 32 || value_bytes != 32)
        return refused(KEEPER_LENGTH);
    tally seen;
    uint32_t logs = whole(table, table_bytes, &seen);
    if (logs == 0)
        return refused(KEEPER_TORN);
    if (log >= logs)
        return refused(KEEPER_NO_LOG);
    if (position <= get64(table + row_at(log) + R_HIGH))
        return refused(KEEPER_POSITION);
    uint64_t why = no_slot(table, &seen, log);
    if (why != KEEPER_DONE)
        return refused(why);
    return done(put_entry(table, logs, log, position, value, digest, low, high));
}

keeper_result plain_truncate(uint8_t *table, size_t table_bytes, uint64_t log, uint64_t position, uint64_t *low,
                             uint64_t *high)
{
    tally seen;
    uint32_t logs = whole(table, table_bytes, &seen);
    if (logs == 0)
        return refused(KEEPER_TORN);
    if (log >= logs)
        return refused(KEEPER_NO_LOG);
    uint8_t *r = table + row_at(log);
    uint64_t top = get64(r + R_HIGH);
    if (position <= get64(r + R_LOW) || position > top)
        return refused(KEEPER_POSITION);

    /* The freed slots are the front of the log's chain. They keep their links and go behind the last free slot; the
     * entry at H stays, so the walk ends inside the chain. */
    uint32_t first = get16(r + R_FIRST), i = first, last = 0, freed = 0;
    for (;;) {
        uint8_t *s = table + slot_at(logs, i);
        if (get64(s + S_POSITION) >= position)
            break;
        s[S_OWNER] = 0;
        memset(s + S_POSITION, 0, SLOT - S_POSITION);
        last = i;
        freed++;
        i = get16(s + S_NEXT);
    }
    if (last != 0) {
        uint32_t tail = get16(table + H_FREE_LAST);
        put16(table + slot_at(logs, last) + S_NEXT, 0);
        put16(tail == 0 ? table + H_FREE : table + slot_at(logs, tail) + S_NEXT, first);
        put16(table + H_FREE_LAST, last);
        put16(r + R_FIRST, i);
        put16(table + H_COUNT, get16(table + H_COUNT) + freed);
    }
    put64(r + R_LOW, position);
    *low = position;
    *high = top;
    return done(0);
}

/* ---- receipts ---- */

enum { C_NAME = 0, C_KIND = 6, C_LOG = 7, C_KEEPER = 8, C_POSITION = 16, C_REFERENCE = 24, C_NONCE = 32 };
enum { C_VALUE = 64, C_TAG = 128 };

static const uint8_t name_lookup[6] = {'L', 'O', 'O', 'K', 'U', 'P'};
static const uint8_t name_end[6] = {'E', 'N', 'D', 0, 0, 0};

/* entry is the slot shown, or NULL where value and digest are zero bytes. Gives the number of blocks hashed. */
static uint64_t put_receipt(uint8_t *receipt, const uint8_t *table, const uint8_t *name, uint8_t kind, uint64_t log,
                            uint64_t position, uint64_t reference, const uint8_t *nonce, const uint8_t *entry)
{
    memcpy(receipt + C_NAME, name, 6);
    receipt[C_KIND] = kind;
    receipt[C_LOG] = (uint8_t)log;
    memcpy(receipt + C_KEEPER, table + H_KEEPER, 8);
    put64(receipt + C_POSITION, position);
    put64(receipt + C_REFERENCE, reference);
    memcpy(receipt + C_NONCE, nonce, 32);
    if (entry != NULL)
        memcpy(receipt + C_VALUE, entry + S_VALUE, 64);
    else
        memset(receipt + C_VALUE, 0, 64);
    return hmac(table + H_KEY, 32, receipt, C_TAG, receipt + C_TAG);
}

keeper_result plain_lookup(const uint8_t *table, size_t table_bytes, uint64_t log, uint64_t position, const uint8_t *nonce,
                           size_t nonce_bytes, uint8_t *receipt, size_t receipt_bytes, uint64_t *examined)
{
    if (nonce_bytes != 32 || receipt_bytes != 160)
        return refused(KEEPER_LENGTH);
    tally seen;
    uint32_t logs = whole(table, table_bytes, &seen);
    if (logs == 0)
        return refused(KEEPER_TORN);
    if (log >= logs)
        return refused(KEEPER_NO_LOG);
    if (position == 0)
        return refused(KEEPER_POSITION);
    const uint8_t *r = table + row_at(log);
    uint64_t low = get64(r + R_LOW), high = get64(r + R_HIGH);
    uint64_t looked_at = 0, reference;
    const uint8_t *shown = NULL;
    uint8_t kind;
    if (position > high) {
        kind = KEEPER_UNASSIGNED;
        reference = high;
    } else if (position < low) {
        kind = KEEPER_FORGOTTEN;
        reference = low;
    } else {
        const uint8_t *s = table + slot_at(logs, get16(r + R_FIRST));
        looked_at = 1;
        while ((reference = get64(s + S_POSITION)) < position) {
            s = table + slot_at(logs, get16(s + S_NEXT));
            looked_at++;
        }
        kind = reference == position ? KEEPER_ASSIGNED : KEEPER_SKIPPED;
        shown = s;
    }
    *examined = looked_at;
    return done(put_receipt(receipt, table, name_lookup, kind, log, position, reference, nonce, shown));
}

keeper_result plain_end(const uint8_t *table, size_t table_bytes, uint64_t log, const uint8_t *nonce, size_t nonce_bytes,
                        uint8_t *receipt, size_t receipt_bytes)
{
    if (nonce_bytes != 32 || receipt_bytes != 160)
        return refused(KEEPER_LENGTH);
    tally seen;
    uint32_t logs = whole(table, table_bytes, &seen);
    if (logs == 0)
        return refused(KEEPER_TORN);
    if (log >= logs)
        return refused(KEEPER_NO_LOG);
    const uint8_t *r = table + row_at(log);
    uint32_t last = get16(r + R_LAST);
    uint64_t high = get64(r + R_HIGH);
    if (last == 0) /* a fresh log: high is 0 */
        return done(put_receipt(receipt, table, name_end, KEEPER_UNASSIGNED, log, high, high, nonce, NULL));
    return done(put_receipt(receipt, table, name_end, KEEPER_ASSIGNED, log, high, high, nonce,
                            table + slot_at(logs, last)));
}

/* ---- surveys ---- */

static const uint64_t last_reading = (UINT64_C(1) << 40) - 1;

uint8_t plain_pack(uint64_t survey, uint64_t reading, uint64_t *position)
{
    if (survey >> 24 != 0 || reading > last_reading)
        return KEEPER_SURVEY;
    *position = survey << 40 | reading;
    return KEEPER_DONE;
}

uint8_t plain_split(uint64_t position, uint64_t *survey, uint64_t *reading)
{
    *survey = position >> 40;
    *reading = position & last_reading;
    return KEEPER_DONE;
}

keeper_result plain_survey_advance(uint8_t *table, size_t table_bytes, uint64_t log, uint64_t survey, uint64_t reading,
                                   const uint8_t *digest, size_t digest_bytes, const uint8_t *value, size_t value_bytes,
                                   uint64_t *low, uint64_t *high)
{
    uint64_t position;
    if (digest_bytes != 32 || value_bytes != 32)
        return refused(KEEPER_LENGTH);
    if (plain_pack(survey, reading, &position) != KEEPER_DONE)
        return refused(KEEPER_SURVEY);
    return plain_advance(table, table_bytes, log, position, digest, digest_bytes, value, value_bytes, low, high);
}

keeper_result plain_survey_lookup(const uint8_t *table, size_t table_bytes, uint64_t log, uint64_t survey, uint64_t reading,
                                  const uint8_t *nonce, size_t nonce_bytes, uint8_t *receipt, size_t receipt_bytes,
                                  uint64_t *examined)
{
    uint64_t position;
    if (nonce_bytes != 32 || receipt_bytes != 160)
        return refused(KEEPER_LENGTH);
    if (plain_pack(survey, reading, &position) != KEEPER_DONE)
        return refused(KEEPER_SURVEY);
    return plain_lookup(table, table_bytes, log, position, nonce, nonce_bytes, receipt, receipt_bytes, examined);
}

keeper_result plain_survey_close(uint8_t *table, size_t table_bytes, uint64_t log, uint64_t survey, const uint8_t *value,
                                 size_t value_bytes, uint64_t *low, uint64_t *high)
{
    static const uint8_t no_digest[32];
    return plain_survey_advance(table, table_bytes, log, survey, last_reading, no_digest, 32, value, value_bytes, low, high);
}

/* ---- the verifier ---- */

/* Whether the 160 bytes are those of a possible entry, the tag apart; a skipped one may show anything (document 02, [3]), and
 * the end of a fresh log is the one with position 0 ([6]). */
static int possible(const uint8_t *c)
{
    int end = memcmp(c + C_NAME, name_end, 6) == 0;
    if (!end && memcmp(c + C_NAME, name_lookup, 6) != 0)
        return 0;
    uint8_t kind = c[C_KIND];
    uint64_t position = get64(c + C_POSITION), reference = get64(c + C_REFERENCE);
    if (c[C_LOG] > 15)
        return 0;
    if (position == 0)
        return end && kind == KEEPER_UNASSIGNED && reference == 0 && all_zero(c + C_VALUE, 8);
    if (kind == KEEPER_ASSIGNED)
        return reference == position;
    if (end)
        return 0;
    switch (kind) {
    case KEEPER_UNASSIGNED:
        return reference < position && all_zero(c + C_VALUE, 8);
    case KEEPER_SKIPPED:
        return reference > position;
    case KEEPER_FORGOTTEN:
        return reference > position && all_zero(c + C_VALUE, 8);
    default:
        return 0;
    }
}

/* Looks at every byte, so that the time does not tell where two tags part. */
static int same_tag(const uint8_t *x, const uint8_t *y)
{
    uint8_t unlike = 0;
    for (int i = 0; i < 32; i++)
        unlike |= x[i] ^ y[i];
    return unlike == 0;
}

/* position is NULL for the question for an end. */
static keeper_result verify(const uint8_t *key, size_t key_bytes, const uint8_t *c, size_t bytes, const uint8_t *nonce,
                            size_t nonce_bytes, uint64_t keeper, uint64_t log, const uint64_t *position,
                            keeper_verdict *verdict)
{
    uint8_t tag[32];
    if (key_bytes != 32 || nonce_bytes != 32)
        return refused(KEEPER_LENGTH);
    if (bytes != 160 || !possible(c))
        return refused(KEEPER_NO_RECEIPT);
    uint64_t blocks = hmac(key, 32, c, C_TAG, tag);
    if (!same_tag(tag, c + C_TAG))
        return (keeper_result){KEEPER_TAG, blocks};
    uint64_t n = get64(c + C_POSITION);
    if (memcmp(c + C_NAME, position != NULL ? name_lookup : name_end, 6) != 0 || c[C_LOG] != log ||
        get64(c + C_KEEPER) != keeper || memcmp(c + C_NONCE, nonce, 32) != 0 || (position != NULL && n != *position))
        return (keeper_result){KEEPER_OTHER_QUESTION, blocks};
    verdict->keeper = keeper;
    verdict->log = log;
    verdict->position = n;
    verdict->kind = c[C_KIND];
    verdict->reference = get64(c + C_REFERENCE);
    return done(blocks);
}

keeper_result plain_verify_lookup(const uint8_t *key, size_t key_bytes, const uint8_t *receipt, size_t receipt_bytes,
                                  const uint8_t *nonce, size_t nonce_bytes, uint64_t keeper, uint64_t log, uint64_t position,
                                  keeper_verdict *verdict)
{
    return verify(key, key_bytes, receipt, receipt_bytes, nonce, nonce_bytes, keeper, log, &position, verdict);
}

keeper_result plain_verify_end(const uint8_t *key, size_t key_bytes, const uint8_t *receipt, size_t receipt_bytes,
                               const uint8_t *nonce, size_t nonce_bytes, uint64_t keeper, uint64_t log,
                               keeper_verdict *verdict)
{
    return verify(key, key_bytes, receipt, receipt_bytes, nonce, nonce_bytes, keeper, log, NULL, verdict);
}

/* ---- certificates ---- */

enum { MEMBER = 40, MAX_MEMBERS = 32, MAX_RECEIPTS = 32 };

/* The refusal of a profile, its roster and a pile of receipts, or KEEPER_DONE and the members' keeper numbers. */
static uint64_t station(uint64_t members, uint64_t needed, const uint8_t *roster, size_t roster_bytes, size_t pile_bytes,
                        uint64_t number[MAX_MEMBERS])
{
    if (members < 1 || members > MAX_MEMBERS || needed > members || needed <= members / 2)
        return KEEPER_PROFILE;
    if (roster_bytes != MEMBER * members)
        return KEEPER_ROSTER;
    for (size_t i = 0; i < members; i++) {
        number[i] = get64(roster + MEMBER * i);
        for (size_t j = 0; j < i; j++)
            if (number[j] == number[i])
                return KEEPER_ROSTER;
    }
    if (pile_bytes % 160 != 0 || pile_bytes / 160 > MAX_RECEIPTS)
        return KEEPER_NO_RECEIPT;
    return KEEPER_DONE;
}

/* The member with this keeper number, or members if there is none. */
static size_t member_of(const uint64_t *number, size_t members, uint64_t keeper)
{
    size_t m = 0;
    while (m < members && number[m] != keeper)
        m++;
    return m;
}

keeper_result plain_certify(uint64_t members, uint64_t needed, const uint8_t *roster, size_t roster_bytes,
                            const uint8_t *nonce, size_t nonce_bytes, uint64_t log, uint64_t position,
                            const uint8_t *certificate, size_t certificate_bytes, uint64_t *place, uint32_t *mask)
{
    uint64_t number[MAX_MEMBERS];
    if (nonce_bytes != 32)
        return refused(KEEPER_LENGTH);
    uint64_t refusal = station(members, needed, roster, roster_bytes, certificate_bytes, number);
    if (refusal != KEEPER_DONE)
        return refused(refusal);
    size_t receipts = certificate_bytes / 160;

    /* One row for each pair of value and digest that a good receipt shows, by the first place that shows it. */
    struct {
        const uint8_t *pair;
        size_t place;
        uint32_t mask;
    } shown[MAX_RECEIPTS];
    size_t pairs = 0;
    uint64_t blocks = 0;
    for (size_t p = 0; p < receipts; p++) {
        const uint8_t *c = certificate + 160 * p;
        uint64_t keeper = get64(c + C_KEEPER);
        size_t m = member_of(number, members, keeper);
        if (m == members)
            continue;
        keeper_verdict verdict;
        keeper_result checked = verify(roster + MEMBER * m + 8, 32, c, 160, nonce, 32, keeper, log, &position, &verdict);
        blocks += checked.blocks;
        if (checked.number != KEEPER_DONE || verdict.kind != KEEPER_ASSIGNED)
            continue;
        size_t k = 0;
        while (k < pairs && memcmp(shown[k].pair, c + C_VALUE, 64) != 0)
            k++;
        if (k == pairs) {
            shown[pairs].pair = c + C_VALUE;
            shown[pairs].place = p;
            shown[pairs].mask = 0;
            pairs++;
        }
        shown[k].mask |= UINT32_C(1) << m;
    }
    for (size_t k = 0; k < pairs; k++) {
        if ((uint64_t)__builtin_popcount(shown[k].mask) >= needed) {
            *place = shown[k].place;
            *mask = shown[k].mask;
            return done(blocks);
        }
    }
    return (keeper_result){KEEPER_TOO_FEW, blocks};
}

/* ---- a keeper that contradicts itself ---- */

/* Two accepted receipts: "with one keeper, log and position that are both assigned with different values or digests, or one
 * assigned and one skipped". */
static int contradict(const uint8_t *a, const uint8_t *b)
{
    if (get64(a + C_KEEPER) != get64(b + C_KEEPER) || a[C_LOG] != b[C_LOG] || get64(a + C_POSITION) != get64(b + C_POSITION))
        return 0;
    if (a[C_KIND] == KEEPER_ASSIGNED && b[C_KIND] == KEEPER_ASSIGNED)
        return memcmp(a + C_VALUE, b + C_VALUE, 64) != 0;
    return (a[C_KIND] == KEEPER_ASSIGNED && b[C_KIND] == KEEPER_SKIPPED) ||
           (a[C_KIND] == KEEPER_SKIPPED && b[C_KIND] == KEEPER_ASSIGNED);
}

keeper_result plain_contradiction(uint64_t members, uint64_t needed, const uint8_t *roster, size_t roster_bytes,
                                  const uint8_t *receipts, size_t receipts_bytes, uint8_t *found, uint64_t *first,
                                  uint64_t *second)
{
    uint64_t number[MAX_MEMBERS];
    uint64_t refusal = station(members, needed, roster, roster_bytes, receipts_bytes, number);
    if (refusal != KEEPER_DONE)
        return refused(refusal);

    /* Places of accepted receipts, each checked for the question that it carries itself, its own nonce included. */
    size_t accepted[MAX_RECEIPTS], count = 0;
    uint64_t blocks = 0;
    for (size_t p = 0; p < receipts_bytes / 160; p++) {
        const uint8_t *c = receipts + 160 * p;
        uint64_t keeper = get64(c + C_KEEPER), position = get64(c + C_POSITION);
        size_t m = member_of(number, members, keeper);
        if (m == members)
            continue;
        int end = memcmp(c + C_NAME, name_end, 6) == 0;
        keeper_verdict verdict;
        keeper_result checked = verify(roster + MEMBER * m + 8, 32, c, 160, c + C_NONCE, 32, keeper, c[C_LOG],
                                       end ? NULL : &position, &verdict);
        blocks += checked.blocks;
        if (checked.number == KEEPER_DONE)
            accepted[count++] = p;
    }
    *found = 0;
    for (size_t i = 0; i < count && !*found; i++) {
        for (size_t j = i + 1; j < count && !*found; j++) {
            if (contradict(receipts + 160 * accepted[i], receipts + 160 * accepted[j])) {
                *found = 1;
                *first = accepted[i];
                *second = accepted[j];
            }
        }
    }
    return done(blocks);
}

/* ---- verdicts in words (docs/SENTENCES.md) ---- */

enum { SENTENCE = 200 };

/* The words of documents 01 and 02 for their numbers; 6 has none. */
static const char *word_of(uint8_t number)
{
    static const char *const words[] = {
        "unknown", "torn", "no log",   "position", "spent",  "full",    "unknown", "length", "counts",   "no receipt",
        "tag",     "other question", "roster", "too few", "no run", "line", "promised", "profile", "survey", "seed",
    };
    return number < sizeof words / sizeof words[0] ? words[number] : "unknown";
}

static uint8_t put_sentence(const char *text, uint8_t *sentence, size_t bytes)
{
    if (bytes != SENTENCE)
        return KEEPER_LENGTH;
    memset(sentence, 0, SENTENCE);
    memcpy(sentence, text, strlen(text));
    return KEEPER_DONE;
}

uint8_t plain_receipt_sentence(uint8_t number, const keeper_verdict *verdict, uint8_t *sentence, size_t sentence_bytes)
{
    static const char *const kinds[] = {"unassigned", "assigned", "skipped", "forgotten"};
    char text[SENTENCE + 1];
    if (number == KEEPER_DONE)
        snprintf(text, sizeof text,
                 "The receipt is accepted (0): keeper %" PRIu64 " says of log %" PRIu64 " that position %" PRIu64
                 " is %s (kind %" PRIu64 "), reference %" PRIu64 ".",
                 verdict->keeper, verdict->log, verdict->position, verdict->kind < 4 ? kinds[verdict->kind] : "unknown",
                 verdict->kind, verdict->reference);
    else
        snprintf(text, sizeof text, "The receipt is refused (%d): %s.", number,
                 number == KEEPER_LENGTH           ? "the key or nonce has a wrong length"
                 : number == KEEPER_NO_RECEIPT     ? "it is not a possible receipt"
                 : number == KEEPER_TAG            ? "its tag is wrong"
                 : number == KEEPER_OTHER_QUESTION ? "it answers another question"
                                                   : word_of(number));
    return put_sentence(text, sentence, sentence_bytes);
}

uint8_t plain_certificate_sentence(uint8_t number, uint64_t place, uint32_t mask, uint8_t *sentence, size_t sentence_bytes)
{
    char text[SENTENCE + 1];
    if (number == KEEPER_DONE) {
        int many = (mask & (mask - 1)) != 0, at;
        at = snprintf(text, sizeof text, "The certificate stands (0) on receipt %" PRIu64 ", agreed by %s", place,
                      mask == 0 ? "none" : many ? "members" : "member");
        for (int i = 0, before = 0; i < MAX_MEMBERS; i++)
            if (mask >> i & 1)
                at += snprintf(text + at, sizeof text - at, "%s%d", before++ ? ", " : " ", i);
        snprintf(text + at, sizeof text - at, ".");
    } else
        snprintf(text, sizeof text, "The certificate is refused (%d): %s.", number,
                 number == KEEPER_LENGTH       ? "the nonce has a wrong length"
                 : number == KEEPER_PROFILE    ? "the profile is not permitted"
                 : number == KEEPER_ROSTER     ? "the roster is not valid"
                 : number == KEEPER_NO_RECEIPT ? "it is not a pile of whole receipts, or too long"
                 : number == KEEPER_TOO_FEW    ? "too few members agree"
                                               : word_of(number));
    return put_sentence(text, sentence, sentence_bytes);
}

/* ---- runs ---- */

static int no_run(uint64_t first, size_t bytes)
{
    return bytes == 0 || bytes % 32 != 0 || first == 0 || bytes / 32 - 1 > UINT64_MAX - first;
}

keeper_result plain_compare(const uint8_t *start1, size_t start1_bytes, uint64_t first1, const uint8_t *values1,
                            size_t values1_bytes, const uint8_t *start2, size_t start2_bytes, uint64_t first2,
                            const uint8_t *values2, size_t values2_bytes, uint8_t *collision, size_t collision_bytes,
                            uint8_t *verdict)
{
    if (start1_bytes != 32 || start2_bytes != 32 || collision_bytes != 144)
        return refused(KEEPER_LENGTH);
    if (no_run(first1, values1_bytes) || no_run(first2, values2_bytes))
        return refused(KEEPER_NO_RUN);
    size_t count1 = values1_bytes / 32, count2 = values2_bytes / 32, i1 = 0, i2 = 0;
    uint8_t block1[72], block2[72], unequal[144];
    uint8_t digest1[32], digest2[32];
    uint64_t blocks = 0;
    memcpy(digest1, start1, 32);
    memcpy(digest2, start2, 32);

    /* First what the longer run has before the shorter one's first entry, then both in step. */
    for (; count1 - i1 > count2; i1++) {
        block_of(block1, first1 + i1, values1 + 32 * i1, digest1);
        blocks += sha256(block1, 72, digest1);
    }
    for (; count2 - i2 > count1; i2++) {
        block_of(block2, first2 + i2, values2 + 32 * i2, digest2);
        blocks += sha256(block2, 72, digest2);
    }
    int differ = 0;
    for (; i1 < count1; i1++, i2++) {
        block_of(block1, first1 + i1, values1 + 32 * i1, digest1);
        block_of(block2, first2 + i2, values2 + 32 * i2, digest2);
        if (memcmp(block1, block2, 72) != 0) { /* the last such pair is the one nearest the ends */
            memcpy(unequal, block1, 72);
            memcpy(unequal + 72, block2, 72);
            differ = 1;
        }
        blocks += sha256(block1, 72, digest1);
        blocks += sha256(block2, 72, digest2);
    }
    if (memcmp(digest1, digest2, 32) != 0) {
        *verdict = KEEPER_DIFFER;
    } else if (!differ) {
        *verdict = KEEPER_AGREE;
    } else {
        memcpy(collision, unequal, 144);
        *verdict = KEEPER_COLLISION;
    }
    return done(blocks);
}
