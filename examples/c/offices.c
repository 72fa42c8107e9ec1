/* Three forecast offices along a river. A station of three keepers records the crest; every office has the station's roster,
 * wants two of the keepers to agree, and asks with a nonce of its own. The first office's certificate stands though a keeper
 * shows another value, the second's falls short, both told in words, and the third compares two runs of readings. Then the
 * offices pool their receipts, to see if a keeper contradicts itself. */
#include "keeper.h"
#include <inttypes.h>
#include <stdio.h>
#include <string.h>

_Static_assert(sizeof(keeper_result) == 16, "the library returns two numbers of 8 bytes");

enum { KEEPERS = 3, NEEDED = 2, STAGE = 0, CREST = 3, EACH = 3, ALL = 2 * EACH + 1 };

static uint8_t tables[KEEPERS][KEEPER_TABLE_BYTES(1, 8)];
static uint8_t roster[KEEPERS * KEEPER_MEMBER_BYTES];
static uint8_t receipts[ALL * KEEPER_RECEIPT_BYTES];

/* A reading is a number in the last 8 of 32 bytes. */
static void put_number(uint8_t *bytes, size_t size, uint64_t number)
{
    memset(bytes, 0, size);
    for (size_t i = size; number > 0; number >>= 8)
        bytes[--i] = (uint8_t)number;
}

static uint64_t number_in(const uint8_t *bytes, size_t size)
{
    uint64_t number = 0;
    for (size_t i = size - 8; i < size; i++)
        number = number << 8 | bytes[i];
    return number;
}

/* Keeper 7 + k, with a key of its own, records three readings. */
static int record(int k, uint64_t crest)
{
    const uint64_t readings[] = {412, 431, crest};
    uint8_t *member = roster + k * KEEPER_MEMBER_BYTES, *key = member + 8, value[KEEPER_VALUE_BYTES];
    const uint64_t reserves[1] = {0}; /* one log has all slots anyway */
    uint64_t low, high;
    put_number(member, 8, 7 + k);
    put_number(key, KEEPER_KEY_BYTES, 1000 + k);
    if (keeper_format(tables[k], sizeof tables[k], 1, 8, 7 + k, key, KEEPER_KEY_BYTES, reserves, 1).number != KEEPER_DONE)
        return 0;
    for (int i = 0; i < 3; i++) {
        put_number(value, sizeof value, readings[i]);
        if (keeper_append(tables[k], sizeof tables[k], STAGE, value, sizeof value, &low, &high).number != KEEPER_DONE)
            return 0;
    }
    return 1;
}

/* The receipt at a place, of those that the offices fetched. */
static uint8_t *at(int place)
{
    return receipts + place * KEEPER_RECEIPT_BYTES;
}

static int fetched(int k, const uint8_t *nonce, uint8_t *receipt)
{
    uint64_t examined;
    return keeper_lookup(tables[k], sizeof tables[k], STAGE, CREST, nonce, KEEPER_NONCE_BYTES, receipt,
                         KEEPER_RECEIPT_BYTES, &examined).number == KEEPER_DONE;
}

static void certify(const char *office, const uint8_t *nonce, const uint8_t *certificate, size_t count)
{
    uint8_t sentence[KEEPER_SENTENCE_BYTES];
    uint64_t place = 0;
    uint32_t mask = 0;
    keeper_result answer = keeper_certify(KEEPERS, NEEDED, roster, sizeof roster, nonce, KEEPER_NONCE_BYTES, STAGE, CREST,
                                          certificate, count * KEEPER_RECEIPT_BYTES, &place, &mask);
    keeper_certificate_sentence((uint8_t)answer.number, place, mask, sentence, sizeof sentence);
    printf("%s: %zu receipts, %" PRIu64 " blocks hashed. %.*s", office, count, answer.blocks, (int)sizeof sentence,
           (const char *)sentence);
    if (answer.number == KEEPER_DONE) {
        const uint8_t *receipt = certificate + place * KEEPER_RECEIPT_BYTES;
        printf(" The value is %" PRIu64 ", shown by keepers", number_in(receipt + KEEPER_AT_VALUE, KEEPER_VALUE_BYTES));
        for (int k = 0; k < KEEPERS; k++)
            if (mask >> k & 1)
                printf(" %" PRIu64, number_in(roster + k * KEEPER_MEMBER_BYTES, 8));
        printf(".");
    }
    printf("\n");
}

static void compare(const char *with, const uint8_t *ours, const uint8_t *theirs)
{
    static const char *const words[] = {"differ", "agree", "collision"};
    const uint8_t start[KEEPER_DIGEST_BYTES] = {0};
    uint8_t collision[KEEPER_COLLISION_BYTES], verdict = 0;
    keeper_result answer =
        keeper_compare(start, sizeof start, 1, ours, 3 * KEEPER_VALUE_BYTES, start, sizeof start, 1, theirs,
                       3 * KEEPER_VALUE_BYTES, collision, sizeof collision, &verdict);
    printf("office 3: its run ending in %" PRIu64 " and %s ending in %" PRIu64 ", %" PRIu64
           " blocks hashed, answer %" PRIu64 ", %s\n",
           number_in(ours + 2 * KEEPER_VALUE_BYTES, KEEPER_VALUE_BYTES), with,
           number_in(theirs + 2 * KEEPER_VALUE_BYTES, KEEPER_VALUE_BYTES), answer.blocks, answer.number, words[verdict]);
}

static void pool(size_t count)
{
    uint8_t found = 0;
    uint64_t first = 0, second = 0;
    keeper_result answer = keeper_contradiction(KEEPERS, NEEDED, roster, sizeof roster, receipts,
                                                count * KEEPER_RECEIPT_BYTES, &found, &first, &second);
    printf("all offices: %zu receipts, %" PRIu64 " blocks hashed, answer %" PRIu64 ", ", count, answer.blocks, answer.number);
    if (found) {
        const uint8_t *one = at((int)first), *other = at((int)second);
        printf("receipts %" PRIu64 " and %" PRIu64 " contradict each other: keeper %" PRIu64 " shows %" PRIu64 " and %" PRIu64
               " at position %" PRIu64 "\n",
               first, second, number_in(one + KEEPER_AT_KEEPER, 8), number_in(one + KEEPER_AT_VALUE, KEEPER_VALUE_BYTES),
               number_in(other + KEEPER_AT_VALUE, KEEPER_VALUE_BYTES), number_in(one + KEEPER_AT_POSITION, 8));
    } else
        printf("no contradiction\n");
}

int main(void)
{
    const uint8_t nonce1[KEEPER_NONCE_BYTES] = {11}, nonce2[KEEPER_NONCE_BYTES] = {22}, nonce3[KEEPER_NONCE_BYTES] = {33};
    uint8_t first_run[3 * KEEPER_VALUE_BYTES], second_run[3 * KEEPER_VALUE_BYTES];

    /* Keeper 9's sensor misread the crest. */
    if (!record(0, 455) || !record(1, 455) || !record(2, 155))
        return 1;

    /* Office 1 reaches all three keepers. */
    if (!fetched(2, nonce1, at(0)) || !fetched(0, nonce1, at(1)) || !fetched(1, nonce1, at(2)))
        return 1;
    certify("office 1", nonce1, at(0), EACH);

    /* Office 2 reaches keeper 7 twice, and keeper 8's receipt lost a bit on the way. */
    if (!fetched(0, nonce2, at(3)) || !fetched(0, nonce2, at(4)) || !fetched(1, nonce2, at(5)))
        return 1;
    at(5)[KEEPER_AT_VALUE + 31] ^= 1;
    certify("office 2", nonce2, at(3), EACH);

    /* Office 3 keeps the readings themselves, and compares them with another office's. */
    for (int i = 0; i < 3; i++) {
        put_number(first_run + i * KEEPER_VALUE_BYTES, KEEPER_VALUE_BYTES, (uint64_t[]){412, 431, 455}[i]);
        put_number(second_run + i * KEEPER_VALUE_BYTES, KEEPER_VALUE_BYTES, (uint64_t[]){412, 413, 455}[i]);
    }
    compare("a copy", first_run, first_run);
    compare("one whose second reading is another,", first_run, second_run);

    /* That keepers differ, and that a receipt was spoiled, is no contradiction. But then somebody sets keeper 9 up anew, with its
     * number and key, and has it record what the others did; and office 3 asks it. */
    pool(2 * EACH);
    if (!record(2, 455) || !fetched(2, nonce3, at(2 * EACH)))
        return 1;
    pool(ALL);
    return 0;
}
