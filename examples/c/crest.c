/* A crest is put, looked up and verified; then what the receipt says is read out of its bytes. The crest's log has slots promised
 * to it, so another log that puts all it can leaves it room. The status screen reads the number of free slots before and after,
 * the battery sheet gets the blocks hashed, and the duty book the verdict in words. */
#include "keeper.h"
#include <inttypes.h>
#include <stdio.h>
#include <string.h>

_Static_assert(sizeof(keeper_result) == 16, "the library returns two numbers of 8 bytes");
_Static_assert(sizeof(keeper_verdict) == 40, "the library writes five numbers of 8 bytes");
_Static_assert(KEEPER_MAX_TABLE_BYTES == 61206, "the largest table");

static uint64_t number_at(const uint8_t *bytes)
{
    uint64_t number = 0;
    for (int i = 0; i < 8; i++)
        number = number << 8 | bytes[i];
    return number;
}

enum { STAGE = 0, WATER_QUALITY = 1 };

int main(void)
{
    static uint8_t table[KEEPER_TABLE_BYTES(2, 6)];
    const uint64_t reserves[2] = {[STAGE] = 4, [WATER_QUALITY] = 0};
    const uint8_t key[KEEPER_KEY_BYTES] = {1}, nonce[KEEPER_NONCE_BYTES] = {2};
    const uint8_t crest[KEEPER_VALUE_BYTES] = {[30] = 455 / 256, [31] = 455 % 256}, chatter[KEEPER_VALUE_BYTES] = {7};
    uint8_t receipt[KEEPER_RECEIPT_BYTES], tag[KEEPER_DIGEST_BYTES], sentence[KEEPER_SENTENCE_BYTES];
    uint64_t low, high, examined, free_before, free_after;
    keeper_verdict verdict;
    keeper_result refused;
    int taken = 0;

    keeper_result formatted = keeper_format(table, sizeof table, 2, 6, 7, key, sizeof key, reserves, 2);
    for (;; taken++) {
        refused = keeper_append(table, sizeof table, WATER_QUALITY, chatter, sizeof chatter, &low, &high);
        if (refused.number != KEEPER_DONE)
            break;
    }
    int screen = keeper_free(table, sizeof table, &free_before);
    keeper_result appended = keeper_append(table, sizeof table, STAGE, crest, sizeof crest, &low, &high);
    screen |= keeper_free(table, sizeof table, &free_after);
    keeper_result looked_up =
        keeper_lookup(table, sizeof table, STAGE, high, nonce, sizeof nonce, receipt, sizeof receipt, &examined);
    keeper_result verified =
        keeper_verify_lookup(key, sizeof key, receipt, sizeof receipt, nonce, sizeof nonce, 7, STAGE, high, &verdict);

    printf("format %" PRIu64 ", append %" PRIu64 ", lookup %" PRIu64 ", verify %" PRIu64 "\n", formatted.number,
           appended.number, looked_up.number, verified.number);
    if (verified.number != KEEPER_DONE || screen != KEEPER_DONE)
        return 1;
    printf("battery sheet: format %" PRIu64 ", append %" PRIu64 ", lookup %" PRIu64 ", verify %" PRIu64 " blocks hashed\n",
           formatted.blocks, appended.blocks, looked_up.blocks, verified.blocks);
    printf("water quality: %d slots taken, then answer %" PRIu64 "\n", taken, refused.number);
    printf("status screen: %" PRIu64 " slots free, after the append %" PRIu64 "\n", free_before, free_after);
    printf("verdict: kind %" PRIu64 ", log %" PRIu64 ", keeper %" PRIu64 ", position %" PRIu64 ", reference %" PRIu64 "\n",
           verdict.kind, verdict.log, verdict.keeper, verdict.position, verdict.reference);
    if (keeper_receipt_sentence((uint8_t)verified.number, &verdict, sentence, sizeof sentence) != KEEPER_DONE)
        return 1;
    printf("duty book: %.*s\n", (int)sizeof sentence, (const char *)sentence);
    printf("receipt: kind %d, log %d, keeper %" PRIu64 ", position %" PRIu64 ", reference %" PRIu64 ", %.6s\n",
           receipt[KEEPER_AT_KIND], receipt[KEEPER_AT_LOG], number_at(receipt + KEEPER_AT_KEEPER),
           number_at(receipt + KEEPER_AT_POSITION), number_at(receipt + KEEPER_AT_REFERENCE),
           (const char *)receipt + KEEPER_AT_NAME);
    printf("value %" PRIu64 ", digest %016" PRIx64 "..\n", number_at(receipt + KEEPER_AT_VALUE + 24),
           number_at(receipt + KEEPER_AT_DIGEST));

    /* What the verifier saw to: the nonce is ours, and the tag is that of the bytes before it. */
    keeper_tag(key, sizeof key, receipt, KEEPER_AT_TAG, tag, sizeof tag);
    printf("nonce ours: %d, tag right: %d\n", memcmp(receipt + KEEPER_AT_NONCE, nonce, sizeof nonce) == 0,
           memcmp(receipt + KEEPER_AT_TAG, tag, sizeof tag) == 0);
    return 0;
}
