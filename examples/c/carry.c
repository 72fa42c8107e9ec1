/* A logger on the bank holds a table that an older keeper left, with one crest in it. It is carried into the present layout, and
 * from then on the copy is called: the crest is looked up and verified, and the next one is put. */
#include "keeper.h"
#include <inttypes.h>
#include <stdio.h>
#include <string.h>

enum { OLD_HEADER = 52, OLD_ROW = 20, SLOT = 76, LOGS = 1, SLOTS = 2 };
enum { ROW_AT = OLD_HEADER, SLOT_AT = OLD_HEADER + OLD_ROW * LOGS };

/* The bytes that are not 0: keeper 7, a log with L = H = 1 in slot 1, slot 2 free. The entry's digest is put in below. */
static uint8_t old[SLOT_AT + SLOT * SLOTS] = {
    [0] = 'A', '2', 'M', 'T', LOGS, [7] = SLOTS, [15] = 7, [17] = 2, [20] = 1,
    [ROW_AT + 7] = 1, [ROW_AT + 15] = 1, [ROW_AT + 17] = 1, [ROW_AT + 19] = 1,
    [SLOT_AT] = LOGS, [SLOT_AT + 11] = 1, [SLOT_AT + 42] = 455 / 256, 455 % 256,
};

static void print(const char *what, keeper_result result)
{
    printf("%s: answer %" PRIu64 ", %" PRIu64 " blocks\n", what, result.number, result.blocks);
}

int main(void)
{
    static uint8_t table[KEEPER_TABLE_BYTES(LOGS, SLOTS)], before[sizeof old];
    const uint8_t *key = old + 20, nonce[KEEPER_NONCE_BYTES] = {2};
    const uint8_t crest[KEEPER_VALUE_BYTES] = {[30] = 460 / 256, [31] = 460 % 256};
    uint8_t receipt[KEEPER_RECEIPT_BYTES];
    uint64_t low, high, examined, free_slots;
    keeper_verdict verdict;

    /* As an append made it: SHA-256 of the position, the value and, in a fresh log, 32 zero bytes. */
    uint8_t block[72] = {0};
    memcpy(block, old + SLOT_AT + 4, 40);
    keeper_hash(block, sizeof block, old + SLOT_AT + 44, KEEPER_DIGEST_BYTES);
    memcpy(before, old, sizeof old);

    printf("check of the old table: answer %d\n", keeper_check(old, sizeof old));
    print("carry into a buffer of the old length", keeper_carry(old, sizeof old, table, sizeof old));
    print("carry", keeper_carry(old, sizeof old, table, sizeof table));
    printf("%zu bytes, now %zu; the old ones as they were: %d\n", sizeof old, sizeof table,
           memcmp(old, before, sizeof old) == 0);
    int checked = keeper_check(table, sizeof table);
    if (checked != KEEPER_DONE || keeper_free(table, sizeof table, &free_slots) != KEEPER_DONE)
        return 1;
    printf("check of the copy: answer %d, %" PRIu64 " slot free\n", checked, free_slots);

    print("lookup", keeper_lookup(table, sizeof table, 0, 1, nonce, sizeof nonce, receipt, sizeof receipt, &examined));
    keeper_result verified = keeper_verify_lookup(key, KEEPER_KEY_BYTES, receipt, sizeof receipt, nonce, sizeof nonce, 7, 0, 1,
                                                  &verdict);
    print("verify", verified);
    if (verified.number != KEEPER_DONE)
        return 1;
    printf("keeper %" PRIu64 ", position %" PRIu64 ", kind %" PRIu64 ", value %d\n", verdict.keeper, verdict.position, verdict.kind,
           receipt[KEEPER_AT_VALUE + 30] << 8 | receipt[KEEPER_AT_VALUE + 31]);

    keeper_result appended = keeper_append(table, sizeof table, 0, crest, sizeof crest, &low, &high);
    print("append", appended);
    if (appended.number != KEEPER_DONE)
        return 1;
    printf("positions %" PRIu64 " to %" PRIu64 "\n", low, high);
    print("append", keeper_append(table, sizeof table, 0, crest, sizeof crest, &low, &high));
    return 0;
}
