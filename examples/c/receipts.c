/* Writes the files of receipts that examples/python reads: a keeper's key, then questions, each with the receipt that came for
 * it. Of the first file the first receipts are good; the others were spoiled, or are shown for another question. With an argument
 * it writes another office's file: that office asked keeper 8 too, and keeper 7 after its memory had been put back. */
#include "keeper.h"
#include <stdio.h>
#include <stdlib.h>

enum { STAGE = 0, LOGS = 2, SLOTS = 6, NEXT = 0 };

static uint8_t table[KEEPER_TABLE_BYTES(LOGS, SLOTS)];
static int keeper = 7;
static uint8_t key[KEEPER_KEY_BYTES] = "32 bytes that only two know.....";
static const uint64_t reserves[LOGS]; /* no slot is promised */
static uint8_t nonce[KEEPER_NONCE_BYTES];
static uint8_t receipt[KEEPER_RECEIPT_BYTES];

static void print_hex(char before, const uint8_t *bytes, size_t size)
{
    putchar(before);
    for (size_t i = 0; i < size; i++)
        printf("%02x", bytes[i]);
}

static void print_question(int position, size_t receipt_bytes)
{
    if (position > 0)
        printf("lookup,%d,%d,%d", keeper, STAGE, position);
    else
        printf("end,%d,%d", keeper, STAGE);
    print_hex(',', nonce, sizeof nonce);
    print_hex(',', receipt, receipt_bytes);
    putchar('\n');
}

/* Ends the program where a call was refused, since nothing below expects that. */
static void done(uint64_t number)
{
    if (number != KEEPER_DONE)
        exit(1);
}

static void fetch(int position)
{
    uint64_t examined;
    nonce[0]++; /* a fresh one for each question; in earnest, random bytes */
    if (position > 0)
        done(keeper_lookup(table, sizeof table, STAGE, position, nonce, sizeof nonce, receipt, sizeof receipt, &examined)
                 .number);
    else
        done(keeper_end(table, sizeof table, STAGE, nonce, sizeof nonce, receipt, sizeof receipt).number);
}

static void ask(int position)
{
    fetch(position);
    print_question(position, sizeof receipt);
}

/* Formats the keeper's table, and writes the line with its key. */
static void begin(void)
{
    done(keeper_format(table, sizeof table, LOGS, SLOTS, keeper, key, sizeof key, reserves, LOGS).number);
    printf("key,%d", keeper);
    print_hex(',', key, sizeof key);
    putchar('\n');
}

/* A reading at a position above the last one, or at the next; readings are numbers below 2^16, in the last bytes of a value. */
static void put(int position, int reading)
{
    const uint8_t digest[KEEPER_DIGEST_BYTES] = {0};
    const uint8_t value[KEEPER_VALUE_BYTES] = {[30] = (uint8_t)(reading >> 8), [31] = (uint8_t)reading};
    uint64_t low, high;
    if (position > 0)
        done(keeper_advance(table, sizeof table, STAGE, position, digest, sizeof digest, value, sizeof value, &low, &high)
                 .number);
    else
        done(keeper_append(table, sizeof table, STAGE, value, sizeof value, &low, &high).number);
}

static void first_office(void)
{
    uint64_t low, high;
    begin();

    /* The log's end before its first reading. */
    ask(0);

    /* Readings at positions 1, 2 and 5, the first of which is then forgotten. */
    put(NEXT, 412);
    put(NEXT, 431);
    put(5, 455);
    done(keeper_truncate(table, sizeof table, STAGE, 2, &low, &high).number);
    ask(5);
    ask(4);
    ask(1);
    ask(9);
    ask(0);

    fetch(5);
    receipt[KEEPER_AT_VALUE + 31]--;
    printf("# another value was written into the receipt\n");
    print_question(5, sizeof receipt);
    fetch(5);
    printf("# an old receipt, for another nonce\n");
    nonce[0]++;
    print_question(5, sizeof receipt);
    fetch(5);
    printf("# a receipt for another position\n");
    print_question(2, sizeof receipt);
    printf("# the last byte was lost\n");
    print_question(5, sizeof receipt - 1);
}

/* Every receipt is good by itself. Keeper 8's sensor misread the crest, which is no contradiction. Keeper 7 was made to begin again
 * after its second reading: now one stands at position 4, which the first office was shown as skipped, and another at 5. */
static void other_office(void)
{
    nonce[1] = 1; /* other nonces than the first office's */
    keeper = 8;
    key[31] = '!';
    begin();
    put(NEXT, 412);
    put(5, 155);
    ask(5);

    keeper = 7;
    key[31] = '.';
    begin();
    put(NEXT, 412);
    put(NEXT, 431);
    put(4, 440);
    put(NEXT, 460);
    ask(2);
    ask(5);
    ask(4);
}

int main(int argc, char **argv)
{
    (void)argv;
    printf("# key,KEEPER,KEY; then questions: lookup,KEEPER,LOG,POSITION,NONCE,RECEIPT and end,KEEPER,LOG,NONCE,RECEIPT\n");
    if (argc > 1)
        other_office();
    else
        first_office();
    return 0;
}
