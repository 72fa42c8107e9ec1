/* The stack that each call takes: it is run on a painted stack, on an input that takes its longest path. Prints the call and
 * the bytes below the stack pointer at the call that were written, the return address included. */
#define _GNU_SOURCE
#include "keeper.h"
#include <stdio.h>
#include <stdlib.h>
#include <string.h>
#include <ucontext.h>

static uint8_t stack[1 << 16] __attribute__((aligned(16)));
static uint8_t *at_call;

static const uint64_t reserves[2] = {1, 2};
static uint8_t table[KEEPER_TABLE_BYTES(2, 6)], key[100], nonce[32], value[32], receipt[160], end[160], collision[144];
static uint8_t old[52 + 2 * 20 + 6 * 76], copy[sizeof table];
static uint8_t roster[3 * KEEPER_MEMBER_BYTES], certificate[32 * 160], values[4 * 32], sentence[KEEPER_SENTENCE_BYTES];
static uint64_t low, high, examined, place;
static uint32_t mask;
static uint8_t found;
static uint64_t number;
static keeper_verdict verdict;

/* Compiled with -maccumulate-outgoing-args, so that the stack pointer does not move between the two statements. */
#define CALL_FOR(field, name, ...) \
    static void run_##name(void) \
    { \
        __asm__ volatile("mov %%rsp, %0" : "=m"(at_call)); \
        number = name(__VA_ARGS__) field; \
    }
#define CALL(name, ...) CALL_FOR(.number, name, __VA_ARGS__)
#define CALL_ALONE(name, ...) CALL_FOR(, name, __VA_ARGS__)

CALL(keeper_hash, values, sizeof values, collision, 32)
CALL(keeper_tag, key, sizeof key, values, sizeof values, collision, 32)
CALL(keeper_format, table, sizeof table, 2, 6, 7, key, 32, reserves, 2)
CALL_ALONE(keeper_check, table, sizeof table)
CALL_ALONE(keeper_free, table, sizeof table, &low)
CALL(keeper_carry, old, sizeof old, copy, sizeof copy)
CALL(keeper_append, table, sizeof table, 0, value, 32, &low, &high)
CALL(keeper_advance, table, sizeof table, 0, 9, nonce, 32, value, 32, &low, &high)
CALL(keeper_lookup, table, sizeof table, 0, 9, nonce, 32, receipt, 160, &examined)
CALL(keeper_end, table, sizeof table, 0, nonce, 32, end, 160)
CALL(keeper_truncate, table, sizeof table, 0, 9, &low, &high)
CALL_ALONE(keeper_pack, 1, 9, &low)
CALL_ALONE(keeper_split, 9, &low, &high)
CALL(keeper_survey_advance, table, sizeof table, 0, 1, 9, nonce, 32, value, 32, &low, &high)
CALL(keeper_survey_lookup, table, sizeof table, 0, 1, 9, nonce, 32, end, 160, &examined)
CALL(keeper_survey_close, table, sizeof table, 0, 1, value, 32, &low, &high)
CALL(keeper_verify_lookup, key, 32, receipt, 160, nonce, 32, 7, 0, 9, &verdict)
CALL(keeper_verify_end, key, 32, end, 160, nonce, 32, 7, 0, &verdict)
CALL(keeper_certify, 3, 2, roster, sizeof roster, nonce, 32, 0, 9, certificate, sizeof certificate, &place, &mask)
CALL(keeper_contradiction, 3, 2, roster, sizeof roster, certificate, sizeof certificate, &found, &low, &high)
CALL_ALONE(keeper_receipt_sentence, 0, &verdict, sentence, sizeof sentence)
CALL_ALONE(keeper_certificate_sentence, 0, 31, UINT32_MAX, sentence, sizeof sentence)
CALL(keeper_compare, nonce, 32, 1, values, sizeof values, nonce, 32, 1, values, sizeof values, collision, 144, &found)

static void measure(const char *name, void (*run)(void))
{
    ucontext_t here, there;
    uint8_t *lowest;
    memset(stack, 0xa5, sizeof stack);
    getcontext(&there);
    there.uc_stack.ss_sp = stack;
    there.uc_stack.ss_size = sizeof stack;
    there.uc_link = &here;
    makecontext(&there, run, 0);
    swapcontext(&here, &there);
    for (lowest = stack; *lowest == 0xa5;)
        lowest++;
    printf("%s %ld\n", name, (long)(at_call - lowest));
    if (number != KEEPER_DONE) {
        fprintf(stderr, "%s was refused, %d: that is not its longest path\n", name, (int)number);
        exit(1);
    }
}
#define MEASURE(name) measure(#name, run_##name)

/* What the table says, in document 01's layout. */
static void make_old(void)
{
    memcpy(old, table, 52);
    old[3] = 'T';
    memset(old + 18, 0, 2);
    for (int log = 0; log < 2; log++)
        memcpy(old + 52 + 20 * log, table + 54 + 22 * log, 20);
    memcpy(old + 52 + 2 * 20, table + 54 + 2 * 22, 6 * 76);
}

int main(void)
{
    for (int i = 0; i < 3; i++) {
        roster[40 * i + 7] = 5 + i;
        memset(roster + 40 * i + 8, i == 2 ? 0 : 1, 32);
    }
    MEASURE(keeper_hash);
    MEASURE(keeper_tag);
    MEASURE(keeper_format);
    MEASURE(keeper_append);
    MEASURE(keeper_advance);
    MEASURE(keeper_check);
    MEASURE(keeper_free);
    make_old();
    MEASURE(keeper_carry);
    MEASURE(keeper_lookup);
    MEASURE(keeper_end);
    MEASURE(keeper_truncate);
    MEASURE(keeper_verify_lookup);
    MEASURE(keeper_verify_end);
    MEASURE(keeper_pack);
    MEASURE(keeper_split);
    MEASURE(keeper_survey_advance);
    MEASURE(keeper_survey_lookup);
    MEASURE(keeper_survey_close);
    /* Two of three: keepers 6 and 7, whose receipts are made here with the keys of the roster. */
    memcpy(certificate, receipt, 160);
    memcpy(certificate + 160, receipt, 160);
    certificate[160 + KEEPER_AT_KEEPER + 7] = 6;
    keeper_tag(roster + 48, 32, certificate + 160, KEEPER_AT_TAG, certificate + 160 + KEEPER_AT_TAG, 32);
    MEASURE(keeper_certify);
    /* The first receipt again with another value: both are assigned, and differ. */
    memcpy(certificate + 320, receipt, 160);
    certificate[320 + KEEPER_AT_VALUE] ^= 1;
    keeper_tag(roster + 88, 32, certificate + 320, KEEPER_AT_TAG, certificate + 320 + KEEPER_AT_TAG, 32);
    MEASURE(keeper_contradiction);
    MEASURE(keeper_receipt_sentence);
    MEASURE(keeper_certificate_sentence);
    MEASURE(keeper_compare);
    return 0;
}
