/* The keeper in plain C, written for the bench from document 01 and requests [1] to [10] and [13] alone: the same calls as in
 * keeper.h, with the same arguments, numbers and orders of refusal. The constants and the types of result and verdict are
 * keeper.h's. */
#ifndef PLAIN_H
#define PLAIN_H

#include "keeper.h"

keeper_result plain_hash(const uint8_t *message, size_t message_bytes, uint8_t *digest, size_t digest_bytes);

keeper_result plain_tag(const uint8_t *key, size_t key_bytes, const uint8_t *text, size_t text_bytes, uint8_t *tag,
                        size_t tag_bytes);

keeper_result plain_format(uint8_t *table, size_t table_bytes, uint64_t logs, uint64_t slots, uint64_t keeper,
                           const uint8_t *key, size_t key_bytes, const uint64_t *reserves, size_t reserve_count);

uint8_t plain_check(const uint8_t *table, size_t table_bytes);

uint8_t plain_free(const uint8_t *table, size_t table_bytes, uint64_t *free);

/* For the bench's row of plain_free: the two bytes alone, nothing tested. */
uint64_t plain_two_bytes(const uint8_t *table);

keeper_result plain_carry(const uint8_t *old, size_t old_bytes, uint8_t *table, size_t table_bytes);

keeper_result plain_append(uint8_t *table, size_t table_bytes, uint64_t log, const uint8_t *value, size_t value_bytes,
                           uint64_t *low, uint64_t *high);

keeper_result plain_advance(uint8_t *table, size_t table_bytes, uint64_t log, uint64_t position, const uint8_t *digest,
                            size_t digest_bytes, const uint8_t *value, size_t value_bytes, uint64_t *low, uint64_t *high);

keeper_result plain_truncate(uint8_t *table, size_t table_bytes, uint64_t log, uint64_t position, uint64_t *low,
                             uint64_t *high);

keeper_result plain_lookup(const uint8_t *table, size_t table_bytes, uint64_t log, uint64_t position, const uint8_t *nonce,
                           size_t nonce_bytes, uint8_t *receipt, size_t receipt_bytes, uint64_t *examined);

keeper_result plain_end(const uint8_t *table, size_t table_bytes, uint64_t log, const uint8_t *nonce, size_t nonce_bytes,
                        uint8_t *receipt, size_t receipt_bytes);

uint8_t plain_pack(uint64_t survey, uint64_t reading, uint64_t *position);

uint8_t plain_split(uint64_t position, uint64_t *survey, uint64_t *reading);

keeper_result plain_survey_advance(uint8_t *table, size_t table_bytes, uint64_t log, uint64_t survey, uint64_t reading,
                                   const uint8_t *digest, size_t digest_bytes, const uint8_t *value, size_t value_bytes,
                                   uint64_t *low, uint64_t *high);

keeper_result plain_survey_lookup(const uint8_t *table, size_t table_bytes, uint64_t log, uint64_t survey, uint64_t reading,
                                  const uint8_t *nonce, size_t nonce_bytes, uint8_t *receipt, size_t receipt_bytes,
                                  uint64_t *examined);

keeper_result plain_survey_close(uint8_t *table, size_t table_bytes, uint64_t log, uint64_t survey, const uint8_t *value,
                                 size_t value_bytes, uint64_t *low, uint64_t *high);

keeper_result plain_verify_lookup(const uint8_t *key, size_t key_bytes, const uint8_t *receipt, size_t receipt_bytes,
                                  const uint8_t *nonce, size_t nonce_bytes, uint64_t keeper, uint64_t log, uint64_t position,
                                  keeper_verdict *verdict);

keeper_result plain_verify_end(const uint8_t *key, size_t key_bytes, const uint8_t *receipt, size_t receipt_bytes,
                               const uint8_t *nonce, size_t nonce_bytes, uint64_t keeper, uint64_t log,
                               keeper_verdict *verdict);

keeper_result plain_certify(uint64_t members, uint64_t needed, const uint8_t *roster, size_t roster_bytes,
                            const uint8_t *nonce, size_t nonce_bytes, uint64_t log, uint64_t position,
                            const uint8_t *certificate, size_t certificate_bytes, uint64_t *place, uint32_t *mask);

keeper_result plain_contradiction(uint64_t members, uint64_t needed, const uint8_t *roster, size_t roster_bytes,
                                  const uint8_t *receipts, size_t receipts_bytes, uint8_t *found, uint64_t *first,
                                  uint64_t *second);

uint8_t plain_receipt_sentence(uint8_t number, const keeper_verdict *verdict, uint8_t *sentence, size_t sentence_bytes);

uint8_t plain_certificate_sentence(uint8_t number, uint64_t place, uint32_t mask, uint8_t *sentence, size_t sentence_bytes);

keeper_result plain_compare(const uint8_t *start1, size_t start1_bytes, uint64_t first1, const uint8_t *values1,
                            size_t values1_bytes, const uint8_t *start2, size_t start2_bytes, uint64_t first2,
                            const uint8_t *values2, size_t values2_bytes, uint8_t *collision, size_t collision_bytes,
                            uint8_t *verdict);

#endif
