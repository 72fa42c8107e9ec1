/* The keeper: an attested append-only memory, for C and C++ on x86-64 (the System V calling convention, SSE2).
 *
 * `rt lib` in crates/capi writes the archive to link with, crates/capi/out/libcapi.a (README.md, "From C"). Of the C library it
 * needs memcpy, and nothing else. include/check compares this file with the exported functions.
 *
 * What every function keeps:
 * - It returns a number: 0 done, or one of the KEEPER_ refusals below, which docs/SCRIPT.md, "Numbers returned", tells in
 *   full. Where several fit, the order given at the function decides.
 * - A function that may hash returns with its number, by value, how many blocks of 64 bytes SHA-256 compressed for it
 *   (keeper_result): those that were compressed, whatever the number. What is refused before it hashes counts 0.
 * - A refusal changes nothing: no byte of a lent buffer and no result. Results are written only when the number is 0.
 * - It keeps no pointer, allocates nothing and has no state of its own: all that goes from call to call is the table. So
 *   threads may call at the same time, as long as none writes a buffer that another one lends: lookups of one table may run
 *   side by side, an append stands alone.
 * - It takes at most KEEPER_STACK_BYTES of stack, and does not call itself (docs/PERFORMANCE.md, "Code and stack").
 *
 * What every function asks:
 * - A pointer is not null, also where the length beside it is 0 (any address will do then). The bytes from it on, as many as
 *   the length says, can be read, and written unless they are const; the length is below 2^63. Beside reserves stands how
 *   many numbers they are, below 2^60. Results and reserves are aligned as their type.
 * - Buffers and results that are written overlap nothing else that is lent to the same call, and nobody else touches them
 *   meanwhile.
 *
 * Numbers in a table, a receipt or a roster are big-endian.
 */
#ifndef KEEPER_H
#define KEEPER_H

#include <stddef.h>
#include <stdint.h>

#ifdef __cplusplus
extern "C" {
#endif

/* One more with each change of a prototype, a constant, a rule, or the bytes of a table or receipt. */
#define KEEPER_VERSION 12

/* Numbers returned. */
enum {
    KEEPER_DONE = 0,            /* none below applies */
    KEEPER_TORN = 1,            /* the table is not whole; carry: the old one is not, by document 01's test; keeper_free: no header with the mark */
    KEEPER_NO_LOG = 2,          /* the table has no such log */
    KEEPER_POSITION = 3,        /* lookup of 0; advance to H or below; truncate outside L < n <= H */
    KEEPER_SPENT = 4,           /* append to a log whose H is 2^64 - 1 */
    KEEPER_FULL = 5,            /* append or advance, and no slot is free */
                                /* 6 is reserved: it was for the end of a fresh log, and no call returns it any more */
    KEEPER_LENGTH = 7,          /* a buffer of another length than its own, another number of reserves than logs, or a
                                   message longer than FIPS 180-4 allows */
    KEEPER_COUNTS = 8,          /* format with a log or slot count out of range, or reserves that together pass the slots */
    KEEPER_NO_RECEIPT = 9,      /* not 160 bytes or no possible entry; a certificate or pile that is not 0 to 32 whole
                                   receipts */
    KEEPER_TAG = 10,            /* the tag is wrong */
    KEEPER_OTHER_QUESTION = 11, /* the receipt answers another question */
    KEEPER_ROSTER = 12,         /* no roster of the profile's number of members */
    KEEPER_TOO_FEW = 13,        /* no pair of value and digest is certified */
    KEEPER_NO_RUN = 14,         /* no values, not a multiple of 32 bytes, first position 0, or last beyond 2^64 - 1 */
    KEEPER_PROMISED = 16,       /* append or advance, and slots are free, but other logs lack as many of their reserves */
    KEEPER_PROFILE = 17,        /* other than 1 to 32 members, half of them needed or fewer, or more than all */
    KEEPER_SURVEY = 18          /* a survey number of 2^24 or more, or a reading number of 2^40 or more */
};

/* Lengths of buffers, in bytes. */
enum {
    KEEPER_KEY_BYTES = 32,
    KEEPER_VALUE_BYTES = 32,
    KEEPER_DIGEST_BYTES = 32,
    KEEPER_NONCE_BYTES = 32,
    KEEPER_RECEIPT_BYTES = 160,
    KEEPER_COLLISION_BYTES = 144,
    KEEPER_MEMBER_BYTES = 40,   /* an item of a roster: keeper number, big-endian, and key */
    KEEPER_SENTENCE_BYTES = 200 /* a verdict in words; a terminating zero is not promised */
};

/* A position is a survey number, the upper 24 of its bits, and a reading number, the lower 40. */
#define KEEPER_SURVEYS (UINT64_C(1) << 24)
#define KEEPER_READINGS (UINT64_C(1) << 40)

/* The most of each. */
enum { KEEPER_MAX_LOGS = 16, KEEPER_MAX_SLOTS = 800, KEEPER_MAX_MEMBERS = 32, KEEPER_MAX_RECEIPTS = 32 };

/* The bytes of a table of so many logs (1 to 16) and slots (1 to 800), and of the largest one: 61,206. */
#define KEEPER_TABLE_BYTES(logs, slots) ((size_t)54 + (size_t)22 * (logs) + (size_t)76 * (slots))
#define KEEPER_MAX_TABLE_BYTES KEEPER_TABLE_BYTES(KEEPER_MAX_LOGS, KEEPER_MAX_SLOTS)

/* The stack that a call takes at most, its return address included; memcpy is not called where it is deepest. */
#define KEEPER_STACK_BYTES 2560

/* Where the fields of a receipt stand, with their bytes. What they say is worth something once the receipt is verified. */
enum {
    KEEPER_AT_NAME = 0,       /*  6: "LOOKUP", or "END" and three zero bytes */
    KEEPER_AT_KIND = 6,       /*  1: a receipt's kind, below */
    KEEPER_AT_LOG = 7,        /*  1 */
    KEEPER_AT_KEEPER = 8,     /*  8: the keeper's number */
    KEEPER_AT_POSITION = 16,  /*  8: the position asked for, or that of the log's end, 0 while the log is fresh */
    KEEPER_AT_REFERENCE = 24, /*  8: unassigned: the highest position; assigned: the position itself; skipped: that of the
                                     next entry; forgotten: the lowest position */
    KEEPER_AT_NONCE = 32,     /* 32: the asker's own fresh bytes */
    KEEPER_AT_VALUE = 64,     /* 32: assigned: the entry's; skipped: that of the entry at the reference, which jumped over the
                                     position, or zero from an older keeper; else zero */
    KEEPER_AT_DIGEST = 96,    /* 32: the same entry's own digest; else zero */
    KEEPER_AT_TAG = 128       /* 32: HMAC-SHA-256 of the bytes before it, under the keeper's key */
};

/* A receipt's kind. */
enum { KEEPER_UNASSIGNED = 0, KEEPER_ASSIGNED = 1, KEEPER_SKIPPED = 2, KEEPER_FORGOTTEN = 3 };

/* What a comparison of runs finds. */
enum { KEEPER_DIFFER = 0, KEEPER_AGREE = 1, KEEPER_COLLISION = 2 };

/* What a call returns that counts blocks: KEEPER_DONE or a refusal, and the blocks of 64 bytes that SHA-256 compressed. By
 * value, in two registers: 16 bytes, without padding. */
typedef struct {
    uint64_t number;
    uint64_t blocks;
} keeper_result;

/* What an accepted receipt says; its value and digest stand in the receipt. 40 bytes, without padding. */
typedef struct {
    uint64_t keeper;
    uint64_t log;
    uint64_t position;
    uint64_t kind;
    uint64_t reference;
} keeper_verdict;

/* SHA-256 of a message, into 32 bytes. Blocks: those of the padded message, (message_bytes + 72) / 64; 0 where refused.
 * Refused: 7 for another length of digest, or a message of 2^61 bytes or more. */
keeper_result keeper_hash(const uint8_t *message, size_t message_bytes, uint8_t *digest, size_t digest_bytes);

/* HMAC-SHA-256 of a text under a key of any length, into 32 bytes. Blocks: those of the two padded messages, each with its
 * pad block of 64 bytes, (text_bytes + 136) / 64 and 2; for a key of more than 64 bytes those of its own hash as well; 0 where
 * refused. Refused: 7 for another length of tag, or a key or text that is too long to hash (the text with the pad block before
 * it). */
keeper_result keeper_tag(const uint8_t *key, size_t key_bytes, const uint8_t *text, size_t text_bytes, uint8_t *tag,
                         size_t tag_bytes);

/* Writes a table of fresh logs and free slots over all of the buffer, which has KEEPER_TABLE_BYTES(logs, slots) bytes.
 *
 * The reserves, one for each log from log 0 on, promise slots: while a log holds fewer entries than its reserve, an append or
 * advance on it is never refused with 5 or 16. Beyond that it gets a slot exactly if more are free than the other logs still
 * lack of their reserves. All 0: every log takes any free slot.
 *
 * Blocks: 0. Refused, in this order: 8 unless 1 <= logs <= 16 and 1 <= slots <= 800; 7 for another length of table, a key of
 * another length than 32, or another number of reserves than logs; 8 for reserves that together pass the slots. */
keeper_result keeper_format(uint8_t *table, size_t table_bytes, uint64_t logs, uint64_t slots, uint64_t keeper,
                            const uint8_t *key, size_t key_bytes, const uint64_t *reserves, size_t reserve_count);

/* Carries an old table, which an older keeper left, into the present layout: writes over all of the buffer the table that says
 * the same. An old table begins A2MT and has document 01's layout: 52 bytes, 20 for each log and 76 for each slot, with neither
 * the number of free slots nor the last one nor reserves. The buffer has KEEPER_TABLE_BYTES(logs, slots) bytes, by the old
 * table's own counts: byte 4, and bytes 6 and 7.
 *
 * Logs, slots, keeper number, key, each log's L and H and its entries in their slots stay; reserves become 0; free slots are
 * taken in the order of the old chain. The old table is read and left as it is, and does not overlap the buffer. A keeper
 * carries its old table once and from then on calls only the copy: nothing is promised of two copies of one table. Receipts
 * from before the carry are verified as before.
 *
 * Blocks: 0. Refused, in this order: 1 for an old table that document 01's test calls torn, and so for a present one; 7 for
 * another length of table. */
keeper_result keeper_carry(const uint8_t *old, size_t old_bytes, uint8_t *table, size_t table_bytes);

/* Whether the table is whole: 0, or refused with 1. Hashes nothing. */
uint8_t keeper_check(const uint8_t *table, size_t table_bytes);

/* The number of free slots, for a status screen: free becomes the number that the header names, also that of a torn table;
 * of a whole one it is the number of free slots. Looks at the length and six bytes, walks nothing and hashes nothing. Refused:
 * 1 for bytes shorter than a header, 54, or without the mark A2MU. */
uint8_t keeper_free(const uint8_t *table, size_t table_bytes, uint64_t *free);

/* Puts a value of 32 bytes at the log's next position; low and high become the log's lowest and highest position after it.
 * Blocks: 2, or 0 where refused. Refused, in this order: 7 the value's length; 1; 2; 4; 5; 16. */
keeper_result keeper_append(uint8_t *table, size_t table_bytes, uint64_t log, const uint8_t *value, size_t value_bytes,
                            uint64_t *low, uint64_t *high);

/* Puts a value at a position above the log's highest, chained to the given digest; positions between become skipped.
 * Blocks: 2, or 0 where refused. Refused, in this order: 7 the digest's or value's length; 1; 2; 3 unless position > H; 5;
 * 16. */
keeper_result keeper_advance(uint8_t *table, size_t table_bytes, uint64_t log, uint64_t position, const uint8_t *digest,
                             size_t digest_bytes, const uint8_t *value, size_t value_bytes, uint64_t *low,
                             uint64_t *high);

/* Forgets the log's entries below a position, and frees their slots: by rising position they join the end of the queue of
 * free slots, of which append and advance take the first. Blocks: 0. Refused, in this order: 1; 2; 3 unless
 * L < position <= H. */
keeper_result keeper_truncate(uint8_t *table, size_t table_bytes, uint64_t log, uint64_t position, uint64_t *low,
                              uint64_t *high);

/* Writes a receipt of 160 bytes on what stands at a position, on a skipped one with the entry that jumped over it; examined
 * becomes the number of held entries looked at. Blocks: 6, or 0 where refused.
 * Refused, in this order: 7 the nonce's or receipt's length; 1; 2; 3 for position 0. */
keeper_result keeper_lookup(const uint8_t *table, size_t table_bytes, uint64_t log, uint64_t position,
                            const uint8_t *nonce, size_t nonce_bytes, uint8_t *receipt, size_t receipt_bytes,
                            uint64_t *examined);

/* Writes a receipt of 160 bytes on the log's last entry. That of a fresh log says that it has none: unassigned, position and
 * reference 0, value and digest zero. Blocks: 6, or 0 where refused. Refused, in this order: 7 the nonce's or receipt's length;
 * 1; 2. */
keeper_result keeper_end(const uint8_t *table, size_t table_bytes, uint64_t log, const uint8_t *nonce,
                         size_t nonce_bytes, uint8_t *receipt, size_t receipt_bytes);

/* The position of a survey's reading: survey * 2^40 + reading. Hashes nothing. Refused: 18 for a number too wide for its part. */
uint8_t keeper_pack(uint64_t survey, uint64_t reading, uint64_t *position);

/* The survey and the reading of a position, of which each pair has one. Never refused. */
uint8_t keeper_split(uint64_t position, uint64_t *survey, uint64_t *reading);

/* keeper_advance to a survey's reading; low and high become positions. Blocks: 2, or 0 where refused. Refused, in this order: 7;
 * 18; 1; 2; 3; 5; 16. */
keeper_result keeper_survey_advance(uint8_t *table, size_t table_bytes, uint64_t log, uint64_t survey, uint64_t reading,
                                    const uint8_t *digest, size_t digest_bytes, const uint8_t *value, size_t value_bytes,
                                    uint64_t *low, uint64_t *high);

/* keeper_lookup of a survey's reading. Blocks: 6, or 0 where refused. Refused, in this order: 7; 18; 1; 2; 3 for reading 0 of
 * survey 0, which is position 0. */
keeper_result keeper_survey_lookup(const uint8_t *table, size_t table_bytes, uint64_t log, uint64_t survey,
                                   uint64_t reading, const uint8_t *nonce, size_t nonce_bytes, uint8_t *receipt,
                                   size_t receipt_bytes, uint64_t *examined);

/* Closes a survey of a log: advances the log to the survey's last reading, 2^40 - 1, with a zero digest and the given value. From
 * then on no call puts anything at a position of that survey in that log. Blocks: 2, or 0 where refused. Refused, in this order:
 * 7 the value's length; 18; 1; 2; 3 where H is already there or past it; 5; 16. */
keeper_result keeper_survey_close(uint8_t *table, size_t table_bytes, uint64_t log, uint64_t survey, const uint8_t *value,
                                  size_t value_bytes, uint64_t *low, uint64_t *high);

/* Whether a receipt answers the question for a position of a keeper's log, with this nonce, under this key; verdict becomes
 * what it says. Blocks: 6 once the tag is looked at, so with 10 and 11 too; with 7 and 9 none. Refused, in this order: 7 the
 * key's or nonce's length; 9 also for another length of receipt; 10; 11. */
keeper_result keeper_verify_lookup(const uint8_t *key, size_t key_bytes, const uint8_t *receipt, size_t receipt_bytes,
                                   const uint8_t *nonce, size_t nonce_bytes, uint64_t keeper, uint64_t log,
                                   uint64_t position, keeper_verdict *verdict);

/* The same for the question for a log's end, which names no position. The end of a fresh log is the one receipt with position 0
 * that is accepted. */
keeper_result keeper_verify_end(const uint8_t *key, size_t key_bytes, const uint8_t *receipt, size_t receipt_bytes,
                                const uint8_t *nonce, size_t nonce_bytes, uint64_t keeper, uint64_t log,
                                keeper_verdict *verdict);

/* Whether a certificate, 0 to 32 receipts on end, certifies a value and digest at a position of a log, for a station of
 * 1 to 32 members, more than half of which are needed, and its roster: an item of KEEPER_MEMBER_BYTES for each member, all with
 * different keeper numbers. A receipt is good if it answers the lookup of a member, as keeper_verify_lookup finds under that
 * member's key, and is assigned; others are passed over, a skipped one with what it shows. A value and digest are certified
 * when good receipts of as many different members as are needed show both.
 *
 * place becomes the place, from 0, of the first good receipt whose pair is certified, and mask the members whose good
 * receipts show it, the lowest bit for the roster's first. The certified value stands at
 * certificate + place * KEEPER_RECEIPT_BYTES + KEEPER_AT_VALUE, the digest at KEEPER_AT_DIGEST of the same receipt.
 *
 * Blocks: 6 for each receipt that is a possible entry with the keeper number of a member, good or not, with 13 too;
 * with 7, 17, 12 and 9 none. Refused, in this order: 7 the nonce's length; 17 unless 1 <= members <= 32, 2 * needed > members
 * and needed <= members; 12 also for a roster of another number of items than members; 9; 13. */
keeper_result keeper_certify(uint64_t members, uint64_t needed, const uint8_t *roster, size_t roster_bytes,
                             const uint8_t *nonce, size_t nonce_bytes, uint64_t log, uint64_t position,
                             const uint8_t *certificate, size_t certificate_bytes, uint64_t *place, uint32_t *mask);

/* Whether a member of a station contradicts itself in a pile, 0 to 32 receipts on end, as offices pool them: the profile and
 * the roster are those of keeper_certify. A receipt of a member, by its keeper number, counts if it is accepted under that
 * member's key for the question that it carries itself, LOOKUP or END, its own nonce included; others are passed over. Two
 * that count are a contradiction if keeper, log and position are the same and either both are assigned, with different values
 * or digests, or one is assigned and the other skipped.
 *
 * found becomes 1, and first and second the places, from 0, of the first such pair: the least first place, then the least
 * second one behind it. If there is none, found becomes 0, and first and second stay as they were. needed takes part in the test
 * for 17 alone.
 *
 * A keeper never contradicts itself whose table was formatted once, reached each call as the last one left it, was written by
 * nothing else, and was carried once at most, from then on called as the copy alone.
 *
 * Blocks: 6 for each receipt that is a possible entry with the keeper number of a member, accepted or not; with a refusal none.
 * Refused, in this order: 17; 12; 9. */
keeper_result keeper_contradiction(uint64_t members, uint64_t needed, const uint8_t *roster, size_t roster_bytes,
                                   const uint8_t *receipts, size_t receipts_bytes, uint8_t *found, uint64_t *first,
                                   uint64_t *second);

/* Writes a verdict on a receipt as one English sentence in ASCII, for a duty book: number is what keeper_verify_lookup or
 * keeper_verify_end returned, verdict what it filled. Number 0 says the verdict's five numbers, any other the refusal, whatever
 * stands in the verdict. Verdicts that differ in a number have different sentences, also from every certificate's;
 * docs/SENTENCES.md has the wording.
 *
 * The sentence stands at the buffer's start, and zero bytes fill the rest. No wording of this version takes more than 196 bytes, but
 * only 200 are promised: print it by "%.200s". Hashes nothing. Refused: 7 for another length of sentence. */
uint8_t keeper_receipt_sentence(uint8_t number, const keeper_verdict *verdict, uint8_t *sentence, size_t sentence_bytes);

/* The same of a verdict on a certificate: number is what keeper_certify returned, place and mask what it filled. Members are
 * named by their places in the roster, from 0. */
uint8_t keeper_certificate_sentence(uint8_t number, uint64_t place, uint32_t mask, uint8_t *sentence,
                                    size_t sentence_bytes);

/* Compares two runs, each a start digest, a first position and values of 32 bytes at consecutive positions. A value's block
 * is its position, the value and the digest before it, 72 bytes, and its digest SHA-256 of the block, as an append makes it.
 * verdict becomes KEEPER_DIFFER where the last digests differ; KEEPER_AGREE where all blocks are equal, from the ends back to
 * the shorter run's first; else KEEPER_COLLISION: then the unequal pair of blocks nearest the ends, which have one SHA-256,
 * fills the buffer of 144 bytes, the first run's before the second's. The other verdicts leave the buffer as it was.
 * Blocks: 2 for each value of either run, whatever the verdict; 0 where refused. Refused, in this order: 7 for another length
 * of a start digest or the buffer; 14. */
keeper_result keeper_compare(const uint8_t *start1, size_t start1_bytes, uint64_t first1, const uint8_t *values1,
                             size_t values1_bytes, const uint8_t *start2, size_t start2_bytes, uint64_t first2,
                             const uint8_t *values2, size_t values2_bytes, uint8_t *collision, size_t collision_bytes,
                             uint8_t *verdict);

#ifdef __cplusplus
}
#endif

#endif
