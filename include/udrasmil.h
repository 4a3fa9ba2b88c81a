/*
 * Udrasmil: judges a server's chain of certificates as an OpenSSL or a Chrome client would, and cites each broken rule.
 *
 * Link with libudrasmil.a; `tools/library.sh` proves it and writes it to target/native/. It needs nothing but the C library.
 *
 * THE BUNDLES
 * The chain's bundle is a chain and what is asked of it (host, time) as 64-bit words and bytes: a header of 16 words, then sections
 * of rows that name each other by number and name texts by start and length in the bytes. Certificate 0 is the leaf, the last one
 * the root. Chrome's judge takes a second bundle, the policy's: a header of 23 words and nine lists of texts (public suffixes,
 * fingerprints of roots and of revoked certificates, domains). samples/README.md has both layouts word by word, docs/REFUSALS.md
 * says what each word may hold, docs/RULES.md what is judged. No words and bytes can do harm: what is no bundle is refused.
 *
 * THE ANSWER
 * All eight words are written, whatever comes in. By the number in word 0:
 *
 *   word  0: accepted  1: some rule is broken                            2 to 8: a bundle is refused
 *   ----  -----------  ------------------------------------------------  ---------------------------
 *   0     0            1                                                 the refusal's number
 *   1     0            0                                                 0 the chain's bundle, 1 the
 *                                                                        policy's
 *   2     0            place of the first entry: 0 the chain as a whole, 1 (a word)
 *                      2 a certificate, 3 a pair of certificates
 *   3     0            position of the certificate, or of the pair's     which word of that bundle,
 *                      first; else 0                                     counted from 0
 *   4     0            position of the pair's second; else 0             0
 *   5     0            rule of the first entry                           0
 *   6     0            total: how many entries the whole report has      0
 *   7     0            how many entries were written                     0
 *
 * Refusals: 2 the header is not whole, or there are more than 8,192 words, 65,536 bytes or 16 certificates; 3 the edition is not 1;
 * 4 a section begins in the header or ends past the words; 5 a number or a range points outside; 6 a code is above its range;
 * 7 a host, DNS name, attribute value or domain of a list has a byte over 127; 8 the purpose is not 0. The lowest number is given,
 * at its lowest word. The chain's bundle goes first: the policy's is looked at only if the chain's is sound.
 *
 * THE REPORT
 * Answer 1 writes its entries from the report's first word on, in the order of rule, first position, second position. An entry is
 * three words: rule, position, second position. 65535 stands for no position: rule 1 has none, and most rules have only one.
 * Where the report is too small, as many whole entries as fit are written, and word 6 still counts them all. Words behind the last
 * entry stay as they were. Answers 0 and 2 to 8 write nothing into the report. No report has more than 424 entries.
 *
 * WHAT THE CALLER SEES TO
 * - Lengths count elements, not bytes. Each pointer is aligned for its type and points to as many elements as its length says.
 * - A null pointer is allowed where its length is 0. `answer` must point to eight words.
 * - Report and answer overlap nothing else that is lent, and nothing else writes what is lent during the call.
 *
 * Nothing is allocated, and no pointer is kept. There is no state: any number of threads may call at once, each with a report and
 * an answer of its own; the bundles may be the same.
 */
#ifndef UDRASMIL_H
#define UDRASMIL_H

#include <stddef.h>
#include <stdint.h>

/* No position, in an entry of the report. */
#define UDRASMIL_NONE 65535

/* So many words hold any report. */
#define UDRASMIL_REPORT_WORDS (3 * 424)

#ifdef __cplusplus
extern "C" {
#endif

void udrasmil_judge_openssl(const uint64_t *words, size_t nwords,
                            const uint8_t *bytes, size_t nbytes,
                            uint32_t *report, size_t nreport,
                            uint64_t answer[8]);

void udrasmil_judge_chrome(const uint64_t *words, size_t nwords,
                           const uint8_t *bytes, size_t nbytes,
                           const uint64_t *pwords, size_t npwords,
                           const uint8_t *pbytes, size_t npbytes,
                           uint32_t *report, size_t nreport,
                           uint64_t answer[8]);

#ifdef __cplusplus
}
#endif

#endif
