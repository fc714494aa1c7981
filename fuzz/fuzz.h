/* What the parts of the fuzz driver share: random numbers, spans between guard pages, the model, the cases. */
#ifndef FUZZ_H
#define FUZZ_H

#include <stddef.h>
#include <stdint.h>

#include "noustrel.h"

/* The longest span lent. */
#define LONGEST 70000

/* Ways in which a run can end; each is also the driver's status. */
enum fault { CRASHED = 10, OUTSIDE, CONTENTS, ANSWER, ENDLESS, MISSED };

/* ---- random numbers (driver.c): those of a case follow from the seed and the case's number */
uint64_t random_word(void);
size_t below(size_t n);              /* 0 to n - 1 */
size_t between(size_t a, size_t b);  /* a to b */
int one_in(size_t n);
void random_bytes(uint8_t *at, size_t n);
void fault(enum fault kind, const char *words);

/* ---- spans (spans.c) */
struct span {
    uint8_t *at;         /* what the library is lent: of an input a view that can't be written */
    size_t len;
    uint8_t *content;    /* the same bytes for the driver */
    uint8_t *want;       /* of an output: what it must hold afterwards; at first what it holds before */
    size_t room, pages, pattern;
    int writable;
};

void spans_make(void);
void spans_begin(void);              /* forget the spans of the call before */
struct span *input(size_t len);      /* random bytes */
struct span *output(size_t len);     /* random bytes as found */
void spans_check(void);
int nearest_span(const void *at, long *distance);
extern int side;                     /* where spans lie: 0 behind the lower guard, 1 before the upper one, -1 at random */

/* ---- the model (model.c): answers as the library must, over OpenSSL; 'model_X' is noustrel_X */
enum wrong { RIGHT, TEXT_LIMIT, BODY_LIMIT, SCANS_16, SHORTEST_PADDING, HEADER_LENGTH, STALE_BUFFER, FILL_64, ROLE, COUNT, BY_SIDE,
             CUT_ON_9 };
extern enum wrong wrong;             /* an error that looks right, for showing that the driver catches it */

void model_make(void);
void model_mac(const uint8_t *key, size_t key_len, const uint8_t *message, size_t message_len, uint8_t mac[32]);
void model_record_mac(const uint8_t *mac_key, uint64_t number, uint8_t type, uint16_t version, size_t said_len,
                      const uint8_t *text, size_t text_len, uint8_t mac[32]);
void model_cbc(const uint8_t *key, const uint8_t *iv, const uint8_t *in, size_t n, uint8_t *out, int encipher);
uint32_t model_seal(const uint8_t *mac_key, size_t mac_key_len, const uint8_t *enc_key, size_t enc_key_len, uint64_t number,
                    uint8_t type, uint16_t version, const uint8_t *iv, size_t iv_len, const uint8_t *text, size_t text_len,
                    uint8_t *out, size_t out_len, size_t *length);
uint32_t model_open(const uint8_t *mac_key, size_t mac_key_len, const uint8_t *enc_key, size_t enc_key_len, uint64_t number,
                    uint8_t type, uint16_t version, const uint8_t *record, size_t record_len, uint8_t *out, size_t out_len,
                    size_t *length, size_t *count);
uint32_t model_sm3(const uint8_t *message, size_t message_len, uint8_t *digest, size_t digest_len);
uint32_t model_hmac_sm3(const uint8_t *key, size_t key_len, const uint8_t *message, size_t message_len, uint8_t *mac,
                        size_t mac_len);
uint32_t model_block(int encipher, const uint8_t *key, size_t key_len, const uint8_t *block, size_t block_len, uint8_t *out,
                     size_t out_len);
uint32_t model_master_secret(const uint8_t *secret, size_t secret_len, const uint8_t *client, size_t client_len,
                             const uint8_t *server, size_t server_len, uint8_t *out, size_t out_len);
uint32_t model_key_block(const uint8_t *secret, size_t secret_len, const uint8_t *client, size_t client_len,
                         const uint8_t *server, size_t server_len, uint8_t *out, size_t out_len);
uint32_t model_key_halves(const uint8_t *block, size_t block_len, uint8_t *client_mac, size_t client_mac_len, uint8_t *server_mac,
                          size_t server_mac_len, uint8_t *client_enc, size_t client_enc_len, uint8_t *server_enc,
                          size_t server_enc_len);
uint32_t model_finished(const uint8_t *secret, size_t secret_len, uint32_t role, const uint8_t *hash, size_t hash_len,
                        uint8_t *out, size_t out_len);
void model_sm3_start(noustrel_sm3_state *h);
uint32_t model_sm3_update(noustrel_sm3_state *h, const uint8_t *data, size_t data_len);
uint32_t model_sm3_finish(const noustrel_sm3_state *h, uint8_t *digest, size_t digest_len);

/* ---- the cases (records.c, hashes.c): each makes one or more calls and compares them with the model's */
enum function { SEAL, OPEN, SM3, HMAC_SM3, ENCRYPT, DECRYPT, MASTER, KEY_BLOCK, KEY_HALVES, FINISHED, START, UPDATE, FINISH,
                FUNCTIONS };
void judge(enum function f, uint32_t answer, uint32_t expected);
size_t size_near(size_t right);      /* mostly the right size, else another */
void seal_case(void);
void open_case(void);
void sm3_case(void);
void hmac_case(void);
void block_case(void);
void key_case(void);
void stream_case(void);

/* ---- calls that teeth.c can spoil */
typedef uint32_t seal_call(const uint8_t *, size_t, const uint8_t *, size_t, uint64_t, uint8_t, uint16_t, const uint8_t *, size_t,
                           const uint8_t *, size_t, uint8_t *, size_t, size_t *);
typedef uint32_t open_call(const uint8_t *, size_t, const uint8_t *, size_t, uint64_t, uint8_t, uint16_t, const uint8_t *, size_t,
                           uint8_t *, size_t, size_t *, size_t *);
extern seal_call *the_seal;
extern open_call *the_open;

/* ---- the driver (driver.c) and what it must catch (teeth.c) */
int run(double seconds, uint64_t seed, uint64_t cases);
int teeth(void);

#endif
