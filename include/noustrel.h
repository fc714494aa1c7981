/* Noustrel: the record layer of TLCP (GB/T 38636-2020) with SM4-CBC, its hash, MAC, cipher and key schedule. C99 or C++.
 *
 * Every call ends, allocates nothing, and keeps nothing from call to call: it reads and writes the spans that it is given
 * and its own stack, which it does not wipe, so that parts of keys and texts may stay there. Calls on different spans may
 * run at the same time. A span is a pointer and its length in bytes. What a call leaves in a span that it may write is said
 * for every answer; it writes nowhere else.
 *
 * The caller's duties, which no call can test:
 * - A pointer is not null, even at length 0, is aligned for its type, and its span is really as long as said.
 * - What a call may read, and what it may write too, has been written before: clear a new output once.
 * - What a call may write (a pointer without const) overlaps nothing else that the same call is given.
 * - Nobody else touches these spans, or a hash state, while a call runs.
 * - An IV is fresh and cannot be guessed: 16 bytes of the system's random source for each record.
 * - No number is used twice under the same keys.
 */
#ifndef NOUSTREL_H
#define NOUSTREL_H

#include <stddef.h>
#include <stdint.h>

#ifdef __cplusplus
extern "C" {
#endif

/* The answers. With every answer but DONE the reported length is 0, and the count too, but for BAD_RECORD. */
enum noustrel_answer {
    NOUSTREL_DONE = 0,
    NOUSTREL_TOO_LONG = 1,   /* more text than NOUSTREL_MAX_PLAINTEXT; output as found */
    NOUSTREL_NO_ROOM = 2,    /* output shorter than the sealed record, or than the body to open; output as found */
    NOUSTREL_SHORT = 3,      /* record below NOUSTREL_MIN_RECORD; output as found */
    NOUSTREL_RAGGED = 4,     /* body no multiple of 16; output as found */
    NOUSTREL_TOO_BIG = 5,    /* body above NOUSTREL_MAX_BODY; output as found */
    NOUSTREL_BAD_RECORD = 6, /* wrong padding or wrong MAC; the body's length of output bytes zero, the rest as found */
    NOUSTREL_BAD_STATE = 7,  /* hash state with a fill above 63; state as found, digest zero */
    NOUSTREL_ENDED = 8,      /* a step on an ended opening: answered by no function here */
    NOUSTREL_WRONG_SIZE = 9  /* a length other than the one asked for, tested before all else; output as found */
};

/* Sizes in bytes. */
#define NOUSTREL_DIGEST_SIZE 32
#define NOUSTREL_BLOCK_SIZE 16
#define NOUSTREL_MAC_LEN 32
#define NOUSTREL_MAC_KEY_LEN 32
#define NOUSTREL_ENC_KEY_LEN 16
#define NOUSTREL_IV_LEN 16
#define NOUSTREL_HEADER_LEN 13
#define NOUSTREL_MASTER_SECRET_LEN 48 /* of the pre-master secret, too */
#define NOUSTREL_RANDOM_LEN 32        /* of the transcript hash, too */
#define NOUSTREL_FINISHED_VERIFY_DATA_LEN 12
#define NOUSTREL_CBC_KEY_BLOCK_LEN 128
#define NOUSTREL_MAX_KEY_BLOCK 1024

#define NOUSTREL_MAX_PLAINTEXT 16384
#define NOUSTREL_MIN_RECORD 64    /* the IV, a MAC and a block of padding */
#define NOUSTREL_MAX_BODY 16432   /* room that suffices to open any record */
#define NOUSTREL_MAX_RECORD 16448 /* room that suffices to seal any text */

/* The record of a text of this length; the body in a record of this length, NOUSTREL_MIN_RECORD or more. */
#define NOUSTREL_SEALED_LEN(text_len) (16 * ((text_len) / 16 + 4))
#define NOUSTREL_BODY_LEN(record_len) ((record_len) - 16)

/* The usual version of a record, TLCP 1.1. Versions are numbers, high byte first. */
#define NOUSTREL_TLCP_RECORD_VERSION 0x0101

/* Seals a text: out begins with the record, IV, then text, MAC and padding enciphered; *length is the record's length,
 * NOUSTREL_SEALED_LEN(text_len), and the bytes of out behind it stay as found. Number, type and version may be any.
 * mac_key 32 bytes, enc_key 16, iv 16. Answers 0, 9, 1, 2, tested in the order 9, 1, 2; a refusal leaves out as found. */
uint32_t noustrel_seal(const uint8_t *mac_key, size_t mac_key_len,
                       const uint8_t *enc_key, size_t enc_key_len,
                       uint64_t number, uint8_t content_type, uint16_t version,
                       const uint8_t *iv, size_t iv_len,
                       const uint8_t *text, size_t text_len,
                       uint8_t *out, size_t out_len,
                       size_t *length);

/* Opens a record with a body of n = NOUSTREL_BODY_LEN(record_len) bytes, 48 to NOUSTREL_MAX_BODY: out begins with the
 * text, *length bytes; zeros follow up to n; the rest stays as found. Padding of every lawful length is taken, so a text
 * has 0 to n - 33 bytes, at most 16,399. *count is the number of steps made, given by n alone.
 * mac_key 32 bytes, enc_key 16. Answers 0, 9, 3, 4, 5, 2, 6, tested in this order from 9 on. 9 and 2 to 5 leave out as
 * found, with *length and *count 0. 6 leaves n zeros and the rest as found, *length 0, *count as for 0: what was
 * wrong, padding or MAC, is not told. */
uint32_t noustrel_open(const uint8_t *mac_key, size_t mac_key_len,
                       const uint8_t *enc_key, size_t enc_key_len,
                       uint64_t number, uint8_t content_type, uint16_t version,
                       const uint8_t *record, size_t record_len,
                       uint8_t *out, size_t out_len,
                       size_t *length, size_t *count);

/* SM3 of the message. digest 32 bytes. Answers 0 and 9; 9 leaves digest as found. */
uint32_t noustrel_sm3(const uint8_t *message, size_t message_len,
                      uint8_t *digest, size_t digest_len);

/* HMAC-SM3 of the message under a key of any length. mac 32 bytes. Answers 0 and 9; 9 leaves mac as found. */
uint32_t noustrel_hmac_sm3(const uint8_t *key, size_t key_len,
                           const uint8_t *message, size_t message_len,
                           uint8_t *mac, size_t mac_len);

/* One block of SM4, enciphered and deciphered. key, block and out 16 bytes. Answers 0 and 9; 9 leaves out as found. */
uint32_t noustrel_sm4_encrypt_block(const uint8_t *key, size_t key_len,
                                    const uint8_t *block, size_t block_len,
                                    uint8_t *out, size_t out_len);
uint32_t noustrel_sm4_decrypt_block(const uint8_t *key, size_t key_len,
                                    const uint8_t *block, size_t block_len,
                                    uint8_t *out, size_t out_len);

/* The master secret. pre_master and out 48 bytes, randoms 32. Answers 0 and 9; 9 leaves out as found. */
uint32_t noustrel_master_secret(const uint8_t *pre_master, size_t pre_master_len,
                                const uint8_t *client_random, size_t client_random_len,
                                const uint8_t *server_random, size_t server_random_len,
                                uint8_t *out, size_t out_len);

/* The key block, all of out, 0 to 1,024 bytes. master_secret 48 bytes, randoms 32. Answers 0 and 9; 9 leaves out as
 * found. For SM4-CBC out has 128, which noustrel_key_halves cuts. */
uint32_t noustrel_key_block(const uint8_t *master_secret, size_t master_secret_len,
                            const uint8_t *client_random, size_t client_random_len,
                            const uint8_t *server_random, size_t server_random_len,
                            uint8_t *out, size_t out_len);

/* The keys of both sides out of a key block: bytes 0..32 are the client's MAC key, 32..64 the server's, 64..80 the client's
 * cipher key, 80..96 the server's; 96..128 are not used. Each side seals with its own keys and opens with the other's.
 * key_block 128 bytes, MAC keys 32, cipher keys 16. Answers 0 and 9; 9, for any wrong length, leaves all four as found. */
uint32_t noustrel_key_halves(const uint8_t *key_block, size_t key_block_len,
                             uint8_t *client_mac_key, size_t client_mac_key_len,
                             uint8_t *server_mac_key, size_t server_mac_key_len,
                             uint8_t *client_enc_key, size_t client_enc_key_len,
                             uint8_t *server_enc_key, size_t server_enc_key_len);

/* The verify data of a Finished message: role 0 is the client, any other number the server. master_secret 48 bytes,
 * transcript_hash 32, out 12. Answers 0 and 9; 9 leaves out as found. */
uint32_t noustrel_finished(const uint8_t *master_secret, size_t master_secret_len,
                           uint32_t role,
                           const uint8_t *transcript_hash, size_t transcript_hash_len,
                           uint8_t *out, size_t out_len);

/* A running SM3. Only buffer_len, the fill, can be wrong: above 63. A state is a plain value and may be copied. */
typedef struct noustrel_sm3_state {
    uint32_t state[8];
    uint8_t buffer[64];
    size_t buffer_len;
    uint64_t total_len;
} noustrel_sm3_state;

/* A fresh state, whatever stood there. */
void noustrel_sm3_start(noustrel_sm3_state *h);

/* Takes data in. Answers 0 and 7; 7 leaves the state as found. */
uint32_t noustrel_sm3_update(noustrel_sm3_state *h, const uint8_t *data, size_t data_len);

/* The digest of all bytes taken in; the state stays and may go on. digest 32 bytes. Answers 0, 9 and 7, 9 tested first: 9
 * leaves digest as found, 7 leaves it zero. */
uint32_t noustrel_sm3_finish(const noustrel_sm3_state *h, uint8_t *digest, size_t digest_len);

#ifdef __cplusplus
}
#endif

#endif
