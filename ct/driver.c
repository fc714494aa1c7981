/* Runs sealing, opening, the hash, HMAC and its verification, SM4 blocks and the key schedule with the keys, the text and so all
   that is deciphered marked as undefined for valgrind's memcheck: it reports every conditional jump and every address that
   depends on them. What comes back, answer, length and output, is declassified after the call. Prints the number of runs.
   driver                  all runs
   driver few              openings of three lengths and two blocks
   driver count N RECORDS  openings of bodies of N bytes, each counted by callgrind on its own: good ones, wrong MACs, wrong
                           paddings and rubbish in turn, with keys at random */
#include <stdint.h>
#include <stdio.h>
#include <stdlib.h>
#include <string.h>
#include <valgrind/callgrind.h>
#include <valgrind/memcheck.h>

#include "noustrel.h"

#define MOST 16448

/* of crate probes: 1 where the tag is the MAC of the message under the key, else 0 */
uint32_t probe_hmac_verify(const uint8_t *key, size_t key_len, const uint8_t *message, size_t message_len, const uint8_t *tag,
                           size_t tag_len);

static uint8_t mac_key[32], enc_key[16], iv[16], text[16384], record[MOST + 16], out[MOST + 64];
static uint64_t seed = 1;
static unsigned runs;

static uint8_t next(void)
{
    seed = seed * 6364136223846793005u + 1442695040888963407u;
    return (uint8_t)(seed >> 56);
}

static void fill(uint8_t *at, size_t n)
{
    while (n--)
        *at++ = next();
}

static void secret(const void *at, size_t n)
{
    VALGRIND_MAKE_MEM_UNDEFINED(at, n);
}

static void plain(const void *at, size_t n)
{
    VALGRIND_MAKE_MEM_DEFINED(at, n);
}

static void must(int right, const char *what)
{
    if (!right) {
        fprintf(stderr, "ct: %s\n", what);
        exit(3);
    }
}

static void keys_secret(void)
{
    secret(mac_key, sizeof mac_key);
    secret(enc_key, sizeof enc_key);
}

static void keys_plain(void)
{
    plain(mac_key, sizeof mac_key);
    plain(enc_key, sizeof enc_key);
}

static void new_keys(void)
{
    fill(mac_key, sizeof mac_key);
    fill(enc_key, sizeof enc_key);
    fill(iv, sizeof iv);
}

/* ---- openings */

/* the CBC encryption of a body behind the IV, into record */
static void encipher(const uint8_t *body, size_t n)
{
    size_t i, j;
    uint8_t block[16];
    memcpy(record, iv, 16);
    for (i = 0; i < n; i += 16) {
        for (j = 0; j < 16; j++)
            block[j] = body[i + j] ^ record[i + j];
        must(noustrel_sm4_encrypt_block(enc_key, 16, block, 16, record + i + 16, 16) == 0, "a block was refused");
    }
}

/* opens record with everything secret; the answer must be the expected one */
static void open_secret(size_t n, uint32_t expected)
{
    size_t length = 0, count = 0;
    uint32_t answer;
    keys_secret();
    answer = noustrel_open(mac_key, 32, enc_key, 16, 7, 23, 0x0101, record, n + 16, out, n, &length, &count);
    plain(&answer, sizeof answer);
    plain(&length, sizeof length);
    plain(out, n);
    keys_plain();
    must(VALGRIND_CHECK_MEM_IS_DEFINED(&count, sizeof count) == 0, "the count depends on a secret");
    must(answer == expected, "another answer than expected");
    runs++;
}

/* a body with a text of len bytes, its MAC and a padding of padlen + 1 bytes */
static size_t body_of(uint8_t *body, size_t len, unsigned padlen)
{
    static uint8_t covered[13 + MOST];
    static const uint8_t head[11] = {0, 0, 0, 0, 0, 0, 0, 7, 23, 1, 1};
    memcpy(covered, head, 11);
    covered[11] = (uint8_t)(len >> 8);
    covered[12] = (uint8_t)len;
    fill(body, len);
    memcpy(covered + 13, body, len);
    must(noustrel_hmac_sm3(mac_key, 32, covered, 13 + len, body + len, 32) == 0, "a MAC was refused");
    memset(body + len + 32, (int)padlen, padlen + 1);
    return len + 33 + padlen;
}

/* good; a wrong MAC; a wrong last byte; a wrong first byte of the padding; rubbish */
static void openings(size_t n, unsigned padlen)
{
    static uint8_t body[MOST];
    size_t len = n - 33 - padlen;
    must(body_of(body, len, padlen) == n, "a body has another length");
    encipher(body, n);
    open_secret(n, 0);
    body[len + next() % 32] ^= 1;
    encipher(body, n);
    open_secret(n, 6);
    body_of(body, len, padlen);
    body[n - 1] ^= 0x55;
    encipher(body, n);
    open_secret(n, 6);
    body_of(body, len, padlen);
    if (padlen) {
        body[n - 1 - padlen] ^= 1;
        encipher(body, n);
        open_secret(n, 6);
    }
    fill(record, n + 16);
    open_secret(n, 6);
}

static void openings_of(size_t n)
{
    unsigned top = n - 33 < 255 ? (unsigned)(n - 33) : 255;
    openings(n, 0);
    openings(n, top < 15 ? top : 15);
    openings(n, next() % (top + 1));
    openings(n, top);
}

/* ---- the other calls: their answers and lengths are public, and tested here as such */
static void sealings(size_t len)
{
    size_t length = 0;
    uint32_t answer;
    fill(text, len);
    keys_secret();
    secret(text, len);
    answer = noustrel_seal(mac_key, 32, enc_key, 16, 7, 23, 0x0101, iv, 16, text, len, out, sizeof out, &length);
    must(answer == 0 && length == 16 * (len / 16 + 4), "another answer than expected");
    plain(text, len);
    plain(out, sizeof out);
    keys_plain();
    runs++;
}

static void blocks(void)
{
    uint8_t block[16], there[16], back[16];
    fill(block, 16);
    secret(enc_key, 16);
    secret(block, 16);
    must(noustrel_sm4_encrypt_block(enc_key, 16, block, 16, there, 16) == 0, "a block was refused");
    must(noustrel_sm4_decrypt_block(enc_key, 16, there, 16, back, 16) == 0, "a block was refused");
    plain(enc_key, 16);
    plain(block, 16);
    plain(back, 16);
    must(memcmp(block, back, 16) == 0, "a block does not come back");
    runs += 2;
}

/* the hash in one call and streamed, and HMAC under a key of any length */
static void hashes(size_t key_len, size_t len)
{
    static uint8_t key[256];
    uint8_t digest[32];
    noustrel_sm3_state h;
    fill(key, key_len);
    fill(text, len);
    secret(key, key_len);
    secret(text, len);
    must(noustrel_sm3(text, len, digest, 32) == 0, "a message was refused");
    noustrel_sm3_start(&h);
    must(noustrel_sm3_update(&h, text, len / 3) == 0 && noustrel_sm3_update(&h, text, len - len / 3) == 0, "a part was refused");
    must(noustrel_sm3_finish(&h, digest, 32) == 0, "a state was refused");
    must(noustrel_hmac_sm3(key, key_len, text, len, digest, 32) == 0, "a MAC was refused");
    plain(key, key_len);
    plain(text, len);
    runs += 3;
}

/* a good tag, and one with a wrong bit; only the answer is told */
static void verifications(size_t len)
{
    uint8_t tag[32];
    uint32_t answer;
    int bad;
    fill(text, len);
    must(noustrel_hmac_sm3(mac_key, 32, text, len, tag, 32) == 0, "a MAC was refused");
    for (bad = 0; bad < 4; bad++) {
        if (bad)
            tag[bad == 1 ? 0 : bad == 2 ? 31 : next() % 32] ^= (uint8_t)(1u << next() % 8);
        secret(mac_key, 32);
        secret(text, len);
        secret(tag, 32);
        answer = probe_hmac_verify(mac_key, 32, text, len, tag, 32);
        plain(&answer, sizeof answer);
        plain(mac_key, 32);
        plain(text, len);
        plain(tag, 32);
        must(answer == (bad ? 0u : 1u), "another answer than expected");
        runs++;
    }
}

static void key_schedule(size_t len)
{
    uint8_t pre[48], master[48], randoms[64], block[128], keys[96];
    fill(pre, 48);
    fill(randoms, 64);
    secret(pre, 48);
    must(noustrel_master_secret(pre, 48, randoms, 32, randoms + 32, 32, master, 48) == 0, "a secret was refused");
    must(noustrel_key_block(master, 48, randoms, 32, randoms + 32, 32, out, len) == 0, "a key block was refused");
    must(noustrel_finished(master, 48, 0, randoms, 32, out, 12) == 0, "a Finished was refused");
    must(noustrel_key_block(master, 48, randoms, 32, randoms + 32, 32, block, 128) == 0, "a key block was refused");
    must(noustrel_key_halves(block, 128, keys, 32, keys + 32, 32, keys + 64, 16, keys + 80, 16) == 0, "a key block was not cut");
    plain(out, len + 12);
    runs += 5;
}

/* ---- openings whose instructions are counted; the padding's length is random */
static int counted(size_t n, unsigned records)
{
    static uint8_t body[MOST];
    unsigned i, padlen, top = n - 33 < 255 ? (unsigned)(n - 33) : 255;
    size_t length = 0, count = 0;
    uint32_t answer;
    for (i = 0; i < records; i++) {
        new_keys();
        padlen = next() % (top + 1);
        must(body_of(body, n - 33 - padlen, padlen) == n, "a body has another length");
        if (i % 4 == 1)
            body[n - 33 - padlen + next() % 32] ^= 1;
        if (i % 4 == 2)
            body[n - 1 - (padlen ? next() % padlen : 0)] ^= 0x80;
        encipher(body, n);
        if (i % 4 == 3)
            fill(record, n + 16);
        CALLGRIND_START_INSTRUMENTATION;
        CALLGRIND_ZERO_STATS;
        answer = noustrel_open(mac_key, 32, enc_key, 16, 7, 23, 0x0101, record, n + 16, out, n, &length, &count);
        CALLGRIND_DUMP_STATS;
        CALLGRIND_STOP_INSTRUMENTATION;
        must(answer == (i % 4 ? 6u : 0u), "another answer than expected");
    }
    return 0;
}

static void all(void)
{
    static const size_t longer[] = {1040, 2064, 4112, 16432};
    static const size_t key_lens[] = {0, 1, 32, 63, 64, 65, 128, 200};
    size_t i;
    for (i = 48; i <= 640; i += 16)
        openings_of(i);
    for (i = 0; i < sizeof longer / sizeof *longer; i++)
        openings(longer[i], (unsigned)(16 * i + 15));
    for (i = 0; i <= 200; i++) {
        sealings(i);
        hashes(key_lens[i % 8], i);
    }
    sealings(1024);
    sealings(16384);
    for (i = 0; i < 20; i++) {
        blocks();
        verifications(13 * i);
        key_schedule(51 * i);
    }
}

int main(int argc, char **argv)
{
    long n = argc == 4 ? atol(argv[2]) : 0, records = argc == 4 ? atol(argv[3]) : 0;
    new_keys();
    if (argc == 4 && strcmp(argv[1], "count") == 0 && n >= 48 && n <= 16432 && n % 16 == 0 && records > 0)
        return counted((size_t)n, (unsigned)records);
    must(argc == 1 || (argc == 2 && strcmp(argv[1], "few") == 0), "usage: driver | driver few | driver count N RECORDS");
    if (argc == 1) {
        all();
    } else {
        openings_of(48);
        openings_of(304);
        openings_of(1040);
        blocks();
    }
    printf("%u\n", runs);
    return 0;
}
