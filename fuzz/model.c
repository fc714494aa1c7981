/* A model of the C border, written from the scope's rules over OpenSSL's SM3, HMAC and SM4. The hash's compression is written
   from GB/T 32905, since a running state may hold any words; model_make holds it to OpenSSL's. */
#include <openssl/core_names.h>
#include <openssl/evp.h>
#include <stdio.h>
#include <stdlib.h>
#include <string.h>

#include "fuzz.h"

enum wrong wrong = RIGHT;
static EVP_MD *md;
static EVP_MAC_CTX *mac_ctx;
static EVP_CIPHER *cbc, *ecb;
static EVP_CIPHER_CTX *cipher_ctx;

static void works(int yes)
{
    if (!yes) {
        fprintf(stderr, "fuzz: OpenSSL's SM3, HMAC or SM4 does not work here\n");
        exit(2);
    }
}

/* ---- the hash */
static uint32_t rol(uint32_t x, unsigned n)
{
    n %= 32;
    return n ? x << n | x >> (32 - n) : x;
}

static void compress(uint32_t v[8], const uint8_t *b)
{
    uint32_t w[68], r[8], x, ss1, tt1, tt2;
    unsigned j;
    for (j = 0; j < 16; j++)
        w[j] = (uint32_t)b[4 * j] << 24 | (uint32_t)b[4 * j + 1] << 16 | (uint32_t)b[4 * j + 2] << 8 | b[4 * j + 3];
    for (; j < 68; j++) {
        x = w[j - 16] ^ w[j - 9] ^ rol(w[j - 3], 15);
        w[j] = x ^ rol(x, 15) ^ rol(x, 23) ^ rol(w[j - 13], 7) ^ w[j - 6];
    }
    memcpy(r, v, sizeof r);
    for (j = 0; j < 64; j++) {
        ss1 = rol(rol(r[0], 12) + r[4] + rol(j < 16 ? 0x79CC4519 : 0x7A879D8A, j), 7);
        tt1 = (j < 16 ? r[0] ^ r[1] ^ r[2] : (r[0] & r[1]) | (r[0] & r[2]) | (r[1] & r[2])) + r[3] + (ss1 ^ rol(r[0], 12))
              + (w[j] ^ w[j + 4]);
        tt2 = (j < 16 ? r[4] ^ r[5] ^ r[6] : (r[4] & r[5]) | (~r[4] & r[6])) + r[7] + ss1 + w[j];
        r[3] = r[2], r[2] = rol(r[1], 9), r[1] = r[0], r[0] = tt1;
        r[7] = r[6], r[6] = rol(r[5], 19), r[5] = r[4], r[4] = tt2 ^ rol(tt2, 9) ^ rol(tt2, 17);
    }
    for (j = 0; j < 8; j++)
        v[j] ^= r[j];
}

void model_sm3_start(noustrel_sm3_state *h)
{
    static const uint32_t iv[8] = {0x7380166F, 0x4914B2B9, 0x172442D7, 0xDA8A0600,
                                   0xA96F30BC, 0x163138AA, 0xE38DEE4D, 0xB0FB0E4E};
    memset(h, 0, sizeof *h);
    memcpy(h->state, iv, sizeof iv);
}

/* A block that is completed stands in the buffer; whole blocks behind it go past the buffer; the rest is laid over its front. */
uint32_t model_sm3_update(noustrel_sm3_state *h, const uint8_t *data, size_t data_len)
{
    size_t fill = h->buffer_len;
    if (fill > (wrong == FILL_64 ? 64 : 63))
        return 7;
    h->total_len += data_len;
    if (fill > 0 && data_len >= 64 - fill) {
        memcpy(h->buffer + fill, data, 64 - fill);
        compress(h->state, h->buffer);
        data += 64 - fill, data_len -= 64 - fill, fill = 0;
    }
    for (; fill == 0 && data_len >= 64; data += 64, data_len -= 64)
        compress(h->state, data);
    memcpy(h->buffer + fill, data, data_len);
    h->buffer_len = fill + data_len;
    if (wrong == STALE_BUFFER)
        memset(h->buffer + h->buffer_len, 0, 64 - h->buffer_len);
    return 0;
}

uint32_t model_sm3_finish(const noustrel_sm3_state *h, uint8_t *digest, size_t digest_len)
{
    uint8_t last[128] = {0};
    uint32_t v[8];
    size_t fill = h->buffer_len, i, end;
    if (digest_len != 32)
        return 9;
    memset(digest, 0, 32);
    if (fill > 63)
        return 7;
    memcpy(last, h->buffer, fill);
    last[fill] = 0x80;
    end = fill < 56 ? 64 : 128;
    for (i = 0; i < 8; i++)
        last[end - 1 - i] = (uint8_t)(h->total_len * 8 >> (8 * i));
    memcpy(v, h->state, sizeof v);
    for (i = 0; i < end; i += 64)
        compress(v, last + i);
    for (i = 0; i < 32; i++)
        digest[i] = (uint8_t)(v[i / 4] >> (24 - 8 * (i % 4)));
    return 0;
}

uint32_t model_sm3(const uint8_t *message, size_t message_len, uint8_t *digest, size_t digest_len)
{
    if (digest_len != 32)
        return 9;
    works(EVP_Digest(message, message_len, digest, NULL, md, NULL) == 1);
    return 0;
}

/* ---- HMAC and cipher */
void model_mac(const uint8_t *key, size_t key_len, const uint8_t *message, size_t message_len, uint8_t mac[32])
{
    size_t n = 0;
    works(EVP_MAC_init(mac_ctx, key, key_len, NULL) == 1);
    works(EVP_MAC_update(mac_ctx, message, message_len) == 1);
    works(EVP_MAC_final(mac_ctx, mac, &n, 32) == 1 && n == 32);
}

uint32_t model_hmac_sm3(const uint8_t *key, size_t key_len, const uint8_t *message, size_t message_len, uint8_t *mac,
                        size_t mac_len)
{
    if (mac_len != 32)
        return 9;
    model_mac(key, key_len, message, message_len, mac);
    return 0;
}

static void cipher(const EVP_CIPHER *which, const uint8_t *key, const uint8_t *iv, const uint8_t *in, size_t n, uint8_t *out,
                   int encipher)
{
    int done = 0;
    works(EVP_CipherInit_ex(cipher_ctx, which, NULL, key, iv, encipher) == 1);
    EVP_CIPHER_CTX_set_padding(cipher_ctx, 0);
    works(EVP_CipherUpdate(cipher_ctx, out, &done, in, (int)n) == 1 && (size_t)done == n);
}

void model_cbc(const uint8_t *key, const uint8_t *iv, const uint8_t *in, size_t n, uint8_t *out, int encipher)
{
    cipher(cbc, key, iv, in, n, out, encipher);
}

uint32_t model_block(int encipher, const uint8_t *key, size_t key_len, const uint8_t *block, size_t block_len, uint8_t *out,
                     size_t out_len)
{
    if (key_len != 16 || block_len != 16 || out_len != 16)
        return 9;
    cipher(ecb, key, NULL, block, 16, out, encipher);
    return 0;
}

/* ---- the key schedule: A(1) = HMAC(secret, seed), A(i + 1) = HMAC(secret, A(i)); block i is HMAC(secret, A(i), seed) */
static void p_sm3(const uint8_t *secret, const char *label, const uint8_t *first, const uint8_t *second, uint8_t *out, size_t n)
{
    uint8_t a_seed[32 + 128], block[32], *seed = a_seed + 32;
    size_t at, part, len = strlen(label);
    memcpy(seed, label, len);
    memcpy(seed + len, first, 32);
    len += 32;
    if (second) {
        memcpy(seed + len, second, 32);
        len += 32;
    }
    for (at = 0; at < n; at += part) {
        model_mac(secret, 48, at ? a_seed : seed, at ? 32 : len, block);
        memcpy(a_seed, block, 32);
        model_mac(secret, 48, a_seed, 32 + len, block);
        part = n - at < 32 ? n - at : 32;
        memcpy(out + at, block, part);
    }
}

uint32_t model_master_secret(const uint8_t *secret, size_t secret_len, const uint8_t *client, size_t client_len,
                             const uint8_t *server, size_t server_len, uint8_t *out, size_t out_len)
{
    if (secret_len != 48 || client_len != 32 || server_len != 32 || out_len != 48)
        return 9;
    p_sm3(secret, "master secret", client, server, out, 48);
    return 0;
}

uint32_t model_key_block(const uint8_t *secret, size_t secret_len, const uint8_t *client, size_t client_len,
                         const uint8_t *server, size_t server_len, uint8_t *out, size_t out_len)
{
    if (secret_len != 48 || client_len != 32 || server_len != 32 || out_len > 1024)
        return 9;
    p_sm3(secret, "key expansion", server, client, out, out_len);
    return 0;
}

uint32_t model_key_halves(const uint8_t *block, size_t block_len, uint8_t *client_mac, size_t client_mac_len, uint8_t *server_mac,
                          size_t server_mac_len, uint8_t *client_enc, size_t client_enc_len, uint8_t *server_enc,
                          size_t server_enc_len)
{
    if (wrong == CUT_ON_9 && block_len >= 32 && client_mac_len == 32)
        memcpy(client_mac, block, 32);
    if (block_len != 128 || client_mac_len != 32 || server_mac_len != 32 || client_enc_len != 16 || server_enc_len != 16)
        return 9;
    memcpy(client_mac, block, 32);
    memcpy(server_mac, block + (wrong == BY_SIDE ? 48 : 32), 32);
    memcpy(client_enc, block + (wrong == BY_SIDE ? 32 : 64), 16);
    memcpy(server_enc, block + 80, 16);
    return 0;
}

uint32_t model_finished(const uint8_t *secret, size_t secret_len, uint32_t role, const uint8_t *hash, size_t hash_len,
                        uint8_t *out, size_t out_len)
{
    if (secret_len != 48 || hash_len != 32 || out_len != 12)
        return 9;
    if (wrong == ROLE)
        role &= 1;
    p_sm3(secret, role ? "server finished" : "client finished", hash, NULL, out, 12);
    return 0;
}

/* ---- the record */
void model_record_mac(const uint8_t *mac_key, uint64_t number, uint8_t type, uint16_t version, size_t said_len,
                      const uint8_t *text, size_t text_len, uint8_t mac[32])
{
    static uint8_t covered[13 + LONGEST];
    size_t i;
    for (i = 0; i < 8; i++)
        covered[i] = (uint8_t)(number >> (56 - 8 * i));
    covered[8] = type;
    covered[9] = (uint8_t)(version >> 8), covered[10] = (uint8_t)version;
    covered[11] = (uint8_t)(said_len >> 8), covered[12] = (uint8_t)said_len;
    memcpy(covered + 13, text, text_len);
    model_mac(mac_key, 32, covered, 13 + text_len, mac);
}

uint32_t model_seal(const uint8_t *mac_key, size_t mac_key_len, const uint8_t *enc_key, size_t enc_key_len, uint64_t number,
                    uint8_t type, uint16_t version, const uint8_t *iv, size_t iv_len, const uint8_t *text, size_t text_len,
                    uint8_t *out, size_t out_len, size_t *length)
{
    static uint8_t body[LONGEST];
    size_t size = 16 * (text_len / 16 + 4), padlen = 15 - text_len % 16;
    *length = 0;
    if (mac_key_len != 32 || enc_key_len != 16 || iv_len != 16)
        return 9;
    if (text_len > (wrong == TEXT_LIMIT ? 16385 : 16384))
        return 1;
    if (out_len < size)
        return 2;
    memcpy(body, text, text_len);
    model_record_mac(mac_key, number, type, version, wrong == HEADER_LENGTH ? size : text_len, text, text_len, body + text_len);
    memset(body + text_len + 32, (int)padlen, padlen + 1);
    memcpy(out, iv, 16);
    model_cbc(enc_key, iv, body, size - 16, out + 16, 1);
    *length = size;
    return 0;
}

/* the text's length if the padding is good, else -1 */
static long unpadded(const uint8_t *body, size_t n)
{
    size_t p = body[n - 1], i;
    if (p + 1 > n - 32 || (wrong == SHORTEST_PADDING && p > 15))
        return -1;
    for (i = 1; i <= p && !(wrong == SCANS_16 && i >= 16); i++)
        if (body[n - 1 - i] != p)
            return -1;
    return (long)(n - 33 - p);
}

uint32_t model_open(const uint8_t *mac_key, size_t mac_key_len, const uint8_t *enc_key, size_t enc_key_len, uint64_t number,
                    uint8_t type, uint16_t version, const uint8_t *record, size_t record_len, uint8_t *out, size_t out_len,
                    size_t *length, size_t *count)
{
    static uint8_t body[LONGEST];
    uint8_t mac[32];
    size_t n = record_len - 16;
    long len;
    *length = *count = 0;
    if (mac_key_len != 32 || enc_key_len != 16)
        return 9;
    if (record_len < 64)
        return 3;
    if (n % 16 != 0)
        return 4;
    if (n > (wrong == BODY_LIMIT ? 16448 : 16432))
        return 5;
    if (out_len < n)
        return 2;
    *count = n / 16 + (n - 11 + 63) / 64 + (wrong == COUNT && n % 64 == 0 ? 5 : 4);
    model_cbc(enc_key, record, record + 16, n, body, 0);
    memset(out, 0, n);
    len = unpadded(body, n);
    if (len < 0)
        return 6;
    model_record_mac(mac_key, number, type, version, (size_t)len, body, (size_t)len, mac);
    if (memcmp(mac, body + len, 32) != 0)
        return 6;
    memcpy(out, body, (size_t)len);
    *length = (size_t)len;
    return 0;
}

/* ---- the start: the parts of OpenSSL, and the compression held to them */
void model_make(void)
{
    static char name[] = "SM3";
    OSSL_PARAM digest[2] = {OSSL_PARAM_construct_utf8_string(OSSL_MAC_PARAM_DIGEST, name, 0), OSSL_PARAM_construct_end()};
    EVP_MAC *hmac = EVP_MAC_fetch(NULL, "HMAC", NULL);
    noustrel_sm3_state h;
    uint8_t text[300], a[32], b[32];
    size_t n;
    md = EVP_MD_fetch(NULL, "SM3", NULL);
    cbc = EVP_CIPHER_fetch(NULL, "SM4-CBC", NULL);
    ecb = EVP_CIPHER_fetch(NULL, "SM4-ECB", NULL);
    cipher_ctx = EVP_CIPHER_CTX_new();
    works(hmac && md && cbc && ecb && cipher_ctx);
    mac_ctx = EVP_MAC_CTX_new(hmac);
    works(mac_ctx && EVP_MAC_CTX_set_params(mac_ctx, digest) == 1);
    for (n = 0; n < sizeof text; n++) {
        memset(text, (int)n, sizeof text);
        model_sm3_start(&h);
        model_sm3_update(&h, text, n / 3);
        model_sm3_update(&h, text, n - n / 3);
        works(model_sm3_finish(&h, a, 32) == 0 && model_sm3(text, n, b, 32) == 0 && memcmp(a, b, 32) == 0);
    }
}
