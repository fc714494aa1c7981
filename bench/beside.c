/* OpenSSL and libgcrypt, composed to the same work as ours for the timing. Neither has a TLCP record: sealing is HMAC, padding and
   SM4-CBC, opening the reverse. These openers are NOT constant-time: they branch on the padding and stop at the first fault, so
   they do less than ours. As in a connection, a record's keys are set once, before the clock starts; a single MAC, key expansion or
   block sets its key inside the timed call, as ours does. Contexts are made once and used again. */
#include <gcrypt.h>
#include <openssl/core_names.h>
#include <openssl/crypto.h>
#include <openssl/evp.h>
#include <openssl/kdf.h>
#include <openssl/params.h>
#include <stdint.h>
#include <stdio.h>
#include <stdlib.h>
#include <string.h>

enum { MAC = 32, BLOCK = 16, HEADER = 13 };

static void must(int good, const char *what) {
    if (!good) {
        fprintf(stderr, "bench: %s failed\n", what);
        exit(1);
    }
}

/* The 13 bytes in front of the text in a MAC: number, type, version, length. */
static void header(uint64_t number, size_t len, uint8_t h[HEADER]) {
    for (int i = 0; i < 8; i++)
        h[i] = number >> (56 - 8 * i);
    h[8] = 23, h[9] = 1, h[10] = 1, h[11] = len >> 8, h[12] = len;
}

/* The padding behind text and MAC; returns the body's length. */
static size_t pad(uint8_t *body, size_t text_len) {
    uint8_t padlen = 15 - text_len % 16;
    memset(body + text_len + MAC, padlen, padlen + 1u);
    return text_len + MAC + padlen + 1u;
}

/* The text's length in a deciphered body, or -1. Branches on secrets. */
static long unpad(const uint8_t *body, size_t n) {
    size_t padlen = body[n - 1];
    if (padlen + 1 + MAC > n)
        return -1;
    for (size_t i = n - 1 - padlen; i < n; i++)
        if (body[i] != padlen)
            return -1;
    return (long)(n - 1 - padlen - MAC);
}

/* ---- OpenSSL */

static EVP_MD *sm3;
static EVP_MD_CTX *hashing;
static EVP_MAC_CTX *record_mac, *lone_mac;
static EVP_CIPHER_CTX *sealing, *opening, *lone[2];
static EVP_KDF_CTX *prf;

void openssl_start(const uint8_t *mac_key, const uint8_t *enc_key) {
    EVP_CIPHER *cbc = EVP_CIPHER_fetch(NULL, "SM4-CBC", NULL), *ecb = EVP_CIPHER_fetch(NULL, "SM4-ECB", NULL);
    EVP_MAC *hmac = EVP_MAC_fetch(NULL, "HMAC", NULL);
    EVP_KDF *kdf = EVP_KDF_fetch(NULL, "TLS1-PRF", NULL);
    OSSL_PARAM digest[] = {OSSL_PARAM_construct_utf8_string("digest", "SM3", 0), OSSL_PARAM_construct_end()};
    sm3 = EVP_MD_fetch(NULL, "SM3", NULL);
    must(cbc && hmac && kdf && sm3 && ecb, "OpenSSL: fetching SM3, SM4, HMAC and TLS1-PRF");
    hashing = EVP_MD_CTX_new();
    record_mac = EVP_MAC_CTX_new(hmac), lone_mac = EVP_MAC_CTX_new(hmac);
    sealing = EVP_CIPHER_CTX_new(), opening = EVP_CIPHER_CTX_new();
    lone[0] = EVP_CIPHER_CTX_new(), lone[1] = EVP_CIPHER_CTX_new();
    prf = EVP_KDF_CTX_new(kdf);
    must(hashing && record_mac && lone_mac && sealing && opening && lone[0] && lone[1] && prf, "OpenSSL: contexts");
    must(EVP_MAC_init(record_mac, mac_key, 32, digest) && EVP_MAC_CTX_set_params(lone_mac, digest), "OpenSSL: HMAC");
    must(EVP_EncryptInit_ex2(sealing, cbc, enc_key, NULL, NULL) && EVP_DecryptInit_ex2(opening, cbc, enc_key, NULL, NULL) &&
             EVP_CIPHER_CTX_set_padding(sealing, 0) && EVP_CIPHER_CTX_set_padding(opening, 0),
         "OpenSSL: SM4-CBC");
    for (int back = 0; back < 2; back++)
        must(EVP_CipherInit_ex2(lone[back], ecb, enc_key, NULL, !back, NULL) && EVP_CIPHER_CTX_set_padding(lone[back], 0),
             "OpenSSL: SM4-ECB");
}

static void openssl_mac(uint64_t number, const uint8_t *text, size_t len, uint8_t mac[MAC]) {
    uint8_t h[HEADER];
    size_t got;
    header(number, len, h);
    must(EVP_MAC_init(record_mac, NULL, 0, NULL) && EVP_MAC_update(record_mac, h, HEADER) &&
             EVP_MAC_update(record_mac, text, len) && EVP_MAC_final(record_mac, mac, &got, MAC),
         "OpenSSL: a record's MAC");
}

size_t openssl_seal(uint64_t number, const uint8_t *iv, const uint8_t *text, size_t len, uint8_t *out) {
    uint8_t *body = out + BLOCK;
    size_t n;
    int got;
    memcpy(out, iv, BLOCK);
    memcpy(body, text, len);
    openssl_mac(number, text, len, body + len);
    n = pad(body, len);
    must(EVP_EncryptInit_ex2(sealing, NULL, NULL, iv, NULL) &&
             EVP_EncryptUpdate(sealing, body, &got, body, (int)n) && got == (int)n,
         "OpenSSL: sealing");
    return BLOCK + n;
}

long openssl_open(uint64_t number, const uint8_t *record, size_t len, uint8_t *out) {
    uint8_t mac[MAC];
    long text;
    int got;
    must(EVP_DecryptInit_ex2(opening, NULL, NULL, record, NULL) &&
             EVP_DecryptUpdate(opening, out, &got, record + BLOCK, (int)(len - BLOCK)) && got == (int)(len - BLOCK),
         "OpenSSL: opening");
    if ((text = unpad(out, len - BLOCK)) < 0)
        return -1;
    openssl_mac(number, out, (size_t)text, mac);
    return CRYPTO_memcmp(mac, out + text, MAC) == 0 ? text : -1;
}

void openssl_sm3(const uint8_t *data, size_t len, uint8_t *digest) {
    must(EVP_DigestInit_ex2(hashing, sm3, NULL) && EVP_DigestUpdate(hashing, data, len) &&
             EVP_DigestFinal_ex(hashing, digest, NULL),
         "OpenSSL: SM3");
}

void openssl_hmac(const uint8_t *key, size_t key_len, const uint8_t *data, size_t len, uint8_t *mac) {
    size_t got;
    must(EVP_MAC_init(lone_mac, key, key_len, NULL) && EVP_MAC_update(lone_mac, data, len) &&
             EVP_MAC_final(lone_mac, mac, &got, MAC),
         "OpenSSL: HMAC");
}

void openssl_sm4_key(const uint8_t *key, int back) {
    must(EVP_CipherInit_ex2(lone[back], NULL, key, NULL, !back, NULL), "OpenSSL: SM4's key");
}

void openssl_sm4_block(const uint8_t *key, int back, const uint8_t *block, uint8_t *out) {
    int got;
    openssl_sm4_key(key, back);
    must(EVP_CipherUpdate(lone[back], out, &got, block, BLOCK) && got == BLOCK, "OpenSSL: SM4");
}

void openssl_key_block(const uint8_t *master, const uint8_t *client, const uint8_t *server, uint8_t *out, size_t len) {
    OSSL_PARAM given[] = {
        OSSL_PARAM_construct_utf8_string(OSSL_KDF_PARAM_DIGEST, "SM3", 0),
        OSSL_PARAM_construct_octet_string(OSSL_KDF_PARAM_SECRET, (void *)master, 48),
        OSSL_PARAM_construct_octet_string(OSSL_KDF_PARAM_SEED, "key expansion", 13),
        OSSL_PARAM_construct_octet_string(OSSL_KDF_PARAM_SEED, (void *)server, 32),
        OSSL_PARAM_construct_octet_string(OSSL_KDF_PARAM_SEED, (void *)client, 32),
        OSSL_PARAM_construct_end(),
    };
    EVP_KDF_CTX_reset(prf);
    must(EVP_KDF_derive(prf, out, len, given), "OpenSSL: TLS1-PRF");
}

/* ---- libgcrypt */

static gcry_md_hd_t g_hash, g_record_mac, g_lone_mac;
static gcry_cipher_hd_t g_sealing, g_opening, g_lone;

static void right(gcry_error_t e, const char *what) {
    if (e) {
        fprintf(stderr, "bench: libgcrypt: %s: %s\n", what, gcry_strerror(e));
        exit(1);
    }
}

void gcrypt_start(const uint8_t *mac_key, const uint8_t *enc_key) {
    must(gcry_check_version(GCRYPT_VERSION) != NULL, "libgcrypt's version");
    gcry_control(GCRYCTL_DISABLE_SECMEM, 0);
    gcry_control(GCRYCTL_INITIALIZATION_FINISHED, 0);
    right(gcry_md_open(&g_hash, GCRY_MD_SM3, 0), "SM3");
    right(gcry_md_open(&g_record_mac, GCRY_MD_SM3, GCRY_MD_FLAG_HMAC), "HMAC");
    right(gcry_md_open(&g_lone_mac, GCRY_MD_SM3, GCRY_MD_FLAG_HMAC), "HMAC");
    right(gcry_md_setkey(g_record_mac, mac_key, 32), "HMAC's key");
    right(gcry_cipher_open(&g_sealing, GCRY_CIPHER_SM4, GCRY_CIPHER_MODE_CBC, 0), "SM4-CBC");
    right(gcry_cipher_open(&g_opening, GCRY_CIPHER_SM4, GCRY_CIPHER_MODE_CBC, 0), "SM4-CBC");
    right(gcry_cipher_open(&g_lone, GCRY_CIPHER_SM4, GCRY_CIPHER_MODE_ECB, 0), "SM4");
    right(gcry_cipher_setkey(g_sealing, enc_key, BLOCK), "SM4's key");
    right(gcry_cipher_setkey(g_opening, enc_key, BLOCK), "SM4's key");
}

static void gcrypt_mac(uint64_t number, const uint8_t *text, size_t len, uint8_t mac[MAC]) {
    uint8_t h[HEADER];
    header(number, len, h);
    gcry_md_reset(g_record_mac);
    gcry_md_write(g_record_mac, h, HEADER);
    gcry_md_write(g_record_mac, text, len);
    memcpy(mac, gcry_md_read(g_record_mac, GCRY_MD_SM3), MAC);
}

size_t gcrypt_seal(uint64_t number, const uint8_t *iv, const uint8_t *text, size_t len, uint8_t *out) {
    uint8_t *body = out + BLOCK;
    size_t n;
    memcpy(out, iv, BLOCK);
    memcpy(body, text, len);
    gcrypt_mac(number, text, len, body + len);
    n = pad(body, len);
    right(gcry_cipher_setiv(g_sealing, iv, BLOCK), "IV");
    right(gcry_cipher_encrypt(g_sealing, body, n, NULL, 0), "sealing");
    return BLOCK + n;
}

long gcrypt_open(uint64_t number, const uint8_t *record, size_t len, uint8_t *out) {
    uint8_t mac[MAC], differ = 0;
    long text;
    right(gcry_cipher_setiv(g_opening, record, BLOCK), "IV");
    right(gcry_cipher_decrypt(g_opening, out, len - BLOCK, record + BLOCK, len - BLOCK), "opening");
    if ((text = unpad(out, len - BLOCK)) < 0)
        return -1;
    gcrypt_mac(number, out, (size_t)text, mac);
    for (int i = 0; i < MAC; i++)
        differ |= mac[i] ^ out[text + i];
    return differ == 0 ? text : -1;
}

void gcrypt_sm3(const uint8_t *data, size_t len, uint8_t *digest) {
    gcry_md_reset(g_hash);
    gcry_md_write(g_hash, data, len);
    memcpy(digest, gcry_md_read(g_hash, GCRY_MD_SM3), MAC);
}

void gcrypt_hmac(const uint8_t *key, size_t key_len, const uint8_t *data, size_t len, uint8_t *mac) {
    right(gcry_md_setkey(g_lone_mac, key, key_len), "HMAC's key");
    gcry_md_write(g_lone_mac, data, len);
    memcpy(mac, gcry_md_read(g_lone_mac, GCRY_MD_SM3), MAC);
}

void gcrypt_sm4_key(const uint8_t *key) { right(gcry_cipher_setkey(g_lone, key, BLOCK), "SM4's key"); }

void gcrypt_sm4_block(const uint8_t *key, int back, const uint8_t *block, uint8_t *out) {
    gcrypt_sm4_key(key);
    right(back ? gcry_cipher_decrypt(g_lone, out, BLOCK, block, BLOCK) : gcry_cipher_encrypt(g_lone, out, BLOCK, block, BLOCK),
          "SM4");
}
