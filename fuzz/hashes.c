/* Cases of the hash, in one call and streamed, of HMAC, of the SM4 block and of the key schedule. */
#include <string.h>

#include "fuzz.h"

static size_t message_len(void)
{
    switch (below(40)) {
    case 0:
        return below(LONGEST + 1);
    case 1:
        return between(16380, 16470);
    case 2: case 3:
        return below(3000);
    case 4: case 5: case 6:
        return 64 * below(10) + (one_in(2) ? 55 + below(4) : 62 + below(4));
    default:
        return below(one_in(2) ? 140 : 500);
    }
}

void sm3_case(void)
{
    struct span *message, *digest;
    uint32_t expected;
    spans_begin();
    message = input(message_len());
    digest = output(one_in(12) ? size_near(32) : 32);
    expected = model_sm3(message->content, message->len, digest->want, digest->len);
    judge(SM3, noustrel_sm3(message->at, message->len, digest->at, digest->len), expected);
}

void hmac_case(void)
{
    struct span *key, *message, *mac;
    uint32_t expected;
    spans_begin();
    key = input(one_in(3) ? between(60, 68) : one_in(20) ? message_len() : below(200));
    message = input(message_len());
    mac = output(one_in(12) ? size_near(32) : 32);
    expected = model_hmac_sm3(key->content, key->len, message->content, message->len, mac->want, mac->len);
    judge(HMAC_SM3, noustrel_hmac_sm3(key->at, key->len, message->at, message->len, mac->at, mac->len), expected);
}

void block_case(void)
{
    int odd = one_in(8), encipher = one_in(2);
    struct span *key, *block, *out;
    uint32_t expected, answer;
    spans_begin();
    key = input(odd ? size_near(16) : 16);
    block = input(odd ? size_near(16) : 16);
    out = output(odd ? size_near(16) : 16);
    expected = model_block(encipher, key->content, key->len, block->content, block->len, out->want, out->len);
    if (encipher)
        answer = noustrel_sm4_encrypt_block(key->at, key->len, block->at, block->len, out->at, out->len);
    else
        answer = noustrel_sm4_decrypt_block(key->at, key->len, block->at, block->len, out->at, out->len);
    judge(encipher ? ENCRYPT : DECRYPT, answer, expected);
}

static void finished_case(int odd)
{
    uint32_t role = one_in(3) ? 0 : one_in(2) ? 1 : (uint32_t)random_word();
    struct span *secret = input(odd ? size_near(48) : 48), *hash = input(odd ? size_near(32) : 32);
    struct span *out = output(odd ? size_near(12) : 12);
    uint32_t expected = model_finished(secret->content, secret->len, role, hash->content, hash->len, out->want, out->len);
    judge(FINISHED, noustrel_finished(secret->at, secret->len, role, hash->at, hash->len, out->at, out->len), expected);
}

/* one wrong size at a time, or any of them */
static void halves_case(int odd)
{
    static const size_t right[5] = {128, 32, 32, 16, 16};
    size_t alone = below(10), i;
    struct span *s[5];
    uint32_t expected;
    for (i = 0; i < 5; i++)
        s[i] = (i == 0 ? input : output)(odd && (alone == i || alone >= 5) ? size_near(right[i]) : right[i]);
    expected = model_key_halves(s[0]->content, s[0]->len, s[1]->want, s[1]->len, s[2]->want, s[2]->len, s[3]->want, s[3]->len,
                                s[4]->want, s[4]->len);
    judge(KEY_HALVES, noustrel_key_halves(s[0]->at, s[0]->len, s[1]->at, s[1]->len, s[2]->at, s[2]->len, s[3]->at, s[3]->len,
                                          s[4]->at, s[4]->len), expected);
}

/* master secret, key block and its halves, Finished */
void key_case(void)
{
    int odd = one_in(6), master = one_in(2);
    struct span *secret, *client, *server, *out;
    uint32_t expected, answer;
    size_t len;
    spans_begin();
    if (one_in(2)) {
        (one_in(2) ? finished_case : halves_case)(odd);
        return;
    }
    len = one_in(4) ? 128 : one_in(8) ? between(1020, 1030) : one_in(8) ? below(3000) : below(200);
    secret = input(odd ? size_near(48) : 48);
    client = input(odd ? size_near(32) : 32);
    server = input(odd ? size_near(32) : 32);
    out = output(!master ? len : odd ? size_near(48) : 48);
    expected = (master ? model_master_secret : model_key_block)(secret->content, secret->len, client->content, client->len,
                                                                server->content, server->len, out->want, out->len);
    answer = (master ? noustrel_master_secret : noustrel_key_block)(secret->at, secret->len, client->at, client->len, server->at,
                                                                    server->len, out->at, out->len);
    judge(master ? MASTER : KEY_BLOCK, answer, expected);
}

/* ---- the running hash: each call gets a state in a new place */
static void start(noustrel_sm3_state *h)
{
    struct span *s;
    spans_begin();
    s = output(sizeof *h);
    model_sm3_start((noustrel_sm3_state *)s->want);
    noustrel_sm3_start((noustrel_sm3_state *)s->at);
    judge(START, 0, 0);
    memcpy(h, s->content, sizeof *h);
}

static void update(noustrel_sm3_state *h, size_t len, uint8_t *all)
{
    struct span *s, *data;
    uint32_t expected;
    spans_begin();
    s = output(sizeof *h);
    memcpy(s->content, h, sizeof *h);
    memcpy(s->want, h, sizeof *h);
    data = input(len);
    expected = model_sm3_update((noustrel_sm3_state *)s->want, data->content, len);
    judge(UPDATE, noustrel_sm3_update((noustrel_sm3_state *)s->at, data->at, len), expected);
    memcpy(h, s->content, sizeof *h);
    if (all)
        memcpy(all, data->content, len);
}

static void finish(const noustrel_sm3_state *h, uint8_t *digest)
{
    struct span *s, *out;
    uint32_t expected;
    spans_begin();
    s = input(sizeof *h);
    memcpy(s->content, h, sizeof *h);
    out = output(digest || !one_in(6) ? 32 : size_near(32));
    expected = model_sm3_finish((const noustrel_sm3_state *)s->content, out->want, out->len);
    judge(FINISH, noustrel_sm3_finish((const noustrel_sm3_state *)s->at, out->at, out->len), expected);
    if (digest)
        memcpy(digest, out->content, 32);
}

/* a state of any words and any total; its fill in range or not */
static void any_state(noustrel_sm3_state *h)
{
    random_bytes((uint8_t *)h, sizeof *h);
    h->buffer_len = below(64);
    if (one_in(3))
        h->total_len = UINT64_MAX - below(200);
    if (one_in(2))
        return;
    h->buffer_len = one_in(2) ? between(64, 68) : one_in(2) ? SIZE_MAX - below(70) : (size_t)random_word() | 64;
    if (one_in(4))
        h->buffer_len = (size_t)1 << between(6, 63);
}

/* either a message in parts, its digest that of OpenSSL at the end, or a state that nobody has made */
void stream_case(void)
{
    static uint8_t all[8 * 1024];
    noustrel_sm3_state h;
    uint8_t digest[32], whole[32];
    size_t i, len, total = 0, parts = below(8);
    if (one_in(3)) {
        any_state(&h);
        update(&h, message_len(), NULL);
        finish(&h, NULL);
        return;
    }
    start(&h);
    for (i = 0; i < parts; i++, total += len) {
        len = one_in(4) ? below(1024) : below(130);
        update(&h, len, all + total);
        if (one_in(4))
            finish(&h, NULL);
    }
    finish(&h, digest);
    if (model_sm3(all, total, whole, 32) != 0 || memcmp(digest, whole, 32) != 0)
        fault(CONTENTS, "a digest of parts is not that of the whole");
}
