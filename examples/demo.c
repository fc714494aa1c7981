/* A first walk through Noustrel, run by `make demo`: keys, a note in several records, refusals, and a long padding.
 * Says what it sees in short sentences; the exit status is 0 only if all of it was as said. */
#include <stdio.h>
#include <stdlib.h>
#include <string.h>

#include "noustrel.h"

#define TYPE 23 /* application data */
#define VERSION NOUSTREL_TLCP_RECORD_VERSION
#define NOTE_LEN 40000
#define RECORDS ((NOTE_LEN + NOUSTREL_MAX_PLAINTEXT - 1) / NOUSTREL_MAX_PLAINTEXT)
#define MARK 0xa5 /* stands in every output before a call */

/* the client's keys: it seals with them, and the server opens with them */
static uint8_t mac_key[NOUSTREL_MAC_KEY_LEN];
static uint8_t enc_key[NOUSTREL_ENC_KEY_LEN];

/* what a call of open leaves */
struct opened {
    uint32_t answer;
    size_t length, count;
    uint8_t out[NOUSTREL_MAX_BODY];
};

static void expect(int holds, const char *what)
{
    if (!holds) {
        fflush(stdout);
        fprintf(stderr, "demo: not as said: %s\n", what);
        exit(1);
    }
}

/* An IV must be one that nobody can guess: it comes from the system. */
static void fresh_iv(uint8_t iv[NOUSTREL_IV_LEN])
{
    FILE *random = fopen("/dev/urandom", "rb");

    expect(random != NULL, "/dev/urandom can be opened");
    expect(fread(iv, 1, NOUSTREL_IV_LEN, random) == NOUSTREL_IV_LEN, "/dev/urandom yields 16 bytes");
    fclose(random);
}

static int all(const uint8_t *bytes, size_t len, uint8_t value)
{
    size_t i;

    for (i = 0; i < len; i++)
        if (bytes[i] != value)
            return 0;
    return 1;
}

static void derive_keys(void)
{
    uint8_t pre_master[NOUSTREL_MASTER_SECRET_LEN], client[NOUSTREL_RANDOM_LEN], server[NOUSTREL_RANDOM_LEN];
    uint8_t master[NOUSTREL_MASTER_SECRET_LEN], block[NOUSTREL_CBC_KEY_BLOCK_LEN];
    uint8_t server_mac_key[NOUSTREL_MAC_KEY_LEN], server_enc_key[NOUSTREL_ENC_KEY_LEN]; /* for the other direction */
    uint32_t answer;

    /* in a tunnel these come from the handshake */
    memset(pre_master, 1, sizeof pre_master);
    memset(client, 2, sizeof client);
    memset(server, 3, sizeof server);
    answer = noustrel_master_secret(pre_master, sizeof pre_master, client, sizeof client, server, sizeof server,
                                    master, sizeof master);
    expect(answer == NOUSTREL_DONE, "a master secret is derived");
    answer = noustrel_key_block(master, sizeof master, client, sizeof client, server, sizeof server, block, sizeof block);
    expect(answer == NOUSTREL_DONE, "a key block is derived");
    answer = noustrel_key_halves(block, sizeof block, mac_key, sizeof mac_key, server_mac_key, sizeof server_mac_key,
                                 enc_key, sizeof enc_key, server_enc_key, sizeof server_enc_key);
    expect(answer == NOUSTREL_DONE, "both sides' keys are taken from it");
    printf("A master secret of %zu bytes gives a key block of %zu. The client's keys are taken from it.\n",
           sizeof master, sizeof block);
}

static void open_record(uint64_t number, const uint8_t *record, size_t record_len, struct opened *o)
{
    memset(o->out, MARK, sizeof o->out);
    o->answer = noustrel_open(mac_key, sizeof mac_key, enc_key, sizeof enc_key, number, TYPE, VERSION,
                              record, record_len, o->out, sizeof o->out, &o->length, &o->count);
}

/* A long note goes out in several records and comes back whole. */
static void send_note(void)
{
    static uint8_t note[NOTE_LEN], back[NOTE_LEN], records[RECORDS][NOUSTREL_MAX_RECORD];
    static struct opened o;
    size_t lens[RECORDS], i, at = 0, length, n;
    uint8_t iv[NOUSTREL_IV_LEN];
    uint32_t answer;

    for (i = 0; i < NOTE_LEN; i++)
        note[i] = (uint8_t)("every byte of this note must come back. "[i % 40]);
    for (i = 0; i < RECORDS; i++) {
        length = NOTE_LEN - at < NOUSTREL_MAX_PLAINTEXT ? NOTE_LEN - at : NOUSTREL_MAX_PLAINTEXT;
        fresh_iv(iv);
        answer = noustrel_seal(mac_key, sizeof mac_key, enc_key, sizeof enc_key, i, TYPE, VERSION, iv, sizeof iv,
                               note + at, length, records[i], sizeof records[i], &lens[i]);
        expect(answer == NOUSTREL_DONE, "a part of the note is sealed");
        expect(lens[i] == NOUSTREL_SEALED_LEN(length), "a record has the length of NOUSTREL_SEALED_LEN");
        printf("Record %zu: %zu bytes of the note are sealed in %zu.\n", i, length, lens[i]);
        at += length;
    }
    for (i = 0, at = 0; i < RECORDS; i++) {
        open_record(i, records[i], lens[i], &o);
        expect(o.answer == NOUSTREL_DONE, "a record of the note is opened");
        expect(o.length <= NOTE_LEN - at, "no more comes out than went in");
        n = NOUSTREL_BODY_LEN(lens[i]);
        expect(all(o.out + o.length, n - o.length, 0), "zeros follow the text up to the body's length");
        expect(all(o.out + n, sizeof o.out - n, MARK), "bytes behind the body's length stay as found");
        memcpy(back + at, o.out, o.length);
        at += o.length;
    }
    expect(at == NOTE_LEN && memcmp(back, note, NOTE_LEN) == 0, "the note comes back whole");
    printf("All %d records are opened: %zu bytes come back, each as it was.\n", (int)RECORDS, at);
}

/* A record made by hand, as any lawful peer may: text, MAC, and padding of pad + 1 bytes, then CBC, block by block. The
 * body's byte at damaged, if there is one, is changed before it is enciphered. Returns the record's length. */
static size_t seal_by_hand(uint64_t number, const uint8_t iv[NOUSTREL_IV_LEN], const char *text, size_t pad,
                           size_t damaged, uint8_t *record)
{
    uint8_t covered[NOUSTREL_HEADER_LEN + 64], plain[NOUSTREL_BLOCK_SIZE];
    uint8_t *body = record + NOUSTREL_IV_LEN;
    size_t len = strlen(text), n = len + NOUSTREL_MAC_LEN + pad + 1, i, j;

    expect(len <= 64 && n % NOUSTREL_BLOCK_SIZE == 0, "the demo chooses text and padding that fit");
    for (i = 0; i < 8; i++)
        covered[i] = (uint8_t)(number >> (56 - 8 * i));
    covered[8] = TYPE;
    covered[9] = VERSION >> 8;
    covered[10] = VERSION & 0xff;
    covered[11] = (uint8_t)(len >> 8);
    covered[12] = (uint8_t)len;
    memcpy(covered + NOUSTREL_HEADER_LEN, text, len);

    memcpy(record, iv, NOUSTREL_IV_LEN);
    memcpy(body, text, len);
    expect(noustrel_hmac_sm3(mac_key, sizeof mac_key, covered, NOUSTREL_HEADER_LEN + len,
                             body + len, NOUSTREL_MAC_LEN) == NOUSTREL_DONE, "a MAC is made");
    memset(body + len + NOUSTREL_MAC_LEN, (int)pad, pad + 1);
    if (damaged < n)
        body[damaged] ^= 1;
    for (i = 0; i < n; i += NOUSTREL_BLOCK_SIZE) {
        for (j = 0; j < NOUSTREL_BLOCK_SIZE; j++)
            plain[j] = body[i + j] ^ record[i + j]; /* the cipher block before stands 16 bytes before */
        expect(noustrel_sm4_encrypt_block(enc_key, sizeof enc_key, plain, sizeof plain, body + i,
                                          NOUSTREL_BLOCK_SIZE) == NOUSTREL_DONE, "a block is enciphered");
    }
    return NOUSTREL_IV_LEN + n;
}

/* By hand and by the library the same record comes out. */
static void same_by_hand(uint64_t number, const char *text, size_t pad)
{
    uint8_t iv[NOUSTREL_IV_LEN], ours[512], hand[512];
    size_t length;

    fresh_iv(iv);
    expect(noustrel_seal(mac_key, sizeof mac_key, enc_key, sizeof enc_key, number, TYPE, VERSION, iv, sizeof iv,
                         (const uint8_t *)text, strlen(text), ours, sizeof ours, &length) == NOUSTREL_DONE,
           "a short text is sealed");
    expect(seal_by_hand(number, iv, text, pad, SIZE_MAX, hand) == length && memcmp(ours, hand, length) == 0,
           "the record made by hand is the library's");
    printf("A record made by hand from SM4 and HMAC-SM3 is the one that the library seals: %zu bytes.\n", length);
}

/* Wrong padding and a wrong MAC cannot be told apart by what is left behind. */
static void refuse_alike(uint64_t number, const char *text, size_t pad)
{
    static struct opened o[2];
    uint8_t iv[NOUSTREL_IV_LEN], record[512];
    size_t len = strlen(text), place[2], n, i;

    place[0] = len + NOUSTREL_MAC_LEN; /* the first byte of the padding */
    place[1] = len;                    /* the first byte of the MAC */
    for (i = 0; i < 2; i++) {
        fresh_iv(iv);
        n = NOUSTREL_BODY_LEN(seal_by_hand(number + i, iv, text, pad, place[i], record));
        open_record(number + i, record, NOUSTREL_IV_LEN + n, &o[i]);
        expect(o[i].answer == NOUSTREL_BAD_RECORD && o[i].length == 0, "a damaged record is answer 6 with length 0");
        expect(all(o[i].out, n, 0), "the body's length of output bytes is zero");
        expect(all(o[i].out + n, sizeof o[i].out - n, MARK), "the rest of the output stays as found");
        printf("A record with a wrong %s: answer %u, length %zu, count %zu, %zu output bytes cleared.\n",
               i == 0 ? "padding" : "MAC", (unsigned)o[i].answer, o[i].length, o[i].count, n);
    }
    expect(o[0].count == o[1].count && memcmp(o[0].out, o[1].out, sizeof o[0].out) == 0, "both are refused alike");
    printf("The two refusals are alike, byte for byte.\n");
}

/* A peer may pad with up to 256 bytes; the text must come out in full all the same. */
static void open_long_padding(uint64_t number, const char *text, size_t pad)
{
    static struct opened o;
    uint8_t iv[NOUSTREL_IV_LEN], record[512];
    size_t len;

    fresh_iv(iv);
    len = seal_by_hand(number, iv, text, pad, SIZE_MAX, record);
    open_record(number, record, len, &o);
    expect(o.answer == NOUSTREL_DONE, "a record with long padding is opened");
    expect(o.length == strlen(text) && memcmp(o.out, text, o.length) == 0, "its text comes out in full");
    printf("A record with %zu bytes of padding is opened in full: \"%.*s\", %zu bytes.\n", pad + 1, (int)o.length,
           (const char *)o.out, o.length);
}

int main(int argc, char **argv)
{
    const char *text = "the last part counts"; /* 20 bytes: padding of 12, 28, .. or 252 bytes fits */

    if (argc != 1) {
        fprintf(stderr, "usage: %s\n", argv[0]);
        return 2;
    }
    derive_keys();
    /* every record has a number of its own under these keys */
    send_note();
    same_by_hand(RECORDS, text, 11);
    refuse_alike(RECORDS + 1, text, 11);
    open_long_padding(RECORDS + 3, text, 251);
    printf("All was as said.\n");
    return fflush(stdout) == 0 ? 0 : 1;
}
