/* Cases of sealing and opening: all lengths, every limit, wrong sizes, short rooms, and records that are wrong in one place. */
#include <string.h>

#include "fuzz.h"

seal_call *the_seal = noustrel_seal;
open_call *the_open = noustrel_open;

struct header {
    uint64_t number;
    uint8_t type;
    uint16_t version;
};

static struct header random_header(void)
{
    struct header h;
    h.number = one_in(3) ? random_word() : one_in(2) ? below(300) : UINT64_MAX - below(3);
    h.type = (uint8_t)(one_in(2) ? 23 : random_word());
    h.version = (uint16_t)(one_in(2) ? NOUSTREL_TLCP_RECORD_VERSION : random_word());
    return h;
}

/* a room for what needs so many bytes: just that, more, less */
static size_t room_for(size_t need)
{
    switch (below(16)) {
    case 0:
        return need > 0 ? need - 1 : 0;
    case 1:
        return need - below((need < 40 ? need : 40) + 1);
    case 2:
        return below(need + 1);
    case 3:
        return one_in(4) ? 0 : need + below(2000);
    case 4: case 5: case 6: case 7:
        return need + below(70);
    default:
        return need;
    }
}

static size_t text_len(void)
{
    switch (below(64)) {
    case 0:
        return between(16384 - 40, 16384);
    case 1: case 2: case 3:
        return between(16385, 16470);
    case 4:
        return between(16385, LONGEST);
    case 5:
        return below(16500);
    case 6: case 7:
        return below(2000);
    default:
        return below(one_in(2) ? 130 : 420);
    }
}

void seal_case(void)
{
    int odd = one_in(12);
    size_t len = text_len();
    struct header h = random_header();
    struct span *mac_key, *enc_key, *iv, *text, *out, *length;
    uint32_t expected;
    spans_begin();
    mac_key = input(odd ? size_near(32) : 32);
    enc_key = input(odd ? size_near(16) : 16);
    iv = input(odd ? size_near(16) : 16);
    text = input(len);
    len = room_for(16 * (len / 16 + 4));
    out = output(len < LONGEST ? len : LONGEST);
    length = output(sizeof(size_t));
    expected = model_seal(mac_key->content, mac_key->len, enc_key->content, enc_key->len, h.number, h.type, h.version,
                          iv->content, iv->len, text->content, text->len, out->want, out->len, (size_t *)length->want);
    judge(SEAL, the_seal(mac_key->at, mac_key->len, enc_key->at, enc_key->len, h.number, h.type, h.version, iv->at, iv->len,
                         text->at, text->len, out->at, out->len, (size_t *)length->at), expected);
}

/* a body's length, one that may be opened */
static size_t body_len(void)
{
    switch (below(80)) {
    case 0:
        return 16 * between(1020, 1027);
    case 1:
        return 16 * between(3, 1027);
    case 2: case 3: case 4: case 5:
        return 16 * between(3, 100);
    default:
        return 16 * between(3, one_in(2) ? 8 : 24);
    }
}

/* Text, MAC and padding of p + 1 bytes p, where there is room for them; else the padding alone, over as much as there is. */
static void fill_body(uint8_t *body, size_t n, size_t p, const uint8_t *mac_key, const struct header *h)
{
    size_t len = n - 33 - p;
    random_bytes(body, n);
    if (p + 1 > n - 32) {
        memset(body + (p + 1 < n ? n - p - 1 : 0), (int)p, p + 1 < n ? p + 1 : n);
        return;
    }
    model_record_mac(mac_key, h->number, h->type, h->version, len, body, len, body + len);
    memset(body + n - p - 1, (int)p, p + 1);
}

/* what is wrong with a body before it is enciphered: half of the time nothing */
static void spoil_body(uint8_t *body, size_t n, size_t p, const uint8_t *mac_key, const struct header *h)
{
    size_t len = p + 1 <= n - 32 ? n - 33 - p : 0, said;
    switch (below(16)) {
    case 0: /* a bit of the MAC */
        body[len + below(32)] ^= (uint8_t)(1u << below(8));
        break;
    case 1: /* the MAC but one byte */
        random_bytes(body + len + 1, 31);
        break;
    case 2: /* the last byte */
        body[n - 1] = (uint8_t)random_word();
        break;
    case 3: /* another byte of the padding */
        body[n - 1 - below(p + 1 < n ? p + 1 : n)] ^= (uint8_t)(1u << below(8));
        break;
    case 4: /* a MAC that would be right at the length held when the padding is bad */
        fill_body(body, n, 0, mac_key, h);
        body[n - 1] = (uint8_t)random_word();
        break;
    case 5: /* a MAC over another length in the header */
        said = one_in(3) ? n - 33 : one_in(2) ? n + 16 : n;
        model_record_mac(mac_key, h->number, h->type, h->version, said, body, len, body + len);
        break;
    case 6: /* a bit of the text */
        body[below(len + 1)] ^= (uint8_t)(1u << below(8));
        break;
    case 7: /* rubbish */
        random_bytes(body, n);
        break;
    default:
        break;
    }
}

/* a record of n + 16 bytes; one time in eight a bit of it is wrong, or it was sealed under another header */
static void build(uint8_t *record, size_t n, const uint8_t *mac_key, const uint8_t *enc_key, struct header h)
{
    static uint8_t body[LONGEST];
    size_t top = n - 33 < 255 ? n - 33 : 255, p = one_in(8) ? below(256) : below(top + 1);
    if (one_in(24))
        h = random_header();
    fill_body(body, n, p, mac_key, &h);
    spoil_body(body, n, p, mac_key, &h);
    random_bytes(record, 16);
    model_cbc(enc_key, record, body, n, record + 16, 1);
    if (one_in(12))
        record[below(n + 16)] ^= (uint8_t)(1u << below(8));
}

/* the length of the record handed in, where one of n + 16 bytes was built */
static size_t record_len(size_t n)
{
    switch (below(24)) {
    case 0:
        return n + 16 - between(1, 17);
    case 1:
        return n + 16 + between(1, 17);
    case 2:
        return n + 16 - 16 * below(n / 16 + 1);
    case 3:
        return one_in(4) ? 16 * between(4, 40) : below(700);
    case 4:
        return one_in(20) ? between(16380, 16448) : between(16449, 16530);
    case 5:
        return one_in(2) ? below(100) : 16 * between(1029, LONGEST / 16);
    default:
        return n + 16;
    }
}

void open_case(void)
{
    static uint8_t built[LONGEST];
    int odd = one_in(12);
    size_t n = body_len(), len = record_len(n);
    struct header h = random_header();
    struct span *mac_key, *enc_key, *record, *out, *length, *count;
    uint32_t expected;
    spans_begin();
    mac_key = input(odd ? size_near(32) : 32);
    enc_key = input(odd ? size_near(16) : 16);
    record = input(len);
    if (mac_key->len >= 32 && enc_key->len >= 16) {
        build(built, n, mac_key->content, enc_key->content, h);
        memcpy(record->content, built, len < n + 16 ? len : n + 16);
    }
    len = room_for(len < 16 ? 0 : len - 16);
    out = output(len < LONGEST ? len : LONGEST);
    length = output(sizeof(size_t));
    count = output(sizeof(size_t));
    expected = model_open(mac_key->content, mac_key->len, enc_key->content, enc_key->len, h.number, h.type, h.version,
                          record->content, record->len, out->want, out->len, (size_t *)length->want, (size_t *)count->want);
    judge(OPEN, the_open(mac_key->at, mac_key->len, enc_key->at, enc_key->len, h.number, h.type, h.version, record->at,
                         record->len, out->at, out->len, (size_t *)length->at, (size_t *)count->at), expected);
}
