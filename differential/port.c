/* The port behind the line protocol: reads a command a line, writes the library's answer. A malformed line is answered 'bad', a
   command that this side lacks '?'. */
#define _GNU_SOURCE
#include <setjmp.h>
#include <stdint.h>
#include <stdio.h>
#include <stdlib.h>
#include <string.h>

#include "noustrel.h"

/* of crate probes, which is no part of the library: the MAC over three parts, each taken in by an update of its own */
uint32_t probe_hmac_parts(const uint8_t *key, size_t key_len, const uint8_t *first, size_t first_len, const uint8_t *second,
                          size_t second_len, const uint8_t *third, size_t third_len, uint8_t *out, size_t out_len);

#define MOST_FIELDS 4096

typedef struct {
    uint8_t *at;
    size_t len;
} bytes;

static char *fields[MOST_FIELDS];
static size_t count_of_fields;
static jmp_buf malformed;

static void wrong(void)
{
    longjmp(malformed, 1);
}

/* what a line's fields and answer take, given back after the line */
static void *taken[MOST_FIELDS + 16];
static size_t count_of_taken;

static void *room(size_t n)
{
    void *p = malloc(n ? n : 1);
    if (!p || count_of_taken == MOST_FIELDS + 16) {
        fprintf(stderr, "port: out of memory\n");
        exit(3);
    }
    return taken[count_of_taken++] = p;
}

static int digit(char c)
{
    return c >= '0' && c <= '9' ? c - '0' : c >= 'a' && c <= 'f' ? c - 'a' + 10 : -1;
}

/* a field of hexadecimal bytes, '-' for none */
static bytes hex(size_t i)
{
    const char *s = i < count_of_fields ? fields[i] : NULL;
    bytes b;
    size_t n, k;
    if (!s || !*s)
        wrong();
    n = strcmp(s, "-") == 0 ? 0 : strlen(s);
    if (n % 2)
        wrong();
    b.at = room(n / 2);
    b.len = n / 2;
    for (k = 0; k < b.len; k++) {
        int high = digit(s[2 * k]), low = digit(s[2 * k + 1]);
        if (high < 0 || low < 0)
            wrong();
        b.at[k] = (uint8_t)(16 * high + low);
    }
    return b;
}

static uint64_t number(size_t i)
{
    char *end;
    uint64_t n;
    if (i >= count_of_fields || fields[i][0] < '0' || fields[i][0] > '9')
        wrong();
    n = strtoull(fields[i], &end, 10);
    if (*end)
        wrong();
    return n;
}

static void show(const uint8_t *at, size_t len)
{
    static const char digits[] = "0123456789abcdef";
    size_t i;
    if (len == 0)
        putchar('-');
    for (i = 0; i < len; i++) {
        putchar(digits[at[i] >> 4]);
        putchar(digits[at[i] & 15]);
    }
}

/* the half of a key block that a side seals with */
typedef struct {
    uint8_t mac_key[32], enc_key[16];
} half;

static half half_of(size_t side, bytes block)
{
    half client, server;
    if (noustrel_key_halves(block.at, block.len, client.mac_key, 32, server.mac_key, 32, client.enc_key, 16, server.enc_key, 16))
        wrong();
    if (strcmp(fields[side], "c") == 0)
        return client;
    if (strcmp(fields[side], "s") != 0)
        wrong();
    return server;
}

/* an output of so many bytes, filled with (7 i + 3) mod 256 */
static bytes output(size_t n)
{
    bytes b;
    size_t i;
    b.at = room(n);
    b.len = n;
    for (i = 0; i < n; i++)
        b.at[i] = (uint8_t)(7 * i + 3);
    return b;
}

/* fields from `at` on: SIDE KEYBLOCK NUMBER TYPE VERSION */
typedef struct {
    half keys;
    uint64_t number;
    uint8_t type;
    uint16_t version;
} parts;

static parts parts_from(size_t at)
{
    parts p;
    bytes type, version;
    if (at + 5 > count_of_fields)
        wrong();
    p.keys = half_of(at, hex(at + 1));
    p.number = number(at + 2);
    type = hex(at + 3);
    version = hex(at + 4);
    if (type.len != 1 || version.len != 2)
        wrong();
    p.type = type.at[0];
    p.version = (uint16_t)(version.at[0] << 8 | version.at[1]);
    return p;
}

static void do_seal(size_t at, int whole)
{
    parts p = parts_from(at);
    bytes iv = hex(at + 5), text = hex(at + 6);
    bytes out = output(whole ? number(1) : 16 * (text.len / 16 + 4));
    size_t length = 99;
    uint32_t answer = noustrel_seal(p.keys.mac_key, 32, p.keys.enc_key, 16, p.number, p.type, p.version, iv.at, iv.len, text.at, text.len,
                                    out.at, out.len, &length);
    printf("%u ", answer);
    if (whole)
        printf("%zu ", length);
    show(out.at, whole ? out.len : answer ? 0 : length);
}

static void do_open(size_t at, int whole)
{
    parts p = parts_from(at);
    bytes record = hex(at + 5);
    bytes out = output(whole ? number(1) : record.len);
    size_t length = 99, count = 99;
    uint32_t answer = noustrel_open(p.keys.mac_key, 32, p.keys.enc_key, 16, p.number, p.type, p.version, record.at, record.len, out.at,
                                    out.len, &length, &count);
    printf("%u ", answer);
    if (whole)
        printf("%zu %zu ", length, count);
    show(out.at, whole ? out.len : answer ? 0 : length);
    if (!whole)
        printf(" %zu", count);
}

/* the chunks from field 1 on, through a lent state */
static noustrel_sm3_state streamed(void)
{
    noustrel_sm3_state h;
    size_t i;
    noustrel_sm3_start(&h);
    for (i = 1; i < count_of_fields; i++) {
        bytes chunk = hex(i);
        if (noustrel_sm3_update(&h, chunk.at, chunk.len))
            wrong();
    }
    return h;
}

static void do_state(void)
{
    noustrel_sm3_state h = streamed();
    size_t i;
    for (i = 0; i < 8; i++)
        printf("%08x", h.state[i]);
    putchar(' ');
    show(h.buffer, 64);
    printf(" %zu %llu", h.buffer_len, (unsigned long long)h.total_len);
}

static void do_sm3(int parts)
{
    uint8_t digest[32];
    if (parts) {
        noustrel_sm3_state h = streamed();
        if (noustrel_sm3_finish(&h, digest, 32))
            wrong();
    } else {
        bytes message = hex(1);
        if (noustrel_sm3(message.at, message.len, digest, 32))
            wrong();
    }
    show(digest, 32);
}

static void do_hmac(void)
{
    bytes key = hex(1), message = hex(2);
    uint8_t mac[32];
    if (noustrel_hmac_sm3(key.at, key.len, message.at, message.len, mac, 32))
        wrong();
    show(mac, 32);
}

/* up to three chunks, those that are missing empty; more are not to be had on this side */
static void do_hmac_parts(void)
{
    bytes key = hex(1), chunks[3];
    uint8_t mac[32];
    size_t i;
    for (i = 2; i < count_of_fields; i++)
        hex(i);
    if (count_of_fields > 5) {
        putchar('?');
        return;
    }
    for (i = 0; i < 3; i++)
        chunks[i] = i + 2 < count_of_fields ? hex(i + 2) : output(0);
    if (probe_hmac_parts(key.at, key.len, chunks[0].at, chunks[0].len, chunks[1].at, chunks[1].len, chunks[2].at, chunks[2].len, mac, 32))
        wrong();
    show(mac, 32);
}

static void do_block(int encrypt)
{
    bytes key = hex(1), block = hex(2);
    uint8_t out[16];
    uint32_t answer = encrypt ? noustrel_sm4_encrypt_block(key.at, key.len, block.at, block.len, out, 16)
                              : noustrel_sm4_decrypt_block(key.at, key.len, block.at, block.len, out, 16);
    if (answer)
        printf("%u", answer);
    else
        show(out, 16);
}

static void do_derive(const char *which)
{
    bytes secret = hex(1), out;
    uint32_t answer;
    if (strcmp(which, "finished") == 0) {
        bytes hash = hex(3);
        if (strcmp(fields[2], "c") != 0 && strcmp(fields[2], "s") != 0)
            wrong();
        out = output(12);
        answer = noustrel_finished(secret.at, secret.len, strcmp(fields[2], "c") != 0, hash.at, hash.len, out.at, out.len);
    } else {
        bytes client = hex(2), server = hex(3);
        out = output(strcmp(which, "master") == 0 ? 48 : number(4));
        answer = (strcmp(which, "master") == 0 ? noustrel_master_secret : noustrel_key_block)(
            secret.at, secret.len, client.at, client.len, server.at, server.len, out.at, out.len);
    }
    if (answer)
        printf("%u", answer);
    else
        show(out.at, out.len);
}

/* each command, and how many fields its line has; 0 where any number of chunks may follow */
static const struct {
    const char *name;
    size_t fields;
} commands[] = {{"seal", 8}, {"sealroom", 9}, {"open", 7}, {"openroom", 8}, {"sm3", 2}, {"sm3parts", 0}, {"sm3state", 0}, {"hmac", 3},
                {"enc", 3}, {"dec", 3}, {"master", 4}, {"keyblock", 5}, {"finished", 4}, {"hmacparts", 0}};

static void answer_line(void)
{
    size_t c = 0;
    if (!*fields[0])
        wrong();
    while (c < sizeof commands / sizeof *commands && strcmp(fields[0], commands[c].name) != 0)
        c++;
    if (c < sizeof commands / sizeof *commands && commands[c].fields && commands[c].fields != count_of_fields)
        wrong();
    switch (c) {
    case 0: do_seal(1, 0); break;
    case 1: do_seal(2, 1); break;
    case 2: do_open(1, 0); break;
    case 3: do_open(2, 1); break;
    case 4: do_sm3(0); break;
    case 5: do_sm3(1); break;
    case 6: do_state(); break;
    case 7: do_hmac(); break;
    case 8: do_block(1); break;
    case 9: do_block(0); break;
    case 10: do_derive("master"); break;
    case 11: do_derive("keyblock"); break;
    case 12: do_derive("finished"); break;
    case 13: do_hmac_parts(); break;
    default: putchar('?');
    }
    putchar('\n');
}

int main(void)
{
    char *line = NULL;
    size_t size = 0;
    ssize_t n;
    while ((n = getline(&line, &size, stdin)) >= 0) {
        char *at = line;
        if (n && line[n - 1] == '\n')
            line[n - 1] = 0;
        for (count_of_fields = 0; at; count_of_fields++) {
            if (count_of_fields == MOST_FIELDS)
                break;
            fields[count_of_fields] = at;
            at = strchr(at, ' ');
            if (at)
                *at++ = 0;
        }
        if (setjmp(malformed))
            puts("bad");
        else
            answer_line();
        while (count_of_taken)
            free(taken[--count_of_taken]);
        if (fflush(stdout))
            return 3;
    }
    free(line);
    return 0;
}
