// The codec as a plain C program writes it, timed on the same lines as main.rt.
#include <stdint.h>
#include <stdio.h>
#include <stdlib.h>
#include <string.h>
#include <time.h>

enum class { N, AN, ANS, TRACK, HEX, SIGNED, ANY, CLASSES };
struct format { uint8_t digits; uint16_t size; uint8_t class; uint8_t known; };
struct content { const uint8_t *bytes; int len; };
struct message { uint8_t kind[4]; struct content at[129]; };

static struct format formats[129];
static uint8_t has_class[CLASSES][256];

static void format(int number, int digits, int size, int class) {
    formats[number] = (struct format){digits, size, class, 1};
}

static void fill_tables(void) {
    static const int six[] = {3, 11, 12}, four[] = {13, 14, 15, 18}, three[] = {19, 22, 23, 24};
    for (int i = 0; i < 3; i++) format(six[i], 0, 6, N);
    for (int i = 0; i < 4; i++) format(four[i], 0, 4, N), format(three[i], 0, 3, N);
    format(2, 2, 19, N); format(4, 0, 12, N); format(7, 0, 10, N);
    format(25, 0, 2, N); format(26, 0, 2, N); format(32, 2, 11, N); format(33, 2, 11, N);
    format(35, 2, 37, TRACK); format(37, 0, 12, AN); format(38, 0, 6, AN); format(39, 0, 2, AN);
    format(41, 0, 8, ANS); format(42, 0, 15, ANS); format(43, 0, 40, ANS); format(45, 2, 76, ANS);
    format(48, 3, 999, ANY); format(49, 0, 3, AN); format(50, 0, 3, AN); format(52, 0, 16, HEX);
    format(53, 0, 16, N); format(54, 3, 120, ANS);
    for (int n = 55; n < 64; n++) format(n, 3, 999, ANY);
    format(64, 0, 16, HEX); format(66, 0, 1, N); format(70, 0, 3, N);
    for (int n = 74; n < 78; n++) format(n, 0, 10, N);
    for (int n = 86; n < 90; n++) format(n, 0, 16, N);
    format(90, 0, 42, N); format(95, 0, 42, AN); format(97, 0, 17, SIGNED); format(128, 0, 16, HEX);
    for (int b = 0; b < 256; b++) {
        int digit = b >= '0' && b <= '9';
        int letter = (b >= 'A' && b <= 'Z') || (b >= 'a' && b <= 'z');
        has_class[N][b] = has_class[SIGNED][b] = digit;
        has_class[AN][b] = digit || letter || b == ' ';
        has_class[ANS][b] = b >= 0x20 && b <= 0x7e;
        has_class[TRACK][b] = (b >= 0x30 && b <= 0x3f) || b == 'D';
        has_class[HEX][b] = digit || (b >= 'A' && b <= 'F') || (b >= 'a' && b <= 'f');
        has_class[ANY][b] = 1;
    }
}

static int bitmap(const uint8_t *text, int len, uint64_t *bits) {
    if (len < 16) return 5;
    *bits = 0;
    for (int i = 0; i < 16; i++) {
        if (!has_class[HEX][text[i]]) return 3;
        *bits = *bits << 4 | (text[i] <= '9' ? text[i] - '0' : (text[i] | 32) - 'a' + 10);
    }
    return 0;
}

// The number of the first fault, or 0.
static int decode(const uint8_t *text, int len, struct message *m) {
    uint64_t primary, secondary = 0;
    uint8_t named[128];
    int at = 20, count = 0, fault;
    if (len < 4) return 5;
    for (int i = 0; i < 4; i++) if (!has_class[N][text[i]]) return 2;
    memcpy(m->kind, text, 4);
    if ((fault = bitmap(text + 4, len - 4, &primary))) return fault;
    if (primary >> 63) {
        if ((fault = bitmap(text + 20, len - 20, &secondary))) return fault;
        at = 36;
    }
    memset(m->at, 0, sizeof m->at);
    for (int n = 2; n <= 64; n++) if (primary >> (64 - n) & 1) named[count++] = n;
    for (int n = 65; n <= 128; n++) if (secondary >> (128 - n) & 1) named[count++] = n;
    for (int i = 0; i < count; i++) if (!formats[named[i]].known) return 4;
    for (int i = 0; i < count; i++) {
        const struct format *f = &formats[named[i]];
        int size = f->size, from = 0;
        if (f->digits) {
            int stated = 0;
            if (len - at < f->digits) return 5;
            for (int j = 0; j < f->digits; j++) {
                if (!has_class[N][text[at + j]]) return 6;
                stated = stated * 10 + text[at + j] - '0';
            }
            if (stated > size) return 6;
            at += f->digits;
            size = stated;
        }
        if (len - at < size) return 5;
        if (f->class == SIGNED) {
            if (text[at] != 'C' && text[at] != 'D') return 7;
            from = 1;
        }
        for (int j = from; j < size; j++) if (!has_class[f->class][text[at + j]]) return 7;
        m->at[named[i]] = (struct content){text + at, size};
        at += size;
    }
    return at == len ? 0 : 8;
}

static int encode(const struct message *m, uint8_t *out) {
    static const char digits[] = "0123456789ABCDEF";
    uint64_t primary = 0, secondary = 0;
    uint8_t *to = out;
    for (int n = 2; n <= 64; n++) if (m->at[n].bytes) primary |= 1ull << (64 - n);
    for (int n = 65; n <= 128; n++) if (m->at[n].bytes) secondary |= 1ull << (128 - n);
    if (secondary) primary |= 1ull << 63;
    memcpy(to, m->kind, 4);
    to += 4;
    for (int i = 60; i >= 0; i -= 4) *to++ = digits[primary >> i & 15];
    if (secondary) for (int i = 60; i >= 0; i -= 4) *to++ = digits[secondary >> i & 15];
    for (int n = 2; n <= 128; n++) {
        if (!m->at[n].bytes) continue;
        int len = m->at[n].len;
        if (formats[n].digits == 3) *to++ = '0' + len / 100;
        if (formats[n].digits) *to++ = '0' + len / 10 % 10, *to++ = '0' + len % 10;
        memcpy(to, m->at[n].bytes, len);
        to += len;
    }
    return to - out;
}

static double now(void) {
    struct timespec t;
    clock_gettime(CLOCK_MONOTONIC, &t);
    return t.tv_sec * 1e9 + t.tv_nsec;
}

int main(void) {
    static const uint8_t echoed[] = {2, 3, 4, 7, 11, 12, 13, 41, 42, 49, 70};
    static struct message request, reply;
    static uint8_t out[1 << 16];
    static char line[1 << 16];
    const int times = 100000, rounds = 7;
    fill_tables();
    while (fgets(line, sizeof line, stdin)) {
        int len = strcspn(line, "\n"), read = 0, written = 0;
        const uint8_t *volatile text = (const uint8_t *)line;
        double decoding = 1e9, answering = 1e9;
        for (int round = 0; round < rounds; round++) {
            read = written = 0;
            double start = now();
            for (int i = 0; i < times; i++) read += !decode(text, len, &request);
            double middle = now();
            for (int i = 0; i < times; i++) {
                if (decode(text, len, &request)) continue;
                memset(&reply, 0, sizeof reply);
                memcpy(reply.kind, request.kind, 4);
                reply.kind[2] ^= 1;
                reply.kind[3] = '0';
                for (unsigned j = 0; j < sizeof echoed; j++) reply.at[echoed[j]] = request.at[echoed[j]];
                reply.at[39] = (struct content){(const uint8_t *)"00", 2};
                written += encode(&reply, out) > 0;
            }
            double end = now();
            if ((middle - start) / times < decoding) decoding = (middle - start) / times;
            if ((end - middle) / times < answering) answering = (end - middle) / times;
        }
        printf("%d %.0f %.0f %d %d\n", len, decoding, answering, read, written);
    }
    return 0;
}
