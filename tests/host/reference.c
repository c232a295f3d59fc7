#include "reference.h"

#include <string.h>

/* ---- the field (003, D.4.1.7.3): x^8 + x^4 + x^3 + x^2 + 1 */

static uint8_t product[256][256], inverse[256], alpha[255];

/* By way of the powers of alpha, whose exponents add: the library shifts and adds. */
void ref_init(void)
{
    for (int i = 0, x = 1; i < 255; i++, x = x < 128 ? 2 * x : (2 * x) ^ 0x11D)
        alpha[i] = (uint8_t)x;
    for (int i = 0; i < 255; i++) {
        for (int j = 0; j < 255; j++)
            product[alpha[i]][alpha[j]] = alpha[(i + j) % 255];
        inverse[alpha[i]] = alpha[(255 - i) % 255];
    }
}

/* ---- polynomials: coefficient i at place i */

#define MOST 512

typedef struct {
    int degree; /* -1 of the zero polynomial */
    uint8_t at[MOST];
} poly;

static void trim(poly *p)
{
    while (p->degree >= 0 && p->at[p->degree] == 0)
        p->degree--;
}

static uint8_t value(const poly *p, uint8_t x)
{
    uint8_t power = 1, v = 0;
    for (int i = 0; i <= p->degree; i++) {
        v ^= product[p->at[i]][power];
        power = product[power][x];
    }
    return v;
}

/* a becomes the remainder of a by b; the quotient goes to q */
static void divide(poly *a, const poly *b, poly *q)
{
    memset(q, 0, sizeof *q);
    q->degree = a->degree < b->degree ? -1 : a->degree - b->degree;
    while (a->degree >= b->degree) {
        int up = a->degree - b->degree;
        uint8_t f = product[a->at[a->degree]][inverse[b->at[b->degree]]];
        q->at[up] = f;
        for (int i = 0; i <= b->degree; i++)
            a->at[i + up] ^= product[f][b->at[i]];
        trim(a);
    }
}

/* c becomes c + a b */
static void add_product(poly *c, const poly *a, const poly *b)
{
    for (int i = 0; i <= a->degree; i++)
        for (int j = 0; j <= b->degree; j++)
            c->at[i + j] ^= product[a->at[i]][b->at[j]];
    if (a->degree >= 0 && b->degree >= 0 && a->degree + b->degree > c->degree)
        c->degree = a->degree + b->degree;
    trim(c);
}

/* ---- the code */

static uint8_t syndrome(const uint8_t *w, size_t n, unsigned i)
{
    uint8_t x = alpha[i % 255], power = 1, s = 0;
    for (size_t k = n; k-- > 0;) {
        s ^= product[w[k]][power];
        power = product[power][x];
    }
    return s;
}

int ref_is_code_word(const uint8_t *w, size_t n, unsigned e)
{
    for (unsigned i = 1; i <= 2 * e; i++)
        if (syndrome(w, n, i))
            return 0;
    return 1;
}

int ref_count_within_one(const uint8_t *w, size_t n, unsigned e, uint8_t *found)
{
    uint8_t v[255];
    int count = 0;
    memcpy(v, w, n);
    if (ref_is_code_word(v, n, e)) {
        count++;
        memcpy(found, v, n);
    }
    for (size_t k = 0; k < n; k++)
        for (int d = 1; d < 256; d++) {
            v[k] = (uint8_t)(w[k] ^ d);
            if (ref_is_code_word(v, n, e)) {
                count++;
                memcpy(found, v, n);
            }
            v[k] = w[k];
        }
    return count;
}

/* The locator of the errors by Euclid's algorithm on x^2e and the syndromes (Sugiyama and others, 1975); 0 where there is none. */
static int locate(const uint8_t *w, size_t n, unsigned e, poly *locator)
{
    static poly r0, r1, t0, t1, q;
    memset(&r0, 0, sizeof r0);
    memset(&r1, 0, sizeof r1);
    memset(&t0, 0, sizeof t0);
    memset(&t1, 0, sizeof t1);
    r0.degree = (int)(2 * e);
    r0.at[2 * e] = 1;
    r1.degree = (int)(2 * e) - 1;
    for (unsigned i = 0; i < 2 * e; i++)
        r1.at[i] = syndrome(w, n, i + 1);
    trim(&r1);
    t0.degree = -1;
    t1.degree = 0;
    t1.at[0] = 1;
    while (r1.degree >= (int)e) {
        poly rest = r0;
        divide(&rest, &r1, &q);
        r0 = r1;
        r1 = rest;
        poly next = t0;
        add_product(&next, &q, &t1);
        t0 = t1;
        t1 = next;
    }
    *locator = t1;
    return t1.degree >= 0 && t1.degree <= (int)e && t1.at[0] != 0;
}

/*
 * The values at the places: sum of y_k x_k^i = s_i for i = 1 .. v, solved by interpolation. The polynomial that is 1 at x_k and 0 at
 * the other locators, laid over the syndromes, leaves y_k x_k.
 */
static void amend(uint8_t *w, size_t n, const size_t *place, int v)
{
    uint8_t s[128];
    for (int i = 0; i < v; i++)
        s[i] = syndrome(w, n, (unsigned)i + 1);
    static uint8_t at[128];
    for (int k = 0; k < v; k++) {
        uint8_t x = alpha[n - 1 - place[k]], scale = 1, sum = 0;
        int degree = 0;
        memset(at, 0, sizeof at);
        at[0] = 1;
        for (int j = 0; j < v; j++) {
            if (j == k)
                continue;
            uint8_t y = alpha[n - 1 - place[j]];
            scale = product[scale][x ^ y];
            degree++;
            for (int i = degree; i > 0; i--)
                at[i] = (uint8_t)(at[i - 1] ^ product[at[i]][y]);
            at[0] = product[at[0]][y];
        }
        for (int i = 0; i <= degree; i++)
            sum ^= product[at[i]][s[i]];
        w[place[k]] ^= product[sum][inverse[product[scale][x]]];
    }
}

size_t ref_differing(const uint8_t *a, const uint8_t *b, size_t n, uint8_t *places)
{
    size_t count = 0;
    for (size_t p = 0; p < n; p++)
        if (a[p] != b[p])
            places[count++] = (uint8_t)p;
    return count;
}

/* The code word within e octets, if there is one, and the places in which it differs: how many these are, or -1. */
static int repair(const uint8_t *w, size_t n, unsigned e, uint8_t *out, uint8_t *places)
{
    if (ref_is_code_word(w, n, e)) {
        memcpy(out, w, n);
        return 0;
    }
    static poly locator;
    if (e == 0 || !locate(w, n, e, &locator))
        return -1;
    size_t place[128];
    int v = 0;
    for (size_t p = 0; p < n; p++)
        if (value(&locator, inverse[alpha[n - 1 - p]]) == 0) {
            if (v == (int)e)
                return -1;
            place[v++] = p;
        }
    uint8_t c[255] = { 0 }, differing[255];
    memcpy(c, w, n);
    amend(c, n, place, v);
    if (!ref_is_code_word(c, n, e))
        return -1;
    size_t count = ref_differing(c, w, n, differing);
    if (count > e)
        return -1;
    memcpy(out, c, n);
    memcpy(places, differing, count);
    return (int)count;
}

/* ---- the checks (000, 7.3.3.2.3 and 7.4.3.2.3), bit by bit: bit 1 of the first octet is the highest coefficient */

static int bit(const uint8_t *u, size_t i) { return u[i / 8] >> (i % 8) & 1; }

static unsigned check_bits(const uint8_t *u, size_t t, unsigned width)
{
    unsigned long low = width == 8 ? 0x07 : 0x1021, top = 1UL << (width - 1), r = width == 16 ? 0xFFFF : 0;
    for (size_t i = 0; i < 8 * t; i++) {
        int carry = (r & top) != 0;
        r = (r << 1) & (2 * top - 1);
        if (carry != bit(u, i))
            r ^= low;
    }
    return (unsigned)(width == 16 ? r ^ 0xFFFF : r);
}

static void put_check(const uint8_t *u, size_t t, unsigned width, uint8_t *out)
{
    if (!width)
        return;
    unsigned r = check_bits(u, t, width);
    memset(out, 0, width / 8);
    for (unsigned i = 0; i < width; i++)
        if (r >> (width - 1 - i) & 1)
            out[i / 8] |= (uint8_t)(1 << i % 8);
}

/* ---- the three calls */

static int is_setting(uint32_t width, uint32_t e) { return (width == 0 || width == 8 || width == 16) && e <= 127; }

int32_t ref_length(size_t unit, uint32_t width, uint32_t e)
{
    if (!is_setting(width, e))
        return -1;
    size_t rest = width / 8 + 2 * (size_t)e;
    if (unit < 1 || unit > 255 || unit + rest > 255)
        return -2;
    return (int32_t)(unit + rest);
}

int32_t ref_encode(const uint8_t *unit, size_t t, uint32_t width, uint32_t e, uint8_t *sent, size_t sent_len)
{
    int32_t n = ref_length(t, width, e);
    if (n < 0)
        return n;
    if (sent_len < (size_t)n)
        return -3;
    /* the parity, by long division of x^2e times the message by the product of (x - alpha^i) */
    static poly g, m, q;
    memset(&g, 0, sizeof g);
    g.at[0] = 1;
    for (unsigned i = 1; i <= 2 * e; i++) {
        g.degree++;
        for (int j = g.degree; j > 0; j--)
            g.at[j] = (uint8_t)(g.at[j - 1] ^ product[g.at[j]][alpha[i % 255]]);
        g.at[0] = product[g.at[0]][alpha[i % 255]];
    }
    size_t k = t + width / 8;
    memmove(sent, unit, t);
    put_check(unit, t, width, sent + t);
    memset(&m, 0, sizeof m);
    m.degree = n - 1;
    for (size_t i = 0; i < k; i++)
        m.at[(size_t)n - 1 - i] = sent[i];
    trim(&m);
    divide(&m, &g, &q);
    for (size_t i = k; i < (size_t)n; i++)
        sent[i] = m.at[(size_t)n - 1 - i];
    return n;
}

int32_t ref_receive(const uint8_t *received, size_t n, uint32_t width, uint32_t e, uint8_t *out, size_t out_len, uint8_t *places,
                    size_t places_len)
{
    if (!is_setting(width, e))
        return -1;
    size_t l = width / 8, rest = l + 2 * (size_t)e;
    if (n > 255 || n < 1 + rest)
        return -2;
    if (out_len < n || places_len < e)
        return -3;
    size_t t = n - rest;
    int32_t length = (int32_t)(65536 * t);
    int changed = repair(received, n, e, out, places);
    if (changed < 0)
        return length + 2;
    uint8_t check[2] = { 0, 0 };
    put_check(out, t, width, check);
    if (memcmp(check, out + t, l))
        return length + 256 * changed + 3;
    if (changed)
        return length + 256 * changed + 1;
    return length + (e == 0 && l == 0 ? 4 : 0);
}
