/* A straight reader in C of all that document 01 asks of a check, with nothing proved: what the same
 * work costs as a C programmer would write it. It tells no refusal from another, and writes no slip.
 */
#include "bench.h"
#include <string.h>

typedef const uint8_t *at;

static at asked;

void peer_ready(const uint8_t *question) { asked = question; }

/* Whether an element with this tag is at p: then p is moved to its content, whose end is returned. */
static inline at into(at *p, at end, uint8_t tag)
{
    at s = *p;
    if (end - s < 2 || s[0] != tag) return NULL;
    size_t n = s[1];
    s += 2;
    if (n >= 0x80) {
        if (n == 0x81 && end - s >= 1 && s[0] >= 0x80) {
            n = s[0];
            s += 1;
        } else if (n == 0x82 && end - s >= 2 && s[0]) {
            n = (size_t)s[0] << 8 | s[1];
            s += 2;
        } else {
            return NULL;
        }
    }
    if ((size_t)(end - s) < n) return NULL;
    *p = s;
    return s + n;
}

/* The end of a free element, at most depth deep. */
static at tree(at p, at end, int depth)
{
    if (depth == 0 || p == end) return NULL;
    uint8_t tag = *p;
    if ((tag & 31) == 31 || tag == 0 || tag == 0x20) return NULL;
    at stop = into(&p, end, tag);
    if (stop && tag & 0x20)
        while (p < stop)
            if (!(p = tree(p, stop, depth - 1))) return NULL;
    return stop;
}

static int oid(at p, at end)
{
    int begins = 1;
    if (p == end) return 0;
    for (; p < end; p++) {
        if (begins && *p == 0x80) return 0;
        begins = *p < 0x80;
    }
    return begins;
}

static int algorithm(at *p, at end)
{
    at s = *p, stop = into(&s, end, 0x30), after;
    if (!stop || !(after = into(&s, stop, 6)) || !oid(s, after)) return 0;
    if (after < stop && tree(after, stop, 16) != stop) return 0;
    *p = stop;
    return 1;
}

/* A time at p: its seconds since 1970, or -1. */
static int64_t moment(at *p, at end)
{
    static const uint8_t lengths[] = {31, 28, 31, 30, 31, 30, 31, 31, 30, 31, 30, 31};
    static const uint16_t before[] = {0, 31, 59, 90, 120, 151, 181, 212, 243, 273, 304, 334};
    at s = *p, stop = into(&s, end, 0x18);
    unsigned v[7];
    if (!stop || stop - s != 15 || s[14] != 'Z') return -1;
    for (int i = 0; i < 7; i++) {
        unsigned a = s[2 * i] - 48u, b = s[2 * i + 1] - 48u;
        if (a > 9 || b > 9) return -1;
        v[i] = 10 * a + b;
    }
    unsigned y = 100 * v[0] + v[1], m = v[2], d = v[3];
    if (y < 1970 || m < 1 || m > 12 || d < 1 || v[4] > 23 || v[5] > 59 || v[6] > 59) return -1;
    unsigned leap = y % 4 == 0 && (y % 100 || y % 400 == 0), p1 = y - 1;
    if (d > lengths[m - 1] + (m == 2 ? leap : 0)) return -1;
    *p = stop;
    return 86400 * (int64_t)(365 * (y - 1970) + p1 / 4 - 492 - (p1 / 100 - 19) + p1 / 400 - 4
                             + before[m - 1] + (m > 2 ? leap : 0) + d - 1)
           + 3600 * v[4] + 60 * v[5] + v[6];
}

static int serial(at p, size_t n)
{
    return n >= 1 && n <= 20 && p[0] < 0x80 && (n == 1 || p[0] || p[1] >= 0x80);
}

/* Extensions that fill p to end; strange: a critical one is neither a nor b (last octets of ..48.1.x). */
static int extensions(at p, at end, uint8_t a, uint8_t b, int *strange)
{
    static const uint8_t known[] = {0x2b, 6, 1, 5, 5, 7, 0x30, 1};
    at name[16], s = p, stop = into(&s, end, 0xa1), list = stop ? into(&s, stop, 0x30) : NULL;
    size_t size[16];
    int n = 0;
    if (!list || list != stop || stop != end) return 0;
    for (; s < list; n++) {
        at one = into(&s, list, 0x30), after;
        if (n == 16 || !one || !(after = into(&s, one, 6)) || !oid(s, after)) return 0;
        name[n] = s;
        size[n] = (size_t)(after - s);
        for (int i = 0; i < n; i++)
            if (size[i] == size[n] && !memcmp(name[i], s, size[n])) return 0;
        s = after;
        if (s < one && *s == 1) {
            if (one - s < 3 || s[1] != 1 || s[2] != 0xff) return 0;
            s += 3;
            if (size[n] != 9 || memcmp(name[n], known, 8) || (name[n][8] != a && name[n][8] != b)) *strange = 1;
        }
        if (into(&s, one, 4) != one) return 0;
        s = one;
    }
    return n > 0;
}

struct entry {
    int kind, mine, strange;
    int64_t this, next;
};

/* A CertID at p, and whether it is the card's. */
static int card(at *p, at end, int *mine)
{
    static const uint8_t sha1[] = {0x30, 9, 6, 5, 0x2b, 0x0e, 3, 2, 0x1a, 5, 0};
    static const uint8_t bare[] = {0x30, 7, 6, 5, 0x2b, 0x0e, 3, 2, 0x1a};
    at s = *p, stop = into(&s, end, 0x30), first = s, name, key;
    if (!stop || !algorithm(&s, stop)) return 0;
    size_t head = (size_t)(s - first);
    at name_end = into(&s, stop, 4);
    if (!name_end || name_end - s < 1 || name_end - s > 64) return 0;
    name = s;
    s = name_end;
    at key_end = into(&s, stop, 4);
    if (!key_end || key_end - s < 1 || key_end - s > 64) return 0;
    key = s;
    s = key_end;
    if (into(&s, stop, 2) != stop || !serial(s, (size_t)(stop - s))) return 0;
    size_t n = (size_t)(stop - s);
    *mine = n == asked[AT_SERIAL_LEN] && s[n - 1] == asked[AT_SERIAL + n - 1] && !memcmp(s, asked + AT_SERIAL, n)
            && name_end - name == 20 && !memcmp(name, asked + AT_CARD, 20)
            && key_end - key == 20 && !memcmp(key, asked + AT_CARD + 20, 20)
            && ((head == sizeof sha1 && !memcmp(first, sha1, head)) || (head == sizeof bare && !memcmp(first, bare, head)));
    *p = stop;
    return 1;
}

static int status(at *p, at end, int *kind)
{
    at s = *p;
    if (end - s < 2) return 0;
    if (s[0] == 0x80 || s[0] == 0x82) {
        *kind = s[0] == 0x80 ? GOOD : UNKNOWN;
        *p = s + 2;
        return s[1] == 0;
    }
    at stop = into(&s, end, 0xa1);
    if (!stop || moment(&s, stop) < 0) return 0;
    if (s < stop) {
        at reason = into(&s, stop, 0xa0);
        if (reason != stop || stop - s != 3 || s[0] != 0x0a || s[1] != 1 || s[2] > 10 || s[2] == 7) return 0;
    }
    *kind = REVOKED;
    *p = stop;
    return 1;
}

static at one_entry(at p, at end, struct entry *e)
{
    at stop = into(&p, end, 0x30);
    if (!stop || !card(&p, stop, &e->mine) || !status(&p, stop, &e->kind)) return NULL;
    if ((e->this = moment(&p, stop)) < 0) return NULL;
    e->next = -1;
    e->strange = 0;
    if (p < stop && *p == 0xa0) {
        at after = into(&p, stop, 0xa0);
        if (!after || (e->next = moment(&p, after)) < 0 || p != after) return NULL;
    }
    if (p < stop && !extensions(p, stop, 6, 6, &e->strange)) return NULL;
    return stop;
}

/* Whether the question is in range (1). */
static int in_range(void)
{
    static const uint8_t zeros[256];
    size_t n = asked[AT_SERIAL_LEN], name = number(asked + AT_NAME_LEN, 2);
    if (n > 20 || memcmp(asked + AT_SERIAL + n, zeros, 20 - n)) return 0;
    if (name > 256 || memcmp(asked + AT_NAME + name, zeros, 256 - name)) return 0;
    return serial(asked + AT_SERIAL, n) && number(asked + AT_NOW, 8) <= 253402300799 && number(asked + AT_TOLERANCE, 2) <= 3600
           && asked[AT_VERDICT] <= 2 && asked[AT_ROLE] >= 1 && asked[AT_ROLE] <= 3 && asked[AT_MARKS] <= 7;
}

unsigned peer_answer(const uint8_t *response, size_t len)
{
    static const uint8_t basic[] = {6, 9, 0x2b, 6, 1, 5, 5, 7, 0x30, 1, 1};
    at p = response, end = p + len;
    if (!in_range() || len > 16384 || into(&p, end, 0x30) != end) return NONE;
    if (end - p < 3 || p[0] != 0x0a || p[1] != 1 || p[2]) return NONE;
    p += 3;
    if (into(&p, end, 0xa0) != end || into(&p, end, 0x30) != end) return NONE;
    if (end - p < 11 || memcmp(p, basic, 11)) return NONE;
    p += 11;
    if (into(&p, end, 4) != end || into(&p, end, 0x30) != end) return NONE;

    at stop = into(&p, end, 0x30), id = p, id_end;
    if (!stop || p == stop) return NONE;
    if (*p == 0xa1) {
        if (!(id_end = into(&p, stop, 0xa1)) || p == id_end || *p != 0x30 || tree(p, id_end, 16) != id_end) return NONE;
        id = p;
    } else if (!(id_end = into(&p, stop, 0xa2)) || into(&p, id_end, 4) != id_end || id_end - p != 20) {
        return NONE;
    }
    int by_name = *id == 0x30;
    id = p;
    p = id_end;
    if (moment(&p, stop) < 0) return NONE;
    at list = into(&p, stop, 0x30);
    if (!list) return NONE;
    struct entry e, mine = {0};
    int found = 0, strange = 0;
    for (int n = 0; p < list; n++) {
        if (n == 64 || !(p = one_entry(p, list, &e))) return NONE;
        if (e.mine && found++ == 0) mine = e;
    }
    if (p < stop && !extensions(p, stop, 2, 9, &strange)) return NONE;
    p = stop;
    if (!algorithm(&p, end) || !(stop = into(&p, end, 3)) || stop - p < 2 || *p) return NONE;
    p = stop;
    if (p < end) {
        if (into(&p, end, 0xa0) != end || into(&p, end, 0x30) != end) return NONE;
        for (int n = 0; p < end; n++)
            if (n == 8 || *p != 0x30 || !(p = tree(p, end, 16))) return NONE;
    }

    int64_t now = (int64_t)number(asked + AT_NOW, 8);
    size_t size = (size_t)(id_end - id);
    if (asked[AT_VERDICT] != 1) return NONE;
    if (by_name ? size != number(asked + AT_NAME_LEN, 2) || memcmp(id, asked + AT_NAME, size) : memcmp(id, asked + AT_KEY, 20))
        return NONE;
    if ((asked[AT_ROLE] == 2 && asked[AT_MARKS] != 7) || strange || found != 1 || mine.strange) return NONE;
    if (mine.next < mine.this || now < mine.this || now > mine.next + (int64_t)number(asked + AT_TOLERANCE, 2)) return NONE;
    return (unsigned)mine.kind;
}
