/* Links of shapes other than those of bench/links. */
#include <stdio.h>
#include <stdlib.h>
#include <string.h>

#include "links.h"

#define LIMIT 2048

struct run fresh(void) {
    struct run r = { malloc(MOST), 0 };
    if (!r.bytes) {
        exit(2);
    }
    return r;
}

struct link empty_link(unsigned application) {
    struct link k = { fresh(), fresh(), fresh(), fresh(), application < 64 ? 1 : 2, application % 64 };
    return k;
}

void add(struct run *r, uint64_t number, unsigned bytes) {
    while (bytes-- > 0) {
        r->bytes[r->len++] = (uint8_t)(number >> 8 * bytes);
    }
}

/* A link is no longer than it may be. */
static struct link whole(struct link k) {
    if (k.a.len > LIMIT || k.b.len > LIMIT || k.c.len > LIMIT / 2) {
        fprintf(stderr, "bench: a shape has runs of %zu, %zu and %zu bytes\n", k.a.len, k.b.len, k.c.len);
        exit(2);
    }
    return k;
}

/* ---- elements of one byte of type and one of length */

static size_t begin(struct run *r, uint8_t type) {
    add(r, type, 1);
    add(r, 0, 1);
    return r->len;
}

static void end(struct run *r, size_t began) {
    r->bytes[began - 1] = (uint8_t)(r->len - began);
}

static void add_attribute(struct run *r, uint8_t type, uint64_t value) {
    size_t at = begin(r, type);
    add(r, value, type == 18 ? 3 : type == 34 ? 8 : 4);
    end(r, at);
}

/* ---- masks: a length of 0 to 8 bytes for each, and the bits from the top */

struct masks {
    unsigned standard_len, user_len;
    uint8_t standard[8], user[8];
};

static void set(struct masks *m, unsigned application) {
    uint8_t *mask = application < 64 ? m->standard : m->user;
    mask[application % 64 / 8] |= (uint8_t)(0x80 >> application % 8);
}

/* One application, in a mask of the least length. */
static struct masks only(unsigned application) {
    struct masks m = { 0 };
    *(application < 64 ? &m.standard_len : &m.user_len) = application % 64 / 8 + 1;
    set(&m, application);
    return m;
}

/* The first of all applications other than RSVP-TE, in two masks of eight bytes. */
static struct masks first(unsigned count) {
    struct masks m = { 8, 8, { 0 }, { 0 } };
    for (unsigned i = 1; i <= count; i++) {
        set(&m, i);
    }
    return m;
}

static struct masks none(void) {
    struct masks m = { 0 };
    return m;
}

static void add_masks(struct run *r, struct masks m) {
    add(r, m.standard_len, 1);
    add(r, m.user_len, 1);
    for (unsigned i = 0; i < m.standard_len; i++) {
        add(r, m.standard[i], 1);
    }
    for (unsigned i = 0; i < m.user_len; i++) {
        add(r, m.user[i], 1);
    }
}

/* ---- advertisements */

static size_t begin_asla(struct run *a, struct masks m) {
    size_t at = begin(a, 16);
    add_masks(a, m);
    return at;
}

void add_metric_asla(struct run *a, unsigned application, unsigned metric) {
    size_t at = begin_asla(a, only(application));
    add_attribute(a, 18, metric);
    end(a, at);
}

/* Up to the identifiers; SRLGs follow. */
static size_t begin_238(struct run *b, struct masks m) {
    size_t at = begin(b, 238);
    add(b, 7, 7);
    add_masks(b, m);
    add(b, 0x0A0408, 3);
    add(b, 1, 4);
    add(b, 2, 4);
    return at;
}

/* ---- SRLGs: 464 numbers in an order */

enum order { RISING, FALLING, MIXED };

#define NUMBERS 464u

/* The places 0 to 463 in one mixed order, always the same. */
static unsigned mixed_place(unsigned i) {
    static unsigned places[NUMBERS];
    if (places[0] == places[1]) {
        uint32_t x = 1;
        for (unsigned k = 0; k < NUMBERS; k++) {
            unsigned at = (x >> 8) % (k + 1);
            places[k] = places[at];
            places[at] = k;
            x = x * 1664525u + 1013904223u;
        }
    }
    return places[i];
}

/* Multiples of a prime, so that all four bytes differ. */
static uint32_t number_at(enum order order, unsigned i) {
    unsigned place = order == RISING ? i : order == FALLING ? NUMBERS - 1 - i : mixed_place(i);
    return 1000003u * (place + 1);
}

/* So many TLVs 238 with these masks, with so many numbers together. */
static void add_srlgs(struct run *b, struct masks m, unsigned tlvs, unsigned numbers, enum order order) {
    for (unsigned i = 0, n = 0; i < tlvs; i++) {
        size_t at = begin_238(b, m);
        for (; n < numbers * (i + 1) / tlvs; n++) {
            add(b, number_at(order, n), 4);
        }
        end(b, at);
    }
}

/* ---- the shapes */

/* An application of 95: standard 1 to 63, then user 0 to 31. */
#define OWN 95u
#define STANDARD_40 40
#define USER_20 84

static void add_own(struct run *a, unsigned sets, int with_delay) {
    for (unsigned i = 0; i < OWN; i++) {
        size_t at = begin_asla(a, only(i + 1));
        add_attribute(a, 18, 100 + i % sets);
        if (with_delay) {
            add_attribute(a, 33, 500 + i % sets);
        }
        end(a, at);
    }
}

static struct link own(void) {
    struct link k = empty_link(STANDARD_40);
    add_own(&k.a, OWN, 1);
    return whole(k);
}

static struct link equal(void) {
    struct link k = empty_link(STANDARD_40);
    add_own(&k.a, 1, 1);
    return whole(k);
}

/* 80 ASLAs, each names all 128: every second one has a metric, the others another kind by turns. */
static struct link everybody(void) {
    static const uint8_t types[7] = { 3, 33, 35, 36, 37, 38, 39 };
    struct link k = empty_link(USER_20);
    struct masks all = first(127);
    all.standard[0] = 0xFF;
    for (unsigned i = 0; i < 80; i++) {
        size_t at = begin_asla(&k.a, all);
        add_attribute(&k.a, i % 2 ? types[i / 2 % 7] : 18, i);
        end(&k.a, at);
    }
    return whole(k);
}

/* 400 ASLAs of 16 applications: 396 have no attribute, the last four a metric. */
static struct link short_aslas(void) {
    struct link k = empty_link(1);
    for (unsigned i = 0; i < 396; i++) {
        end(&k.a, begin_asla(&k.a, only(i % 2 * 64 + i / 2 % 8)));
    }
    for (unsigned i = 0; i < 4; i++) {
        add_metric_asla(&k.a, i % 2 * 64 + i / 2 + 1, i);
    }
    return whole(k);
}

/* 70 TLVs 238 of fifteen applications, each of which has a metric; a number or two in each. */
static struct link tlvs(void) {
    struct link k = empty_link(1);
    for (unsigned i = 0; i < 15; i++) {
        add_metric_asla(&k.a, i < 7 ? i + 1 : 57 + i, i);
    }
    for (unsigned i = 0, n = 0; i < 70; i++) {
        size_t at = begin_238(&k.b, only(i % 15 < 7 ? i % 15 + 1 : 57 + i % 15));
        for (unsigned end_at = n + 1 + (i < 39); n < end_at; n++) {
            add(&k.b, number_at(MIXED, n), 4);
        }
        end(&k.b, at);
    }
    return whole(k);
}

/* 70 TLVs 238, each names an application of its own (standard 1 to 47, user 0 to 22) and has a number of its own. */
static struct link tlvs_own(void) {
    struct link k = empty_link(STANDARD_40);
    for (unsigned i = 0; i < 70; i++) {
        size_t at = begin_238(&k.b, only(i < 47 ? i + 1 : 17 + i));
        add(&k.b, number_at(MIXED, i), 4);
        end(&k.b, at);
    }
    return whole(k);
}

/* SR Policy has a metric and 464 SRLGs, in eight TLVs 238. */
static struct link srlgs(enum order order) {
    struct link k = empty_link(1);
    add_metric_asla(&k.a, 1, 20);
    add_srlgs(&k.b, only(1), 8, NUMBERS, order);
    return whole(k);
}

static struct link rising(void) {
    return srlgs(RISING);
}

static struct link falling(void) {
    return srlgs(FALLING);
}

static struct link mixed(void) {
    return srlgs(MIXED);
}

/* 95 groups that all have the 464 general SRLGs. */
static struct link own_mixed(void) {
    struct link k = own();
    add_srlgs(&k.b, none(), 8, NUMBERS, MIXED);
    return whole(k);
}

const struct shape shapes[] = {
    { "own", own },           { "equal", equal },     { "everybody", everybody }, { "short", short_aslas }, { "tlvs", tlvs },
    { "tlvs_own", tlvs_own }, { "rising", rising },   { "falling", falling },     { "mixed", mixed },       { "own_mixed", own_mixed },
};
const size_t shape_count = sizeof shapes / sizeof shapes[0];

/* ---- the products */

/* So many groups among 95 applications, and so many general SRLGs in eight TLVs 238. */
static struct link groups_srlgs(unsigned groups, unsigned numbers) {
    struct link k = empty_link(STANDARD_40);
    add_own(&k.a, groups, 0);
    add_srlgs(&k.b, none(), 8, numbers, MIXED);
    return whole(k);
}

/* So many groups among 95 applications, and so many elements of a type that is unknown. */
static struct link groups_elements(unsigned groups, unsigned elements) {
    struct link k = empty_link(STANDARD_40);
    add_own(&k.a, groups, 0);
    for (unsigned i = 0; i < elements; i++) {
        end(&k.a, begin(&k.a, 200));
    }
    return whole(k);
}

/* So many ASLAs with these masks. */
static void add_aslas(struct run *a, struct masks m, unsigned aslas) {
    for (unsigned i = 0; i < aslas; i++) {
        size_t at = begin_asla(a, m);
        add_attribute(a, 18, i);
        end(a, at);
    }
}

/* So many applications, all named by each of so many ASLAs. */
static struct link applications_aslas(unsigned applications, unsigned aslas) {
    struct link k = empty_link(1);
    add_aslas(&k.a, first(applications), aslas);
    return whole(k);
}

/* So many applications, named by one ASLA, and so many ASLAs that name SR Policy alone. */
static struct link applications_others(unsigned applications, unsigned aslas) {
    struct link k = empty_link(1);
    add_aslas(&k.a, first(applications), 1);
    add_aslas(&k.a, first(1), aslas);
    return whole(k);
}

/* So many applications, all named by each of so many TLVs 238 of one number. */
static struct link applications_tlvs(unsigned applications, unsigned tlvs) {
    struct link k = empty_link(1);
    add_srlgs(&k.b, first(applications), tlvs, tlvs, MIXED);
    return whole(k);
}

/* So many applications, named by one TLV 238, and so many that name SR Policy alone. */
static struct link applications_other_tlvs(unsigned applications, unsigned tlvs) {
    struct link k = empty_link(1);
    add_srlgs(&k.b, first(applications), 1, 1, MIXED);
    add_srlgs(&k.b, first(1), tlvs, tlvs, MIXED);
    return whole(k);
}

/* So many applications, all named by each of eight TLVs 238 with so many numbers together. */
static struct link applications_srlgs(unsigned applications, unsigned numbers) {
    struct link k = empty_link(1);
    add_srlgs(&k.b, first(applications), 8, numbers, MIXED);
    return whole(k);
}

const struct product products[] = {
    { "groups and SRLGs", 1, OWN, 8, NUMBERS, groups_srlgs },
    { "groups and elements", 1, OWN, 0, 400, groups_elements },
    { "applications and ASLAs that name all", 1, 127, 2, 80, applications_aslas },
    { "applications and ASLAs of one", 1, 127, 2, 80, applications_others },
    { "applications and TLVs 238 that name all", 1, 127, 2, 48, applications_tlvs },
    { "applications and TLVs 238 of one", 1, 127, 2, 47, applications_other_tlvs },
    { "applications and SRLGs", 1, 127, 8, 432, applications_srlgs },
};
const size_t product_count = sizeof products / sizeof products[0];
