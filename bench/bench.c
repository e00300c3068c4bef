/*
 * Calls each entry of the library on links: those of a folder (bench/links),
 * those that shapes.c makes, and some that grow.
 *
 *   bench FOLDER facts              what each link has, a line for each; the
 *                                   products of shapes.c
 *   bench FOLDER count LINK         for counting: 10 calls, then 30, of each
 *                                   entry in `measured`; prints the entries
 *   bench FOLDER times              nanoseconds a call, every link and entry
 *   bench FOLDER growth             nanoseconds a call as links and runs grow
 *
 * A LINK is a name of `facts`, or product/I/X/Y: product I of shapes.c, with few
 * (0) or many (1) of each. EXPORT_LENGTH is defined where the library has
 * nakhshirul_export_length.
 */
#include <stdio.h>
#include <stdlib.h>
#include <string.h>
#include <time.h>

#include "links.h"
#include "nakhshirul.h"

static uint8_t out[MOST];
static uint32_t list[MOST / 4];

/* ---- entries */

enum function {
    ASK,
    NAMED,
    EXPORT,
#ifdef EXPORT_LENGTH
    LENGTH,
#endif
    WHY,
    RUN_ASK,
    RUN_NAMED,
    RUN_WHY
};

/* An entry asks for a code on behalf of the link's own subject, or of RSVP-TE. */
struct entry {
    const char *name;
    enum function function;
    uint16_t code;
    int rsvp_te;
};

static const struct entry entries[] = {
    { "ask 1092", ASK, 1092, 0 },
    { "ask 1096", ASK, 1096, 0 },
    { "ask 1089", ASK, 1089, 0 },
    { "ask 1091", ASK, 1091, 0 },
    { "ask 1092 of RSVP-TE", ASK, 1092, 1 },
    { "named", NAMED, 0, 0 },
    { "export", EXPORT, 0, 0 },
#ifdef EXPORT_LENGTH
    { "export_length", LENGTH, 0, 0 },
#endif
    { "why 1092", WHY, 1092, 0 },
    { "why 1096", WHY, 1096, 0 },
    { "run ask 1092", RUN_ASK, 1092, 0 },
    { "run ask 1096", RUN_ASK, 1096, 0 },
    { "run named", RUN_NAMED, 0, 0 },
    { "run why 1092", RUN_WHY, 1092, 0 },
};

#define ENTRIES (sizeof entries / sizeof entries[0])

#define LINK k->a.bytes, k->a.len, k->b.bytes, k->b.len, k->c.bytes, k->c.len
#define RUN k->bgpls.bytes, k->bgpls.len
#define QUESTION k->who, k->number, code

static uint64_t call(enum function f, uint16_t code, const struct link *k) {
    uint64_t reply[4];
    switch (f) {
    case ASK:
        return nakhshirul_ask(LINK, QUESTION, list, MOST / 4, reply);
    case NAMED:
        return nakhshirul_named(LINK, reply);
    case EXPORT:
        return nakhshirul_export(LINK, out, MOST, reply);
#ifdef EXPORT_LENGTH
    case LENGTH:
        return nakhshirul_export_length(LINK, reply);
#endif
    case WHY:
        return nakhshirul_why(LINK, QUESTION, reply);
    case RUN_ASK:
        return nakhshirul_run_ask(RUN, QUESTION, list, MOST / 4, reply);
    case RUN_NAMED:
        return nakhshirul_run_named(RUN, reply);
    default:
        return nakhshirul_run_why(RUN, QUESTION, reply);
    }
}

/* What is counted: a function of its own, so that it can be told from what comes before. The last call's status. */
__attribute__((noinline)) uint64_t measured(enum function f, uint16_t code, const struct link *k, long calls) {
    uint64_t status = 0;
    for (; calls > 0; calls--) {
        status = call(f, code, k);
    }
    return status;
}

/* A refusal is none of our figures. */
static void make_calls(const struct entry *e, const struct link *k, long calls) {
    struct link asked = *k;
    if (e->rsvp_te) {
        asked.who = 1;
        asked.number = 0;
    }
    uint64_t status = measured(e->function, e->code, &asked, calls);
    if (status >= NAKHSHIRUL_REFUSED) {
        fprintf(stderr, "bench: %s: %s\n", e->name, nakhshirul_refusal_text(status));
        exit(2);
    }
}

static double now(void) {
    struct timespec t;
    clock_gettime(CLOCK_MONOTONIC, &t);
    return (double)t.tv_sec * 1e9 + (double)t.tv_nsec;
}

/* Nanoseconds of a call: the best of 15 lots of calls that take about a millisecond each. */
static double nanoseconds(const struct entry *e, const struct link *k) {
    double best = 1e18;
    long calls = 1;
    for (int lot = 0; lot < 15; lot++) {
        double began = now();
        make_calls(e, k, calls);
        double took = now() - began;
        if (took / (double)calls < best) {
            best = took / (double)calls;
        }
        if (took < 1e6) {
            calls = (long)(1e6 / best) + 1;
        }
    }
    return best;
}

static double time_of(const char *entry, const struct link *k) {
    for (size_t i = 0; i < ENTRIES; i++) {
        if (!strcmp(entries[i].name, entry)) {
            return nanoseconds(&entries[i], k);
        }
    }
    return 0;
}

/* ---- links by their names */

static const char *folder;

/* The links of the folder, and whom they are asked about. */
static const struct {
    const char *name;
    unsigned application;
} files[] = { { "small", 1 }, { "medium", 1 }, { "large", 84 }, { "spread", 40 }, { "merged", 84 } };

#define FILES (sizeof files / sizeof files[0])

static struct run read_run(const char *name, const char *kind) {
    char path[1024];
    struct run r = fresh();
    snprintf(path, sizeof path, "%s/%s.%s", folder, name, kind);
    FILE *f = fopen(path, "rb");
    if (!f) {
        fprintf(stderr, "bench: cannot read %s\n", path);
        exit(2);
    }
    r.len = fread(r.bytes, 1, MOST, f);
    fclose(f);
    return r;
}

static struct link read_link(const char *name, unsigned application) {
    struct link k = empty_link(application);
    k.a = read_run(name, "a");
    k.b = read_run(name, "b");
    k.c = read_run(name, "c");
    k.bgpls = read_run(name, "bgpls");
    return k;
}

/* A link that was made, with its export. */
static struct link exported(struct link k) {
    uint64_t reply[4];
    uint64_t status = nakhshirul_export(k.a.bytes, k.a.len, k.b.bytes, k.b.len, k.c.bytes, k.c.len, k.bgpls.bytes, MOST, reply);
    if (status != NAKHSHIRUL_WRITTEN) {
        fprintf(stderr, "bench: an export: %s\n", nakhshirul_refusal_text(status));
        exit(2);
    }
    k.bgpls.len = (size_t)reply[0];
    return k;
}

static struct link product_link(const char *name) {
    unsigned i, x, y;
    if (sscanf(name, "product/%u/%u/%u", &i, &x, &y) != 3 || i >= product_count) {
        fprintf(stderr, "bench: no link %s\n", name);
        exit(2);
    }
    const struct product *p = &products[i];
    return exported(p->make(x ? p->many_x : p->few_x, y ? p->many_y : p->few_y));
}

static struct link link_of(const char *name) {
    for (size_t i = 0; i < FILES; i++) {
        if (!strcmp(files[i].name, name)) {
            return read_link(name, files[i].application);
        }
    }
    for (size_t i = 0; i < shape_count; i++) {
        if (!strcmp(shapes[i].name, name)) {
            return exported(shapes[i].make());
        }
    }
    return product_link(name);
}

static const char *link_name(size_t i) {
    return i < FILES ? files[i].name : shapes[i - FILES].name;
}

/* ---- what a link has */

struct facts {
    unsigned elements, numbers, named, groups, tlvs, values, run_numbers;
};

static unsigned elements_in(const uint8_t *s, size_t len) {
    unsigned count = 0;
    for (size_t at = 0; at + 2 <= len; at += 2 + s[at + 1]) {
        count++;
    }
    return count;
}

/* The elements of a run A or B, those of attribute and identifier lists too; and the SRLGs of a run B. */
static void look_at(const struct run *r, struct facts *f) {
    for (size_t at = 0; at < r->len; at += 2 + r->bytes[at + 1]) {
        const uint8_t *v = r->bytes + at + 2;
        size_t len = v[-1];
        f->elements++;
        if (v[-2] == 16 && len >= 2u + v[0] + v[1]) {
            f->elements += elements_in(v + 2 + v[0] + v[1], len - 2 - v[0] - v[1]);
        }
        if (v[-2] == 238 && len >= 10u + v[7] + v[8]) {
            const uint8_t *ids = v + 9 + v[7] + v[8];
            f->elements += elements_in(ids + 1, ids[0]);
            f->numbers += (unsigned)(v + len - (ids + 1 + ids[0])) / 4;
        }
    }
}

/* The TLVs of a BGP-LS run, those of ASLAs too: of attributes one by one, of SRLGs by their numbers. */
static void look_at_tlvs(const uint8_t *s, size_t len, struct facts *f) {
    for (size_t at = 0; at + 4 <= len; at += 4 + (size_t)s[at + 2] * 256 + s[at + 3]) {
        const uint8_t *v = s + at + 4;
        unsigned code = s[at] * 256u + s[at + 1], length = s[at + 2] * 256u + s[at + 3];
        f->tlvs++;
        if (code == 1122) {
            f->groups++;
            look_at_tlvs(v + 4 + v[0] + v[1], length - 4 - v[0] - v[1], f);
        } else if (code == 1096) {
            f->run_numbers += length / 4;
        } else {
            f->values++;
        }
    }
}

static unsigned bits_in(uint64_t x) {
    unsigned count = 0;
    for (; x; x &= x - 1) {
        count++;
    }
    return count;
}

static void print_facts(const char *name) {
    struct link k = link_of(name);
    struct facts f = { 0 };
    uint64_t reply[4];
    look_at(&k.a, &f);
    look_at(&k.b, &f);
    f.numbers += (unsigned)k.c.len / 4;
    look_at_tlvs(k.bgpls.bytes, k.bgpls.len, &f);
    nakhshirul_named(k.a.bytes, k.a.len, k.b.bytes, k.b.len, k.c.bytes, k.c.len, reply);
    f.named = bits_in(reply[0]) + bits_in(reply[1]);
    printf("%s a %zu b %zu c %zu elements %u numbers %u named %u groups %u tlvs %u values %u run_numbers %u bytes %zu\n", name, k.a.len, k.b.len, k.c.len,
           f.elements, f.numbers, f.named, f.groups, f.tlvs, f.values, f.run_numbers, k.bgpls.len);
}

/* ---- links and runs that grow */

/* So many named applications with so many different sets. */
static struct link with_sets(unsigned named, unsigned sets) {
    struct link k = empty_link(1);
    for (unsigned i = 0; i < named; i++) {
        add_metric_asla(&k.a, i + 1, i % sets);
    }
    return k;
}

/* Run A of about so many bytes, all ASLAs of SR Policy and LFA by turns. */
static struct link of_length(size_t len) {
    struct link k = empty_link(2);
    for (unsigned i = 0; k.a.len + 10 <= len; i++) {
        add_metric_asla(&k.a, i % 2 + 1, i);
    }
    return k;
}

/* A BGP-LS run of about so many bytes: ASLA TLVs of SR Policy, each with a metric and 60 SRLGs. */
static struct link run_of_length(size_t len) {
    struct link k = empty_link(1);
    uint32_t x = 1;
    while (k.bgpls.len + 264 <= len) {
        add(&k.bgpls, 1122, 2);
        add(&k.bgpls, 260, 2);
        add(&k.bgpls, 0x04000000, 4);
        add(&k.bgpls, 0x40000000, 4);
        add(&k.bgpls, 1092, 2);
        add(&k.bgpls, 4, 2);
        add(&k.bgpls, 10, 4);
        add(&k.bgpls, 1096, 2);
        add(&k.bgpls, 240, 2);
        for (int i = 0; i < 60; i++) {
            x = x * 1664525u + 1013904223u;
            add(&k.bgpls, x, 4);
        }
    }
    return k;
}

static void growth(void) {
    static const unsigned names[] = { 1, 8, 32, 127 };
    static const size_t lengths[] = { 64, 256, 1024, 2048 }, runs[] = { 1024, 16384, 131072, 524288 };
    printf("| Export: named applications | one set for all | a set for each |\n|---|---|---|\n");
    for (int i = 0; i < 4; i++) {
        struct link one = with_sets(names[i], 1), each = with_sets(names[i], names[i]);
        printf("| %u | %.0f ns | %.0f ns |\n", names[i], time_of("export", &one), time_of("export", &each));
    }
    printf("\n| Run A | ask 1092 | named |\n|---|---|---|\n");
    for (int i = 0; i < 4; i++) {
        struct link k = of_length(lengths[i]);
        printf("| %zu bytes | %.0f ns | %.0f ns |\n", k.a.len, time_of("ask 1092", &k), time_of("named", &k));
    }
    printf("\n| BGP-LS run | run ask 1092 | run ask 1096 | run named |\n|---|---|---|---|\n");
    for (int i = 0; i < 4; i++) {
        struct link k = run_of_length(runs[i]);
        printf("| %zu bytes | %.0f ns | %.0f ns | %.0f ns |\n", k.bgpls.len, time_of("run ask 1092", &k), time_of("run ask 1096", &k),
               time_of("run named", &k));
    }
}

static void times(void) {
    printf("| Link");
    for (size_t e = 0; e < ENTRIES; e++) {
        printf(" | %s", entries[e].name);
    }
    printf(" |\n|---");
    for (size_t e = 0; e < ENTRIES; e++) {
        printf("|---");
    }
    printf("|\n");
    for (size_t i = 0; i < FILES + shape_count; i++) {
        struct link k = link_of(link_name(i));
        printf("| %s", link_name(i));
        for (size_t e = 0; e < ENTRIES; e++) {
            printf(" | %.0f", nanoseconds(&entries[e], &k));
        }
        printf(" |\n");
    }
}

int main(int argc, char **argv) {
    folder = argc > 1 ? argv[1] : "";
    if (argc == 3 && !strcmp(argv[2], "facts")) {
        for (size_t i = 0; i < FILES + shape_count; i++) {
            print_facts(link_name(i));
        }
        for (size_t i = 0; i < product_count; i++) {
            const struct product *p = &products[i];
            printf("product/%zu %u %u %u %u %s\n", i, p->few_x, p->many_x, p->few_y, p->many_y, p->name);
        }
        return 0;
    }
    if (argc == 3 && !strcmp(argv[2], "times")) {
        times();
        return 0;
    }
    if (argc == 3 && !strcmp(argv[2], "growth")) {
        growth();
        return 0;
    }
    if (argc == 4 && !strcmp(argv[2], "count")) {
        struct link k = link_of(argv[3]);
        for (size_t e = 0; e < ENTRIES; e++) {
            make_calls(&entries[e], &k, 10);
            make_calls(&entries[e], &k, 30);
            printf("%s\n", entries[e].name);
        }
        return 0;
    }
    fprintf(stderr, "usage: bench FOLDER facts | count LINK | times | growth\n");
    return 2;
}
