/*
 * How much stack each function takes: it is called in a thread whose stack was
 * filled with a pattern, on inputs that go deepest (all sizes of lists, the
 * most SRLGs, a link that names everybody), and what it touched is measured.
 * A function must stay within the figure of the header, and a figure that is
 * more than 4 KiB too high is none.
 *
 * The first argument is the folder of links, bench/links. A line for each
 * function; the last line is 'N passed, M failed'.
 */
#include "nakhshirul.h"

#include <pthread.h>
#include <stdio.h>
#include <stdlib.h>
#include <string.h>

#define STACK (4u << 20)
#define PATTERN 0xA5u
#define MOST NAKHSHIRUL_MAX_RUN
#define SLACK 4096u

/* ---- links and runs */

struct run {
    uint8_t *bytes;
    size_t len;
};

struct link {
    struct run a, b, c;
};

static struct run fresh(void)
{
    struct run r;
    r.bytes = (uint8_t *)malloc(MOST + 1);
    r.len = 0;
    if (!r.bytes)
        exit(2);
    return r;
}

static void add(struct run *r, uint64_t number, unsigned bytes)
{
    while (bytes-- > 0)
        r->bytes[r->len++] = (uint8_t)(number >> 8 * bytes);
}

static struct run read_run(const char *folder, const char *name)
{
    char path[1024];
    struct run r = fresh();
    FILE *f;
    snprintf(path, sizeof path, "%s/%s", folder, name);
    f = fopen(path, "rb");
    if (!f) {
        fprintf(stderr, "cannot read %s\n", path);
        exit(2);
    }
    r.len = fread(r.bytes, 1, MOST, f);
    fclose(f);
    return r;
}

/* So many different SRLGs in an order that takes work to sort. */
static void add_srlgs(struct run *r, unsigned count, uint32_t *x)
{
    while (count-- > 0) {
        *x = *x * 1664525u + 1013904223u;
        add(r, *x, 4);
    }
}

/* Eight TLVs 238 of RSVP-TE, 58 SRLGs in each, and 256 legacy ones. */
static struct link most_srlgs(uint8_t mask)
{
    struct link l;
    uint32_t x = 1;
    unsigned i;
    l.a = fresh();
    l.b = fresh();
    l.c = fresh();
    for (i = 0; i < 8; i++) {
        add(&l.b, 0xEEFD, 2);
        add(&l.b, 0, 7);
        add(&l.b, 0x0100, 2);
        add(&l.b, mask, 1);
        add(&l.b, 0x0A0408, 3);
        add(&l.b, 0, 8);
        add_srlgs(&l.b, 58, &x);
    }
    add_srlgs(&l.c, 256, &x);
    return l;
}

/* Top-level TLVs 1096 with so many SRLGs in all. */
static struct run run_srlgs(unsigned count)
{
    struct run r = fresh();
    uint32_t x = 1;
    while (count > 0) {
        unsigned n = count < 16383 ? count : 16383;
        add(&r, 1096, 2);
        add(&r, n * 4, 2);
        add_srlgs(&r, n, &x);
        count -= n;
    }
    return r;
}

static struct link links[16];
static struct run runs[16];
static unsigned srlgs_of[16];
static size_t link_count, run_count;
static uint32_t list[NAKHSHIRUL_MAX_RUN_SRLGS];
static uint8_t out[NAKHSHIRUL_MAX_EXPORT];

static void make(const char *folder)
{
    static const char *const names[] = {"small", "medium", "large", "spread", "merged"};
    static const unsigned counts[] = {1, 64, 65, 512, 513, 20000, NAKHSHIRUL_MAX_RUN_SRLGS};
    size_t i;
    for (i = 0; i < sizeof names / sizeof names[0]; i++) {
        char name[64];
        struct link *l = &links[link_count++];
        snprintf(name, sizeof name, "%s.a", names[i]);
        l->a = read_run(folder, name);
        snprintf(name, sizeof name, "%s.b", names[i]);
        l->b = read_run(folder, name);
        snprintf(name, sizeof name, "%s.c", names[i]);
        l->c = read_run(folder, name);
        snprintf(name, sizeof name, "%s.bgpls", names[i]);
        runs[run_count++] = read_run(folder, name);
    }
    links[link_count++] = most_srlgs(0x80);
    links[link_count++] = most_srlgs(0x40);
    links[link_count] = most_srlgs(0xFF);
    links[link_count++].a = links[2].a;
    for (i = 0; i < sizeof counts / sizeof counts[0]; i++) {
        srlgs_of[run_count] = counts[i];
        runs[run_count++] = run_srlgs(counts[i]);
    }
}

/* ---- calls */

enum function { ASK, VALUE, NAMED, EXPORT, EXPORT_LENGTH, WHY, RUN_ASK, RUN_VALUE, RUN_NAMED, RUN_WHY };

/* A figure of the header: the function, whether it is asked for SRLGs, and the most of them that a run has. */
static const struct row {
    const char *name;
    enum function function;
    int srlgs;
    unsigned most;
    size_t told;
} rows[] = {
    {"nakhshirul_ask", ASK, 1, 0, NAKHSHIRUL_STACK_ASK},
    {"nakhshirul_value", VALUE, 0, 0, NAKHSHIRUL_STACK_VALUE},
    {"nakhshirul_named", NAMED, 0, 0, NAKHSHIRUL_STACK_NAMED},
    {"nakhshirul_export", EXPORT, 0, 0, NAKHSHIRUL_STACK_EXPORT},
    {"nakhshirul_export_length", EXPORT_LENGTH, 0, 0, NAKHSHIRUL_STACK_EXPORT},
    {"nakhshirul_why", WHY, 1, 0, NAKHSHIRUL_STACK_WHY},
    {"nakhshirul_run_ask, not of 1096", RUN_ASK, 0, NAKHSHIRUL_MAX_RUN_SRLGS, NAKHSHIRUL_STACK_RUN_VALUE},
    {"nakhshirul_run_ask, of up to 512 SRLGs", RUN_ASK, 1, 512, NAKHSHIRUL_STACK_RUN_ASK_512},
    {"nakhshirul_run_ask", RUN_ASK, 1, NAKHSHIRUL_MAX_RUN_SRLGS, NAKHSHIRUL_STACK_RUN_ASK},
    {"nakhshirul_run_value", RUN_VALUE, 0, NAKHSHIRUL_MAX_RUN_SRLGS, NAKHSHIRUL_STACK_RUN_VALUE},
    {"nakhshirul_run_named", RUN_NAMED, 0, NAKHSHIRUL_MAX_RUN_SRLGS, NAKHSHIRUL_STACK_RUN_NAMED},
    {"nakhshirul_run_why", RUN_WHY, 1, NAKHSHIRUL_MAX_RUN_SRLGS, NAKHSHIRUL_STACK_RUN_WHY},
};

struct call {
    enum function function;
    size_t subject;
    uint8_t who;
    uint64_t number;
    uint16_t code;
    uint8_t *stack;
    size_t depth;
    uint64_t status;
};

static uint64_t make_call(const struct call *c, uint64_t *reply)
{
    const struct link *l = &links[c->subject];
    const struct run *r = &runs[c->subject];
    switch (c->function) {
    case ASK:
        return nakhshirul_ask(l->a.bytes, l->a.len, l->b.bytes, l->b.len, l->c.bytes, l->c.len, c->who, c->number, c->code, list,
                              NAKHSHIRUL_MAX_RUN_SRLGS, reply);
    case VALUE:
        return nakhshirul_value(l->a.bytes, l->a.len, l->b.bytes, l->b.len, l->c.bytes, l->c.len, c->who, c->number, c->code, reply);
    case NAMED:
        return nakhshirul_named(l->a.bytes, l->a.len, l->b.bytes, l->b.len, l->c.bytes, l->c.len, reply);
    case EXPORT:
        return nakhshirul_export(l->a.bytes, l->a.len, l->b.bytes, l->b.len, l->c.bytes, l->c.len, out, NAKHSHIRUL_MAX_EXPORT, reply);
    case EXPORT_LENGTH:
        return nakhshirul_export_length(l->a.bytes, l->a.len, l->b.bytes, l->b.len, l->c.bytes, l->c.len, reply);
    case WHY:
        return nakhshirul_why(l->a.bytes, l->a.len, l->b.bytes, l->b.len, l->c.bytes, l->c.len, c->who, c->number, c->code, reply);
    case RUN_ASK:
        return nakhshirul_run_ask(r->bytes, r->len, c->who, c->number, c->code, list, NAKHSHIRUL_MAX_RUN_SRLGS, reply);
    case RUN_VALUE:
        return nakhshirul_run_value(r->bytes, r->len, c->who, c->number, c->code, reply);
    case RUN_NAMED:
        return nakhshirul_run_named(r->bytes, r->len, reply);
    default:
        return nakhshirul_run_why(r->bytes, r->len, c->who, c->number, c->code, reply);
    }
}

/* The stack from here on down: its lowest byte that no longer has the pattern. */
static void *in_thread(void *argument)
{
    struct call *c = (struct call *)argument;
    uint64_t reply[4];
    const uint8_t *lowest = c->stack;
    c->status = make_call(c, reply);
    while (*lowest == PATTERN)
        lowest++;
    c->depth = (size_t)((const uint8_t *)reply - lowest);
    return NULL;
}

static void measure(struct call *c)
{
    pthread_attr_t attributes;
    pthread_t thread;
    memset(c->stack, PATTERN, STACK);
    if (pthread_attr_init(&attributes) || pthread_attr_setstack(&attributes, c->stack, STACK) || pthread_create(&thread, &attributes, in_thread, c)) {
        fprintf(stderr, "no thread\n");
        exit(2);
    }
    pthread_join(thread, NULL);
    pthread_attr_destroy(&attributes);
}

/* The deepest of all questions of a row. */
static size_t deepest(const struct row *row, uint8_t *stack)
{
    static const uint16_t codes[] = {NAKHSHIRUL_CODE_TE_METRIC, NAKHSHIRUL_CODE_UNRESERVED_BANDWIDTH, NAKHSHIRUL_CODE_SRLG};
    static const struct {
        uint8_t who;
        uint64_t number;
    } whom[] = {{NAKHSHIRUL_GENERAL, 0}, {NAKHSHIRUL_STANDARD, NAKHSHIRUL_RSVP_TE}, {NAKHSHIRUL_STANDARD, NAKHSHIRUL_SR_POLICY}, {NAKHSHIRUL_USER, 20}};
    const size_t subjects = row->function < RUN_ASK ? link_count : run_count;
    size_t most = 0, i;
    struct call c;
    c.function = row->function;
    c.stack = stack;
    for (c.subject = 0; c.subject < subjects; c.subject++)
        for (i = 0; i < 12; i++) {
            c.who = whom[i % 4].who;
            c.number = whom[i % 4].number;
            c.code = codes[i / 4];
            if ((c.code == NAKHSHIRUL_CODE_SRLG && !row->srlgs) || (row->function >= RUN_ASK && srlgs_of[c.subject] > row->most))
                continue;
            measure(&c);
            if (c.status >= NAKHSHIRUL_REFUSED) {
                fprintf(stderr, "%s was refused: %s\n", row->name, nakhshirul_refusal_text(c.status));
                exit(2);
            }
            if (c.depth > most)
                most = c.depth;
        }
    return most;
}

int main(int argc, char **argv)
{
    unsigned passed = 0, failed = 0;
    void *stack = NULL;
    size_t i;
    if (argc != 2 || posix_memalign(&stack, 4096, STACK)) {
        fprintf(stderr, "usage: stack LINKS\n");
        return 2;
    }
    make(argv[1]);
    for (i = 0; i < sizeof rows / sizeof rows[0]; i++) {
        const size_t most = deepest(&rows[i], (uint8_t *)stack), told = rows[i].told;
        const int right = most <= told && told <= most + SLACK;
        printf("%s: %lu bytes of stack, told %lu%s\n", rows[i].name, (unsigned long)most, (unsigned long)told, right ? "" : ": wrong");
        passed += right;
        failed += !right;
    }
    printf("%u passed, %u failed\n", passed, failed);
    return failed != 0;
}
