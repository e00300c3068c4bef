/* Links, made byte by byte: what bench.c and shapes.c share. */
#ifndef BENCH_LINKS_H
#define BENCH_LINKS_H

#include <stddef.h>
#include <stdint.h>

#define MOST (1u << 20)

struct run {
    uint8_t *bytes;
    size_t len;
};

/* A link, its export, and whom it is asked about. */
struct link {
    struct run a, b, c, bgpls;
    uint8_t who;
    uint64_t number;
};

/* A run with room for MOST bytes. */
struct run fresh(void);

/* An empty link that is asked about this application: 0 to 63 standard, 64 to 127 user. */
struct link empty_link(unsigned application);

/* A number in so many bytes. */
void add(struct run *r, uint64_t number, unsigned bytes);

/* An ASLA of this application alone, with a TE metric. */
void add_metric_asla(struct run *a, unsigned application, unsigned metric);

/* The links that are made and not read. */
struct shape {
    const char *name;
    struct link (*make)(void);
};

extern const struct shape shapes[];
extern const size_t shape_count;

/*
 * Two things that a link can have few or many of. What a call spends on each
 * pair of them is many and many, less each alone, and few and few.
 */
struct product {
    const char *name;
    unsigned few_x, many_x, few_y, many_y;
    struct link (*make)(unsigned x, unsigned y);
};

extern const struct product products[];
extern const size_t product_count;

#endif
