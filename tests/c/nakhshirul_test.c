/*
 * Calls every function of the C interface and compares what it answers: the
 * worked links of document 01 and those of document 02's requests, each
 * status, each refusal with its run and offset, what is written and what is
 * left alone, and the links of bench/links (the folder is the first argument).
 *
 * A line for each group; the last line is 'N passed, M failed', in groups. The
 * status is 0 only if nothing differed.
 */
#include "nakhshirul.h"

#include <stdio.h>
#include <string.h>

/* ---- groups and checks */

static unsigned checks, differences, passed, failed;

static void check(int holds, const char *what, int line)
{
    checks++;
    if (!holds) {
        differences++;
        printf("  line %d: %s\n", line, what);
    }
}

#define CHECK(x) check((x), #x, __LINE__)

static void group(const char *name, void (*run)(void))
{
    checks = 0;
    differences = 0;
    run();
    printf("%s: %u checks, %u differ\n", name, checks, differences);
    if (checks > 0 && differences == 0)
        passed++;
    else
        failed++;
}

/* ---- calls, with guards around the reply */

#define GUARD 0xA5A5A5A5A5A5A5A5u

struct answer {
    uint64_t status, reply[4];
};

static uint64_t lent[6];

static uint64_t *lend(void)
{
    size_t i;
    for (i = 0; i < 6; i++)
        lent[i] = GUARD;
    return lent + 1;
}

static struct answer take(uint64_t status)
{
    struct answer r;
    check(lent[0] == GUARD && lent[5] == GUARD, "only the four numbers of the reply are written", __LINE__);
    r.status = status;
    memcpy(r.reply, lent + 1, sizeof r.reply);
    return r;
}

static int is_whole(struct answer r, uint64_t status, uint64_t first, uint64_t second, uint64_t third)
{
    if (r.status == status && r.reply[0] == first && r.reply[1] == second && r.reply[2] == third && r.reply[3] == 0)
        return 1;
    printf("  answered %llu with %llu, %llu, %llu, %llu\n", (unsigned long long)r.status, (unsigned long long)r.reply[0], (unsigned long long)r.reply[1],
           (unsigned long long)r.reply[2], (unsigned long long)r.reply[3]);
    return 0;
}

static int is(struct answer r, uint64_t status, uint64_t first, uint64_t second)
{
    return is_whole(r, status, first, second, 0);
}

static int place(struct answer r, unsigned run, uint64_t offset, uint64_t length)
{
    return is_whole(r, NAKHSHIRUL_PLACE, offset, length, run);
}

static int refused(struct answer r, unsigned number, unsigned run, uint64_t offset)
{
    return is_whole(r, NAKHSHIRUL_REFUSED + number, offset, 0, run);
}

/* A link or a BGP-LS run. */
struct run {
    const uint8_t *bytes;
    size_t len;
};

struct link {
    struct run a, b, c;
};

static const uint8_t nothing[1] = {0};

static struct run run_of(const uint8_t *bytes, size_t len)
{
    struct run r;
    r.bytes = bytes;
    r.len = len;
    return r;
}

#define RUN(x) run_of((x), sizeof(x))

static struct link link_of(struct run a, struct run b, struct run c)
{
    struct link l;
    l.a = a;
    l.b = b;
    l.c = c;
    return l;
}

static struct link only_a(struct run a)
{
    return link_of(a, run_of(nothing, 0), run_of(nothing, 0));
}

/* A run of bytes in hex, with blanks between them or without; it stays until it has been followed by seven more. */
static struct run hex(const char *text)
{
    static uint8_t rooms[8][256];
    static unsigned next;
    static const char digits[] = "0123456789ABCDEF";
    uint8_t *room = rooms[next++ % 8];
    size_t n = 0;
    for (; *text != '\0'; text++) {
        const char *digit = strchr(digits, *text >= 'a' ? *text - 'a' + 'A' : *text);
        if (*text == ' ')
            continue;
        if (digit == NULL || n / 2 == sizeof rooms[0]) {
            check(0, "bytes in hex", __LINE__);
            break;
        }
        room[n / 2] = (uint8_t)(n % 2 == 0 ? (digit - digits) << 4 : room[n / 2] | (digit - digits));
        n++;
    }
    check(n % 2 == 0, "whole bytes in hex", __LINE__);
    return run_of(room, n / 2);
}

static struct link only_a_hex(const char *a)
{
    return only_a(hex(a));
}

static struct link link_hex(const char *a, const char *b, const char *c)
{
    return link_of(hex(a), hex(b), hex(c));
}

#define LIST 1024

static uint32_t list[LIST + 2];

static struct answer ask_with(struct link l, unsigned who, uint64_t number, unsigned code, size_t room)
{
    memset(list, 0xEE, sizeof list);
    return take(nakhshirul_ask(l.a.bytes, l.a.len, l.b.bytes, l.b.len, l.c.bytes, l.c.len, (uint8_t)who, number, (uint16_t)code, list + 1, room, lend()));
}

static struct answer ask(struct link l, unsigned who, uint64_t number, unsigned code)
{
    return ask_with(l, who, number, code, LIST);
}

static struct answer run_ask_with(struct run r, unsigned who, uint64_t number, unsigned code, size_t room)
{
    memset(list, 0xEE, sizeof list);
    return take(nakhshirul_run_ask(r.bytes, r.len, (uint8_t)who, number, (uint16_t)code, list + 1, room, lend()));
}

static struct answer run_ask(struct run r, unsigned who, uint64_t number, unsigned code)
{
    return run_ask_with(r, who, number, code, LIST);
}

/* Whether everything from an entry of the list on, and the one before it, is as it was lent. */
static int list_untouched_from(size_t n)
{
    size_t i;
    if (list[0] != 0xEEEEEEEEu)
        return 0;
    for (i = n + 1; i < LIST + 2; i++)
        if (list[i] != 0xEEEEEEEEu)
            return 0;
    return 1;
}

static struct answer value(struct link l, unsigned who, uint64_t number, unsigned code)
{
    return take(nakhshirul_value(l.a.bytes, l.a.len, l.b.bytes, l.b.len, l.c.bytes, l.c.len, (uint8_t)who, number, (uint16_t)code, lend()));
}

static struct answer run_value(struct run r, unsigned who, uint64_t number, unsigned code)
{
    return take(nakhshirul_run_value(r.bytes, r.len, (uint8_t)who, number, (uint16_t)code, lend()));
}

static struct answer why(struct link l, unsigned who, uint64_t number, unsigned code)
{
    return take(nakhshirul_why(l.a.bytes, l.a.len, l.b.bytes, l.b.len, l.c.bytes, l.c.len, (uint8_t)who, number, (uint16_t)code, lend()));
}

static struct answer run_why(struct run r, unsigned who, uint64_t number, unsigned code)
{
    return take(nakhshirul_run_why(r.bytes, r.len, (uint8_t)who, number, (uint16_t)code, lend()));
}

static struct answer named(struct link l)
{
    return take(nakhshirul_named(l.a.bytes, l.a.len, l.b.bytes, l.b.len, l.c.bytes, l.c.len, lend()));
}

static struct answer run_named(struct run r)
{
    return take(nakhshirul_run_named(r.bytes, r.len, lend()));
}

#define OUT 65536

static uint8_t out[OUT + 2];

static struct answer export_to(struct link l, size_t room)
{
    memset(out, 0xEE, sizeof out);
    return take(nakhshirul_export(l.a.bytes, l.a.len, l.b.bytes, l.b.len, l.c.bytes, l.c.len, out + 1, room, lend()));
}

static struct answer export_length(struct link l)
{
    return take(nakhshirul_export_length(l.a.bytes, l.a.len, l.b.bytes, l.b.len, l.c.bytes, l.c.len, lend()));
}

static int out_untouched_from(size_t n)
{
    size_t i;
    if (out[0] != 0xEE)
        return 0;
    for (i = n + 1; i < OUT + 2; i++)
        if (out[i] != 0xEE)
            return 0;
    return 1;
}

/* ---- the worked links of document 01 */

#define M 0x12, 0x03, 0x00, 0x00, 0x0A
#define S 0x10, 0x08, 0x01, 0x00, 0x40, 0x12, 0x03, 0x00, 0x00, 0x14
#define G 0x10, 0x07, 0x00, 0x00, 0x12, 0x03, 0x00, 0x00, 0x1E
#define Z 0x10, 0x03, 0x81, 0x00, 0x40

static const uint8_t msg[] = {M, S, G};
static const uint8_t mzg[] = {M, Z, G};
static const uint8_t msz[] = {M, S, Z};
static const uint8_t empty_named[] = {0x10, 0x03, 0x01, 0x00, 0x40, G};
static const uint8_t no_bit[] = {0x10, 0x08, 0x01, 0x00, 0x00, 0x12, 0x03, 0x00, 0x00, 0x14, G};
static const uint8_t bit_6[] = {0x10, 0x08, 0x01, 0x00, 0x02, 0x12, 0x03, 0x00, 0x00, 0x14};
static const uint8_t two_naming[] = {S, 0x10, 0x08, 0x01, 0x00, 0x60, 0x12, 0x03, 0x00, 0x00, 0x15};
static const uint8_t user_0[] = {0x10, 0x08, 0x00, 0x01, 0x80, 0x12, 0x03, 0x00, 0x00, 0x14, G};
static const uint8_t long_mask[] = {0x10, 0x0B, 0x09, 0x00, 0xFF, 0xFF, 0xFF, 0xFF, 0xFF, 0xFF, 0xFF, 0xFF, 0xFF};
static const uint8_t just_g[] = {G};

/* A TLV 238 that names SR Policy, with a link identifier of type 4 and SRLG 7. */
static const uint8_t srlg_7[] = {0xEE, 0x19, 1, 2, 3, 4, 5, 6, 7, 0x01, 0x00, 0x40, 0x0A, 0x04, 0x08, 0, 0, 0, 1, 0, 0, 0, 2, 0, 0, 0, 7};

static const unsigned codes[] = {1088, 1089, 1090, 1091, 1092, 1096, 1114, 1115, 1116, 1117, 1118, 1119, 1120, 1173};

#define GENERAL NAKHSHIRUL_GENERAL
#define STANDARD NAKHSHIRUL_STANDARD
#define USER NAKHSHIRUL_USER

static int metric(struct link l, unsigned who, uint64_t number, uint64_t expected)
{
    return is(ask(l, who, number, 1092), NAKHSHIRUL_NUMBER, expected, 0) && list_untouched_from(0);
}

static int absent(struct answer r)
{
    return is(r, NAKHSHIRUL_ABSENT, 0, 0);
}

static void worked_links(void)
{
    struct link l = only_a(run_of(nothing, 0));
    size_t i;
    for (i = 0; i < sizeof codes / sizeof codes[0]; i++) {
        CHECK(absent(ask(l, GENERAL, 0, codes[i])));
        CHECK(absent(ask(l, STANDARD, 0, codes[i])));
        CHECK(absent(ask(l, STANDARD, 1, codes[i])));
        CHECK(absent(ask(l, USER, 31, codes[i])));
    }
    l = only_a(RUN(msg));
    CHECK(metric(l, STANDARD, 0, 10) && metric(l, STANDARD, 1, 20) && metric(l, STANDARD, 2, 30) && metric(l, USER, 5, 30));
    CHECK(metric(l, GENERAL, 0, 30) && metric(l, GENERAL, 64, 30));
    l = only_a(RUN(mzg));
    CHECK(metric(l, STANDARD, 1, 10) && metric(l, STANDARD, 2, 30));
    CHECK(metric(only_a(RUN(msz)), STANDARD, 1, 10));
    l = only_a(RUN(empty_named));
    CHECK(absent(ask(l, STANDARD, 1, 1092)) && metric(l, STANDARD, 2, 30) && metric(l, STANDARD, 0, 30));
    l = only_a(RUN(no_bit));
    CHECK(metric(l, STANDARD, 1, 30) && metric(l, STANDARD, 0, 30));
    l = only_a(RUN(bit_6));
    CHECK(metric(l, STANDARD, 6, 20) && absent(ask(l, STANDARD, 1, 1092)));
    l = only_a(RUN(two_naming));
    CHECK(metric(l, STANDARD, 1, 20) && metric(l, STANDARD, 2, 21));
    l = only_a(RUN(user_0));
    CHECK(metric(l, USER, 0, 20) && metric(l, STANDARD, 0, 30) && metric(l, STANDARD, 1, 30));
    CHECK(absent(ask(only_a(RUN(long_mask)), STANDARD, 1, 1092)));
    l = link_of(RUN(just_g), RUN(srlg_7), run_of(nothing, 0));
    CHECK(metric(l, STANDARD, 1, 30));
    CHECK(is(ask(l, STANDARD, 1, 1096), NAKHSHIRUL_SRLGS, 1, 0) && list[1] == 7 && list_untouched_from(1));
    CHECK(absent(ask(l, STANDARD, 2, 1096)));
}

/* ---- every status of a question */

/* Legacy attributes of each form; the bandwidth is a NaN with a payload, the reservable one 1.0. */
static const uint8_t each_form[] = {
    0x03, 0x04, 0x80, 0x00, 0x00, 0x01,                                     /* administrative group */
    0x09, 0x04, 0x7F, 0xA1, 0x23, 0x45,                                     /* maximum link bandwidth */
    0x0A, 0x04, 0x3F, 0x80, 0x00, 0x00,                                     /* maximum reservable bandwidth */
    0x22, 0x08, 0x80, 0x00, 0x00, 0x05, 0x00, 0x00, 0x00, 0x09,             /* minimum and maximum delay */
    0x0E, 0x08, 1, 2, 3, 4, 5, 6, 7, 8,                                     /* extended administrative group */
    0x25, 0x04, 0xFF, 0xFF, 0xFF, 0xFF,                                     /* residual bandwidth, a NaN */
};
static const uint8_t four_srlgs[] = {0, 0, 0, 9, 0xFF, 0xFF, 0xFF, 0xFF, 0, 0, 0, 9, 0, 0, 0, 2};

static void readings(void)
{
    struct link l = link_of(RUN(each_form), run_of(nothing, 0), RUN(four_srlgs));
    CHECK(is(ask(l, STANDARD, 0, 1088), NAKHSHIRUL_NUMBER, 0x80000001u, 0));
    CHECK(is(ask(l, STANDARD, 0, 1115), NAKHSHIRUL_PAIR, 0x80000005u, 9));
    CHECK(is(ask(l, STANDARD, 0, 1089), NAKHSHIRUL_BANDWIDTH, 0x7FA12345u, 0));
    CHECK(is(ask(l, USER, 31, 1089), NAKHSHIRUL_BANDWIDTH, 0x7FA12345u, 0));
    CHECK(is(ask(l, GENERAL, 0, 1090), NAKHSHIRUL_BANDWIDTH, 0x3F800000u, 0));
    CHECK(is(ask(l, STANDARD, 0, 1118), NAKHSHIRUL_BANDWIDTH, 0xFFFFFFFFu, 0));
    CHECK(absent(ask(l, STANDARD, 1, 1118)));
    CHECK(place(ask(l, STANDARD, 0, 1173), NAKHSHIRUL_RUN_A, 30, 8));
    CHECK(list_untouched_from(0));
    CHECK(is(ask(l, STANDARD, 0, 1096), NAKHSHIRUL_SRLGS, 3, 0));
    CHECK(list[1] == 2 && list[2] == 9 && list[3] == 0xFFFFFFFFu && list_untouched_from(3));
    CHECK(is(ask_with(l, STANDARD, 0, 1096, 3), NAKHSHIRUL_SRLGS, 3, 0) && list[3] == 0xFFFFFFFFu && list_untouched_from(3));
    CHECK(refused(ask_with(l, STANDARD, 0, 1096, 2), NAKHSHIRUL_NO_ROOM, NAKHSHIRUL_RUN_A, 0) && list_untouched_from(0));
    CHECK(absent(ask_with(l, STANDARD, 1, 1096, 0)));
}

static void values(void)
{
    struct link l = link_of(RUN(each_form), run_of(nothing, 0), RUN(four_srlgs));
    CHECK(place(value(l, STANDARD, 0, 1088), NAKHSHIRUL_RUN_A, 2, 4));
    CHECK(place(value(l, STANDARD, 0, 1089), NAKHSHIRUL_RUN_A, 8, 4));
    CHECK(place(value(l, STANDARD, 0, 1115), NAKHSHIRUL_RUN_A, 20, 8));
    CHECK(place(value(l, STANDARD, 0, 1173), NAKHSHIRUL_RUN_A, 30, 8));
    CHECK(absent(value(l, STANDARD, 0, 1092)));
    CHECK(absent(value(l, STANDARD, 0, 1096)));
    CHECK(absent(value(l, STANDARD, 64, 1088)));
    CHECK(absent(value(l, 3, 0, 1088)));
    CHECK(absent(value(l, STANDARD, 0, 1122)));
    l = only_a(RUN(msg));
    CHECK(place(value(l, STANDARD, 0, 1092), NAKHSHIRUL_RUN_A, 2, 3));
    CHECK(place(value(l, STANDARD, 1, 1092), NAKHSHIRUL_RUN_A, 12, 3));
    CHECK(place(value(l, USER, 5, 1092), NAKHSHIRUL_RUN_A, 21, 3));
    CHECK(absent(value(only_a(run_of(msg, 8)), STANDARD, 0, 1092)));
}

static void names(void)
{
    static const uint8_t all[] = {0x10, 0x12, 0x08, 0x08, 0xFF, 0xFF, 0xFF, 0xFF, 0xFF, 0xFF, 0xFF, 0xFF, 0x80, 0, 0, 1, 0, 0, 0, 1};
    CHECK(is(named(only_a(run_of(nothing, 0))), NAKHSHIRUL_NAMED, 0, 0));
    CHECK(is(named(only_a(RUN(msg))), NAKHSHIRUL_NAMED, 2, 0));
    CHECK(is(named(only_a(RUN(two_naming))), NAKHSHIRUL_NAMED, 6, 0));
    CHECK(is(named(only_a(RUN(bit_6))), NAKHSHIRUL_NAMED, 64, 0));
    CHECK(is(named(only_a(RUN(user_0))), NAKHSHIRUL_NAMED, 0, 1));
    CHECK(is(named(only_a(RUN(all))), NAKHSHIRUL_NAMED, 0xFFFFFFFFFFFFFFFEu, 0x80000001u));
    CHECK(is(named(link_of(RUN(just_g), RUN(srlg_7), run_of(nothing, 0))), NAKHSHIRUL_NAMED, 2, 0));
    CHECK(refused(named(only_a(run_of(msg, 4))), NAKHSHIRUL_CUT, NAKHSHIRUL_RUN_A, 0));
}

/* ---- the export */

static const uint8_t msg_export[] = {
    0x04, 0x44, 0x00, 0x04, 0x00, 0x00, 0x00, 0x0A, 0x04, 0x62, 0x00, 0x0C, 0x00, 0x00, 0x00,
    0x00, 0x04, 0x44, 0x00, 0x04, 0x00, 0x00, 0x00, 0x1E, 0x04, 0x62, 0x00, 0x10, 0x04, 0x00,
    0x00, 0x00, 0x40, 0x00, 0x00, 0x00, 0x04, 0x44, 0x00, 0x04, 0x00, 0x00, 0x00, 0x14,
};

static void exports(void)
{
    struct link l = only_a(RUN(msg));
    CHECK(sizeof msg_export == 44);
    CHECK(is(export_to(l, 44), NAKHSHIRUL_WRITTEN, 44, 0));
    CHECK(memcmp(out + 1, msg_export, 44) == 0 && out_untouched_from(44));
    CHECK(is(export_to(l, OUT), NAKHSHIRUL_WRITTEN, 44, 0));
    CHECK(memcmp(out + 1, msg_export, 44) == 0 && out_untouched_from(44));
    CHECK(refused(export_to(l, 43), NAKHSHIRUL_NO_ROOM, NAKHSHIRUL_RUN_A, 0) && out_untouched_from(0));
    CHECK(refused(export_to(l, 0), NAKHSHIRUL_NO_ROOM, NAKHSHIRUL_RUN_A, 0) && out_untouched_from(0));
    CHECK(is(export_to(only_a(run_of(nothing, 0)), 0), NAKHSHIRUL_WRITTEN, 0, 0) && out_untouched_from(0));
    CHECK(is(export_to(only_a(RUN(empty_named)), OUT), NAKHSHIRUL_WRITTEN, 36, 0));
    CHECK(refused(export_to(only_a(run_of(msg, 4)), OUT), NAKHSHIRUL_CUT, NAKHSHIRUL_RUN_A, 0) && out_untouched_from(0));
    CHECK(is(export_length(l), NAKHSHIRUL_WRITTEN, 44, 0) && is(export_length(only_a(RUN(empty_named))), NAKHSHIRUL_WRITTEN, 36, 0));
    CHECK(refused(export_length(only_a(run_of(msg, 4))), NAKHSHIRUL_CUT, NAKHSHIRUL_RUN_A, 0));
}

/* ---- refusals: number, run, offset, order */

static uint8_t zeros[524289];

static void refusals(void)
{
    static const uint8_t short_asla[] = {0x10, 0x01, 0x00};
    static const uint8_t short_metric[] = {0x12, 0x02, 0x00, 0x0A};
    static const uint8_t past_end[] = {M, 0x12, 0x03, 0x00, 0x00};
    static const uint8_t inner_length[] = {M, 0x10, 0x06, 0x00, 0x00, 0x12, 0x02, 0x00, 0x14};
    static const uint8_t short_238[] = {0xEE, 0x01, 0x00};
    static const uint8_t framed_then_cut[] = {0x01, 0x00, 0xEE, 0x02, 0x00};
    struct run none = run_of(nothing, 0);
    struct link l = only_a(RUN(msg));
    CHECK(refused(ask(only_a(RUN(short_asla)), STANDARD, 1, 1092), NAKHSHIRUL_CUT, NAKHSHIRUL_RUN_A, 0));
    CHECK(refused(ask(only_a(RUN(short_metric)), STANDARD, 1, 1092), NAKHSHIRUL_LENGTH, NAKHSHIRUL_RUN_A, 0));
    CHECK(refused(ask(only_a(RUN(past_end)), STANDARD, 1, 1092), NAKHSHIRUL_CUT, NAKHSHIRUL_RUN_A, 5));
    CHECK(refused(ask(only_a(RUN(inner_length)), STANDARD, 1, 1092), NAKHSHIRUL_LENGTH, NAKHSHIRUL_RUN_A, 9));
    CHECK(refused(ask(link_of(none, RUN(short_238), none), STANDARD, 1, 1092), NAKHSHIRUL_CUT, NAKHSHIRUL_RUN_B, 0));
    CHECK(refused(named(link_of(none, RUN(framed_then_cut), none)), NAKHSHIRUL_CUT, NAKHSHIRUL_RUN_B, 2));
    CHECK(refused(ask(link_of(none, none, run_of(msg, 5)), STANDARD, 1, 1092), NAKHSHIRUL_ODD_SRLGS, NAKHSHIRUL_RUN_A, 0));
    CHECK(absent(ask(only_a(run_of(zeros, 2048)), STANDARD, 1, 1092)));
    CHECK(refused(ask(only_a(run_of(zeros, 2049)), STANDARD, 1, 1092), NAKHSHIRUL_TOO_LONG, NAKHSHIRUL_RUN_A, 0));
    CHECK(refused(ask(link_of(none, run_of(zeros, 2049), none), STANDARD, 1, 1092), NAKHSHIRUL_TOO_LONG, NAKHSHIRUL_RUN_A, 0));
    CHECK(refused(ask(link_of(none, none, run_of(zeros, 1025)), STANDARD, 1, 1092), NAKHSHIRUL_TOO_LONG, NAKHSHIRUL_RUN_A, 0));
    CHECK(metric(l, STANDARD, 63, 30) && metric(l, USER, 31, 30));
    CHECK(refused(ask(l, STANDARD, 64, 1092), NAKHSHIRUL_NO_APPLICATION, NAKHSHIRUL_RUN_A, 0));
    CHECK(refused(ask(l, USER, 32, 1092), NAKHSHIRUL_NO_APPLICATION, NAKHSHIRUL_RUN_A, 0));
    CHECK(refused(ask(l, USER, 63, 1092), NAKHSHIRUL_NO_APPLICATION, NAKHSHIRUL_RUN_A, 0));
    CHECK(refused(ask(l, USER, 64, 1092), NAKHSHIRUL_NO_APPLICATION, NAKHSHIRUL_RUN_A, 0));
    CHECK(refused(ask(l, STANDARD, 0x100000001u, 1092), NAKHSHIRUL_NO_APPLICATION, NAKHSHIRUL_RUN_A, 0));
    CHECK(refused(ask(l, USER, 0xFFFFFFFFFFFFFFFFu, 1092), NAKHSHIRUL_NO_APPLICATION, NAKHSHIRUL_RUN_A, 0));
    CHECK(refused(ask(l, 3, 0, 1092), NAKHSHIRUL_NO_APPLICATION, NAKHSHIRUL_RUN_A, 0));
    CHECK(refused(ask(only_a(run_of(zeros, 2049)), 255, 0, 1), NAKHSHIRUL_NO_APPLICATION, NAKHSHIRUL_RUN_A, 0));
    CHECK(refused(ask(l, STANDARD, 1, 1122), NAKHSHIRUL_NO_KIND, NAKHSHIRUL_RUN_A, 0));
    CHECK(refused(ask(only_a(run_of(zeros, 2049)), STANDARD, 1, 0), NAKHSHIRUL_NO_KIND, NAKHSHIRUL_RUN_A, 0));
    CHECK(refused(ask(l, STANDARD, 64, 0), NAKHSHIRUL_NO_APPLICATION, NAKHSHIRUL_RUN_A, 0));
    CHECK(refused(ask(link_of(RUN(past_end), RUN(short_238), run_of(msg, 5)), STANDARD, 1, 1092), NAKHSHIRUL_ODD_SRLGS, NAKHSHIRUL_RUN_A, 0));
    CHECK(refused(ask(link_of(RUN(past_end), RUN(short_238), none), STANDARD, 1, 1092), NAKHSHIRUL_CUT, NAKHSHIRUL_RUN_A, 5));
}

/* ---- BGP-LS runs */

static void runs(void)
{
    static const uint8_t form_each[] = {
        0x04, 0x41, 0x00, 0x04, 0x7F, 0xA1, 0x23, 0x45,             /* 1089, a NaN */
        0x04, 0x95, 0x00, 0x04, 0x00, 0x00, 0x00, 0x02,             /* 1173 */
        0x04, 0x48, 0x00, 0x08, 0, 0, 0, 9, 0, 0, 0, 2,             /* 1096 */
        0x04, 0x5B, 0x00, 0x08, 0, 0, 0, 1, 0, 0, 0, 3,             /* 1115 */
    };
    static const uint8_t bad_length[] = {0x00, 0x01, 0x00, 0x00, 0x04, 0x44, 0x00, 0x03, 0x00, 0x00, 0x0A};
    static const uint8_t cut_header[] = {0x00, 0x01, 0x00, 0x00, 0x04, 0x44, 0x00};
    struct run r = RUN(msg_export);
    CHECK(is(run_ask(r, STANDARD, 0, 1092), NAKHSHIRUL_NUMBER, 10, 0));
    CHECK(is(run_ask(r, STANDARD, 1, 1092), NAKHSHIRUL_NUMBER, 20, 0));
    CHECK(is(run_ask(r, STANDARD, 2, 1092), NAKHSHIRUL_NUMBER, 30, 0));
    CHECK(is(run_ask(r, USER, 5, 1092), NAKHSHIRUL_NUMBER, 30, 0));
    CHECK(is(run_ask(r, GENERAL, 99, 1092), NAKHSHIRUL_NUMBER, 30, 0));
    CHECK(place(run_value(r, STANDARD, 1, 1092), NAKHSHIRUL_RUN_BGPLS, 40, 4));
    CHECK(is(run_named(r), NAKHSHIRUL_NAMED, 2, 0));
    CHECK(absent(run_ask(run_of(nothing, 0), GENERAL, 0, 1092)) && is(run_named(run_of(nothing, 0)), NAKHSHIRUL_NAMED, 0, 0));
    r = RUN(form_each);
    CHECK(is(run_ask(r, USER, 1, 1089), NAKHSHIRUL_BANDWIDTH, 0x7FA12345u, 0));
    CHECK(place(run_ask(r, STANDARD, 0, 1173), NAKHSHIRUL_RUN_BGPLS, 12, 4));
    CHECK(is(run_ask(r, STANDARD, 0, 1096), NAKHSHIRUL_SRLGS, 2, 0) && list[1] == 2 && list[2] == 9 && list_untouched_from(2));
    CHECK(refused(run_ask_with(r, STANDARD, 0, 1096, 1), NAKHSHIRUL_NO_ROOM, NAKHSHIRUL_RUN_A, 0) && list_untouched_from(0));
    CHECK(is(run_ask(r, STANDARD, 0, 1115), NAKHSHIRUL_PAIR, 1, 3));
    CHECK(absent(run_value(r, STANDARD, 0, 1096)));
    CHECK(refused(run_ask(RUN(bad_length), GENERAL, 0, 1092), NAKHSHIRUL_LENGTH, NAKHSHIRUL_RUN_BGPLS, 4));
    CHECK(refused(run_named(RUN(cut_header)), NAKHSHIRUL_CUT, NAKHSHIRUL_RUN_BGPLS, 4));
    CHECK(absent(run_value(RUN(bad_length), GENERAL, 0, 1092)));
    CHECK(refused(run_ask(r, 3, 0, 1092), NAKHSHIRUL_NO_APPLICATION, NAKHSHIRUL_RUN_A, 0));
    CHECK(refused(run_ask(r, USER, 32, 1), NAKHSHIRUL_NO_APPLICATION, NAKHSHIRUL_RUN_A, 0));
    CHECK(refused(run_ask(r, USER, 1, 1), NAKHSHIRUL_NO_KIND, NAKHSHIRUL_RUN_A, 0));
    CHECK(absent(run_ask(run_of(zeros, 524288), GENERAL, 0, 1092)));
    CHECK(refused(run_ask(run_of(zeros, 524289), GENERAL, 0, 1092), NAKHSHIRUL_TOO_LONG, NAKHSHIRUL_RUN_A, 0));
}

/* ---- why */

static int by(struct answer r, unsigned rule, unsigned run, uint64_t offset)
{
    return is_whole(r, NAKHSHIRUL_WHY, rule, offset, run);
}

static int by_none(struct answer r, unsigned rule)
{
    return is_whole(r, NAKHSHIRUL_WHY, rule, NAKHSHIRUL_NOWHERE, 0);
}

static int by_legacy(struct answer r, unsigned run)
{
    return is_whole(r, NAKHSHIRUL_WHY, NAKHSHIRUL_RULE_LEGACY, NAKHSHIRUL_NOWHERE, run);
}

static void reasons(void)
{
    static const uint8_t carried[] = {M, 0x10, 0x08, 0x00, 0x00, 0x09, 0x04, 0x00, 0x00, 0x00, 0x01};
    static const uint8_t cut[] = {M, 0x12};
    struct run none = run_of(NULL, 0);
    struct link l = only_a(RUN(mzg));
    CHECK(by(why(l, STANDARD, 1, 1092), NAKHSHIRUL_RULE_L_FLAG, NAKHSHIRUL_RUN_A, 5));
    CHECK(by(why(l, STANDARD, 1, 1114), NAKHSHIRUL_RULE_L_FLAG, NAKHSHIRUL_RUN_A, 5));
    CHECK(by(why(l, STANDARD, 2, 1092), NAKHSHIRUL_RULE_UNNAMED, NAKHSHIRUL_RUN_A, 10));
    CHECK(by_none(why(l, STANDARD, 2, 1114), NAKHSHIRUL_RULE_UNNAMED));
    CHECK(by(why(l, GENERAL, 99, 1092), NAKHSHIRUL_RULE_GENERAL, NAKHSHIRUL_RUN_A, 10));
    CHECK(by_none(why(l, GENERAL, 0, 1096), NAKHSHIRUL_RULE_GENERAL));
    CHECK(by_legacy(why(l, STANDARD, 0, 1092), NAKHSHIRUL_RUN_A));
    CHECK(by_none(why(l, STANDARD, 0, 1096), NAKHSHIRUL_RULE_UNNAMED));
    CHECK(by_legacy(why(link_of(RUN(mzg), none, RUN(four_srlgs)), STANDARD, 0, 1096), NAKHSHIRUL_RUN_C));
    CHECK(by_legacy(why(l, USER, 5, 1089), NAKHSHIRUL_RUN_A));
    CHECK(by(why(only_a(RUN(msg)), STANDARD, 1, 1092), NAKHSHIRUL_RULE_NAMED, NAKHSHIRUL_RUN_A, 5));
    CHECK(by(why(only_a(RUN(empty_named)), STANDARD, 1, 1092), NAKHSHIRUL_RULE_NAMED, NAKHSHIRUL_RUN_A, 0));
    CHECK(by(why(only_a(RUN(carried)), USER, 31, 1089), NAKHSHIRUL_RULE_CARRIED, NAKHSHIRUL_RUN_A, 5));
    l = link_of(RUN(just_g), RUN(srlg_7), none);
    CHECK(by(why(l, STANDARD, 1, 1096), NAKHSHIRUL_RULE_NAMED, NAKHSHIRUL_RUN_B, 0));
    CHECK(by(why(l, STANDARD, 1, 1092), NAKHSHIRUL_RULE_UNNAMED, NAKHSHIRUL_RUN_A, 0));
    CHECK(refused(why(l, STANDARD, 64, 1), NAKHSHIRUL_NO_APPLICATION, NAKHSHIRUL_RUN_A, 0));
    CHECK(refused(why(l, 3, 0, 1092), NAKHSHIRUL_NO_APPLICATION, NAKHSHIRUL_RUN_A, 0));
    CHECK(refused(why(l, STANDARD, 1, 1122), NAKHSHIRUL_NO_KIND, NAKHSHIRUL_RUN_A, 0));
    CHECK(refused(why(only_a(RUN(cut)), STANDARD, 1, 1092), NAKHSHIRUL_CUT, NAKHSHIRUL_RUN_A, 5));
    CHECK(refused(why(link_of(none, none, run_of(msg, 5)), STANDARD, 1, 1092), NAKHSHIRUL_ODD_SRLGS, NAKHSHIRUL_RUN_A, 0));
    CHECK(by_none(run_why(RUN(msg_export), STANDARD, 0, 1092), NAKHSHIRUL_RULE_TOP));
    CHECK(by_none(run_why(RUN(msg_export), USER, 1, 1089), NAKHSHIRUL_RULE_TOP));
    CHECK(by(run_why(RUN(msg_export), STANDARD, 1, 1092), NAKHSHIRUL_RULE_NAMED, NAKHSHIRUL_RUN_BGPLS, 24));
    CHECK(by(run_why(RUN(msg_export), USER, 1, 1092), NAKHSHIRUL_RULE_UNNAMED, NAKHSHIRUL_RUN_BGPLS, 8));
    CHECK(by(run_why(RUN(msg_export), GENERAL, 1, 1092), NAKHSHIRUL_RULE_GENERAL, NAKHSHIRUL_RUN_BGPLS, 8));
    CHECK(by_none(run_why(RUN(msg_export), GENERAL, 1, 1096), NAKHSHIRUL_RULE_GENERAL));
    CHECK(refused(run_why(run_of(msg_export, 43), GENERAL, 1, 1092), NAKHSHIRUL_CUT, NAKHSHIRUL_RUN_BGPLS, 24));
}

/* ---- the worked cases of document 02's requests */

#define M_HEX "12 03 00 00 0A "
#define S_HEX "10 08 01 00 40 12 03 00 00 14 "
#define G_HEX "10 07 00 00 12 03 00 00 1E "

/* Whether the export of a link is these bytes, its length is told so, and one byte less is too little. */
static int exported(struct link l, const char *text)
{
    struct run due = hex(text);
    if (!is(export_to(l, due.len), NAKHSHIRUL_WRITTEN, due.len, 0) || memcmp(out + 1, due.bytes, due.len) != 0 || !out_untouched_from(due.len))
        return 0;
    if (due.len > 0 && !(refused(export_to(l, due.len - 1), NAKHSHIRUL_NO_ROOM, NAKHSHIRUL_RUN_A, 0) && out_untouched_from(0)))
        return 0;
    return is(export_length(l), NAKHSHIRUL_WRITTEN, due.len, 0);
}

/* Whether every function refuses a link so, whatever it is asked, and the value function has nothing. */
static int all_refused(struct link l, unsigned number, unsigned run, uint64_t offset)
{
    return refused(ask(l, STANDARD, 1, 1092), number, run, offset) && refused(ask(l, GENERAL, 0, 1096), number, run, offset)
        && refused(why(l, STANDARD, 0, 1089), number, run, offset) && refused(named(l), number, run, offset)
        && refused(export_to(l, OUT), number, run, offset) && out_untouched_from(0) && refused(export_length(l), number, run, offset)
        && absent(value(l, STANDARD, 1, 1092)) && list_untouched_from(0);
}

/* E12: user bits 32 to 63 are retired. */
static void retired_bits(void)
{
    struct link l = only_a_hex("10 0C 00 05 00 00 00 00 80 12 03 00 00 14" G_HEX);
    uint64_t n;
    for (n = 32; n < 64; n++) {
        CHECK(refused(ask(l, USER, n, 1092), NAKHSHIRUL_NO_APPLICATION, NAKHSHIRUL_RUN_A, 0));
        CHECK(refused(ask(l, USER, n, 1), NAKHSHIRUL_NO_APPLICATION, NAKHSHIRUL_RUN_A, 0));
        CHECK(refused(why(l, USER, n, 1092), NAKHSHIRUL_NO_APPLICATION, NAKHSHIRUL_RUN_A, 0));
        CHECK(refused(run_ask(RUN(msg_export), USER, n, 1092), NAKHSHIRUL_NO_APPLICATION, NAKHSHIRUL_RUN_A, 0));
        CHECK(refused(run_why(RUN(msg_export), USER, n, 1092), NAKHSHIRUL_NO_APPLICATION, NAKHSHIRUL_RUN_A, 0));
        CHECK(absent(value(l, USER, n, 1092)) && absent(run_value(RUN(msg_export), USER, n, 1092)));
    }
    CHECK(metric(l, USER, 31, 30));
    CHECK(is(named(l), NAKHSHIRUL_NAMED, 0, 0));
    CHECK(exported(l, "044400040000001e0462000c00000000044400040000001e"));
    l = only_a_hex("10 0F 00 08 00 00 00 01 00 00 00 01 12 03 00 00 14");
    CHECK(is(named(l), NAKHSHIRUL_NAMED, 0, 2147483648u) && metric(l, USER, 31, 20));
    CHECK(exported(l, "0462001000040000000000010444000400000014"));
    l = only_a_hex("10 0F 01 06 80 00 00 00 00 00 80 0A 04 4C 00 00 01");
    CHECK(is(ask(l, STANDARD, 0, 1090), NAKHSHIRUL_BANDWIDTH, 0x4C000001u, 0));
    CHECK(absent(ask(only_a_hex("10 0D 01 04 80 00 00 00 01 0A 04 4C 00 00 01"), STANDARD, 0, 1090)));
    l = only_a_hex("10 0D 00 05 00 00 00 00 80 09 04 4C 00 00 02");
    CHECK(is(ask(l, USER, 7, 1089), NAKHSHIRUL_BANDWIDTH, 0x4C000002u, 0));
    CHECK(all_refused(only_a_hex("10 0B 00 05 00 00 00 00 80 12 02 00 14"), NAKHSHIRUL_LENGTH, NAKHSHIRUL_RUN_A, 9));
    l = link_hex("", "EE 1E 00 00 00 00 00 02 00 00 06 00 00 00 00 00 80 0A 04 08 00 00 00 01 00 00 00 02 00 00 00 07", "");
    CHECK(is(named(l), NAKHSHIRUL_NAMED, 0, 0) && absent(ask(l, GENERAL, 0, 1096)) && exported(l, ""));
    CHECK(is(run_named(hex("0462 0014 0008 0000 00000001 00000001 0444 0004 00000014")), NAKHSHIRUL_NAMED, 0, 2147483648u));
    CHECK(absent(run_ask(hex("0462 0014 0008 0000 00000000 00000001 0444 0004 00000014"), GENERAL, 0, 1092)));
}

/* An ASLA of SR Policy with two TE metrics. */
#define TWO_METRICS "10 0D 01 00 40 12 03 00 00 14 12 03 00 00 15 "

/* Whether every function refuses a run so, whatever it is asked, and the value function has nothing. */
static int all_of_run_refused(struct run r, unsigned number, uint64_t offset)
{
    return refused(run_ask(r, STANDARD, 1, 1092), number, NAKHSHIRUL_RUN_BGPLS, offset)
        && refused(run_ask(r, STANDARD, 0, 1096), number, NAKHSHIRUL_RUN_BGPLS, offset)
        && refused(run_why(r, GENERAL, 0, 1092), number, NAKHSHIRUL_RUN_BGPLS, offset)
        && refused(run_named(r), number, NAKHSHIRUL_RUN_BGPLS, offset) && absent(run_value(r, STANDARD, 1, 1092)) && list_untouched_from(0);
}

/* E5: the same kind twice in one ASLA is refused. */
static void twice(void)
{
    struct link l;
    CHECK(all_refused(only_a_hex(TWO_METRICS), NAKHSHIRUL_TWICE, NAKHSHIRUL_RUN_A, 10));
    CHECK(all_refused(only_a_hex(M_HEX TWO_METRICS), NAKHSHIRUL_TWICE, NAKHSHIRUL_RUN_A, 15));
    CHECK(all_refused(only_a_hex("10 0C 01 00 40 12 03 00 00 14 12 02 00 15"), NAKHSHIRUL_LENGTH, NAKHSHIRUL_RUN_A, 10));
    CHECK(all_refused(only_a_hex("10 0F 01 00 40 12 03 00 00 14 12 03 00 00 15 12 09"), NAKHSHIRUL_TWICE, NAKHSHIRUL_RUN_A, 10));
    CHECK(all_refused(only_a_hex("10 0E 00 00 09 04 4C 00 00 01 09 04 4C 00 00 02"), NAKHSHIRUL_TWICE, NAKHSHIRUL_RUN_A, 10));
    CHECK(all_refused(only_a_hex("10 0D 01 00 00 12 03 00 00 14 12 03 00 00 15"), NAKHSHIRUL_TWICE, NAKHSHIRUL_RUN_A, 10));
    CHECK(all_refused(only_a_hex("10 13 01 00 40 12 03 00 00 14 03 04 00 00 00 01 12 03 00 00 15"), NAKHSHIRUL_TWICE, NAKHSHIRUL_RUN_A, 16));
    l = only_a_hex(M_HEX "10 0D 81 00 40 12 03 00 00 14 12 03 00 00 15");
    CHECK(metric(l, STANDARD, 1, 10));
    l = only_a_hex("10 15 09 00 40 00 00 00 00 00 00 00 00 12 03 00 00 14 12 03 00 00 15");
    CHECK(absent(ask(l, STANDARD, 1, 1092)) && is(named(l), NAKHSHIRUL_NAMED, 0, 0));
    CHECK(is(named(only_a_hex("10 0B 01 00 40 C8 02 00 00 C8 02 00 01")), NAKHSHIRUL_NAMED, 2, 0));
    CHECK(is(named(only_a_hex("10 07 01 00 40 10 00 10 00")), NAKHSHIRUL_NAMED, 2, 0));
    CHECK(metric(only_a_hex("12 03 00 00 0A 12 03 00 00 0B"), STANDARD, 0, 10));
    CHECK(metric(only_a_hex(S_HEX "10 08 01 00 40 12 03 00 00 15"), STANDARD, 1, 20));
    l = link_hex("", "EE 22 00 00 00 00 00 02 00 00 00 14 04 08 00 00 00 01 00 00 00 02 04 08 00 00 00 01 00 00 00 02 00 00 00 07", "");
    CHECK(absent(ask(l, GENERAL, 0, 1096)));
    CHECK(all_of_run_refused(hex("0462 0018 04000000 40000000 0444 0004 00000014 0444 0004 00000015"), NAKHSHIRUL_TWICE, 20));
    CHECK(all_of_run_refused(hex("0462 0010 04000000 40000000 0448 0000 0448 0000"), NAKHSHIRUL_TWICE, 16));
    CHECK(all_of_run_refused(hex("0462 0013 04000000 40000000 0448 0000 0448 0003 000000"), NAKHSHIRUL_LENGTH, 16));
    CHECK(is(run_named(hex("0462 0010 04000000 40000000 0441 0000 0441 0000")), NAKHSHIRUL_NAMED, 2, 0));
    CHECK(is(run_named(hex("0462 0010 04000000 40000000 0462 0000 0462 0000")), NAKHSHIRUL_NAMED, 2, 0));
    CHECK(is(run_named(hex("0462 0018 05000000 40000000 0444 0004 00000014 0444 0004 00000015")), NAKHSHIRUL_NAMED, 0, 0));
    CHECK(is(run_ask(hex("0444 0004 00000014 0444 0004 00000015"), STANDARD, 0, 1092), NAKHSHIRUL_NUMBER, 20, 0));
    CHECK(is(run_ask(hex("0448 0004 00000009 0448 0004 00000007"), STANDARD, 0, 1096), NAKHSHIRUL_SRLGS, 2, 0) && list[1] == 7 && list[2] == 9);
}

/* A TLV 238 for everybody not named, with SRLG 9. */
#define GENERAL_9 "EE 18 00 00 00 00 00 02 00 00 00 0A 04 08 00 00 00 01 00 00 00 02 00 00 00 09 "

static int has_srlg(struct link l, unsigned who, uint64_t number, uint32_t srlg)
{
    return is(ask(l, who, number, 1096), NAKHSHIRUL_SRLGS, 1, 0) && list[1] == srlg && list_untouched_from(1);
}

/* E2: RSVP-TE takes the general set of a side where nothing names it and legacy has none of the eleven kinds. */
static void general_for_rsvp_te(void)
{
    struct link l = only_a_hex("10 03 01 00 40 " G_HEX);
    CHECK(metric(l, STANDARD, 0, 30) && is(export_length(l), NAKHSHIRUL_WRITTEN, 36, 0));
    CHECK(by(why(l, STANDARD, 0, 1092), NAKHSHIRUL_RULE_UNNAMED, NAKHSHIRUL_RUN_A, 5));
    CHECK(by_none(why(l, STANDARD, 0, 1114), NAKHSHIRUL_RULE_UNNAMED));
    CHECK(exported(l, "044400040000001e 0462000c00000000 044400040000001e 0462000804000000 40000000"));
    l = only_a_hex("10 08 01 00 00 12 03 00 00 14 " G_HEX);
    CHECK(metric(l, STANDARD, 0, 30) && is(export_length(l), NAKHSHIRUL_WRITTEN, 24, 0));
    l = only_a_hex("10 08 00 01 80 12 03 00 00 14 " G_HEX);
    CHECK(metric(l, STANDARD, 0, 30) && metric(l, USER, 0, 20) && is(export_length(l), NAKHSHIRUL_WRITTEN, 44, 0));
    CHECK(is(export_length(link_of(RUN(just_g), RUN(srlg_7), run_of(nothing, 0))), NAKHSHIRUL_WRITTEN, 52, 0));
    l = only_a_hex("09 04 4C 00 00 01 " G_HEX);
    CHECK(metric(l, STANDARD, 0, 30) && is(export_length(l), NAKHSHIRUL_WRITTEN, 32, 0));
    l = only_a_hex("03 04 00 00 00 05 " G_HEX);
    CHECK(absent(ask(l, STANDARD, 0, 1092)) && is(export_length(l), NAKHSHIRUL_WRITTEN, 24, 0));
    CHECK(by_legacy(why(l, STANDARD, 0, 1092), NAKHSHIRUL_RUN_A));
    l = only_a_hex("10 03 01 00 80 " G_HEX);
    CHECK(absent(ask(l, STANDARD, 0, 1092)) && is(export_length(l), NAKHSHIRUL_WRITTEN, 16, 0));
    l = only_a_hex("10 03 81 00 80 " G_HEX);
    CHECK(absent(ask(l, STANDARD, 0, 1092)) && is(export_length(l), NAKHSHIRUL_WRITTEN, 16, 0));
    l = link_hex(G_HEX, GENERAL_9, "");
    CHECK(has_srlg(l, STANDARD, 0, 9) && metric(l, STANDARD, 0, 30));
    CHECK(by(why(l, STANDARD, 0, 1096), NAKHSHIRUL_RULE_UNNAMED, NAKHSHIRUL_RUN_B, 0));
    CHECK(place(value(l, STANDARD, 0, 1092), NAKHSHIRUL_RUN_A, 6, 3));
    CHECK(exported(l, "044400040000001e04480004000000090462001400000000044400040000001e0448000400000009"));
    l = link_hex(G_HEX, GENERAL_9, "00000001");
    CHECK(has_srlg(l, STANDARD, 0, 1) && has_srlg(l, STANDARD, 1, 9) && metric(l, STANDARD, 0, 30));
    CHECK(by_legacy(why(l, STANDARD, 0, 1096), NAKHSHIRUL_RUN_C));
    l = link_hex(M_HEX G_HEX, GENERAL_9, "");
    CHECK(has_srlg(l, STANDARD, 0, 9) && metric(l, STANDARD, 0, 10));
    /* Named on side B, without a value and with the L-flag. */
    l = link_hex(G_HEX, GENERAL_9 "EE 15 00 00 00 00 00 02 00 01 00 80 0A 04 08 00 00 00 01 00 00 00 02", "");
    CHECK(absent(ask(l, STANDARD, 0, 1096)) && metric(l, STANDARD, 0, 30) && by_legacy(why(l, STANDARD, 0, 1096), NAKHSHIRUL_RUN_C));
    l = link_hex(G_HEX, GENERAL_9 "EE 15 00 00 00 00 00 02 00 81 00 80 0A 04 08 00 00 00 01 00 00 00 02", "");
    CHECK(absent(ask(l, STANDARD, 0, 1096)) && metric(l, STANDARD, 0, 30));
    CHECK(by(why(l, STANDARD, 0, 1096), NAKHSHIRUL_RULE_L_FLAG, NAKHSHIRUL_RUN_B, 26));
    /* The reader does not change. */
    CHECK(absent(run_ask(hex("0462000c00000000044400040000001e"), STANDARD, 0, 1092)));
    CHECK(by_none(run_why(hex("0462000c00000000044400040000001e"), STANDARD, 0, 1092), NAKHSHIRUL_RULE_TOP));
}

/* ---- null pointers with length 0 */

static uint64_t null_ask(struct link l, unsigned code)
{
    return nakhshirul_ask(l.a.bytes, l.a.len, l.b.bytes, l.b.len, l.c.bytes, l.c.len, STANDARD, 0, (uint16_t)code, NULL, 0, lend());
}

static void nulls(void)
{
    struct run none = run_of(NULL, 0);
    struct link l = link_of(none, none, none);
    size_t i;
    for (i = 0; i < sizeof codes / sizeof codes[0]; i++) {
        CHECK(absent(take(null_ask(l, codes[i]))));
        CHECK(absent(value(l, USER, 5, codes[i])));
        CHECK(absent(take(nakhshirul_run_ask(NULL, 0, GENERAL, 0, (uint16_t)codes[i], NULL, 0, lend()))));
        CHECK(absent(run_value(none, STANDARD, 1, codes[i])));
        CHECK(why(l, USER, 5, codes[i]).status == NAKHSHIRUL_WHY && run_why(none, USER, 5, codes[i]).status == NAKHSHIRUL_WHY);
    }
    CHECK(by_none(why(l, USER, 5, 1092), NAKHSHIRUL_RULE_UNNAMED) && by_none(run_why(none, USER, 5, 1092), NAKHSHIRUL_RULE_UNNAMED));
    CHECK(is(named(l), NAKHSHIRUL_NAMED, 0, 0) && is(run_named(none), NAKHSHIRUL_NAMED, 0, 0));
    CHECK(is(take(nakhshirul_export(NULL, 0, NULL, 0, NULL, 0, NULL, 0, lend())), NAKHSHIRUL_WRITTEN, 0, 0));
    CHECK(is(export_to(l, OUT), NAKHSHIRUL_WRITTEN, 0, 0) && out_untouched_from(0));
    CHECK(is(take(nakhshirul_export_length(NULL, 0, NULL, 0, NULL, 0, lend())), NAKHSHIRUL_WRITTEN, 0, 0));
    l = link_of(RUN(msg), none, RUN(four_srlgs));
    CHECK(is(take(null_ask(l, 1092)), NAKHSHIRUL_NUMBER, 10, 0));
    CHECK(refused(take(null_ask(l, 1096)), NAKHSHIRUL_NO_ROOM, NAKHSHIRUL_RUN_A, 0));
    CHECK(is(ask(l, STANDARD, 0, 1096), NAKHSHIRUL_SRLGS, 3, 0));
    CHECK(refused(take(nakhshirul_export(l.a.bytes, l.a.len, NULL, 0, l.c.bytes, l.c.len, NULL, 0, lend())), NAKHSHIRUL_NO_ROOM, NAKHSHIRUL_RUN_A, 0));
    l = link_of(none, RUN(srlg_7), none);
    CHECK(is(ask(l, STANDARD, 1, 1096), NAKHSHIRUL_SRLGS, 1, 0) && is(named(l), NAKHSHIRUL_NAMED, 2, 0));
    CHECK(refused(ask(l, STANDARD, 64, 1096), NAKHSHIRUL_NO_APPLICATION, NAKHSHIRUL_RUN_A, 0));
}

/* ---- the limits that the header tells */

/* A TLV 238 that names SR Policy, with a link identifier of type 4 and so many SRLGs. */
static size_t tlv_238(uint8_t *b, unsigned count, uint32_t *srlg)
{
    uint8_t *p = b;
    *p++ = 0xEE;
    *p++ = (uint8_t)(21 + 4 * count);
    memset(p, 0, 21);
    p[7] = 1;
    p[9] = 0x40;
    p[10] = 10;
    p[11] = 4;
    p[12] = 8;
    for (p += 21; count > 0; count--, ++*srlg) {
        *p++ = (uint8_t)(*srlg >> 24);
        *p++ = (uint8_t)(*srlg >> 16);
        *p++ = (uint8_t)(*srlg >> 8);
        *p++ = (uint8_t)*srlg;
    }
    return (size_t)(p - b);
}

/*
 * The most SRLGs of a link: with an identifier a TLV 238 takes 22 bytes or more besides its numbers (23 where it names somebody), and has at most 58 of them,
 * since its value has at most 255 bytes. So n TLVs have at most 58 n numbers, and at most (2048 - 22 n) / 4: 464 for n = 8, less for every other n. RSVP-TE may
 * have run C's instead, 256 of them, never both.
 */
static void most_of_a_link(void)
{
    static uint8_t b[4096];
    size_t len = 0, most = 0, n;
    uint32_t next = 1;
    for (n = 1; n <= 2048 / 22; n++) {
        size_t by_room = (2048 - 22 * n) / 4, here = 58 * n < by_room ? 58 * n : by_room;
        if (here > most)
            most = here;
    }
    CHECK(most == NAKHSHIRUL_MAX_LINK_SRLGS && most > NAKHSHIRUL_MAX_C / 4 && (255 - 20) / 4 == 58 && (255 - 21) / 4 == 58);
    for (n = 0; n < 8; n++)
        len += tlv_238(b + len, 58, &next);
    CHECK(len <= NAKHSHIRUL_MAX_B && next == NAKHSHIRUL_MAX_LINK_SRLGS + 1);
    CHECK(is(ask(link_of(run_of(NULL, 0), run_of(b, len), run_of(NULL, 0)), STANDARD, 1, 1096), NAKHSHIRUL_SRLGS, NAKHSHIRUL_MAX_LINK_SRLGS, 0));
    CHECK(list[1] == 1 && list[NAKHSHIRUL_MAX_LINK_SRLGS] == NAKHSHIRUL_MAX_LINK_SRLGS && list_untouched_from(NAKHSHIRUL_MAX_LINK_SRLGS));
}

/* The most SRLGs of a run: every TLV that holds some takes four bytes more, and has at most 16,383. So it takes eight, and they fill the run. */
static void most_of_a_run(void)
{
    static uint8_t run[NAKHSHIRUL_MAX_RUN];
    static uint32_t room[NAKHSHIRUL_MAX_RUN_SRLGS + 1];
    uint32_t n;
    size_t i;
    for (i = n = 0; i < sizeof run; i += 4) {
        uint32_t x = i % 65536 == 0 ? 0x0448FFFCu : ++n;
        run[i] = (uint8_t)(x >> 24);
        run[i + 1] = (uint8_t)(x >> 16);
        run[i + 2] = (uint8_t)(x >> 8);
        run[i + 3] = (uint8_t)x;
    }
    CHECK(n == NAKHSHIRUL_MAX_RUN_SRLGS);
    room[NAKHSHIRUL_MAX_RUN_SRLGS] = 77;
    CHECK(is(take(nakhshirul_run_ask(run, sizeof run, STANDARD, 0, 1096, room, NAKHSHIRUL_MAX_RUN_SRLGS, lend())), NAKHSHIRUL_SRLGS, n, 0));
    CHECK(room[0] == 1 && room[n - 1] == n && room[n] == 77);
    CHECK(refused(take(nakhshirul_run_ask(run, sizeof run, STANDARD, 0, 1096, room, n - 1, lend())), NAKHSHIRUL_NO_ROOM, NAKHSHIRUL_RUN_A, 0));
}

/* ---- words for people */

static void texts(void)
{
    char text[NAKHSHIRUL_TEXT];
    CHECK(strcmp(nakhshirul_refusal_text(named(only_a(run_of(msg, 4))).status), "an element is cut") == 0);
    CHECK(strcmp(nakhshirul_refusal_text(named(only_a(RUN(msg))).status), "not refused") == 0);
    CHECK(strcmp(nakhshirul_refusal_text(named(only_a_hex(TWO_METRICS)).status), "a kind stands twice in one ASLA") == 0);
    CHECK(strcmp(nakhshirul_refusal_text(NAKHSHIRUL_REFUSED + 9), "not refused") == 0);
    CHECK(strcmp(nakhshirul_kind_text(1092), "TE metric") == 0 && strcmp(nakhshirul_kind_text(1122), "no kind") == 0);
    CHECK(strcmp(nakhshirul_application_text(GENERAL, 7, text), "general set") == 0);
    CHECK(strcmp(nakhshirul_application_text(STANDARD, NAKHSHIRUL_SR_POLICY, text), "SR Policy") == 0);
    CHECK(strcmp(nakhshirul_application_text(STANDARD, NAKHSHIRUL_FLEX_ALGO, text), "Flex-Algo") == 0);
    CHECK(strcmp(nakhshirul_application_text(STANDARD, 63, text), "standard 63") == 0);
    CHECK(strcmp(nakhshirul_application_text(USER, 3, text), "user 3") == 0);
    CHECK(strcmp(nakhshirul_application_text(STANDARD, 64, text), "no application") == 0);
    CHECK(strcmp(nakhshirul_application_text(USER, 31, text), "user 31") == 0);
    CHECK(strcmp(nakhshirul_application_text(USER, 32, text), "no application") == 0);
    CHECK(strcmp(nakhshirul_application_text(3, 0, text), "no application") == 0);
}

/* ---- the links of bench/links, and their exports */

static const char *folder;

static struct run read_file(const char *name, const char *ending, uint8_t *room, size_t size)
{
    char path[1024];
    FILE *f;
    size_t n = 0;
    if (strlen(folder) + strlen(name) + strlen(ending) + 3 > sizeof path) {
        check(0, "the folder's name is too long", __LINE__);
        return run_of(room, 0);
    }
    strcpy(path, folder);
    strcat(path, "/");
    strcat(path, name);
    strcat(path, ".");
    strcat(path, ending);
    f = fopen(path, "rb");
    CHECK(f != NULL);
    if (f != NULL) {
        n = fread(room, 1, size, f);
        fclose(f);
    }
    return run_of(room, n);
}

/* Whether a link and its export answer a question alike: numbers, bits, SRLGs and value bytes; places differ. */
static int alike(struct link l, struct run r, unsigned who, uint64_t number, unsigned code)
{
    static uint32_t first[LIST + 2];
    struct answer x = ask(l, who, number, code), y, p, q;
    memcpy(first, list, sizeof list);
    y = run_ask(r, who, number, code);
    p = value(l, who, number, code);
    q = run_value(r, who, number, code);
    if (x.status != y.status || p.status != q.status || memcmp(first, list, sizeof list) != 0)
        return 0;
    if (x.status != NAKHSHIRUL_PLACE && !is(y, x.status, x.reply[0], x.reply[1]))
        return 0;
    if (p.status != NAKHSHIRUL_PLACE)
        return absent(p) && absent(q);
    if (p.reply[2] != NAKHSHIRUL_RUN_A || q.reply[2] != NAKHSHIRUL_RUN_BGPLS)
        return 0;
    if (x.status == NAKHSHIRUL_PLACE && (memcmp(&x, &p, sizeof x) != 0 || memcmp(&y, &q, sizeof y) != 0))
        return 0;
    if (code == 1092)
        return p.reply[1] == 3 && q.reply[1] == 4 && memcmp(l.a.bytes + p.reply[0], r.bytes + q.reply[0] + 1, 3) == 0;
    return p.reply[1] == q.reply[1] && memcmp(l.a.bytes + p.reply[0], r.bytes + q.reply[0], (size_t)p.reply[1]) == 0;
}

static void bench_link(const char *name)
{
    static uint8_t a[4096], b[4096], c[4096], exported[OUT];
    struct link l;
    struct run r;
    struct answer x, y;
    unsigned n;
    size_t i;
    l.a = read_file(name, "a", a, sizeof a);
    l.b = read_file(name, "b", b, sizeof b);
    l.c = read_file(name, "c", c, sizeof c);
    r = read_file(name, "bgpls", exported, sizeof exported);
    CHECK(r.len > 0 && r.len < OUT);
    CHECK(is(export_to(l, r.len), NAKHSHIRUL_WRITTEN, r.len, 0) && is(export_length(l), NAKHSHIRUL_WRITTEN, r.len, 0));
    CHECK(memcmp(out + 1, r.bytes, r.len) == 0 && out_untouched_from(r.len));
    CHECK(refused(export_to(l, r.len - 1), NAKHSHIRUL_NO_ROOM, NAKHSHIRUL_RUN_A, 0) && out_untouched_from(0));
    x = named(l);
    y = run_named(r);
    CHECK(x.status == NAKHSHIRUL_NAMED && is(y, x.status, x.reply[0], x.reply[1]));
    for (i = 0; i < sizeof codes / sizeof codes[0]; i++) {
        CHECK(alike(l, r, GENERAL, 0, codes[i]));
        for (n = 0; n < 64; n++)
            CHECK(alike(l, r, STANDARD, n, codes[i]));
        for (n = 0; n < 32; n++)
            CHECK(alike(l, r, USER, n, codes[i]));
    }
}

static void bench_small(void)
{
    bench_link("small");
}

static void bench_medium(void)
{
    bench_link("medium");
}

static void bench_large(void)
{
    bench_link("large");
}

static void bench_spread(void)
{
    bench_link("spread");
}

static void bench_merged(void)
{
    bench_link("merged");
}

int main(int count, char **words)
{
    if (count != 2) {
        fprintf(stderr, "usage: %s FOLDER-OF-LINKS\n", words[0]);
        return 2;
    }
    folder = words[1];
    group("worked links", worked_links);
    group("readings", readings);
    group("values", values);
    group("named applications", names);
    group("export", exports);
    group("refusals", refusals);
    group("BGP-LS runs", runs);
    group("why", reasons);
    group("E12: user bits 32 to 63 retired", retired_bits);
    group("E5: a kind twice in one ASLA", twice);
    group("E2: the general set for RSVP-TE", general_for_rsvp_te);
    group("null with length 0", nulls);
    group("most SRLGs of a link", most_of_a_link);
    group("most SRLGs of a run", most_of_a_run);
    group("words for people", texts);
    group("small link and its export", bench_small);
    group("medium link and its export", bench_medium);
    group("large link and its export", bench_large);
    group("spread link and its export", bench_spread);
    group("merged link and its export", bench_merged);
    printf("%u passed, %u failed\n", passed, failed);
    return failed == 0 && passed > 0 ? 0 : 1;
}
