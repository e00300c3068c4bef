/*
 * Nakhshirul: link attributes of applications (RFC 8919), read from an IS-IS
 * link or from a BGP-LS run, and a link written as BGP-LS TLVs (RFC 9294).
 *
 * A link is three runs of bytes:
 *
 *   a  the sub-TLVs of the link's neighbour entry (legacy attributes and ASLA
 *      sub-TLVs), at most NAKHSHIRUL_MAX_A bytes
 *   b  its IS-IS TLVs of type 238 (Application-Specific SRLG), whole, at most
 *      NAKHSHIRUL_MAX_B bytes
 *   c  its legacy SRLG values, four bytes each, at most NAKHSHIRUL_MAX_C bytes
 *
 * A BGP-LS run is a sequence of TLVs of a Link Attribute, at most
 * NAKHSHIRUL_MAX_RUN bytes.
 *
 * What a caller keeps to. Each pointer points to as many elements as the
 * length behind it says; where that is 0 it may be anything, null too, and
 * nothing is read or written through it. `reply` is never null: it points to
 * four numbers. list and reply are aligned as their types are. What a function
 * writes to (list, out, reply) overlaps nothing else that it is given.
 *
 * The bytes themselves may be anything: nothing that is read can make a call
 * fail other than by a refusal. No function keeps a pointer, allocates, or has
 * state of its own: calls may be made from any number of threads.
 *
 * Every function returns a status (NAKHSHIRUL_ABSENT ..) and always writes all
 * four numbers of `reply`; a number that the status below does not name is 0.
 * Nothing else is written, except as said at each function.
 */
#ifndef NAKHSHIRUL_H
#define NAKHSHIRUL_H

#include <stddef.h>
#include <stdint.h>

#ifdef __cplusplus
extern "C" {
#endif

#define NAKHSHIRUL_VERSION_MAJOR 0
#define NAKHSHIRUL_VERSION_MINOR 1
#define NAKHSHIRUL_VERSION_PATCH 0
#define NAKHSHIRUL_VERSION "0.1.0"

/*
 * Statuses, with what they say in reply[0] to reply[3].
 *
 *   ABSENT     nothing of the kind is there: a normal answer. Of the two value
 *              functions: absent, refused, or code 1096
 *   NUMBER     [0] the number, all value bytes big-endian, flag bits too
 *              (1088, 1092, 1114, 1116, 1117)
 *   PAIR       [0] and [1] two numbers of four bytes each (1115)
 *   BANDWIDTH  [0] the 32 bits of an IEEE 754 binary32, in bytes per second,
 *              exactly as they stand in the run, patterns of a NaN too
 *              (1089, 1090, 1118, 1119, 1120)
 *   PLACE      [0] the offset of the value's first byte, [1] its length in
 *              bytes, [2] the run, [3] the fragment (1091, 1173; of the two
 *              value functions every code but 1096)
 *   SRLGS      [0] how many different SRLGs there are; they stand ascending at
 *              the front of list (1096)
 *   NAMED      [0] the standard applications, [1] the user-defined ones, 0 to
 *              31: application n as 2 to the n, RSVP-TE left out
 *   WRITTEN    [0] the number of bytes written to the front of out
 *   WHY        [0] the rule, [1] the offset of the first byte (the type) of
 *              the advertisement that decides by it or holds the value,
 *              NAKHSHIRUL_NOWHERE where none is told, [2] its run, [3] the
 *              fragment
 *   REFUSED    and above: refused, by number (status - NAKHSHIRUL_REFUSED);
 *              [0] the offset of the first byte of the innermost faulty
 *              element, [2] the run it stands in, [3] the fragment
 *
 * The fragment is 0.
 */
#define NAKHSHIRUL_ABSENT 0
#define NAKHSHIRUL_NUMBER 1
#define NAKHSHIRUL_PAIR 2
#define NAKHSHIRUL_BANDWIDTH 3
#define NAKHSHIRUL_PLACE 4
#define NAKHSHIRUL_SRLGS 5
#define NAKHSHIRUL_NAMED 6
#define NAKHSHIRUL_WRITTEN 7
#define NAKHSHIRUL_WHY 16
#define NAKHSHIRUL_REFUSED 128

/*
 * Numbers of a refusal. Of several reasons the first one is told, in this
 * order: NO_APPLICATION, NO_KIND, TOO_LONG, ODD_SRLGS, then faults of run a
 * from its start, of run b from its start (or of the BGP-LS run from its
 * start), then NO_ROOM. All but CUT, LENGTH and TWICE name run a and offset 0.
 *
 *   TOO_LONG        a run is longer than said above
 *   ODD_SRLGS       the length of run c is not a multiple of 4
 *   CUT             an element, a mask or an inner list runs past what holds
 *                   it, or is too short for its fixed fields
 *   LENGTH          a known kind or link identifier has a wrong length
 *   NO_ROOM         the result is longer than list or out; nothing is written
 *   NO_APPLICATION  a standard application's number is above 63, a user-defined
 *                   one's above 31, or `who` is none of the three below
 *   NO_KIND         the code is none of the fourteen below
 *   TWICE           a known kind stands twice in the list of one ASLA, be it a
 *                   sub-TLV of run a or a TLV 1122 of a run; the second one is
 *                   told. Lists that are not read (behind an L-flag, or where
 *                   the ASLA is ignored), unknown types and what stands outside
 *                   an ASLA are never refused so
 */
#define NAKHSHIRUL_TOO_LONG 1
#define NAKHSHIRUL_ODD_SRLGS 2
#define NAKHSHIRUL_CUT 3
#define NAKHSHIRUL_LENGTH 4
#define NAKHSHIRUL_NO_ROOM 5
#define NAKHSHIRUL_NO_APPLICATION 6
#define NAKHSHIRUL_NO_KIND 7
#define NAKHSHIRUL_TWICE 8

/* The run that a place or a refusal is in, in reply[2]; run c for WHY alone. */
#define NAKHSHIRUL_RUN_A 0
#define NAKHSHIRUL_RUN_B 1
#define NAKHSHIRUL_RUN_BGPLS 2
#define NAKHSHIRUL_RUN_C 7

/*
 * Rules of WHY, with the advertisement that is told. Attributes of run a and
 * SRLGs of run b are judged each by themselves.
 *
 *   L_FLAG   an advertisement with the L-flag names the application, so that
 *            legacy values count: the first such
 *   NAMED    advertisements name it (and, for RSVP-TE, have the kind): the one
 *            that holds the value; of SRLGs, which count together, and where
 *            none has the kind, the first that names it
 *   GENERAL  the general set was asked for: the one that holds the value, of
 *            SRLGs the first general one; none where there is no value
 *   UNNAMED  nothing names the application (and, for RSVP-TE, none of the
 *            eleven kinds of applications is there as a legacy value), so that
 *            the general set counts: as for GENERAL
 *   LEGACY   legacy values without an L-flag, be they there or not: RSVP-TE's
 *            where no advertisement that names it has the kind, and a
 *            bandwidth (1089 to 1091) that no ASLA gives. No advertisement;
 *            reply[2] is the run of the legacy values, a or c
 *   CARRIED  a bandwidth that an ASLA gives: that ASLA
 *   TOP      a bandwidth, or what RSVP-TE gets, at the top level of a BGP-LS
 *            run: no advertisement
 */
#define NAKHSHIRUL_RULE_L_FLAG 0
#define NAKHSHIRUL_RULE_NAMED 1
#define NAKHSHIRUL_RULE_GENERAL 2
#define NAKHSHIRUL_RULE_UNNAMED 3
#define NAKHSHIRUL_RULE_LEGACY 4
#define NAKHSHIRUL_RULE_CARRIED 5
#define NAKHSHIRUL_RULE_TOP 6

/* The offset of no advertisement. */
#define NAKHSHIRUL_NOWHERE UINT64_MAX

/*
 * Whom a question is about (`who` and `number`): the general set, what every
 * application gets that nothing names (its number is ignored); a standard
 * application by its number, 0 to 63; a user-defined one, 0 to 31.
 *
 * User-defined applications 32 to 63 are retired. Their bits in a mask count as
 * 0, in a link and in a run; the mask keeps its length, so that one with no
 * other bit names nobody, and is not general either. No export has them.
 */
#define NAKHSHIRUL_GENERAL 0
#define NAKHSHIRUL_STANDARD 1
#define NAKHSHIRUL_USER 2

/* Numbers of standard applications. */
#define NAKHSHIRUL_RSVP_TE 0
#define NAKHSHIRUL_SR_POLICY 1
#define NAKHSHIRUL_LFA 2
#define NAKHSHIRUL_FLEX_ALGO 3

/* The fourteen kinds (`code`), by their BGP-LS code points. */
#define NAKHSHIRUL_CODE_ADMINISTRATIVE_GROUP 1088
#define NAKHSHIRUL_CODE_MAXIMUM_LINK_BANDWIDTH 1089
#define NAKHSHIRUL_CODE_MAXIMUM_RESERVABLE_BANDWIDTH 1090
#define NAKHSHIRUL_CODE_UNRESERVED_BANDWIDTH 1091
#define NAKHSHIRUL_CODE_TE_METRIC 1092
#define NAKHSHIRUL_CODE_SRLG 1096
#define NAKHSHIRUL_CODE_DELAY 1114
#define NAKHSHIRUL_CODE_MIN_MAX_DELAY 1115
#define NAKHSHIRUL_CODE_DELAY_VARIATION 1116
#define NAKHSHIRUL_CODE_LOSS 1117
#define NAKHSHIRUL_CODE_RESIDUAL_BANDWIDTH 1118
#define NAKHSHIRUL_CODE_AVAILABLE_BANDWIDTH 1119
#define NAKHSHIRUL_CODE_UTILISED_BANDWIDTH 1120
#define NAKHSHIRUL_CODE_EXTENDED_ADMINISTRATIVE_GROUP 1173

/*
 * Limits: the bytes that each run may have; the longest export; the most SRLGs
 * that an answer can have of a link (eight TLVs 238 of 58 fill run b) and of a
 * run (eight TLVs 1096 of 16,383 fill it).
 */
#define NAKHSHIRUL_MAX_A 2048
#define NAKHSHIRUL_MAX_B 2048
#define NAKHSHIRUL_MAX_C 1024
#define NAKHSHIRUL_MAX_RUN 524288
#define NAKHSHIRUL_MAX_EXPORT 233588
#define NAKHSHIRUL_MAX_LINK_SRLGS 464
#define NAKHSHIRUL_MAX_RUN_SRLGS 131064

/*
 * The bytes of stack that a call takes at most, as measured. nakhshirul_run_ask
 * takes NAKHSHIRUL_STACK_RUN_ASK only for code 1096 where more than 512 SRLGs
 * are found, repeats counted; for up to 512 it takes
 * NAKHSHIRUL_STACK_RUN_ASK_512, and for any other code no more than
 * NAKHSHIRUL_STACK_RUN_VALUE.
 */
#define NAKHSHIRUL_STACK_ASK 8192
#define NAKHSHIRUL_STACK_VALUE 1024
#define NAKHSHIRUL_STACK_NAMED 1024
#define NAKHSHIRUL_STACK_EXPORT 45056
#define NAKHSHIRUL_STACK_WHY 2048
#define NAKHSHIRUL_STACK_RUN_ASK 794624
#define NAKHSHIRUL_STACK_RUN_ASK_512 9216
#define NAKHSHIRUL_STACK_RUN_VALUE 1024
#define NAKHSHIRUL_STACK_RUN_NAMED 1024
#define NAKHSHIRUL_STACK_RUN_WHY 2048

/*
 * One kind of one subject of a link: ABSENT to SRLGS, or refused. `list` is
 * room for list_len SRLGs; it is written for SRLGS alone, and no further than
 * their count.
 */
uint64_t nakhshirul_ask(const uint8_t *a, size_t a_len,
                        const uint8_t *b, size_t b_len,
                        const uint8_t *c, size_t c_len,
                        uint8_t who, uint64_t number, uint16_t code,
                        uint32_t *list, size_t list_len, uint64_t *reply);

/*
 * Where the value of the same question stands: PLACE in run a, or ABSENT. The
 * reply[1] bytes from a + reply[0] on are the value as it was sent; a TE metric
 * has three.
 */
uint64_t nakhshirul_value(const uint8_t *a, size_t a_len,
                          const uint8_t *b, size_t b_len,
                          const uint8_t *c, size_t c_len,
                          uint8_t who, uint64_t number, uint16_t code,
                          uint64_t *reply);

/*
 * By which rule the subject of the same question gets the kind, or gets none,
 * and which advertisement decides: WHY, or refused as nakhshirul_ask is, but
 * never by NO_ROOM.
 */
uint64_t nakhshirul_why(const uint8_t *a, size_t a_len,
                        const uint8_t *b, size_t b_len,
                        const uint8_t *c, size_t c_len,
                        uint8_t who, uint64_t number, uint16_t code,
                        uint64_t *reply);

/* The applications that a link names on either side: NAMED, or refused. */
uint64_t nakhshirul_named(const uint8_t *a, size_t a_len,
                          const uint8_t *b, size_t b_len,
                          const uint8_t *c, size_t c_len, uint64_t *reply);

/*
 * A link as BGP-LS TLVs, the shortest that say what it says: WRITTEN, or
 * refused. `out` is room for out_len bytes; it is written for WRITTEN alone,
 * and no further than the length told.
 */
uint64_t nakhshirul_export(const uint8_t *a, size_t a_len,
                           const uint8_t *b, size_t b_len,
                           const uint8_t *c, size_t c_len,
                           uint8_t *out, size_t out_len, uint64_t *reply);

/*
 * How much room the export of a link needs: WRITTEN with its length, though
 * nothing is written, or refused as nakhshirul_export is, but never by NO_ROOM.
 */
uint64_t nakhshirul_export_length(const uint8_t *a, size_t a_len,
                                  const uint8_t *b, size_t b_len,
                                  const uint8_t *c, size_t c_len,
                                  uint64_t *reply);

/* The questions above, put to a BGP-LS run, whoever wrote it. */
uint64_t nakhshirul_run_ask(const uint8_t *run, size_t run_len,
                            uint8_t who, uint64_t number, uint16_t code,
                            uint32_t *list, size_t list_len, uint64_t *reply);

uint64_t nakhshirul_run_value(const uint8_t *run, size_t run_len,
                              uint8_t who, uint64_t number, uint16_t code,
                              uint64_t *reply);

uint64_t nakhshirul_run_why(const uint8_t *run, size_t run_len,
                            uint8_t who, uint64_t number, uint16_t code,
                            uint64_t *reply);

uint64_t nakhshirul_run_named(const uint8_t *run, size_t run_len,
                              uint64_t *reply);

/*
 * Words for people, from this header alone.
 */

/* Why a call was refused, by its status. */
static inline const char *nakhshirul_refusal_text(uint64_t status)
{
    switch (status) {
    case NAKHSHIRUL_REFUSED + NAKHSHIRUL_TOO_LONG:
        return "a run is too long";
    case NAKHSHIRUL_REFUSED + NAKHSHIRUL_ODD_SRLGS:
        return "the length of run C is not a multiple of 4";
    case NAKHSHIRUL_REFUSED + NAKHSHIRUL_CUT:
        return "an element is cut";
    case NAKHSHIRUL_REFUSED + NAKHSHIRUL_LENGTH:
        return "an element has a wrong length";
    case NAKHSHIRUL_REFUSED + NAKHSHIRUL_NO_ROOM:
        return "the result is longer than the room lent";
    case NAKHSHIRUL_REFUSED + NAKHSHIRUL_NO_APPLICATION:
        return "there is no such application";
    case NAKHSHIRUL_REFUSED + NAKHSHIRUL_NO_KIND:
        return "the code is none of the fourteen";
    case NAKHSHIRUL_REFUSED + NAKHSHIRUL_TWICE:
        return "a kind stands twice in one ASLA";
    default:
        return "not refused";
    }
}

/* A kind, by its code. */
static inline const char *nakhshirul_kind_text(uint16_t code)
{
    switch (code) {
    case NAKHSHIRUL_CODE_ADMINISTRATIVE_GROUP:
        return "administrative group";
    case NAKHSHIRUL_CODE_MAXIMUM_LINK_BANDWIDTH:
        return "maximum link bandwidth";
    case NAKHSHIRUL_CODE_MAXIMUM_RESERVABLE_BANDWIDTH:
        return "maximum reservable bandwidth";
    case NAKHSHIRUL_CODE_UNRESERVED_BANDWIDTH:
        return "unreserved bandwidth";
    case NAKHSHIRUL_CODE_TE_METRIC:
        return "TE metric";
    case NAKHSHIRUL_CODE_SRLG:
        return "SRLG";
    case NAKHSHIRUL_CODE_DELAY:
        return "delay";
    case NAKHSHIRUL_CODE_MIN_MAX_DELAY:
        return "min/max delay";
    case NAKHSHIRUL_CODE_DELAY_VARIATION:
        return "delay variation";
    case NAKHSHIRUL_CODE_LOSS:
        return "loss";
    case NAKHSHIRUL_CODE_RESIDUAL_BANDWIDTH:
        return "residual bandwidth";
    case NAKHSHIRUL_CODE_AVAILABLE_BANDWIDTH:
        return "available bandwidth";
    case NAKHSHIRUL_CODE_UTILISED_BANDWIDTH:
        return "utilised bandwidth";
    case NAKHSHIRUL_CODE_EXTENDED_ADMINISTRATIVE_GROUP:
        return "extended administrative group";
    default:
        return "no kind";
    }
}

/* The room that the next function may write to, a final 0 with it. */
#define NAKHSHIRUL_TEXT 16

/*
 * Whom a question is about, "SR Policy" or "user 5": the result is `text`,
 * which has room for NAKHSHIRUL_TEXT characters, or a constant.
 */
static inline const char *nakhshirul_application_text(uint8_t who, uint64_t number, char *text)
{
    static const char *const known[4] = {"RSVP-TE", "SR Policy", "LFA", "Flex-Algo"};
    static const char digits[11] = "0123456789";
    const char *kind = who == NAKHSHIRUL_STANDARD ? "standard " : "user ";
    char *end = text;
    if (who == NAKHSHIRUL_GENERAL)
        return "general set";
    if (who > NAKHSHIRUL_USER || number > (who == NAKHSHIRUL_USER ? 31 : 63))
        return "no application";
    if (who == NAKHSHIRUL_STANDARD && number <= NAKHSHIRUL_FLEX_ALGO)
        return known[number];
    while (*kind != '\0')
        *end++ = *kind++;
    if (number >= 10)
        *end++ = digits[number / 10];
    *end++ = digits[number % 10];
    *end = '\0';
    return text;
}

#ifdef __cplusplus
}
#endif

#endif
