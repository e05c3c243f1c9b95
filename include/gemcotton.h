/* The calls on pin strips, for programs in C. Link with libstrip_c.a, which `tools/build` makes in the repository's
 * folder, under target/staticlib. It needs memcpy and memset from the C library, and nothing else.
 *
 * A list is strike times, unsigned 32-bit milliseconds, none less than the one before; positions run from 0. A strip is bytes
 * of any content and length, and it is accepted when some list packs to it, as check finds. Every call answers on any input,
 * and none needs the answer of another.
 *
 * Memory: a pointer and the length after it, in entries, name what is lent; `next` has no length and is one entry. A pointer is
 * not null, even where its length is 0, and what is written overlaps nothing else that is lent. A call changes only what its
 * comment says, and nothing at a refusal, but for a sweep that has written the answers of earlier targets. No call keeps a
 * pointer, uses a heap or has a state of its own, so calls may run at the same time where none writes what another is lent.
 *
 * The bytes of the stack that a call takes, rounded up, measured on x86-64 and not proved:
 *
 *                                  up to 1,023 pins     more
 *   height, root place, rank                    100      100
 *   access, search, up-to, step               1,000    1,000
 *   sweep                                    26,000   26,000
 *   pack                                      9,000  396,000
 *   check, unpack, repeat                    15,000  534,000
 */
#ifndef GEMCOTTON_H
#define GEMCOTTON_H

#include <stddef.h>
#include <stdint.h>

#ifdef __cplusplus
extern "C" {
#endif

/* The greatest pin count and the greatest height of a strip, and a number of bytes that is enough for any list's strip. */
#define GEMCOTTON_MAX_PINS 65535
#define GEMCOTTON_MAX_HEIGHT 16
#define GEMCOTTON_MAX_BYTES 262227

/* Refusals: the condition, and after the colon what is carried. */
enum gemcotton_refusal {
  GEMCOTTON_NONE = 0,
  GEMCOTTON_EMPTY = 1,      /* no pins, in the list or by the strip's header: 0 */
  GEMCOTTON_TOO_MANY = 2,   /* a list of more than 65,535 pins: 0 */
  GEMCOTTON_LIST_FALLS = 3, /* the list falls: the first position with a lower time than the one before */
  GEMCOTTON_SHORT = 4,      /* the output is shorter than needed: the bytes (pack) or entries (unpack) needed */
  GEMCOTTON_CUT = 5,        /* the strip is cut short: 0 */
  GEMCOTTON_MARK = 6,       /* a mark other than PIN: 0 */
  GEMCOTTON_VERSION = 7,    /* a version other than 1: 0 */
  GEMCOTTON_CODE = 8,       /* a level code other than 0 to 32 and 65 to 72: the level, counted from 1 */
  GEMCOTTON_FETCH = 9,      /* a fetch from a chunked level passes its part, or its value is 2^32 or more: the node */
  GEMCOTTON_TIME = 10,      /* a time below 0 or above 4,294,967,295: the node */
  GEMCOTTON_TIMES_FALL = 11, /* the strip's times fall: the first position with a lower time than the one before */
  GEMCOTTON_IMAGE = 12,     /* bytes other than those that the strip's times pack to: 0 */
  GEMCOTTON_LENGTH = 13,    /* a length other than 7 + 5h and the lengths of the parts, h the height: 0 */
  GEMCOTTON_POSITION = 14,  /* a position at or past the pin count: 0 */
  GEMCOTTON_ANSWERS = 15,   /* answers and targets differ in length: 0 */
  GEMCOTTON_TARGETS_FALL = 16, /* the targets fall: the first index with a lower target than the one before */
  /* a level in a fixed code without exactly the fewest bytes for its width and number of values: the level, counted from 1 */
  GEMCOTTON_LEVEL_LENGTH = 23
};

/* The sentence of a refusal: a format for printf and its like with at most one %zu, which is for what is carried. So this
 * prints it: printf(gemcotton_sentence(answer.refusal), answer.value). There is one for any number, also for 0. */
static inline const char *gemcotton_sentence(size_t refusal) {
  switch (refusal) {
    case GEMCOTTON_EMPTY: return "there are no pins";
    case GEMCOTTON_TOO_MANY: return "there are more than 65535 pins";
    case GEMCOTTON_LIST_FALLS: return "the list falls at position %zu";
    case GEMCOTTON_SHORT: return "the output is shorter than the %zu needed";
    case GEMCOTTON_CUT: return "the strip is cut short";
    case GEMCOTTON_MARK: return "the strip's mark is not PIN";
    case GEMCOTTON_VERSION: return "the strip's version is not 1";
    case GEMCOTTON_CODE: return "level %zu has a refused code";
    case GEMCOTTON_FETCH: return "node %zu has no 32-bit value in its part";
    case GEMCOTTON_TIME: return "the time of node %zu is not a 32-bit number";
    case GEMCOTTON_TIMES_FALL: return "the strip's times fall at position %zu";
    case GEMCOTTON_IMAGE: return "the strip is not what its list packs to";
    case GEMCOTTON_LENGTH: return "the strip's length is not its header and parts";
    case GEMCOTTON_POSITION: return "the position is not below the pin count";
    case GEMCOTTON_ANSWERS: return "there are not as many answers as targets";
    case GEMCOTTON_TARGETS_FALL: return "the targets fall at index %zu";
    case GEMCOTTON_LEVEL_LENGTH: return "level %zu has not exactly the bytes that its values need";
    case GEMCOTTON_NONE: return "there is no refusal";
    default: return "there is a refusal of another number";
  }
}

/* `refusal` is 0 where the call is not refused; `value` is then what it gives, and `nodes` the number of nodes that it opened,
 * 0 for a call that counts none. Otherwise `refusal` is a number of the list above, `value` what is carried, and `nodes` 0. */
struct gemcotton_answer {
  size_t refusal;
  size_t value;
  size_t nodes;
};

/* The height of n pins, the least h with 2^h - 1 at or above n; and the root's place in a list of n, counted from 1 (0 for an
 * empty list). Both answer for any n. */
size_t gemcotton_height(size_t n);
size_t gemcotton_root_place(size_t n);

/* The position of a node, such as one that 9 or 10 carries, in a list of n; or n where the number is no node's, so 0 or above n.
 * Nodes are numbered from 1, the root. It answers for any n. */
size_t gemcotton_rank(size_t n, size_t node);

/* Packs the list into the front of `out`, whose later bytes keep their content. Gives the strip's length in bytes; counts no
 * nodes. Refused, in this order: 1, 2, 3, 4. 7 + 5h + 4n bytes are enough for n times, h their height; 4 carries the bytes that
 * this list needs, also for an output of length 0. */
struct gemcotton_answer gemcotton_pack(uint8_t *out, size_t out_length, const uint32_t *times, size_t times_length);

/* All calls below are reading calls. They open the strip first, refused in this order: 5 (under 7 bytes), 6, 7, 1, 5 (under
 * 7 + 5h), level by level from 1 on 8 and then 23, and after them 13. Where they then open nodes, the first node with 9 or 10
 * ends them. A call's comment names its other refusals. What access, search, up-to, sweep and step give is said of an accepted
 * strip. On any other they go down the tree in the same way; they do not look for 11 or 12. */

/* Gives the time at position i and the nodes opened, from the root to the node of that position. Refused after opening with 14,
 * where i is at or past the pin count. */
struct gemcotton_answer gemcotton_access(const uint8_t *strip, size_t strip_length, size_t i);

/* Gives the number of strikes before the target, so the position of the first at or after it, or the pin count; and the nodes
 * opened. From the root it goes left where the node's time is at or above the target, else right; the position is that of the
 * last node left by its left side, or the pin count. */
struct gemcotton_answer gemcotton_search(const uint8_t *strip, size_t strip_length, uint32_t target);

/* Gives the number of strikes at or before the time, and the nodes opened: the pin count and 0 nodes for 4,294,967,295, where
 * only opening can be refused; otherwise what a search for the time plus 1 gives. */
struct gemcotton_answer gemcotton_up_to(const uint8_t *strip, size_t strip_length, uint32_t time);

/* Looks targets up, none less than the one before, in one walk. Writes the position of each to `answers`, and gives 0 and the
 * nodes opened in all. On an accepted strip each position is what a search for the target gives, and the nodes are the
 * different ones that those searches open. No targets open no node. The first target goes as a search does, and the nodes left
 * by their left side are remembered. Each later one drops remembered nodes from the deepest up while their time is below it,
 * and goes on from the right child of the last dropped, if any. A target's position is that of the deepest node then
 * remembered, or the pin count. Refused after opening with 15, then 16, with nothing written. A node with 9 or 10 ends the
 * sweep: the answers of the targets before the one that comes to it have been written, and no others. */
struct gemcotton_answer gemcotton_sweep(uint32_t *answers, size_t answers_length, const uint8_t *strip, size_t strip_length,
                                        const uint32_t *targets, size_t targets_length);

/* Check, unpack and repeat read all positions and count no nodes. For each position from 0 on they give access's refusal, then
 * 11 where its time is lower than the one before. */

/* Gives the pin count of an accepted strip. Refused for any other: in opening, at the first position with access's refusal or
 * with 11, or after the last position with 12, where the times so read pack to other bytes. */
struct gemcotton_answer gemcotton_check(const uint8_t *strip, size_t strip_length);

/* Writes the list that packs to the strip to the front of `out`, whose later entries keep their content. Gives the pin count.
 * Refused as check is, then with 4, which carries the pin count, also for an output of length 0. */
struct gemcotton_answer gemcotton_unpack(uint32_t *out, size_t out_length, const uint8_t *strip, size_t strip_length);

/* Gives the first position, from 1 on, whose time is less than r milliseconds after the one before, or 0 where there is none.
 * At each position the gap is tested after the refusals, so a gap found comes before every refused position. It does not look
 * for 12. */
struct gemcotton_answer gemcotton_repeat(const uint8_t *strip, size_t strip_length, uint32_t r);

/* A step of a pin walker, which is the strip that it walks and the next position, `*next`: 0 at the start, and it may be set to
 * any number. After opening, a step says end where `*next` is at or beyond the pin count; otherwise it is access at `*next` and
 * moves `*next` on by one. Gives the time and the nodes opened, 1 or more; at the end 0 and 0 nodes. So where `refusal` is 0,
 * `nodes` is 0 at the end and nowhere else, while a time may be 0 too. Refused as access is, but never with 14. At the
 * end and at a refusal `*next` keeps its number, so another step then answers the same. */
struct gemcotton_answer gemcotton_step(size_t *next, const uint8_t *strip, size_t strip_length);

#ifdef __cplusplus
}
#endif

#endif
