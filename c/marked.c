/* The marked cases of strip A by the C interface: packs, looks up, sweeps, checks, unpacks and walks it, and fails where an
 * answer differs. */
#include "gemcotton.h"

#include <stdio.h>
#include <string.h>

static const uint32_t TIMES[] = {100, 250, 250, 400, 1000};
static const uint8_t STRIP[] = {0x50, 0x49, 0x4E, 0x00, 0x01, 0x00, 0x05, 0x09, 0x00, 0x00, 0x00, 0x02, 0x0A, 0x00, 0x00,
                                0x00, 0x03, 0x42, 0x00, 0x00, 0x00, 0x02, 0xC8, 0x00, 0x25, 0xA5, 0x80, 0xA2, 0xD4};

/* The examples of refusals 11 and 12: A with node 5 storing 151, and the list 0 in code 65. */
static const uint8_t FALLING[] = {0x50, 0x49, 0x4E, 0x00, 0x01, 0x00, 0x05, 0x09, 0x00, 0x00, 0x00, 0x02, 0x0A, 0x00, 0x00,
                                  0x00, 0x03, 0x08, 0x00, 0x00, 0x00, 0x02, 0xC8, 0x00, 0x25, 0xA5, 0x80, 0x96, 0x97};
static const uint8_t OTHER[] = {0x50, 0x49, 0x4E, 0x00, 0x01, 0x00, 0x01, 0x41, 0x00, 0x00, 0x00, 0x01, 0x00};

/* The examples of refusals 9, 23 and 10: one pin in code 65 and in width 1, both with no bytes; root 0 and node 2, which is at
 * position 0, storing 1. */
static const uint8_t NO_BITS[] = {0x50, 0x49, 0x4E, 0x00, 0x01, 0x00, 0x01, 0x41, 0x00, 0x00, 0x00, 0x00};
static const uint8_t CUT_LEVEL[] = {0x50, 0x49, 0x4E, 0x00, 0x01, 0x00, 0x01, 0x01, 0x00, 0x00, 0x00, 0x00};
static const uint8_t BELOW[] = {0x50, 0x49, 0x4E, 0x00, 0x01, 0x00, 0x02, 0x00, 0x00,
                                0x00, 0x00, 0x00, 0x01, 0x00, 0x00, 0x00, 0x01, 0x80};

/* The targets and positions of case 6, and the example of refusal 16. */
static const uint32_t TARGETS[] = {250, 251, 1001};
static const uint32_t POSITIONS[] = {1, 3, 5};
static const uint32_t LOWER[] = {9, 8};

/* The nodes from the root to each position of A. */
static const size_t DEPTHS[] = {3, 2, 3, 1, 2};

static int differs(const char *what, struct gemcotton_answer answer, size_t refusal, size_t value, size_t nodes) {
  if (answer.refusal == refusal && answer.value == value && answer.nodes == nodes) {
    return 0;
  }
  fprintf(stderr, "%s: %zu %zu %zu\n", what, answer.refusal, answer.value, answer.nodes);
  return 1;
}

/* A step from `*next`, which is then to be `after`. */
static int step_differs(const char *what, size_t *next, const uint8_t *strip, size_t strip_length, size_t refusal, size_t value,
                        size_t nodes, size_t after) {
  int fault = differs(what, gemcotton_step(next, strip, strip_length), refusal, value, nodes);
  if (*next == after) {
    return fault;
  }
  fprintf(stderr, "%s: next %zu\n", what, *next);
  return 1;
}

/* Steps over A to its end, from positions beyond, and on strips that are refused. */
static int walk_differs(void) {
  size_t next = 0;
  int faults = 0;
  for (size_t i = 0; i < 5; i++) {
    faults += step_differs("step", &next, STRIP, sizeof STRIP, 0, TIMES[i], DEPTHS[i], i + 1);
  }
  faults += step_differs("end", &next, STRIP, sizeof STRIP, 0, 0, 0, 5);
  faults += step_differs("end again", &next, STRIP, sizeof STRIP, 0, 0, 0, 5);
  next = SIZE_MAX;
  faults += step_differs("far beyond", &next, STRIP, sizeof STRIP, 0, 0, 0, SIZE_MAX);
  faults += step_differs("refused beyond", &next, STRIP, sizeof STRIP - 1, GEMCOTTON_LENGTH, 0, 0, SIZE_MAX);
  next = 3;
  faults += step_differs("refused step", &next, STRIP, sizeof STRIP - 1, GEMCOTTON_LENGTH, 0, 0, 3);
  faults += step_differs("refused step again", &next, STRIP, sizeof STRIP - 1, GEMCOTTON_LENGTH, 0, 0, 3);
  faults += step_differs("step after refusals", &next, STRIP, sizeof STRIP, 0, 400, 1, 4);
  next = 3;
  faults += step_differs("step where times fall", &next, FALLING, sizeof FALLING, 0, 400, 1, 4);
  next = 0;
  faults += step_differs("fetch in step", &next, NO_BITS, sizeof NO_BITS, GEMCOTTON_FETCH, 1, 0, 0);
  faults += step_differs("level in step", &next, CUT_LEVEL, sizeof CUT_LEVEL, GEMCOTTON_LEVEL_LENGTH, 1, 0, 0);
  faults += step_differs("time in step", &next, BELOW, sizeof BELOW, GEMCOTTON_TIME, 2, 0, 0);
  next = 1;
  faults += step_differs("time 0, not end", &next, BELOW, sizeof BELOW, 0, 0, 1, 2);
  return faults;
}

int main(void) {
  uint8_t out[sizeof STRIP + 1];
  uint32_t list[6] = {7, 7, 7, 7, 7, 7};
  static const uint32_t untouched[6] = {7, 7, 7, 7, 7, 7};
  int faults = 0;
  memset(out, 0x77, sizeof out);
  faults += differs("short", gemcotton_pack(out, sizeof STRIP - 1, TIMES, 5), GEMCOTTON_SHORT, sizeof STRIP, 0);
  faults += out[0] != 0x77;
  faults += differs("pack", gemcotton_pack(out, sizeof out, TIMES, 5), 0, sizeof STRIP, 0);
  faults += memcmp(out, STRIP, sizeof STRIP) != 0 || out[sizeof STRIP] != 0x77;
  faults += differs("access", gemcotton_access(out, sizeof STRIP, 3), 0, 400, 1);
  faults += differs("position", gemcotton_access(out, sizeof STRIP, 5), GEMCOTTON_POSITION, 0, 0);
  faults += differs("search", gemcotton_search(out, sizeof STRIP, 250), 0, 1, 3);
  faults += differs("up-to", gemcotton_up_to(out, sizeof STRIP, 250), 0, 3, 3);
  faults += differs("more answers", gemcotton_sweep(list, 3, out, sizeof STRIP, TARGETS, 2), GEMCOTTON_ANSWERS, 0, 0);
  faults += differs("fewer answers", gemcotton_sweep(list, 2, out, sizeof STRIP, TARGETS, 3), GEMCOTTON_ANSWERS, 0, 0);
  faults += differs("targets fall", gemcotton_sweep(list, 2, out, sizeof STRIP, LOWER, 2), GEMCOTTON_TARGETS_FALL, 1, 0);
  faults += differs("no targets", gemcotton_sweep(list, 0, out, sizeof STRIP, TARGETS, 0), 0, 0, 0);
  faults += differs("check", gemcotton_check(out, sizeof STRIP), 0, 5, 0);
  faults += differs("no room", gemcotton_unpack(list, 4, out, sizeof STRIP), GEMCOTTON_SHORT, 5, 0);
  faults += differs("times fall", gemcotton_check(FALLING, sizeof FALLING), GEMCOTTON_TIMES_FALL, 3, 0);
  faults += differs("times fall in unpack", gemcotton_unpack(list, 6, FALLING, sizeof FALLING), GEMCOTTON_TIMES_FALL, 3, 0);
  faults += differs("times fall in repeat", gemcotton_repeat(FALLING, sizeof FALLING, 150), GEMCOTTON_TIMES_FALL, 3, 0);
  faults += differs("level", gemcotton_check(CUT_LEVEL, sizeof CUT_LEVEL), GEMCOTTON_LEVEL_LENGTH, 1, 0);
  faults += differs("image", gemcotton_check(OTHER, sizeof OTHER), GEMCOTTON_IMAGE, 0, 0);
  faults += differs("image in unpack", gemcotton_unpack(list, 6, OTHER, sizeof OTHER), GEMCOTTON_IMAGE, 0, 0);
  faults += memcmp(list, untouched, sizeof list) != 0;
  faults += differs("sweep", gemcotton_sweep(list, 3, out, sizeof STRIP, TARGETS, 3), 0, 0, 5);
  faults += memcmp(list, POSITIONS, sizeof POSITIONS) != 0 || memcmp(list + 3, untouched, 3 * sizeof *list) != 0;
  faults += differs("unpack", gemcotton_unpack(list, 6, out, sizeof STRIP), 0, 5, 0);
  faults += memcmp(list, TIMES, sizeof TIMES) != 0 || list[5] != 7;
  faults += differs("repeat", gemcotton_repeat(out, sizeof STRIP, 150), 0, 2, 0);
  faults += differs("no repeat", gemcotton_repeat(out, sizeof STRIP, 0), 0, 0, 0);
  faults += walk_differs();
  faults += gemcotton_height(GEMCOTTON_MAX_PINS) != GEMCOTTON_MAX_HEIGHT || gemcotton_root_place(4) != 3;
  faults += gemcotton_rank(5, 4) != 0 || gemcotton_rank(5, 1) != 3 || gemcotton_rank(5, 0) != 5 || gemcotton_rank(5, 6) != 5;
  return faults != 0;
}
