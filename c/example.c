/* The calls on one strip: packs a list, checks the strip, looks it up by position and by time, walks it, and meets refusals.
 * Prints what it finds, as in c/example.stdout. From the repository's folder, with target/staticlib/libstrip_c.a built:
 *
 *   cc -std=c99 -Iinclude c/example.c target/staticlib/libstrip_c.a -o target/example && target/example
 */
#include "gemcotton.h"

#include <inttypes.h>
#include <stdio.h>
#include <stdlib.h>

#define PINS 5
#define TARGETS 3

/* The strike times, in milliseconds. Two strikes at 250 are a chord. */
static const uint32_t list[PINS] = {100, 250, 250, 400, 1000};

/* Times to look up in one sweep, none less than the one before. */
static const uint32_t targets[TARGETS] = {250, 251, 1001};

/* A list that falls, which no strip holds. */
static const uint32_t falling[2] = {7, 6};

/* Room for any list's strip. */
static uint8_t strip[GEMCOTTON_MAX_BYTES];

/* Tells a refusal, if it is one, by its number and its sentence. */
static void tell(FILE *out, const char *call, struct gemcotton_answer answer) {
  if (answer.refusal != GEMCOTTON_NONE) {
    fprintf(out, "%s: refused %zu: ", call, answer.refusal);
    fprintf(out, gemcotton_sentence(answer.refusal), answer.value);
    fprintf(out, "\n");
  }
}

/* The answer of a call that should not be refused; a refusal ends the program. */
static struct gemcotton_answer given(const char *call, struct gemcotton_answer answer) {
  if (answer.refusal != GEMCOTTON_NONE) {
    tell(stderr, call, answer);
    exit(EXIT_FAILURE);
  }
  return answer;
}

/* Looks the strip up by position and by time. */
static void look_up(size_t length) {
  struct gemcotton_answer answer = given("access", gemcotton_access(strip, length, 3));
  printf("position 3: %zu ms (nodes opened: %zu)\n", answer.value, answer.nodes);
  answer = given("search", gemcotton_search(strip, length, 251));
  printf("first at or after 251 ms: position %zu (nodes opened: %zu)\n", answer.value, answer.nodes);
  answer = given("up-to", gemcotton_up_to(strip, length, 250));
  printf("at or before 250 ms: %zu strikes (nodes opened: %zu)\n", answer.value, answer.nodes);
}

/* By many times in one walk. The pin count is the answer where there is no strike at or after the target. */
static void look_up_many(size_t length, size_t pins) {
  uint32_t positions[TARGETS];
  struct gemcotton_answer answer = given("sweep", gemcotton_sweep(positions, TARGETS, strip, length, targets, TARGETS));
  printf("sweep (nodes opened: %zu)\n", answer.nodes);
  for (size_t i = 0; i < TARGETS; i++) {
    if (positions[i] < pins) {
      printf("  first at or after %" PRIu32 " ms: position %" PRIu32 "\n", targets[i], positions[i]);
    } else {
      printf("  first at or after %" PRIu32 " ms: none\n", targets[i]);
    }
  }
}

/* Finds the first gap below 150 ms, where 0 says that there is none, and lists all times: at once, and one after the other. */
static void list_all(size_t length) {
  struct gemcotton_answer answer = given("repeat", gemcotton_repeat(strip, length, 150));
  if (answer.value != 0) {
    printf("first less than 150 ms after the one before: position %zu\n", answer.value);
  }
  uint32_t times[PINS];
  given("unpack", gemcotton_unpack(times, PINS, strip, length));
  printf("unpacked:");
  for (size_t i = 0; i < PINS; i++) {
    printf(" %" PRIu32, times[i]);
  }
  printf("\nwalk\n");
  /* A step that is not refused and has no nodes says end. */
  size_t next = 0;
  for (;;) {
    size_t position = next;
    answer = given("step", gemcotton_step(&next, strip, length));
    if (answer.nodes == 0) {
      break;
    }
    printf("  position %zu: %zu ms\n", position, answer.value);
  }
  printf("  end\n");
}

static void meet_refusals(size_t length, size_t pins) {
  /* The strip without its last byte is refused. A refused step does not move the walker, so a loop of steps must stop at it. */
  printf("without its last byte\n");
  size_t next = 0;
  tell(stdout, "  check", gemcotton_check(strip, length - 1));
  tell(stdout, "  step", gemcotton_step(&next, strip, length - 1));
  printf("  next position: %zu\n", next);

  /* 9 and 10 carry a node, whose position rank tells. With the root's time changed to 0, its left child has a time below 0. */
  printf("with the root's time changed to 0\n");
  strip[7 + 5 * gemcotton_height(pins)] = 0;
  struct gemcotton_answer answer = gemcotton_check(strip, length);
  tell(stdout, "  check", answer);
  if (answer.refusal == GEMCOTTON_TIME) {
    printf("  node %zu: position %zu\n", answer.value, gemcotton_rank(pins, answer.value));
  }

  /* A list that falls. */
  printf("7, 6\n");
  tell(stdout, "  pack", gemcotton_pack(strip, sizeof strip, falling, 2));
}

int main(void) {
  /* The strip is the first `length` bytes. */
  size_t length = given("pack", gemcotton_pack(strip, sizeof strip, list, PINS)).value;
  printf("packed into %zu bytes\n", length);

  /* A strip that comes from elsewhere is checked before its answers are relied on. */
  size_t pins = given("check", gemcotton_check(strip, length)).value;
  printf("accepted, with %zu pins\n", pins);
  look_up(length);
  look_up_many(length, pins);
  list_all(length);
  meet_refusals(length, pins);
  return EXIT_SUCCESS;
}
