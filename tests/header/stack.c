// The stack that each exported call takes, by what is overwritten of a thread's own, is within what the header states. What is measured is
// the deepest call of each kind: the largest records with one port and with two, a satisfiable answer, a text that passes. The last line is
// 'N passed, M failed'.
// Build: cc -std=gnu11 -pthread stack.c -L FOLDER -lmarrubigai

#include <pthread.h>
#include <stdio.h>
#include <stdlib.h>
#include <string.h>

#include "../../include/marrubigai.h"

enum { BYTES = 4 << 20, UNTOUCHED = 0xa5, GATES = 500, ANSWER_BYTES = 16 << 20 };

// 600 wires; where there is a second port, its read bits take the place of inputs
static marrubigai_netlist net = {
    .inputs = 68, .gates = GATES, .m = 12, .n = 32, .address = {2, 4, 6, 8, 10, 12, 14, 16, 18, 20, 22, 24}, .we = 2, .re = 1,
    .address2 = {24, 22, 20, 18, 16, 14, 12, 10, 8, 6, 4, 2}, .re2 = 1};
static marrubigai_latch latches[MARRUBIGAI_LIST_ROOM];
static marrubigai_gate gates[MARRUBIGAI_LIST_ROOM];
static int32_t numbers[MARRUBIGAI_GROUP_ROOM];
static uint8_t sheet[MARRUBIGAI_SHEET_BYTES], text[MARRUBIGAI_SHEET_BYTES], trace[MARRUBIGAI_TRACE_BYTES];
static uint32_t words[MARRUBIGAI_MEMORY_WORDS];
static int32_t store[2 * MARRUBIGAI_GROUP_ROOM];
static size_t sheet_bytes;
static const uint8_t aag[] = "aag 2 2 0 5 0\n2\n4\n0\n2\n1\n1\n5\n";
static uint8_t *answer;
static size_t answer_bytes;

static int none(void) { return 1; }
static int read_sheet(void) { return marrubigai_read(sheet, sheet_bytes, latches, 600, gates, 600).number == 0; }
static int import(void) { return marrubigai_import(aag, sizeof aag - 1, 1, 1, 0, 0, 0, latches, 600, gates, 600).number == 0; }
static int next_line(void) { return marrubigai_next_line(sheet, sheet_bytes, 0).number == 0; }
static int heading(void) { return marrubigai_heading(net, latches, 0, gates, GATES, 255).number == 0; }
static int write_group(void) {
  return marrubigai_write_group(net, latches, 0, gates, GATES, 255, MARRUBIGAI_PAIR, 3, 200, net.second_port + 1, numbers,
                                1).number == MARRUBIGAI_NO_ROOM;
}
static int move(void) {
  return marrubigai_move(net, latches, 0, gates, GATES, (marrubigai_position){255, 0, 1}, MARRUBIGAI_ON).number == 0;
}
static int write_group_at(void) {
  return marrubigai_write_group_at(net, latches, 0, gates, GATES, (marrubigai_position){255, 0, 1}, MARRUBIGAI_WIRES, 0, 0, numbers,
                                   MARRUBIGAI_GROUP_ROOM).number == 0;
}
// the formula is counted before there is seen to be no room; what is then checked is less deep
static int certify(void) {
  static uint8_t input[11 + MARRUBIGAI_SHEET_BYTES];
  memcpy(input, "       255\n", 11);
  memcpy(input + 11, sheet, sheet_bytes);
  return marrubigai_certify(input, 11 + sheet_bytes, numbers, 0, words, 0, numbers, 1, words, 1).number == MARRUBIGAI_NO_ROOM;
}
static int certify_forever(void) {
  return marrubigai_certify_forever(sheet, sheet_bytes, numbers, 0, words, 0, numbers, 0, words, 0, numbers, 1, words, 1).number == MARRUBIGAI_PASSED;
}
static int certify_depth_0(void) {
  static uint8_t input[11 + MARRUBIGAI_SHEET_BYTES];
  memcpy(input, "         0\n", 11);
  memcpy(input + 11, sheet, sheet_bytes);
  static int32_t lemmas[1] = {0};
  static uint32_t hints[2] = {1, 0};
  return marrubigai_certify(input, 11 + sheet_bytes, lemmas, 1, hints, 2, store, sizeof store / sizeof *store, words, MARRUBIGAI_MEMORY_WORDS).number == 0;
}
static int literal_at(void) { return marrubigai_literal_at(net, (marrubigai_position){255, 0, 1}, 2).number == 0; }
static int source_literal(void) { return marrubigai_source_literal(net, 255, MARRUBIGAI_PAIR, 254, 255, net.second_port + 1).number == 0; }
static int write_sheet(void) { return marrubigai_write_sheet(net, latches, 0, gates, GATES, text, sizeof text).number == 0; }
static int one_port(void) { // with two ports the second one reads
  return marrubigai_one_port(sheet, sheet_bytes, text, sizeof text).number == (net.second_port ? MARRUBIGAI_SECOND_PORT : 0);
}

static int export(void) {
  return marrubigai_export(net, latches, 0, gates, GATES, text, sizeof text).number == (net.second_port ? MARRUBIGAI_OUT_OF_ORDER : 0);
}
static int replay(void) {
  return marrubigai_replay(net, latches, 0, gates, GATES, 255, answer, answer_bytes, words, MARRUBIGAI_MEMORY_WORDS, trace,
                           MARRUBIGAI_TRACE_BYTES).number == 0;
}
static int put_clauses(void) { return marrubigai_put_clauses(text, sizeof text, numbers, 1000).number == 0; }
static int put_others(void) {
  return marrubigai_put_header(text, 28, 1, 2).number + marrubigai_put_refusal(text, 28, 1, 2).number + marrubigai_put_number(text, 28, -5).number +
             marrubigai_next_group(255, net.second_port + 1, 0, 0, 0, 0).end + marrubigai_version().major == 0;
}

static const struct {
  const char *name;
  int (*call)(void);
  size_t stated;
} calls[] = {
    {"read", read_sheet, MARRUBIGAI_CALL_STACK},       {"import", import, MARRUBIGAI_IMPORT_STACK},
    {"next_line", next_line, MARRUBIGAI_CALL_STACK},   {"heading", heading, MARRUBIGAI_CALL_STACK},
    {"write_group", write_group, MARRUBIGAI_CALL_STACK}, {"move", move, MARRUBIGAI_CALL_STACK},
    {"write_group_at", write_group_at, MARRUBIGAI_CALL_STACK}, {"literal_at", literal_at, MARRUBIGAI_CALL_STACK},
    {"source_literal", source_literal, MARRUBIGAI_CALL_STACK},
    {"write_sheet", write_sheet, MARRUBIGAI_CALL_STACK}, {"one_port", one_port, MARRUBIGAI_CALL_STACK}, {"export", export, MARRUBIGAI_CALL_STACK},
    {"replay", replay, MARRUBIGAI_REPLAY_STACK},
    {"certify", certify, MARRUBIGAI_CALL_STACK},       {"certify at depth 0", certify_depth_0, MARRUBIGAI_CALL_STACK},
    {"certify_forever", certify_forever, MARRUBIGAI_CALL_STACK},
    {"put_clauses", put_clauses, MARRUBIGAI_CALL_STACK}, {"the others", put_others, MARRUBIGAI_CALL_STACK},
};

static int (*called)(void);
static int answered;

static void *run(void *unused) {
  answered = called();
  return unused;
}

// how much of its own stack a thread has written to that makes this call and ends
static size_t taken(int (*call)(void)) {
  uint8_t *stack = aligned_alloc(65536, BYTES);
  memset(stack, UNTOUCHED, BYTES);
  pthread_attr_t attributes;
  pthread_t thread;
  called = call;
  answered = 0;
  if (pthread_attr_init(&attributes) != 0 || pthread_attr_setstack(&attributes, stack, BYTES) != 0 ||
      pthread_create(&thread, &attributes, run, NULL) != 0 || pthread_join(thread, NULL) != 0)
    return BYTES;
  size_t low = 0;
  while (low < BYTES && stack[low] == UNTOUCHED) low++;
  free(stack);
  return BYTES - low;
}

// the gates, which an import writes over
static void fill_gates(void) {
  for (size_t g = 0; g < GATES; g++) gates[g] = (marrubigai_gate){.left = 2, .right = 4};
}

int main(void) {
  int passed = 0, failed = 0;
  const size_t own = taken(none); // the thread's
  answer = malloc(ANSWER_BYTES);
  for (uint32_t ports = 1; ports <= 2; ports++) {
    net.second_port = ports - 1;
    net.inputs = MARRUBIGAI_MOST_WIRES - GATES - ports * MARRUBIGAI_MOST_DATA_BITS;
    fill_gates();
    sheet_bytes = marrubigai_write_sheet(net, latches, 0, gates, GATES, sheet, sizeof sheet).count;
    const uint32_t variables = marrubigai_heading(net, latches, 0, gates, GATES, 255).variables;
    char *end = (char *)answer + sprintf((char *)answer, "s SATISFIABLE\n");
    for (uint32_t v = 1; v <= variables; v++) end += sprintf(end, "v %u\n", (unsigned)v);
    end += sprintf(end, "v 0\n");
    answer_bytes = (size_t)(end - (char *)answer);
    for (size_t t = 0; t < sizeof calls / sizeof *calls; t++) {
      fill_gates();
      const size_t bytes = taken(calls[t].call) - own;
      const int holds = answered && bytes <= calls[t].stated;
      printf("%s%s with %u port%s: %zu bytes of stack, stated %zu\n", holds ? "" : "FAILED: ", calls[t].name, (unsigned)ports,
             ports == 1 ? "" : "s", bytes, calls[t].stated);
      if (holds) passed++;
      else failed++;
    }
  }
  free(answer);
  printf("%d passed, %d failed\n", passed, failed);
  return failed != 0;
}
