// The function `written_in` of docs/LIBRARY.md against the chip's own run: each answer of the solver is run by marrubigai_replay, and of each word
// of the memory it is kept which frame wrote it last. Arguments: a sheet, a depth, and how many answers to look at, at most; no two have the same
// inputs. Prints for each answer a line with the source of each read, frame by frame: a frame, `start`, or `-` where nothing is read; of two ports
// with a slash between. Exit status: 0 the function says the same of all, 1 it does not, or a call is refused, or there is no answer.
// Build: as docs/LIBRARY.md says, with the page's function as written_in.h.

#include <ccadical.h>
#include <marrubigai.h>
#include <stdio.h>
#include <stdlib.h>

#include "written_in.h"

enum { SATISFIABLE = 10, ANSWER_BYTES = 16 << 20, NEVER = -1, IDLE = -2 };

static marrubigai_netlist net;
static marrubigai_latch latches[MARRUBIGAI_LIST_ROOM];
static marrubigai_gate gates[MARRUBIGAI_LIST_ROOM];
static int32_t numbers[MARRUBIGAI_GROUP_ROOM];
static marrubigai_position positions[MARRUBIGAI_MOST_DEPTH + 1];
static uint32_t memory[MARRUBIGAI_MEMORY_WORDS];
static uint8_t trace[MARRUBIGAI_TRACE_BYTES], file[MARRUBIGAI_SHEET_BYTES];
static char answer[ANSWER_BYTES];
static uint32_t wires;

static void test(uint32_t number) {
  if (number == MARRUBIGAI_PASSED) return;
  printf("refused: %s\n", marrubigai_refusal_word(number));
  exit(1);
}

static void read_sheet(const char *path) {
  FILE *stream = fopen(path, "rb");
  if (stream == NULL) exit(1);
  size_t bytes = fread(file, 1, sizeof file, stream);
  fclose(stream);
  marrubigai_sheet_reply reply = marrubigai_read(file, bytes, latches, MARRUBIGAI_LIST_ROOM, gates, MARRUBIGAI_LIST_ROOM);
  test(reply.number);
  net = reply.net;
  wires = net.inputs + net.latches + (net.second_port + 1) * net.n + net.gates;
}

static void add_formula(CCaDiCaL *solver, uint32_t depth) {
  marrubigai_group_reply group = {.kind = MARRUBIGAI_WIRES};
  for (; !group.end; group = marrubigai_next_group(depth, net.second_port + 1, group.kind, group.j, group.i, group.port)) {
    marrubigai_count_reply reply = marrubigai_write_group(net, latches, net.latches, gates, net.gates, depth, group.kind, group.j,
                                                          group.i, group.port, numbers, MARRUBIGAI_GROUP_ROOM);
    test(reply.number);
    for (size_t t = 0; t < reply.count; t++) ccadical_add(solver, numbers[t]);
  }
}

// the running record of each frame
static void walk(uint32_t depth) {
  marrubigai_position position = {.depth = depth};
  for (uint32_t i = 0; i <= depth; i++) {
    marrubigai_position_reply reply =
        marrubigai_move(net, latches, net.latches, gates, net.gates, position, i == 0 ? MARRUBIGAI_START : MARRUBIGAI_ON);
    test(reply.number);
    positions[i] = position = reply.position;
  }
}

static void replay(CCaDiCaL *solver, uint32_t depth, uint32_t variables) {
  char *end = answer + sprintf(answer, "s SATISFIABLE\n");
  for (uint32_t v = 1; v <= variables; v++) end += sprintf(end, "v %d\n", ccadical_val(solver, (int)v) > 0 ? (int)v : -(int)v);
  end += sprintf(end, "v 0\n");
  test(marrubigai_replay(net, latches, net.latches, gates, net.gates, depth, (const uint8_t *)answer, (size_t)(end - answer), memory,
                         MARRUBIGAI_MEMORY_WORDS, trace, MARRUBIGAI_TRACE_BYTES).number);
}

// what a code is in a frame of the run
static int value(uint32_t i, marrubigai_code code) {
  int positive = code > 1 && trace[i * (wires + 1) + code / 2 - 1] == '1';
  return positive != (int)(code % 2);
}

static uint32_t word(uint32_t i, const marrubigai_code *address) {
  uint32_t found = 0;
  for (uint32_t t = 0; t < net.m; t++) found |= (uint32_t)value(i, address[t]) << t;
  return found;
}

static void show(int source) {
  if (source == NEVER) printf("start");
  else if (source == IDLE) printf("-");
  else printf("%d", source);
}

// whether the function says of each read of the run what wrote its word
static int agrees(CCaDiCaL *solver, uint32_t depth) {
  static int writer[MARRUBIGAI_MEMORY_WORDS];
  for (size_t a = 0; a < MARRUBIGAI_MEMORY_WORDS; a++) writer[a] = NEVER;
  int same = 1;
  for (uint32_t i = 0; i <= depth; i++) {
    for (uint32_t port = 1; port <= net.second_port + 1; port++) {
      int reads = value(i, port == 1 ? net.re : net.re2);
      int due = reads ? writer[word(i, port == 1 ? net.address : net.address2)] : IDLE;
      printf("%s", port == 2 ? "/" : i > 0 ? " " : "");
      show(due);
      same = written_in(solver, net, depth, i, port) == due && same;
    }
    if (value(i, net.we)) writer[word(i, net.address)] = (int)i;
  }
  printf("\n");
  return same;
}

// no further answer with these inputs
static void block(CCaDiCaL *solver, uint32_t depth) {
  static int32_t clause[(MARRUBIGAI_MOST_DEPTH + 1) * MARRUBIGAI_MOST_WIRES];
  size_t count = 0;
  for (uint32_t i = 0; i <= depth; i++)
    for (uint32_t w = 1; w <= net.inputs; w++) {
      marrubigai_literal_reply reply = marrubigai_literal_at(net, positions[i], 2 * w);
      test(reply.number);
      clause[count++] = ccadical_val(solver, reply.literal) > 0 ? -reply.literal : reply.literal;
    }
  for (size_t t = 0; t < count; t++) ccadical_add(solver, clause[t]);
  ccadical_add(solver, 0);
}

int main(int argc, char **argv) {
  if (argc != 4) return 2;
  read_sheet(argv[1]);
  const uint32_t depth = (uint32_t)strtoul(argv[2], NULL, 10);
  const unsigned long most = strtoul(argv[3], NULL, 10);
  marrubigai_heading_reply heading = marrubigai_heading(net, latches, net.latches, gates, net.gates, depth);
  test(heading.number);
  walk(depth);
  CCaDiCaL *solver = ccadical_init();
  ccadical_set_option(solver, "quiet", 1);
  add_formula(solver, depth);
  unsigned long answers = 0;
  int same = 1;
  while (answers < most && ccadical_solve(solver) == SATISFIABLE) {
    replay(solver, depth, heading.variables);
    same = agrees(solver, depth) && same;
    block(solver, depth);
    answers++;
  }
  ccadical_release(solver);
  return !same || answers == 0;
}
