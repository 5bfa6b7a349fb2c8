// Every group of a depth through the exported calls, each of which tests its record: the same input as `frames`, the numbers into a
// buffer that is written over. Prints how many numbers that is. With the argument `headings` instead: the least processor time that a heading
// of the depth took, in microseconds, with the start as it is and, of one port, with an unknown one. With `export`: the same of the export of a
// record with as many gates as there can be, whatever the input.

#include <stdio.h>
#include <stdlib.h>
#include <string.h>
#include <time.h>

#include "../include/marrubigai.h"

enum { DEPTH_LINE = 11 };

static marrubigai_latch latches[MARRUBIGAI_LIST_ROOM];
static marrubigai_gate gates[MARRUBIGAI_LIST_ROOM];
static marrubigai_netlist net;
static uint32_t depth;

static size_t group(uint32_t kind, uint32_t j, uint32_t i, uint32_t port) {
  static int32_t numbers[MARRUBIGAI_GROUP_ROOM];
  marrubigai_count_reply reply =
      marrubigai_write_group(net, latches, net.latches, gates, net.gates, depth, kind, j, i, port, numbers, MARRUBIGAI_GROUP_ROOM);
  if (reply.number != 0) exit(1);
  return reply.count;
}

static uint32_t heading(void) { return marrubigai_heading(net, latches, net.latches, gates, net.gates, depth).number; }

static uint32_t export(void) {
  static uint8_t file[MARRUBIGAI_AIGER_BYTES];
  return marrubigai_export(net, latches, net.latches, gates, net.gates, file, sizeof file).number;
}

// what a call takes, the best of some batches
static double time_of(uint32_t (*call)(void)) {
  enum { BATCHES = 50, CALLS = 20 };
  clock_t best = 0;
  for (int batch = 0; batch < BATCHES; batch++) {
    clock_t began = clock();
    for (int x = 0; x < CALLS; x++)
      if (call() != 0) exit(1);
    clock_t took = clock() - began;
    if (batch == 0 || took < best) best = took;
  }
  return 1e6 * (double)best / CLOCKS_PER_SEC / CALLS;
}

// one read bit, wire 1, and 599 gates of any two earlier wires
static void most_gates(void) {
  net = (marrubigai_netlist){.gates = MARRUBIGAI_MOST_WIRES - 1, .m = 1, .n = 1, .we = 2, .p = 1200};
  uint32_t drawn = 1;
  for (uint32_t g = 0; g < net.gates; g++) {
    uint32_t *codes[] = {&gates[g].left, &gates[g].right};
    for (int x = 0; x < 2; x++) {
      drawn = drawn * 1664525 + 1013904223;
      *codes[x] = 2 + (drawn >> 8) % (2 * g + 2);
    }
  }
}

int main(int words, char **word) {
  static uint8_t input[DEPTH_LINE + MARRUBIGAI_SHEET_BYTES];
  size_t bytes = fread(input, 1, sizeof input, stdin), count = 0;
  if (bytes < DEPTH_LINE) return 1;
  depth = (uint32_t)atoi((const char *)input);
  marrubigai_sheet_reply sheet =
      marrubigai_read(input + DEPTH_LINE, bytes - DEPTH_LINE, latches, MARRUBIGAI_LIST_ROOM, gates, MARRUBIGAI_LIST_ROOM);
  if (sheet.number != 0) return 1;
  net = sheet.net;
  if (words > 1 && strcmp(word[1], "headings") == 0) {
    printf("%.2f\n", time_of(heading));
    if (net.second_port) return 0;
    net.unknown_start = 1;
    printf("%.2f\n", time_of(heading));
    return 0;
  }
  if (words > 1 && strcmp(word[1], "export") == 0) {
    most_gates();
    printf("%.2f\n", time_of(export));
    return 0;
  }
  uint32_t ports = 1 + net.second_port;
  for (uint32_t i = 0; i <= depth; i++) {
    count += group(MARRUBIGAI_WIRES, 0, i, 0);
    for (uint32_t j = i; j > 0; j--)
      for (uint32_t port = 1; port <= ports; port++) count += group(MARRUBIGAI_PAIR, j - 1, i, port);
    for (uint32_t port = 1; port <= ports; port++) count += group(MARRUBIGAI_CLOSING, 0, i, port);
  }
  count += group(MARRUBIGAI_PROPERTY, 0, 0, 0);
  printf("%zu\n", count);
  return 0;
}
