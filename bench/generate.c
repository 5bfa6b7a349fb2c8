// What `frames` is measured against: the same text from the same input, without any test of the input. The clauses are made here; how numbers
// are written is in the header that OUTPUT names.

#include <stdint.h>
#include <stdio.h>
#include <stdlib.h>
#include <string.h>

#include OUTPUT

enum { MOST_WIRES = 600, MOST_ADDRESS = 12, MOST_DATA = 32, LINE = 32, FIELD = 10 };

typedef struct { int left, right; } Gate;
typedef struct { int next, reset; } Latch;
// how a port reads; `block` is where its variables begin among those of a pair
typedef struct { int address[MOST_ADDRESS], read_enable, first_read, block; } Port;

static int depth, inputs, latches, gates, m, n, wires, first_latch, first_gate, ports, step;
static unsigned start_word;
static int unknown_start;
static int write_enable, property;
static Latch latch[MOST_WIRES];
static Gate gate[MOST_WIRES];
static int write_data[MOST_DATA];
static Port port[2]; // the first port's address is the one that is written at

static unsigned field(const char *line, int index) {
  char text[FIELD + 1] = {0};
  memcpy(text, line + 1 + index * FIELD, FIELD);
  return (unsigned)strtoul(text, NULL, 10);
}

static void read_input(void) {
  static char input[FIELD + 1 + 627 * LINE];
  size_t length = fread(input, 1, sizeof input, stdin);
  int latch_lines = 0, gate_lines = 0, address_lines = 0, data_lines = 0, second_lines = 0;
  depth = atoi(input);
  for (const char *line = input + FIELD + 1; line + LINE <= input + length; line += LINE) {
    int a = (int)field(line, 0), b = (int)field(line, 1);
    unsigned c = field(line, 2);
    switch (line[0]) {
      case 'N': inputs = a; latches = b; gates = (int)c; break;
      case 'M':
      case 'T': m = a; n = b; start_word = c; unknown_start = line[3 * FIELD] == ' '; ports = line[0] == 'T' ? 2 : 1; break;
      case 'L': latch[latch_lines++] = (Latch){a, b}; break;
      case 'G': gate[gate_lines++] = (Gate){a, b}; break;
      case 'A': port[0].address[address_lines++] = a; break;
      case 'D': write_data[data_lines++] = a; break;
      case 'B': port[1].address[second_lines++] = a; break;
      case 'R': port[1].read_enable = a; break;
      case 'C': write_enable = a; port[0].read_enable = b; property = (int)c; break;
    }
  }
  first_latch = inputs + 1;
  for (int p = 0; p < ports; p++) {
    port[p].first_read = first_latch + latches + p * n;
    port[p].block = p * (m + 4);
  }
  first_gate = first_latch + latches + ports * n;
  wires = inputs + latches + ports * n + gates;
  step = ports * (m + 4);
}

// B(i) and Q(j, i) of a port (RULES V2, V4 and V8)
static int frame_base(int i) { return 1 + i * wires + step * (i * (i - 1) / 2); }
static int pair_base(int base, int p, int j) { return base + wires + j * step + port[p].block; }

// Here a constant is 1, true, or -1, false: no clause but the first is about variable 1 (RULES V7 and G29).
enum { TRUE = 1, FALSE = -1 };

static inline int literal(int code, int base) {
  int positive = code < 2 ? FALSE : base + (code >> 1);
  return code & 1 ? -positive : positive;
}

// RULES G28 and G29. The first literal of a clause of one or two, and one of every clause of three, is a variable but where `empty` says so.
static inline Out keep(Out out, int a) { return a == FALSE ? out : put(out, a); }
static inline Out clause2(Out out, int a, int b) { return b == TRUE ? out : end(keep(put(out, a), b)); }
static inline Out clause3(Out out, int a, int b, int c) {
  return a == TRUE || b == TRUE || c == TRUE ? out : end(keep(keep(keep(out, a), b), c));
}
static inline Out empty(Out out) { return end(put(out, FALSE)); }

static inline Out and_gate(Out out, int g, int a, int b) {
  out = clause2(out, -g, a);
  out = clause2(out, -g, b);
  return clause3(out, g, -a, -b);
}

static inline Out equal_if(Out out, int condition, int a, int b) {
  out = clause3(out, -condition, -a, b);
  return clause3(out, -condition, a, -b);
}

static Out wires_group(Out out, int i) {
  int base = frame_base(i);
  if (i == 0) out = end(put(out, 1));
  for (int q = 0; q < latches; q++) {
    int own = base + first_latch + q;
    if (i == 0) {
      out = end(put(out, latch[q].reset ? own : -own));
    } else {
      int next = literal(latch[q].next, frame_base(i - 1));
      out = clause2(out, -own, next);
      out = clause2(out, own, -next);
    }
  }
  for (int g = 0; g < gates; g++)
    out = and_gate(out, base + first_gate + g, literal(gate[g].left, base), literal(gate[g].right, base));
  return out;
}

// Z of a frame (RULES G11)
static int untouched(int p, int i) {
  int base = frame_base(i);
  return i == 0 ? literal(port[p].read_enable, base) : pair_base(base, p, 0) + m + 3;
}

// RULES G32, of an only port: of these only Z of frame 0 may be a constant
static Out agreement(Out out, int all_equal, int j, int i) {
  int zj = untouched(0, j), zi = untouched(0, i), earlier = frame_base(j) + port[0].first_read, later = frame_base(i) + port[0].first_read;
  if (zj == FALSE) return out;
  for (int t = 0; t < n; t++) {
    out = end(put(put(put(keep(put(out, -all_equal), -zj), -zi), -(later + t)), earlier + t));
    out = end(put(put(put(keep(put(out, -all_equal), -zj), -zi), later + t), -(earlier + t)));
  }
  return out;
}

static Out pair_group(Out out, int p, int j, int i) {
  int reader = frame_base(i), writer = frame_base(j);
  int base = pair_base(reader, p, j);
  int all_equal = base + 1, valid = base + m + 2, none_since = base + m + 3, selected = base + m + 4;
  for (int t = 0; t < m; t++) {
    int e = base + 2 + t, aj = literal(port[0].address[t], writer), ai = literal(port[p].address[t], reader);
    out = clause3(out, -all_equal, aj, -ai);
    out = clause3(out, -all_equal, -aj, ai);
    out = clause3(out, e, aj, ai);
    out = clause3(out, e, -aj, -ai);
  }
  for (int t = 0; t < m; t++) out = put(out, -(base + 2 + t));
  out = end(put(out, all_equal));
  int newer = j == i - 1 ? literal(port[p].read_enable, reader) : base + step + m + 3;
  out = and_gate(out, valid, all_equal, literal(write_enable, writer));
  out = and_gate(out, none_since, -valid, newer);
  out = and_gate(out, selected, valid, newer);
  for (int t = 0; t < n; t++) out = equal_if(out, selected, reader + port[p].first_read + t, literal(write_data[t], writer));
  return unknown_start ? agreement(out, all_equal, j, i) : out;
}

static Out closing_group(Out out, int p, int i) {
  int base = frame_base(i), re = literal(port[p].read_enable, base), z = untouched(p, i);
  for (int t = 0; t < n && !unknown_start; t++) out = equal_if(out, z, base + port[p].first_read + t, start_word >> t & 1 ? TRUE : FALSE);
  for (int t = 0; t < n && i > 0; t++) out = equal_if(out, -re, base + port[p].first_read + t, frame_base(i - 1) + port[p].first_read + t);
  if (re == FALSE || z == TRUE) return out;
  if (re == TRUE && z == FALSE && i == 0) return empty(out);
  out = keep(keep(out, -re), z);
  for (int j = 0; j < i; j++) out = put(out, pair_base(base, p, j) + m + 4);
  return end(out);
}

static Out property_group(Out out) {
  if (property == 0) return out;
  if (property == 1) return empty(out);
  for (int i = 0; i <= depth; i++) out = put(out, -literal(property, frame_base(i)));
  return end(out);
}

// How many clauses are written: of a gate, of an equality, of a port's pairs, of its closings, of the agreement that an unknown start asks of the
// pairs, those with frame 0 for themselves (RULES G34). Any variable stands for all, 2.
enum { VARIABLE = 2 };

static int kind(int code) { return code < 2 ? literal(code, 0) : VARIABLE; }
static int written(int a, int b, int c) { return a != TRUE && b != TRUE && c != TRUE; }
static int and_clauses(int a, int b) { return (a != TRUE) + (b != TRUE) + written(FALSE, -a, -b); }
static int equal_clauses(int condition, int b) { return written(-condition, FALSE, b) + written(-condition, FALSE, -b); }

// A constant bit leaves one clause with E and one with e; a second one leaves E alone where they differ, else e.
static int address_clauses(int written_bit, int read_bit) {
  int constants = (written_bit != VARIABLE) + (read_bit != VARIABLE);
  return constants == 0 ? 4 : constants == 1 ? 2 : 1;
}

static int pair_clauses(int p, int newer) {
  int count = 1 + and_clauses(VARIABLE, kind(write_enable)) + 2 * and_clauses(VARIABLE, newer);
  for (int t = 0; t < m; t++) count += address_clauses(kind(port[0].address[t]), kind(port[p].address[t]));
  for (int t = 0; t < n; t++) count += equal_clauses(VARIABLE, kind(write_data[t]));
  return count;
}

static int closing_clauses(int p, int z, int later) {
  int re = kind(port[p].read_enable), count = written(-re, z, FALSE);
  for (int t = 0; t < n; t++) {
    if (!unknown_start) count += equal_clauses(z, start_word >> t & 1 ? TRUE : FALSE);
    if (later) count += equal_clauses(-re, VARIABLE);
  }
  return count;
}

static int agreement_clauses(void) {
  int with_first = kind(port[0].read_enable) == FALSE ? 0 : depth;
  return unknown_start ? 2 * n * (with_first + depth * (depth - 1) / 2) : 0;
}

static int port_clauses(int p) {
  int re = kind(port[p].read_enable);
  return depth * pair_clauses(p, re) + depth * (depth - 1) / 2 * pair_clauses(p, VARIABLE) + closing_clauses(p, re, 0) +
         depth * closing_clauses(p, VARIABLE, 1);
}

static int all_clauses(void) {
  int count = 1 + latches + agreement_clauses() + (property != 0);
  for (int g = 0; g < gates; g++) count += (depth + 1) * and_clauses(kind(gate[g].left), kind(gate[g].right));
  for (int q = 0; q < latches; q++) count += depth * (kind(latch[q].next) == VARIABLE ? 2 : 1);
  for (int p = 0; p < ports; p++) count += port_clauses(p);
  return count;
}

int main(void) {
  read_input();
  int frames = depth + 1;
  int clauses = all_clauses();
  Out out = open_output();
  out = header(out, frame_base(frames), clauses);
  for (int i = 0; i <= depth; i++) {
    out = wires_group(out, i);
    for (int j = i - 1; j >= 0; j--)
      for (int p = 0; p < ports; p++) out = pair_group(out, p, j, i);
    for (int p = 0; p < ports; p++) out = closing_group(out, p, i);
  }
  close_output(property_group(out));
  return 0;
}
