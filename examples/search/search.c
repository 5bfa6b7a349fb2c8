// Looks for the earliest frame in which a run of a chip breaks its property, depth by depth in one solver: the clauses of a frame are
// added once, and what the solver has learnt of the frames before is kept. Arguments: a sheet, and the depth to stop at.
// Exit status: 10 there is such a frame, 20 there is none to this depth, 1 a refusal or a failure, 2 wrong arguments.

#include <ccadical.h>
#include <marrubigai.h>
#include <stdio.h>
#include <stdlib.h>

enum { SATISFIABLE = 10, UNSATISFIABLE = 20 }; // CaDiCaL's answers

static marrubigai_netlist net;
static marrubigai_latch latches[MARRUBIGAI_LIST_ROOM];
static marrubigai_gate gates[MARRUBIGAI_LIST_ROOM];
static int32_t numbers[MARRUBIGAI_GROUP_ROOM];

static void test(uint32_t number, uint32_t place) {
  if (number == MARRUBIGAI_PASSED) return;
  fprintf(stderr, "refused %u at %u\n", (unsigned)number, (unsigned)place);
  exit(1);
}

static void read_sheet(const char *path) {
  static uint8_t file[MARRUBIGAI_SHEET_BYTES + 1]; // one more, so that a file that is too long is refused and not cut
  FILE *stream = fopen(path, "rb");
  if (stream == NULL) {
    perror(path);
    exit(1);
  }
  size_t bytes = fread(file, 1, sizeof file, stream);
  fclose(stream);
  marrubigai_sheet_reply reply = marrubigai_read(file, bytes, latches, MARRUBIGAI_LIST_ROOM, gates, MARRUBIGAI_LIST_ROOM);
  test(reply.number, reply.place);
  net = reply.net;
}

// the running record: started, or moved one frame on
static marrubigai_position moved(marrubigai_position position, uint32_t way) {
  marrubigai_position_reply reply = marrubigai_move(net, latches, net.latches, gates, net.gates, position, way);
  test(reply.number, reply.place);
  return reply.position;
}

static void add_group(CCaDiCaL *solver, marrubigai_position position, marrubigai_group_reply group) {
  marrubigai_count_reply reply = marrubigai_write_group_at(net, latches, net.latches, gates, net.gates, position, group.kind, group.j,
                                                           group.port, numbers, MARRUBIGAI_GROUP_ROOM);
  test(reply.number, reply.place);
  for (size_t t = 0; t < reply.count; t++) ccadical_add(solver, numbers[t]); // each clause ends in 0, as the solver wants it
}

// the groups of the record's frame: from its wires on, in the order of the whole
static void add_frame(CCaDiCaL *solver, marrubigai_position position) {
  const uint32_t ports = net.second_port + 1;
  marrubigai_group_reply group = {.kind = MARRUBIGAI_WIRES, .i = position.frame};
  while (group.kind != MARRUBIGAI_PROPERTY && group.i == position.frame) {
    add_group(solver, position, group);
    group = marrubigai_next_group(position.depth, ports, group.kind, group.j, group.i, group.port);
  }
}

// not P of the record's frame: also where P is a constant, as variable 1 is true
static int32_t violation(marrubigai_position position) {
  marrubigai_literal_reply reply = marrubigai_literal_at(net, position, net.p ^ 1);
  test(reply.number, reply.place);
  return reply.literal;
}

int main(int argc, char **argv) {
  char *end = NULL;
  unsigned long depth = argc == 3 ? strtoul(argv[2], &end, 10) : 0;
  if (argc != 3 || end == argv[2] || *end != '\0' || depth > UINT32_MAX) {
    fprintf(stderr, "arguments: a sheet, and the depth to stop at\n");
    return 2;
  }
  read_sheet(argv[1]);
  marrubigai_position position = {.depth = (uint32_t)depth};
  position = moved(position, MARRUBIGAI_START); // a depth that is too large is refused before the search

  CCaDiCaL *solver = ccadical_init();
  int answer;
  for (;;) {
    add_frame(solver, position);
    int32_t broken = violation(position);
    ccadical_assume(solver, broken);
    answer = ccadical_solve(solver);
    if (answer == SATISFIABLE) {
      printf("%s: the property is broken in frame %u at the earliest\n", argv[1], (unsigned)position.frame);
    } else if (answer == UNSATISFIABLE) { // then P holds in this frame, whatever the frames behind it add
      ccadical_add(solver, -broken);
      ccadical_add(solver, 0);
    }
    if (answer != UNSATISFIABLE || position.frame == position.depth) break;
    position = moved(position, MARRUBIGAI_ON);
  }
  ccadical_release(solver);
  if (answer == UNSATISFIABLE) printf("%s: no run breaks the property in frames 0 to %lu\n", argv[1], depth);
  return answer == SATISFIABLE || answer == UNSATISFIABLE ? answer : 1;
}
