// include/marrubigai.h against the static library: the layout of every struct, and each exported function on two M sheets, two T sheets
// and at refusals. What is expected was worked out by hand from docs/RULES.md. The last line is 'N passed, M failed'.
// Build: cc -std=c11 main.c -L FOLDER -lmarrubigai

#include <stdio.h>
#include <string.h>

#include "../../include/marrubigai.h"

#define SIZE(type, bytes) _Static_assert(sizeof(type) == (bytes), #type)
#define FIELD(type, field, at) _Static_assert(offsetof(type, field) == (at), #type "." #field)

SIZE(marrubigai_code, 4);
SIZE(marrubigai_netlist, 272);
FIELD(marrubigai_netlist, inputs, 0);
FIELD(marrubigai_netlist, latches, 4);
FIELD(marrubigai_netlist, gates, 8);
FIELD(marrubigai_netlist, m, 12);
FIELD(marrubigai_netlist, n, 16);
FIELD(marrubigai_netlist, initial_word, 20);
FIELD(marrubigai_netlist, unknown_start, 24);
FIELD(marrubigai_netlist, second_port, 28);
FIELD(marrubigai_netlist, address, 32);
FIELD(marrubigai_netlist, write_data, 80);
FIELD(marrubigai_netlist, we, 208);
FIELD(marrubigai_netlist, re, 212);
FIELD(marrubigai_netlist, p, 216);
FIELD(marrubigai_netlist, address2, 220);
FIELD(marrubigai_netlist, re2, 268);
SIZE(marrubigai_latch, 8);
FIELD(marrubigai_latch, next, 0);
FIELD(marrubigai_latch, reset, 4);
SIZE(marrubigai_gate, 8);
FIELD(marrubigai_gate, left, 0);
FIELD(marrubigai_gate, right, 4);
SIZE(marrubigai_count_reply, 16);
FIELD(marrubigai_count_reply, number, 0);
FIELD(marrubigai_count_reply, place, 4);
FIELD(marrubigai_count_reply, count, 8);
SIZE(marrubigai_heading_reply, 16);
FIELD(marrubigai_heading_reply, number, 0);
FIELD(marrubigai_heading_reply, place, 4);
FIELD(marrubigai_heading_reply, variables, 8);
FIELD(marrubigai_heading_reply, clauses, 12);
SIZE(marrubigai_sheet_reply, 280);
FIELD(marrubigai_sheet_reply, number, 0);
FIELD(marrubigai_sheet_reply, place, 4);
FIELD(marrubigai_sheet_reply, net, 8);
SIZE(marrubigai_line_reply, 32);
FIELD(marrubigai_line_reply, number, 0);
FIELD(marrubigai_line_reply, place, 4);
FIELD(marrubigai_line_reply, letter, 8);
FIELD(marrubigai_line_reply, first, 12);
FIELD(marrubigai_line_reply, second, 16);
FIELD(marrubigai_line_reply, third, 20);
FIELD(marrubigai_line_reply, empty, 24);
FIELD(marrubigai_line_reply, line, 28);
SIZE(marrubigai_position, 12);
FIELD(marrubigai_position, depth, 0);
FIELD(marrubigai_position, frame, 4);
FIELD(marrubigai_position, base, 8);
SIZE(marrubigai_position_reply, 20);
FIELD(marrubigai_position_reply, number, 0);
FIELD(marrubigai_position_reply, place, 4);
FIELD(marrubigai_position_reply, position, 8);
SIZE(marrubigai_literal_reply, 12);
FIELD(marrubigai_literal_reply, number, 0);
FIELD(marrubigai_literal_reply, place, 4);
FIELD(marrubigai_literal_reply, literal, 8);
SIZE(marrubigai_replay_reply, 16);
FIELD(marrubigai_replay_reply, number, 0);
FIELD(marrubigai_replay_reply, place, 4);
FIELD(marrubigai_replay_reply, claimed, 8);
FIELD(marrubigai_replay_reply, first, 12);
SIZE(marrubigai_certificate_reply, 24);
FIELD(marrubigai_certificate_reply, number, 0);
FIELD(marrubigai_certificate_reply, place, 4);
FIELD(marrubigai_certificate_reply, certified, 8);
FIELD(marrubigai_certificate_reply, lemma, 16);
SIZE(marrubigai_group_reply, 20);
FIELD(marrubigai_group_reply, end, 0);
FIELD(marrubigai_group_reply, kind, 4);
FIELD(marrubigai_group_reply, j, 8);
FIELD(marrubigai_group_reply, i, 12);
FIELD(marrubigai_group_reply, port, 16);
SIZE(marrubigai_version_reply, 8);
FIELD(marrubigai_version_reply, major, 0);
FIELD(marrubigai_version_reply, minor, 4);

#define TEXT(number) #number
#define VERSION(major, minor) TEXT(major) "." TEXT(minor)

static int passed, failed;

static void check(const char *what, int holds) {
  if (holds) {
    passed++;
  } else {
    failed++;
    printf("FAILED: %s\n", what);
  }
}

#define COUNT(list) (sizeof(list) / sizeof *(list))
#define LINE(letter, x, y, z) letter x y z "\n"
#define EMPTY "          "

// the sheet of RULES P8: "N 1 0 0", "M 1 1 0", "A 0", "D 2", "C 1 1 5"
static const char FULL_RUN[] =
    LINE("N", "         1", "         0", "         0")
    LINE("M", "         1", "         1", "         0")
    LINE("A", "         0", EMPTY, EMPTY)
    LINE("D", "         2", EMPTY, EMPTY)
    LINE("C", "         1", "         1", "         5");

static const marrubigai_netlist CHIP = {
    .inputs = 1, .m = 1, .n = 1, .write_data = {2}, .we = 1, .re = 1, .p = 5};

// no two numbers of the record are the same, so that a field in another's place shows: inputs are wires 1 to 3, latches 4 and 5,
// read bits 6 to 10, the gate is wire 11
static const char DISTINCT[] =
    LINE("N", "         3", "         2", "         1")
    LINE("M", "         4", "         5", "         6")
    LINE("L", "        22", "         1", EMPTY)
    LINE("L", "        17", "         0", EMPTY)
    LINE("G", "        21", "         3", EMPTY)
    LINE("A", "         8", EMPTY, EMPTY)
    LINE("A", "         5", EMPTY, EMPTY)
    LINE("A", "         7", EMPTY, EMPTY)
    LINE("A", "        10", EMPTY, EMPTY)
    LINE("D", "        12", EMPTY, EMPTY)
    LINE("D", "        14", EMPTY, EMPTY)
    LINE("D", "        15", EMPTY, EMPTY)
    LINE("D", "        16", EMPTY, EMPTY)
    LINE("D", "        18", EMPTY, EMPTY)
    LINE("C", "        23", "        11", "        13");

static const marrubigai_netlist DISTINCT_NET = {
    .inputs = 3, .latches = 2, .gates = 1, .m = 4, .n = 5, .initial_word = 6,
    .address = {8, 5, 7, 10}, .write_data = {12, 14, 15, 16, 18}, .we = 23, .re = 11, .p = 13};
static const marrubigai_latch DISTINCT_LATCHES[] = {{.next = 22, .reset = 1}, {.next = 17, .reset = 0}};
static const marrubigai_gate DISTINCT_GATES[] = {{.left = 21, .right = 3}};

// the chip of the full run with a second port, which reads address 1, where nothing is written: read bits are wires 2 and 3
static const marrubigai_netlist TWO_PORTS = {
    .inputs = 1, .m = 1, .n = 1, .second_port = 1, .write_data = {2}, .we = 1, .re = 1, .p = 5, .address2 = {1}, .re2 = 1};

// the same latches and gate with a second port: read bits are wires 6 to 10 and 11 to 15, the gate is wire 16
static const char DISTINCT_TWO[] =
    LINE("N", "         3", "         2", "         1")
    LINE("T", "         4", "         5", "         6")
    LINE("L", "        22", "         1", EMPTY)
    LINE("L", "        17", "         0", EMPTY)
    LINE("G", "        21", "         3", EMPTY)
    LINE("A", "         8", EMPTY, EMPTY)
    LINE("A", "         5", EMPTY, EMPTY)
    LINE("A", "         7", EMPTY, EMPTY)
    LINE("A", "        10", EMPTY, EMPTY)
    LINE("D", "        12", EMPTY, EMPTY)
    LINE("D", "        24", EMPTY, EMPTY)
    LINE("D", "        26", EMPTY, EMPTY)
    LINE("D", "        28", EMPTY, EMPTY)
    LINE("D", "        30", EMPTY, EMPTY)
    LINE("B", "         9", EMPTY, EMPTY)
    LINE("B", "         2", EMPTY, EMPTY)
    LINE("B", "         4", EMPTY, EMPTY)
    LINE("B", "         6", EMPTY, EMPTY)
    LINE("R", "         3", EMPTY, EMPTY)
    LINE("C", "        33", "        11", "        13");

static const marrubigai_netlist DISTINCT_TWO_NET = {
    .inputs = 3, .latches = 2, .gates = 1, .m = 4, .n = 5, .initial_word = 6, .second_port = 1,
    .address = {8, 5, 7, 10}, .write_data = {12, 24, 26, 28, 30}, .we = 33, .re = 11, .p = 13, .address2 = {9, 2, 4, 6}, .re2 = 3};

// lists that a chip without latches and gates lends with length 0, and lists that a sheet is read into
enum { ROOM = 4 };
static marrubigai_latch latches[ROOM];
static marrubigai_gate gates[ROOM];

static void fill_lists(void) {
  memset(latches, 0xa5, sizeof latches);
  memset(gates, 0xa5, sizeof gates);
}

// whether the lists begin with these records and are as they were filled behind them
static int lists_hold(const marrubigai_latch *first, size_t latch_count, const marrubigai_gate *second, size_t gate_count) {
  marrubigai_latch expected_latches[ROOM];
  marrubigai_gate expected_gates[ROOM];
  memset(expected_latches, 0xa5, sizeof latches);
  memset(expected_gates, 0xa5, sizeof gates);
  for (size_t l = 0; l < latch_count; l++) expected_latches[l] = first[l];
  for (size_t g = 0; g < gate_count; g++) expected_gates[g] = second[g];
  return memcmp(latches, expected_latches, sizeof latches) == 0 && memcmp(gates, expected_gates, sizeof gates) == 0;
}

static marrubigai_sheet_reply read_text(const char *text, size_t bytes, size_t latch_room, size_t gate_room) {
  fill_lists();
  return marrubigai_read((const uint8_t *)text, bytes, latches, latch_room, gates, gate_room);
}

static int answers_sheet(marrubigai_sheet_reply reply, uint32_t number, uint32_t place, const marrubigai_netlist *net) {
  return reply.number == number && reply.place == place && memcmp(&reply.net, net, sizeof *net) == 0;
}

// the same sheet with the start word left empty
static void without_start(char *text) {
  memcpy(text, DISTINCT, sizeof DISTINCT);
  memset(text + 32 + 21, ' ', 10);
}

static void reading(void) {
  static const marrubigai_netlist nothing = {0};
  const size_t bytes = sizeof DISTINCT - 1;
  char unknown[sizeof DISTINCT];
  without_start(unknown);
  marrubigai_netlist unknown_net = DISTINCT_NET;
  unknown_net.initial_word = 0;
  unknown_net.unknown_start = 1;
  check("an empty start word is read as unknown",
        answers_sheet(read_text(unknown, bytes, ROOM, ROOM), MARRUBIGAI_PASSED, 0, &unknown_net) &&
            lists_hold(DISTINCT_LATCHES, 2, DISTINCT_GATES, 1));
  unknown[32 + 20] = ' ';
  check("empty data bits give 2 at line 2", answers_sheet(read_text(unknown, bytes, ROOM, ROOM), MARRUBIGAI_MISPRINT, 2, &nothing));
  check("the sheet of the full run is read, into lists of length 0",
        answers_sheet(read_text(FULL_RUN, sizeof FULL_RUN - 1, 0, 0), MARRUBIGAI_PASSED, 0, &CHIP) && lists_hold(0, 0, 0, 0));
  check("every field of the record is in its place, and the records are in the lists",
        answers_sheet(read_text(DISTINCT, bytes, ROOM, ROOM), MARRUBIGAI_PASSED, 0, &DISTINCT_NET) &&
            lists_hold(DISTINCT_LATCHES, 2, DISTINCT_GATES, 1));
  check("lists of exactly the sizes", answers_sheet(read_text(DISTINCT, bytes, 2, 1), MARRUBIGAI_PASSED, 0, &DISTINCT_NET));
  const size_t longer = sizeof DISTINCT_TWO - 1;
  check("so is every field of a record with a second port",
        answers_sheet(read_text(DISTINCT_TWO, longer, ROOM, ROOM), MARRUBIGAI_PASSED, 0, &DISTINCT_TWO_NET) &&
            lists_hold(DISTINCT_LATCHES, 2, DISTINCT_GATES, 1));
  char changed[sizeof DISTINCT_TWO];
  memcpy(changed, DISTINCT_TWO, sizeof changed);
  memset(changed + 32 + 21, ' ', 10);
  check("a second port with an empty start word gives 4 at line 2",
        answers_sheet(read_text(changed, longer, ROOM, ROOM), MARRUBIGAI_SIZE, 2, &nothing));
  memcpy(changed, DISTINCT_TWO, sizeof changed);
  changed[32] = 'M'; // then read bits are wires 6 to 10, the gate is wire 11, and code 23 is the largest
  check("the letter M for its T gives 5 at the second line of its write data",
        answers_sheet(read_text(changed, longer, ROOM, ROOM), MARRUBIGAI_CODE, 11, &nothing));
  memcpy(changed, DISTINCT_TWO, 14 * 32);
  memcpy(changed + 14 * 32, DISTINCT_TWO + 19 * 32, 32);
  check("without its B and R lines it gives 3 at the C line",
        answers_sheet(read_text(changed, 15 * 32, ROOM, ROOM), MARRUBIGAI_OUT_OF_ORDER, 15, &nothing));
  check("a latch list too short gives 9, place 0",
        answers_sheet(read_text(DISTINCT, bytes, 1, ROOM), MARRUBIGAI_NO_ROOM, 0, &nothing) && lists_hold(0, 0, 0, 0));
  check("a gate list too short gives 9, place 0",
        answers_sheet(read_text(DISTINCT, bytes, ROOM, 0), MARRUBIGAI_NO_ROOM, 0, &nothing) && lists_hold(0, 0, 0, 0));
  check("an empty file gives 1, place 0", answers_sheet(read_text(DISTINCT, 0, ROOM, ROOM), MARRUBIGAI_RAGGED, 0, &nothing));
  char misprinted[sizeof DISTINCT];
  memcpy(misprinted, DISTINCT, sizeof DISTINCT);
  misprinted[32] = 'm';
  check("a small letter gives 2 at its line", answers_sheet(read_text(misprinted, bytes, ROOM, ROOM), MARRUBIGAI_MISPRINT, 2, &nothing));
  check("a file without its last line gives 3, one past the lines left",
        answers_sheet(read_text(DISTINCT, bytes - 32, ROOM, ROOM), MARRUBIGAI_OUT_OF_ORDER, 15, &nothing) && lists_hold(0, 0, 0, 0));
}

// An ASCII AIGER text with its variables in no order: input 5, read bits 2 and 6, latch 1, gates 3 and 4. They become wires 1, 3 and 4,
// 2, 5 and 6. What stands behind its 14 lines is skipped.
static const char TEXT_OF_A_CHIP[] =
    "aag 6 3 1 7 2\n"
    "10\n" "4\n" "12\n"
    "2 9\n"
    "2\n" "11\n" "6\n" "0\n" "8\n" "1\n" "13\n"
    "6 11 2\n" "8 7 4\n"
    "i0 a name, and no line feed at the end";

static const marrubigai_netlist IMPORTED_NET = {
    .inputs = 1, .latches = 1, .gates = 2, .m = 2, .n = 2, .initial_word = 3,
    .address = {4, 3}, .write_data = {10, 0}, .we = 12, .re = 1, .p = 9};
static const marrubigai_latch IMPORTED_LATCHES[] = {{.next = 13, .reset = 0}};
static const marrubigai_gate IMPORTED_GATES[] = {{.left = 3, .right = 4}, {.left = 11, .right = 6}};

static marrubigai_sheet_reply import_kind(const char *text, size_t bytes, uint32_t m, uint32_t word, uint32_t unknown, uint32_t second_port,
                                          size_t latch_room, size_t gate_room) {
  fill_lists();
  return marrubigai_import((const uint8_t *)text, bytes, m, 2, word, unknown, second_port, latches, latch_room, gates, gate_room);
}

static marrubigai_sheet_reply import_text(const char *text, size_t bytes, uint32_t m, uint32_t word, size_t latch_room, size_t gate_room) {
  return import_kind(text, bytes, m, word, 0, 0, latch_room, gate_room);
}

// A chip with two ports: an input, read bits 2, 3 and 4, 5, no latch and no gate. Of m = 1 and n = 2 there are eight outputs.
static const char TEXT_OF_TWO_PORTS[] =
    "aag 5 5 0 8 0\n"
    "2\n" "4\n" "6\n" "8\n" "10\n"
    "2\n" "4\n" "11\n" "3\n" "1\n" "9\n" "0\n" "7\n";

static const marrubigai_netlist TWO_PORT_NET = {
    .inputs = 1, .m = 1, .n = 2, .initial_word = 3, .second_port = 1,
    .address = {2}, .write_data = {4, 11}, .we = 9, .re = 0, .p = 7, .address2 = {3}, .re2 = 1};

// the text with the byte at a place replaced, for m = 2 and the start word 3
static marrubigai_sheet_reply import_damaged(const char *line, size_t at, char byte) {
  char damaged[sizeof TEXT_OF_A_CHIP];
  memcpy(damaged, TEXT_OF_A_CHIP, sizeof damaged);
  damaged[(size_t)(strstr(TEXT_OF_A_CHIP, line) - TEXT_OF_A_CHIP) + at] = byte;
  return import_text(damaged, sizeof damaged - 1, 2, 3, ROOM, ROOM);
}

static void importing(void) {
  static const marrubigai_netlist nothing = {0};
  const size_t bytes = sizeof TEXT_OF_A_CHIP - 1;
  check("a text is imported, in the order of its lines",
        answers_sheet(import_text(TEXT_OF_A_CHIP, bytes, 2, 3, ROOM, ROOM), MARRUBIGAI_PASSED, 0, &IMPORTED_NET) &&
            lists_hold(IMPORTED_LATCHES, 1, IMPORTED_GATES, 2));
  check("lists of exactly the sizes",
        answers_sheet(import_text(TEXT_OF_A_CHIP, bytes, 2, 3, 1, 2), MARRUBIGAI_PASSED, 0, &IMPORTED_NET));
  check("an empty text gives 11 at line 1",
        answers_sheet(import_text(TEXT_OF_A_CHIP, 0, 2, 3, ROOM, ROOM), MARRUBIGAI_NOT_AIGER, 1, &nothing) && lists_hold(0, 0, 0, 0));
  check("an odd literal of an input gives 11 at its line",
        answers_sheet(import_damaged("\n4\n", 1, '5'), MARRUBIGAI_NOT_AIGER, 3, &nothing) && lists_hold(0, 0, 0, 0));
  check("variable 5 as a latch, defined again, gives 11 at the latch's line",
        answers_sheet(import_text("aag 5 1 1 0 0\n10\n10 0\n", 24, 2, 3, ROOM, ROOM), MARRUBIGAI_NOT_AIGER, 3, &nothing));
  check("three address bits give 12, place 0",
        answers_sheet(import_text(TEXT_OF_A_CHIP, bytes, 3, 3, ROOM, ROOM), MARRUBIGAI_INTERFACE, 0, &nothing) && lists_hold(0, 0, 0, 0));
  check("an operand that a later gate defines gives 13 at its line",
        answers_sheet(import_damaged("\n6 11 2\n", 6, '8'), MARRUBIGAI_UNDEFINED, 13, &nothing) && lists_hold(0, 0, 0, 0));
  check("start word 4 of two bits gives 4 at line 2 of a sheet",
        answers_sheet(import_text(TEXT_OF_A_CHIP, bytes, 2, 4, ROOM, ROOM), MARRUBIGAI_SIZE, 2, &nothing) && lists_hold(0, 0, 0, 0));
  marrubigai_netlist unknown_net = IMPORTED_NET;
  unknown_net.initial_word = 0;
  unknown_net.unknown_start = 1;
  check("an unknown start is imported, whatever the start word",
        answers_sheet(import_kind(TEXT_OF_A_CHIP, bytes, 2, 4, 1, 0, ROOM, ROOM), MARRUBIGAI_PASSED, 0, &unknown_net) &&
            lists_hold(IMPORTED_LATCHES, 1, IMPORTED_GATES, 2));
  check("a number above 1 beside the start word gives 4 at line 2 of a sheet",
        answers_sheet(import_kind(TEXT_OF_A_CHIP, bytes, 2, 3, 2, 0, ROOM, ROOM), MARRUBIGAI_SIZE, 2, &nothing) && lists_hold(0, 0, 0, 0));
  const size_t two_bytes = sizeof TEXT_OF_TWO_PORTS - 1;
  check("a text with two ports is imported",
        answers_sheet(import_kind(TEXT_OF_TWO_PORTS, two_bytes, 1, 3, 0, 1, 0, 0), MARRUBIGAI_PASSED, 0, &TWO_PORT_NET) && lists_hold(0, 0, 0, 0));
  check("as one with one port it gives 12, place 0",
        answers_sheet(import_kind(TEXT_OF_TWO_PORTS, two_bytes, 1, 3, 0, 0, 0, 0), MARRUBIGAI_INTERFACE, 0, &nothing));
  check("as one with 4294967296 ports too",
        answers_sheet(import_kind(TEXT_OF_TWO_PORTS, two_bytes, 1, 3, 0, 4294967295, 0, 0), MARRUBIGAI_INTERFACE, 0, &nothing));
  check("two ports and an unknown start give 4 at line 2 of a sheet",
        answers_sheet(import_kind(TEXT_OF_TWO_PORTS, two_bytes, 1, 3, 1, 1, 0, 0), MARRUBIGAI_SIZE, 2, &nothing));
  check("a read bit as the first address bit gives 6 at line 6 of a sheet",
        answers_sheet(import_damaged("\n2\n", 1, '4'), MARRUBIGAI_MEMORY_LOOP, 6, &nothing) && lists_hold(0, 0, 0, 0));
  check("an input and its inverse as address bits give 17 at line 4 of a sheet",
        answers_sheet(import_text("aag 3 3 0 7 0\n2\n4\n6\n2\n3\n0\n0\n0\n0\n0\n", 34, 2, 3, ROOM, ROOM), MARRUBIGAI_TIED_ADDRESS, 4, &nothing) &&
            lists_hold(0, 0, 0, 0));
  check("a gate list too short gives 9, place 0",
        answers_sheet(import_text(TEXT_OF_A_CHIP, bytes, 2, 3, ROOM, 1), MARRUBIGAI_NO_ROOM, 0, &nothing) && lists_hold(0, 0, 0, 0));
}

static int answers_line_of(const char *text, size_t bytes, uint32_t line, marrubigai_line_reply expected) {
  marrubigai_line_reply reply = marrubigai_next_line((const uint8_t *)text, bytes, line);
  return reply.number == expected.number && reply.place == expected.place && reply.letter == expected.letter &&
         reply.first == expected.first && reply.second == expected.second && reply.third == expected.third &&
         reply.empty == expected.empty && reply.line == expected.line;
}

static int answers_line(uint32_t line, marrubigai_line_reply expected) {
  return answers_line_of(DISTINCT, sizeof DISTINCT - 1, line, expected);
}

static void lines(void) {
  const size_t bytes = sizeof DISTINCT - 1;
  char misprinted[sizeof DISTINCT];
  memcpy(misprinted, DISTINCT, sizeof DISTINCT);
  misprinted[32] = '?';
  char unknown[sizeof DISTINCT];
  without_start(unknown);
  check("the first line", answers_line(0, (marrubigai_line_reply){0, 0, 'N', 3, 2, 1, 0, 1}));
  check("a line with an empty field", answers_line(2, (marrubigai_line_reply){0, 0, 'L', 22, 1, 0, 0, 3}));
  check("a line with its start word", answers_line(1, (marrubigai_line_reply){0, 0, 'M', 4, 5, 6, 0, 2}));
  check("a line whose start word is left empty",
        answers_line_of(unknown, bytes, 1, (marrubigai_line_reply){0, 0, 'M', 4, 5, 0, 1, 2}));
  check("the last line", answers_line(14, (marrubigai_line_reply){0, 0, 'C', 23, 11, 13, 0, 15}));
  check("a misprinted line gives 2 at its place, and is read",
        answers_line_of(misprinted, bytes, 1, (marrubigai_line_reply){2, 2, 0, 0, 0, 0, 0, 2}));
  check("behind the last line there is none", answers_line(15, (marrubigai_line_reply){0, 0, 0, 0, 0, 0, 0, 15}));
  check("a line cut short is none",
        answers_line_of(DISTINCT, bytes - 1, 14, (marrubigai_line_reply){0, 0, 0, 0, 0, 0, 0, 14}));
  check("the line of two ports", answers_line_of(DISTINCT_TWO, sizeof DISTINCT_TWO - 1, 1, (marrubigai_line_reply){0, 0, 'T', 4, 5, 6, 0, 2}));
  check("a second address bit", answers_line_of(DISTINCT_TWO, sizeof DISTINCT_TWO - 1, 14, (marrubigai_line_reply){0, 0, 'B', 9, 0, 0, 0, 15}));
  check("the second read enable", answers_line_of(DISTINCT_TWO, sizeof DISTINCT_TWO - 1, 18, (marrubigai_line_reply){0, 0, 'R', 3, 0, 0, 0, 19}));
  check("the greatest line number stays", answers_line(UINT32_MAX, (marrubigai_line_reply){0, 0, 0, 0, 0, 0, 0, UINT32_MAX}));
}

static int answers_heading(marrubigai_heading_reply reply, uint32_t number, uint32_t place, uint32_t variables, uint32_t clauses) {
  return reply.number == number && reply.place == place && reply.variables == variables && reply.clauses == clauses;
}

static void headings(void) {
  check("depth 1 of the full run: 10 variables, 15 clauses",
        answers_heading(marrubigai_heading(CHIP, latches, 0, gates, 0, 1), MARRUBIGAI_PASSED, 0, 10, 15));
  // B(3) = 1 + 3 x 11 + 8 x 3; wires 6 and 2 x 7, pairs 3 x 36, closings 6 and 2 x 16, property 1
  check("depth 2 of the other: 58 variables, 167 clauses",
        answers_heading(marrubigai_heading(DISTINCT_NET, DISTINCT_LATCHES, 2, DISTINCT_GATES, 1, 2), MARRUBIGAI_PASSED, 0, 58, 167));
  check("depth 1 of two ports: 17 variables, 28 clauses",
        answers_heading(marrubigai_heading(TWO_PORTS, latches, 0, gates, 0, 1), MARRUBIGAI_PASSED, 0, 17, 28));
  // B(3) = 1 + 3 x 16 + 2 x 8 x 3; wires 6 and 2 x 7, pairs 3 x 2 x 36, closings 2 x 6 and 2 x 2 x 16, property 1
  check("depth 2 of the other with two: 97 variables, 313 clauses",
        answers_heading(marrubigai_heading(DISTINCT_TWO_NET, DISTINCT_LATCHES, 2, DISTINCT_GATES, 1, 2), MARRUBIGAI_PASSED, 0, 97, 313));
  marrubigai_netlist port = TWO_PORTS;
  port.second_port = 2;
  check("a second_port of 2 gives 4 at line 2", answers_heading(marrubigai_heading(port, latches, 0, gates, 0, 1), MARRUBIGAI_SIZE, 2, 0, 0));
  port.second_port = UINT32_MAX;
  check("so does the greatest number", answers_heading(marrubigai_heading(port, latches, 0, gates, 0, 1), MARRUBIGAI_SIZE, 2, 0, 0));
  port.second_port = port.unknown_start = 1;
  check("so does an unknown start beside it", answers_heading(marrubigai_heading(port, latches, 0, gates, 0, 1), MARRUBIGAI_SIZE, 2, 0, 0));
  port = TWO_PORTS;
  port.address2[0] = 4;
  port.re2 = port.re = 6;
  check("the first port's read bit as the second's address gives 6 at the B line",
        answers_heading(marrubigai_heading(port, latches, 0, gates, 0, 1), MARRUBIGAI_MEMORY_LOOP, 5, 0, 0));
  port.address2[0] = 1;
  check("a read bit as both read enables gives 6 at the R line",
        answers_heading(marrubigai_heading(port, latches, 0, gates, 0, 1), MARRUBIGAI_MEMORY_LOOP, 6, 0, 0));
  port.re2 = 1;
  check("the second port's read bit as the first's read enable gives 6 at the C line",
        answers_heading(marrubigai_heading(port, latches, 0, gates, 0, 1), MARRUBIGAI_MEMORY_LOOP, 7, 0, 0));
  port = DISTINCT_TWO_NET;
  port.address2[2] = 8;
  port.re2 = 12;
  check("the wire of a second address bit, inverted, as another gives 17 at its B line, before 6",
        answers_heading(marrubigai_heading(port, DISTINCT_LATCHES, 2, DISTINCT_GATES, 1, 2), MARRUBIGAI_TIED_ADDRESS, 17, 0, 0));
  port = CHIP;
  port.address2[0] = port.re2 = UINT32_MAX;
  check("without a second port its numbers are not looked at",
        marrubigai_heading(port, latches, 0, gates, 0, 1).number == MARRUBIGAI_PASSED);
  marrubigai_netlist unknown = CHIP;
  unknown.initial_word = UINT32_MAX;
  unknown.unknown_start = 2;
  check("an unknown_start of 2 gives 4 at line 2",
        answers_heading(marrubigai_heading(unknown, latches, 0, gates, 0, 1), MARRUBIGAI_SIZE, 2, 0, 0));
  unknown.unknown_start = 1;
  check("where the start is unknown the start word is not looked at",
        marrubigai_heading(unknown, latches, 0, gates, 0, 1).number == MARRUBIGAI_PASSED);
  check("depth 256 gives 7, place 0", answers_heading(marrubigai_heading(CHIP, latches, 0, gates, 0, 256), MARRUBIGAI_DEPTH, 0, 0, 0));
  check("a latch list shorter than its size gives 3, place 0",
        answers_heading(marrubigai_heading(DISTINCT_NET, DISTINCT_LATCHES, 1, DISTINCT_GATES, 1, 2), MARRUBIGAI_OUT_OF_ORDER, 0, 0, 0));
  marrubigai_netlist wide = CHIP;
  wide.n = 33;
  check("33 data bits give 4 at line 2", answers_heading(marrubigai_heading(wide, latches, 0, gates, 0, 1), MARRUBIGAI_SIZE, 2, 0, 0));
  marrubigai_netlist loop = CHIP;
  loop.address[0] = 4;
  check("address code 4 gives 6 at line 3",
        answers_heading(marrubigai_heading(loop, latches, 0, gates, 0, 1), MARRUBIGAI_MEMORY_LOOP, 3, 0, 0));
  marrubigai_netlist tied = DISTINCT_NET;
  tied.address[2] = 9;
  tied.re = 12;
  check("the first address bit's wire, inverted, as the third gives 17 at line 8, before 6",
        answers_heading(marrubigai_heading(tied, DISTINCT_LATCHES, 2, DISTINCT_GATES, 1, 2), MARRUBIGAI_TIED_ADDRESS, 8, 0, 0));
}

enum { MOST = 96, UNWRITTEN = INT32_MIN };
static int32_t out[MOST];

typedef struct {
  const marrubigai_netlist *net;
  const marrubigai_latch *latches;
  const marrubigai_gate *gates;
  uint32_t depth;
} lent;

static marrubigai_count_reply group(lent of, uint32_t kind, uint32_t j, uint32_t i, uint32_t port, size_t room) {
  for (size_t t = 0; t < MOST; t++) out[t] = UNWRITTEN;
  return marrubigai_write_group(*of.net, of.latches, of.net->latches, of.gates, of.net->gates, of.depth, kind, j, i, port, out, room);
}

// the numbers in a slice of exactly their length, and nothing behind it
static void writes(const char *what, lent of, uint32_t kind, uint32_t j, uint32_t i, uint32_t port, const int32_t *numbers, size_t count) {
  marrubigai_count_reply reply = group(of, kind, j, i, port, count);
  int holds = reply.number == 0 && reply.place == 0 && reply.count == count;
  for (size_t t = 0; t < MOST; t++) holds = holds && out[t] == (t < count ? numbers[t] : UNWRITTEN);
  check(what, holds);
}

static void refuses(const char *what, lent of, uint32_t kind, uint32_t j, uint32_t i, uint32_t port, size_t room, uint32_t number,
                    uint32_t place) {
  marrubigai_count_reply reply = group(of, kind, j, i, port, room);
  int holds = reply.number == number && reply.place == place && reply.count == 0;
  for (size_t t = 0; t < MOST; t++) holds = holds && out[t] == UNWRITTEN;
  check(what, holds);
}

static void groups(void) {
  // the full run (RULES P17), group by group
  const lent chip = {&CHIP, latches, gates, 1};
  static const int32_t wires_0[] = {1, 0};
  static const int32_t closing_0[] = {-3, 0};
  static const int32_t pair_0_1[] = {
      7, 0, -7, 6, 0,
      -8, 6, 0, 8, -6, 0,
      -9, -8, 0, 9, 8, 0,
      -10, 8, 0, 10, -8, 0,
      -10, -5, 2, 0, -10, 5, -2, 0};
  static const int32_t closing_1[] = {-9, -5, 0, 9, 10, 0};
  static const int32_t property[] = {3, 5, 0};
  writes("wires of frame 0", chip, MARRUBIGAI_WIRES, 0, 0, 0, wires_0, COUNT(wires_0));
  writes("closing of frame 0", chip, MARRUBIGAI_CLOSING, 0, 0, 1, closing_0, COUNT(closing_0));
  writes("wires of frame 1: none, into a slice of length 0", chip, MARRUBIGAI_WIRES, 0, 1, 0, 0, 0);
  check("the pair has 31 numbers", COUNT(pair_0_1) == 31);
  writes("pair (0, 1)", chip, MARRUBIGAI_PAIR, 0, 1, 1, pair_0_1, COUNT(pair_0_1));
  writes("pair (0, 1) at another depth", (lent){&CHIP, latches, gates, 255}, MARRUBIGAI_PAIR, 0, 1, 1, pair_0_1, COUNT(pair_0_1));
  writes("closing of frame 1", chip, MARRUBIGAI_CLOSING, 0, 1, 1, closing_1, COUNT(closing_1));
  writes("closing of frame 1 at another depth", (lent){&CHIP, latches, gates, 255}, MARRUBIGAI_CLOSING, 0, 1, 1, closing_1,
         COUNT(closing_1));
  writes("property", chip, MARRUBIGAI_PROPERTY, 0, 0, 0, property, COUNT(property));
  marrubigai_netlist constant = CHIP;
  constant.p = 0;
  writes("a property that is false: nothing, into a slice of length 0", (lent){&constant, latches, gates, 1}, MARRUBIGAI_PROPERTY, 0, 0, 0, 0, 0);
  static const int32_t empty[] = {-1, 0};
  constant.p = 1;
  writes("a property that is true: the clause left empty", (lent){&constant, latches, gates, 1}, MARRUBIGAI_PROPERTY, 0, 0, 0, empty,
         COUNT(empty));
  refuses("a slice of 30 gives 9", chip, MARRUBIGAI_PAIR, 0, 1, 1, 30, MARRUBIGAI_NO_ROOM, 0);
  refuses("pair (1, 1) gives 8", chip, MARRUBIGAI_PAIR, 1, 1, 1, MOST, MARRUBIGAI_NO_SUCH_GROUP, 0);
  refuses("a kind above 3 gives 8", chip, MARRUBIGAI_PROPERTY + 1, 0, 1, 1, MOST, MARRUBIGAI_NO_SUCH_GROUP, 0);
  refuses("depth 256 gives 7", (lent){&CHIP, latches, gates, 256}, MARRUBIGAI_PAIR, 0, 1, 1, MOST, MARRUBIGAI_DEPTH, 0);

  // B(1) = 12, B(2) = 31
  const lent other = {&DISTINCT_NET, DISTINCT_LATCHES, DISTINCT_GATES, 2};
  static const int32_t first_wires[] = {
      1, 0, 5, 0, -6, 0,
      -12, -11, 0, -12, -2, 0, 12, 11, 2, 0};
  static const int32_t second_wires[] = {
      -16, 12, 0, 16, -12, 0, -17, -9, 0, 17, 9, 0,
      -23, -22, 0, -23, -13, 0, 23, 22, 13, 0};
  static const int32_t first_closing[] = {
      6, -7, 0, 6, 8, 0, 6, 9, 0, 6, -10, 0, 6, -11, 0, 6, -6, 0};
  // PS and S of pair (0, 1) are 30 and 31; RE is an inverted latch, and where it is false the word of frame 0 is held
  static const int32_t second_closing[] = {
      -30, -18, 0, -30, 19, 0, -30, 20, 0, -30, -21, 0, -30, -22, 0,
      -17, -18, 7, 0, -17, 18, -7, 0, -17, -19, 8, 0, -17, 19, -8, 0, -17, -20, 9, 0, -17, 20, -9, 0,
      -17, -21, 10, 0, -17, 21, -10, 0, -17, -22, 11, 0, -17, 22, -11, 0, 17, 30, 31, 0};
  static const int32_t other_property[] = {7, 18, 37, 0};
  writes("latches by their resets, and a gate", other, MARRUBIGAI_WIRES, 0, 0, 0, first_wires, COUNT(first_wires));
  writes("latches by their next codes, and a gate", other, MARRUBIGAI_WIRES, 0, 1, 0, second_wires, COUNT(second_wires));
  writes("the start word", other, MARRUBIGAI_CLOSING, 0, 0, 1, first_closing, COUNT(first_closing));
  writes("the start word, and the word held", other, MARRUBIGAI_CLOSING, 0, 1, 1, second_closing, COUNT(second_closing));
  writes("the property of three frames", other, MARRUBIGAI_PROPERTY, 0, 0, 0, other_property, COUNT(other_property));
  marrubigai_netlist outside = DISTINCT_NET;
  outside.p = 24;
  refuses("code 24 of 11 wires gives 5 at the C line", (lent){&outside, DISTINCT_LATCHES, DISTINCT_GATES, 2}, MARRUBIGAI_WIRES, 0, 0, 0,
          MOST, MARRUBIGAI_CODE, 15);
}

// depth 1 of two ports: the wires of the frames are 2 to 4 and 5 to 7, the pair (0, 1) is 8 to 12 for the first port and 13 to 17 for the second
static void port_groups(void) {
  const lent chip = {&CHIP, latches, gates, 1}, two = {&TWO_PORTS, latches, gates, 1};
  static const int32_t wires_0[] = {1, 0};
  static const int32_t closing_0[] = {-3, 0}, second_closing_0[] = {-4, 0};
  static const int32_t pair[] = {
      9, 0, -9, 8, 0,
      -10, 8, 0, 10, -8, 0,
      -11, -10, 0, 11, 10, 0,
      -12, 10, 0, 12, -10, 0,
      -12, -6, 2, 0, -12, 6, -2, 0};
  // the first address of frame 0 is 0, the second of frame 1 is 1
  static const int32_t second_pair[] = {
      -13, 0, -14, 13, 0,
      -15, 13, 0, 15, -13, 0,
      -16, -15, 0, 16, 15, 0,
      -17, 15, 0, 17, -15, 0,
      -17, -7, 2, 0, -17, 7, -2, 0};
  static const int32_t closing_1[] = {-11, -6, 0, 11, 12, 0}, second_closing_1[] = {-16, -7, 0, 16, 17, 0};
  static const int32_t property[] = {3, 6, 0};
  writes("wires of frame 0, whatever the port", two, MARRUBIGAI_WIRES, 0, 0, UINT32_MAX, wires_0, COUNT(wires_0));
  writes("the first port's closing of frame 0", two, MARRUBIGAI_CLOSING, 0, 0, 1, closing_0, COUNT(closing_0));
  writes("the second port's", two, MARRUBIGAI_CLOSING, 0, 0, 2, second_closing_0, COUNT(second_closing_0));
  writes("the first port's pair", two, MARRUBIGAI_PAIR, 0, 1, 1, pair, COUNT(pair));
  writes("the second port's pair", two, MARRUBIGAI_PAIR, 0, 1, 2, second_pair, COUNT(second_pair));
  writes("the first port's closing of frame 1", two, MARRUBIGAI_CLOSING, 0, 1, 1, closing_1, COUNT(closing_1));
  writes("the second port's of frame 1", two, MARRUBIGAI_CLOSING, 0, 1, 2, second_closing_1, COUNT(second_closing_1));
  writes("the property, whatever the port", two, MARRUBIGAI_PROPERTY, 0, 0, 3, property, COUNT(property));
  refuses("a slice of 30 gives 9 for the second port too", two, MARRUBIGAI_PAIR, 0, 1, 2, 30, MARRUBIGAI_NO_ROOM, 0);
  refuses("port 0 gives 8", two, MARRUBIGAI_PAIR, 0, 1, 0, MOST, MARRUBIGAI_NO_SUCH_GROUP, 0);
  refuses("port 3 gives 8", two, MARRUBIGAI_CLOSING, 0, 1, 3, MOST, MARRUBIGAI_NO_SUCH_GROUP, 0);
  refuses("the greatest number gives 8, before 9", two, MARRUBIGAI_CLOSING, 0, 1, UINT32_MAX, 0, MARRUBIGAI_NO_SUCH_GROUP, 0);
  refuses("port 2 of a chip with one gives 8", chip, MARRUBIGAI_PAIR, 0, 1, 2, MOST, MARRUBIGAI_NO_SUCH_GROUP, 0);
  refuses("so does its closing", chip, MARRUBIGAI_CLOSING, 0, 0, 2, MOST, MARRUBIGAI_NO_SUCH_GROUP, 0);
  refuses("depth 256 gives 7 before it", (lent){&CHIP, latches, gates, 256}, MARRUBIGAI_PAIR, 0, 1, 2, MOST, MARRUBIGAI_DEPTH, 0);
}

static void moves(const char *what, lent of, marrubigai_position from, uint32_t way, uint32_t number, marrubigai_position to) {
  marrubigai_position_reply reply =
      marrubigai_move(*of.net, of.latches, of.net->latches, of.gates, of.net->gates, from, way);
  check(what, reply.number == number && reply.place == 0 && reply.position.depth == to.depth && reply.position.frame == to.frame &&
                  reply.position.base == to.base);
}

// a group through a record: the same numbers, or a refusal, as by frame number
static void at(const char *what, lent of, marrubigai_position position, uint32_t kind, uint32_t j, uint32_t port, size_t room,
               uint32_t number, const int32_t *numbers, size_t count) {
  for (size_t t = 0; t < MOST; t++) out[t] = UNWRITTEN;
  marrubigai_count_reply reply = marrubigai_write_group_at(*of.net, of.latches, of.net->latches, of.gates, of.net->gates, position,
                                                           kind, j, port, out, room);
  int holds = reply.number == number && reply.place == 0 && reply.count == count;
  for (size_t t = 0; t < MOST; t++) holds = holds && out[t] == (t < count ? numbers[t] : UNWRITTEN);
  check(what, holds);
}

static void literal(const char *what, marrubigai_position position, marrubigai_code code, uint32_t number, int32_t expected) {
  marrubigai_literal_reply reply = marrubigai_literal_at(CHIP, position, code);
  check(what, reply.number == number && reply.place == 0 && reply.literal == expected);
}

// the full run's chip: B(0) = 1, B(1) = 3, B(2) = 10
static void positions(void) {
  const lent chip = {&CHIP, latches, gates, 1};
  const marrubigai_position first = {1, 0, 1}, last = {1, 1, 3}, wrong = {1, 1, 4}, past = {1, 2, 10}, zeros = {0, 0, 0};
  moves("a start looks at the depth alone", chip, (marrubigai_position){1, 7, 9}, MARRUBIGAI_START, MARRUBIGAI_PASSED, first);
  moves("a frame on", chip, first, MARRUBIGAI_ON, MARRUBIGAI_PASSED, last);
  moves("back", chip, last, MARRUBIGAI_BACK, MARRUBIGAI_PASSED, first);
  moves("on past the depth gives 8, and the record", chip, last, MARRUBIGAI_ON, MARRUBIGAI_NO_SUCH_GROUP, last);
  moves("with a wrong base too", chip, wrong, MARRUBIGAI_ON, MARRUBIGAI_NO_SUCH_GROUP, wrong);
  moves("back with a wrong base gives 16, and the record", chip, wrong, MARRUBIGAI_BACK, MARRUBIGAI_WRONG_BASE, wrong);
  moves("back from a frame above the depth gives 8, and the record", chip, past, MARRUBIGAI_BACK, MARRUBIGAI_NO_SUCH_GROUP, past);
  moves("a move above 2 gives 8, and the record", chip, first, MARRUBIGAI_BACK + 1, MARRUBIGAI_NO_SUCH_GROUP, first);
  moves("a start at depth 256 gives 7, and zeros", chip, (marrubigai_position){256, 0, 1}, MARRUBIGAI_START, MARRUBIGAI_DEPTH, zeros);
  moves("on at depth 256 gives 7, and the record", chip, (marrubigai_position){256, 0, 1}, MARRUBIGAI_ON, MARRUBIGAI_DEPTH,
        (marrubigai_position){256, 0, 1});
  moves("B(2) of the other is 31", (lent){&DISTINCT_NET, DISTINCT_LATCHES, DISTINCT_GATES, 2}, (marrubigai_position){2, 1, 12},
        MARRUBIGAI_ON, MARRUBIGAI_PASSED, (marrubigai_position){2, 2, 31});

  static const int32_t closing[] = {-9, -5, 0, 9, 10, 0};
  static const int32_t property[] = {3, 5, 0};
  at("closing of the record's frame", chip, last, MARRUBIGAI_CLOSING, 0, 1, COUNT(closing), MARRUBIGAI_PASSED, closing, COUNT(closing));
  at("the property, from any frame", chip, first, MARRUBIGAI_PROPERTY, 0, 0, COUNT(property), MARRUBIGAI_PASSED, property, COUNT(property));
  at("a slice of 5 gives 9", chip, last, MARRUBIGAI_CLOSING, 0, 1, 5, MARRUBIGAI_NO_ROOM, 0, 0);
  at("a wrong base gives 16 before 9", chip, wrong, MARRUBIGAI_CLOSING, 0, 1, 5, MARRUBIGAI_WRONG_BASE, 0, 0);
  at("pair (1, 1) gives 8 before 16", chip, wrong, MARRUBIGAI_PAIR, 1, 1, MOST, MARRUBIGAI_NO_SUCH_GROUP, 0, 0);
  at("a frame above the depth gives 8 for the property too", chip, past, MARRUBIGAI_PROPERTY, 0, 0, MOST, MARRUBIGAI_NO_SUCH_GROUP, 0, 0);

  // two ports: B(0) = 1, B(1) = 4, B(2) = 17
  const lent two = {&TWO_PORTS, latches, gates, 1};
  const marrubigai_position first_of_two = {2, 0, 1}, second_of_two = {2, 1, 4}, last_of_two = {2, 2, 17};
  static const int32_t second_closing[] = {-16, -7, 0, 16, 17, 0};
  moves("a frame on with two ports", two, first_of_two, MARRUBIGAI_ON, MARRUBIGAI_PASSED, second_of_two);
  moves("and another", two, second_of_two, MARRUBIGAI_ON, MARRUBIGAI_PASSED, last_of_two);
  moves("the base of one port gives 16", two, (marrubigai_position){2, 2, 12}, MARRUBIGAI_BACK, MARRUBIGAI_WRONG_BASE,
        (marrubigai_position){2, 2, 12});
  at("the second port's closing", two, second_of_two, MARRUBIGAI_CLOSING, 0, 2, COUNT(second_closing), MARRUBIGAI_PASSED, second_closing,
     COUNT(second_closing));
  at("port 3 gives 8 before 16 and 9", two, (marrubigai_position){2, 1, 5}, MARRUBIGAI_CLOSING, 0, 3, 0, MARRUBIGAI_NO_SUCH_GROUP, 0, 0);
  at("port 2 of a chip with one gives 8", chip, last, MARRUBIGAI_CLOSING, 0, 2, MOST, MARRUBIGAI_NO_SUCH_GROUP, 0, 0);

  literal("wire 2 in frame 1", last, 4, MARRUBIGAI_PASSED, 5);
  literal("inverted", last, 5, MARRUBIGAI_PASSED, -5);
  literal("code 1 is true", last, 1, MARRUBIGAI_PASSED, 1);
  literal("code 0 is false", last, 0, MARRUBIGAI_PASSED, -1);
  literal("code 6 of two wires gives 5", last, 6, MARRUBIGAI_CODE, 0);
  literal("a wrong base gives 16 before it", wrong, 6, MARRUBIGAI_WRONG_BASE, 0);
}

static void source(const char *what, marrubigai_netlist net, uint32_t depth, uint32_t kind, uint32_t j, uint32_t i, uint32_t port,
                   uint32_t number, uint32_t place, int32_t expected) {
  marrubigai_literal_reply reply = marrubigai_source_literal(net, depth, kind, j, i, port);
  check(what, reply.number == number && reply.place == place && reply.literal == expected);
}

// the full run's chip: the pair (0, 1) is 6 to 10, so Z of frame 1 is 9; with two ports it is 8 to 12 and 13 to 17. Of the others it is 24 to 31, and
// with two ports 34 to 41 and 42 to 49
static void sources(void) {
  const uint32_t pair = MARRUBIGAI_PAIR, closing = MARRUBIGAI_CLOSING, none = MARRUBIGAI_NO_SUCH_GROUP;
  source("S of the pair (0, 1)", CHIP, 1, pair, 0, 1, 1, MARRUBIGAI_PASSED, 0, 10);
  source("Z of frame 1, whatever j is", CHIP, 1, closing, 9, 1, 1, MARRUBIGAI_PASSED, 0, 9);
  source("Z of frame 0 is the read enable, which is true", CHIP, 0, closing, 0, 0, 1, MARRUBIGAI_PASSED, 0, 1);
  marrubigai_netlist changed = CHIP;
  changed.re = 0;
  source("or false", changed, 0, closing, 0, 0, 1, MARRUBIGAI_PASSED, 0, -1);
  source("or an inverted wire", DISTINCT_NET, 0, closing, 0, 0, 1, MARRUBIGAI_PASSED, 0, -6);
  source("S of the other's pair", DISTINCT_NET, 1, pair, 0, 1, 1, MARRUBIGAI_PASSED, 0, 31);
  source("and its Z", DISTINCT_NET, 1, closing, 0, 1, 1, MARRUBIGAI_PASSED, 0, 30);
  source("S of a first port", TWO_PORTS, 1, pair, 0, 1, 1, MARRUBIGAI_PASSED, 0, 12);
  source("S of a second port", TWO_PORTS, 1, pair, 0, 1, 2, MARRUBIGAI_PASSED, 0, 17);
  source("Z of a second port", TWO_PORTS, 1, closing, 0, 1, 2, MARRUBIGAI_PASSED, 0, 16);
  source("Z of a second port in frame 0 is its own read enable", DISTINCT_TWO_NET, 1, closing, 0, 0, 2, MARRUBIGAI_PASSED, 0, -2);
  source("S of the other's second port", DISTINCT_TWO_NET, 1, pair, 0, 1, 2, MARRUBIGAI_PASSED, 0, 49);

  source("depth 256 gives 7, before 8", CHIP, 256, pair, 0, 0, 1, MARRUBIGAI_DEPTH, 0, 0);
  source("wires have no source", CHIP, 1, MARRUBIGAI_WIRES, 0, 0, 1, none, 0, 0);
  source("the property has none", CHIP, 1, MARRUBIGAI_PROPERTY, 0, 0, 1, none, 0, 0);
  source("kind 4 gives 8", CHIP, 1, MARRUBIGAI_PROPERTY + 1, 0, 1, 1, none, 0, 0);
  source("so does pair (1, 1)", CHIP, 1, pair, 1, 1, 1, none, 0, 0);
  source("so does a frame above the depth", CHIP, 1, closing, 0, 2, 1, none, 0, 0);
  source("so does port 0", CHIP, 1, closing, 0, 1, 0, none, 0, 0);
  source("so does port 2 of a chip with one", CHIP, 1, pair, 0, 1, 2, none, 0, 0);
  source("so does port 3 of a chip with two", TWO_PORTS, 1, pair, 0, 1, 3, none, 0, 0);
  changed.re = 6;
  source("a read enable that is no code gives 5", changed, 1, closing, 0, 0, 1, MARRUBIGAI_CODE, 0, 0);
  source("of a pair too", changed, 1, pair, 0, 1, 1, MARRUBIGAI_CODE, 0, 0);
  source("8 comes before it", changed, 1, pair, 1, 1, 1, none, 0, 0);
  changed.m = MARRUBIGAI_MOST_ADDRESS_BITS + 1;
  source("4 comes first, at place 2", changed, 256, pair, 1, 1, 1, MARRUBIGAI_SIZE, 2, 0);
  changed.gates = MARRUBIGAI_MOST_WIRES + 1;
  source("or at place 1", changed, 256, pair, 1, 1, 1, MARRUBIGAI_SIZE, 1, 0);
}

// The full run's chip at depth 1: the input is variable 2 in frame 0 and 4 in frame 1, and every frame reads. Memory and trace are one word and one
// byte longer than their need.
enum { WORDS = 2, LINES = 2 * 3, UNTOUCHED = 0x5a };
static uint32_t memory[WORDS + 1];
static uint8_t trace[LINES + 1];

static marrubigai_replay_reply replay_text(uint32_t depth, const char *answer, size_t words, size_t trace_room) {
  for (size_t x = 0; x < COUNT(memory); x++) memory[x] = UNTOUCHED;
  memset(trace, UNTOUCHED, sizeof trace);
  return marrubigai_replay(CHIP, latches, 0, gates, 0, depth, (const uint8_t *)answer, strlen(answer), memory, words, trace, trace_room);
}

static int answers_replay(marrubigai_replay_reply reply, uint32_t number, uint32_t claimed, uint32_t first) {
  return reply.number == number && reply.place == 0 && reply.claimed == claimed && reply.first == first;
}

static int memory_holds(uint32_t first, uint32_t second) { return memory[0] == first && memory[1] == second && memory[2] == UNTOUCHED; }

static int trace_untouched(void) {
  for (size_t t = 0; t < COUNT(trace); t++)
    if (trace[t] != UNTOUCHED) return 0;
  return 1;
}

static int untouched(void) { return memory_holds(UNTOUCHED, UNTOUCHED) && trace_untouched(); }

static void replays(void) {
  // the answer lies about the bits read (variables 3 and 5), which do not count; the input of frame 1 is what is written last
  check("frame 1 reads what frame 0 wrote, and breaks the property",
        answers_replay(replay_text(1, "c\ns SATISFIABLE\nv 2 3\nv -4 -5 0\n", COUNT(memory), COUNT(trace)), MARRUBIGAI_PASSED, 0, 1) &&
            memory_holds(0, 0) && memcmp(trace, "10\n01\n", LINES) == 0 && trace[LINES] == UNTOUCHED);
  check("a memory and a trace of exactly their need",
        answers_replay(replay_text(1, "s SATISFIABLE\nv 2 4 0\n", WORDS, LINES), MARRUBIGAI_PASSED, 0, 1) && memory_holds(1, 0) &&
            memcmp(trace, "10\n11\n", LINES) == 0);
  check("a claim", answers_replay(replay_text(1, "s UNSATISFIABLE\n", WORDS, LINES), MARRUBIGAI_PASSED, 1, 0) && untouched());
  check("an answer without its last line feed gives 14, and zeros",
        answers_replay(replay_text(1, "s UNSATISFIABLE", WORDS, LINES), MARRUBIGAI_NO_ANSWER, 0, 0) && memory_holds(0, 0) && trace_untouched());
  check("no value for the input of frame 1 gives 14, and zeros",
        answers_replay(replay_text(1, "s SATISFIABLE\nv 2 0\n", WORDS, LINES), MARRUBIGAI_NO_ANSWER, 0, 0) && memory_holds(0, 0) &&
            trace_untouched());
  check("a run that breaks nothing gives 15, and the chip's words",
        answers_replay(replay_text(1, "s SATISFIABLE\nv -2 4 0\n", WORDS, LINES), MARRUBIGAI_NO_VIOLATION, 0, 0) && memory_holds(1, 0) &&
            trace_untouched());
  check("a memory of one word gives 9", answers_replay(replay_text(1, "", WORDS - 1, LINES), MARRUBIGAI_NO_ROOM, 0, 0) && untouched());
  check("a trace of five bytes gives 9", answers_replay(replay_text(1, "", WORDS, LINES - 1), MARRUBIGAI_NO_ROOM, 0, 0) && untouched());
  check("depth 256 gives 7", answers_replay(replay_text(256, "", WORDS, LINES), MARRUBIGAI_DEPTH, 0, 0) && untouched());
}

// The full run's sheet at depth 0: its clauses are (1), (-3) and (3), at places 0, 2 and 4, and its variables 1 to 3. STORE is the need with a lemma of one
// number, MARKS that of marks; what is lent is longer.
enum { STORE = 6 + 1, MARKS = 8 };
static int32_t store[STORE + 3];
static uint32_t marks[MARKS + 1];

static int lent_untouched(void) {
  for (size_t t = 0; t < COUNT(store); t++)
    if (store[t] != UNTOUCHED) return 0;
  for (size_t t = 0; t < COUNT(marks); t++)
    if (marks[t] != UNTOUCHED) return 0;
  return 1;
}

static marrubigai_certificate_reply certify(const char *depth, const int32_t *lemmas, size_t numbers, const uint32_t *hints, size_t hint_count,
                                            size_t store_room, size_t mark_room) {
  static uint8_t input[11 + sizeof FULL_RUN];
  memcpy(input, depth, 11);
  memcpy(input + 11, FULL_RUN, sizeof FULL_RUN - 1);
  for (size_t t = 0; t < COUNT(store); t++) store[t] = UNTOUCHED;
  for (size_t t = 0; t < COUNT(marks); t++) marks[t] = UNTOUCHED;
  return marrubigai_certify(input, 11 + sizeof FULL_RUN - 1, lemmas, numbers, hints, hint_count, store, store_room, marks, mark_room);
}

static int answers_certificate(marrubigai_certificate_reply reply, uint32_t number, uint32_t certified, size_t lemma) {
  return reply.number == number && reply.place == 0 && reply.certified == certified && reply.lemma == lemma;
}

static void certificates(void) {
  static const char zero[] = "         0\n", one[] = "         1\n", over[] = "       256\n";
  static const int32_t empty[] = {0}, two[] = {-3, 0, 0}, other[] = {2, 0, 0}, past[] = {4, 0, 0};
  static const uint32_t both[] = {2, 2, 4}, cited[] = {1, 2, 2, 6, 4}, itself[] = {1, 6, 2, 6, 4}, inside[] = {2, 3, 4}, none[] = {0},
                        few[] = {3, 2, 4}, undecided[] = {1, 0, 2, 2, 4};
  static const int32_t formula[] = {1, 0, -3, 0, 3, 0};
  check("depth 0 is certified by the empty lemma and two hints, with store and marks of exactly their need",
        answers_certificate(certify(zero, empty, 1, both, 3, STORE, MARKS), MARRUBIGAI_PASSED, 1, 0) && memcmp(store, formula, sizeof formula) == 0 &&
            store[6] == 0 && store[7] == UNTOUCHED && marks[MARKS] == UNTOUCHED);
  check("a lemma is cited by the next one",
        answers_certificate(certify(zero, two, 3, cited, 5, COUNT(store), COUNT(marks)), MARRUBIGAI_PASSED, 1, 0) && store[6] == -3 && store[8] == 0);
  check("a mark behind the need is as it was", marks[MARKS] == UNTOUCHED);
  check("no lemma may cite itself", answers_certificate(certify(zero, two, 3, itself, 5, COUNT(store), COUNT(marks)), MARRUBIGAI_PASSED, 0, 0));
  check("no hint may point into a clause", answers_certificate(certify(zero, empty, 1, inside, 3, STORE, MARKS), MARRUBIGAI_PASSED, 0, 0));
  check("an empty lemma is not believed", answers_certificate(certify(zero, empty, 1, none, 1, STORE, MARKS), MARRUBIGAI_PASSED, 0, 0));
  check("fewer hints than are said", answers_certificate(certify(zero, empty, 1, few, 3, STORE, MARKS), MARRUBIGAI_PASSED, 0, 0));
  check("no lemma at all", answers_certificate(certify(zero, empty, 0, both, 3, STORE, MARKS), MARRUBIGAI_PASSED, 0, 0));
  check("a lemma that does not follow is the first",
        answers_certificate(certify(zero, other, 3, undecided, 5, COUNT(store), COUNT(marks)), MARRUBIGAI_PASSED, 0, 0));
  check("the second one is told", answers_certificate(certify(zero, two, 3, cited, 3, COUNT(store), COUNT(marks)), MARRUBIGAI_PASSED, 0, 1));
  check("a variable past those of the depth", answers_certificate(certify(zero, past, 3, cited, 5, COUNT(store), COUNT(marks)), MARRUBIGAI_PASSED, 0, 0));
  check("a store that is one number short gives 9",
        answers_certificate(certify(zero, empty, 1, both, 3, STORE - 1, MARKS), MARRUBIGAI_NO_ROOM, 0, 0) && lent_untouched());
  check("marks that are one short give 9",
        answers_certificate(certify(zero, empty, 1, both, 3, STORE, MARKS - 1), MARRUBIGAI_NO_ROOM, 0, 0) && lent_untouched());
  check("no store for the formula of depth 1",
        answers_certificate(certify(one, empty, 1, both, 3, COUNT(store), COUNT(marks)), MARRUBIGAI_NO_ROOM, 0, 0) && lent_untouched());
  check("depth 256 gives 7", answers_certificate(certify(over, empty, 1, both, 3, 0, 0), MARRUBIGAI_DEPTH, 0, 0) && lent_untouched());
  static const uint8_t line[] = "         0\n";
  check("a depth line alone gives 1", marrubigai_certify(line, 11, empty, 1, both, 3, store, 0, marks, 0).number == MARRUBIGAI_RAGGED);
  static int32_t room[64];
  static uint32_t more[22];
  static uint8_t input[11 + sizeof FULL_RUN];
  memcpy(input, one, 11);
  memcpy(input + 11, FULL_RUN, sizeof FULL_RUN - 1);
  check("depth 1, where a run breaks the property, is not certified",
        answers_certificate(marrubigai_certify(input, 11 + sizeof FULL_RUN - 1, empty, 1, both, 3, room, COUNT(room), more, COUNT(more)),
                            MARRUBIGAI_PASSED, 0, 0));
}

// Two ports at depth 1: wires are the input, the first port's read bit and the second's, variables 2 to 4 and 5 to 7.
static void port_replays(void) {
  uint32_t words[2] = {UNTOUCHED, UNTOUCHED};
  uint8_t lines[2 * 4];
  static const uint8_t answer[] = "s SATISFIABLE\nv 2 -5 0\n", idle[] = "s SATISFIABLE\nv 2 -5 4 0\n";
  check("the first port reads what frame 0 wrote, the second what is there from the start",
        answers_replay(marrubigai_replay(TWO_PORTS, latches, 0, gates, 0, 1, answer, sizeof answer - 1, words, 2, lines, sizeof lines),
                       MARRUBIGAI_PASSED, 0, 1) &&
            words[0] == 0 && words[1] == 0 && memcmp(lines, "100\n010\n", sizeof lines) == 0);
  check("a trace of one port's length gives 9",
        answers_replay(marrubigai_replay(TWO_PORTS, latches, 0, gates, 0, 1, answer, sizeof answer - 1, words, 2, lines, 6),
                       MARRUBIGAI_NO_ROOM, 0, 0));
  marrubigai_netlist silent = TWO_PORTS;
  silent.re2 = 0;
  check("where the second port does not read in frame 0, its read bit may not be missing",
        answers_replay(marrubigai_replay(silent, latches, 0, gates, 0, 1, answer, sizeof answer - 1, words, 2, lines, sizeof lines),
                       MARRUBIGAI_NO_ANSWER, 0, 0));
  check("it is held then",
        answers_replay(marrubigai_replay(silent, latches, 0, gates, 0, 1, idle, sizeof idle - 1, words, 2, lines, sizeof lines),
                       MARRUBIGAI_PASSED, 0, 1) &&
            memcmp(lines, "101\n011\n", sizeof lines) == 0);
}

enum { MOST_BYTES = 700, UNPRINTED = 0xa5 };
static uint8_t text[MOST_BYTES];

static uint8_t *unprinted(void) {
  memset(text, UNPRINTED, sizeof text);
  return text;
}

// whether the reply is a success with these bytes, and nothing behind them was written
static int printed(marrubigai_count_reply reply, const char *expected) {
  const size_t count = strlen(expected);
  int holds = reply.number == 0 && reply.place == 0 && reply.count == count && memcmp(text, expected, count) == 0;
  for (size_t t = count; t < MOST_BYTES; t++) holds = holds && text[t] == UNPRINTED;
  return holds;
}

// whether the reply is a success with these bytes at the end of a buffer of so many, and nothing else was written
static int filled(marrubigai_count_reply reply, size_t room, const char *expected) {
  const size_t count = strlen(expected), start = room - count;
  int holds = reply.number == 0 && reply.place == 0 && reply.count == count && memcmp(text + start, expected, count) == 0;
  for (size_t t = 0; t < MOST_BYTES; t++) holds = holds && ((t >= start && t < room) || text[t] == UNPRINTED);
  return holds;
}

static int refused_at(marrubigai_count_reply reply, uint32_t number, uint32_t place) {
  int holds = reply.number == number && reply.place == place && reply.count == 0;
  for (size_t t = 0; t < MOST_BYTES; t++) holds = holds && text[t] == UNPRINTED;
  return holds;
}

static int not_printed(marrubigai_count_reply reply) { return refused_at(reply, MARRUBIGAI_NO_ROOM, 0); }

static void printing(void) {
  check("a header of 12 bytes", printed(marrubigai_put_header(unprinted(), 12, 10, 24), "p cnf 10 24\n"));
  check("11 bytes are too few for it", not_printed(marrubigai_put_header(unprinted(), 11, 10, 24)));
  check("the largest numbers in a header",
        printed(marrubigai_put_header(unprinted(), MOST_BYTES, UINT32_MAX, 0), "p cnf 4294967295 0\n"));
  static const int32_t numbers[] = {-9, 5, 1, 0, 3, INT32_MIN, 0};
  const size_t count = COUNT(numbers);
  check("a clause a line", printed(marrubigai_put_clauses(unprinted(), 25, numbers, count), "-9 5 1 0\n3 -2147483648 0\n"));
  check("24 bytes are too few for them", not_printed(marrubigai_put_clauses(unprinted(), 24, numbers, count)));
  check("no numbers, into a slice of length 0", printed(marrubigai_put_clauses(unprinted(), 0, numbers, 0), ""));
  check("a refusal of 28 bytes", printed(marrubigai_put_refusal(unprinted(), 28, 6, 3), "refused         6         3\n"));
  check("27 bytes are too few for it", not_printed(marrubigai_put_refusal(unprinted(), 27, 6, 3)));
  check("the least number fills its 11 bytes", filled(marrubigai_put_number(unprinted(), 11, INT32_MIN), 11, "-2147483648"));
  check("10 bytes are too few for it", not_printed(marrubigai_put_number(unprinted(), 10, INT32_MIN)));
  check("a number at the end of 13 bytes", filled(marrubigai_put_number(unprinted(), 13, -70), 13, "-70"));
  check("zero is one byte", filled(marrubigai_put_number(unprinted(), 1, 0), 1, "0"));
  check("no byte is too few for it", not_printed(marrubigai_put_number(unprinted(), 0, 0)));
}

static void sheets(void) {
  const size_t bytes = sizeof FULL_RUN - 1, longer = sizeof DISTINCT - 1;
  check("a sheet in a buffer of its length",
        printed(marrubigai_write_sheet(CHIP, latches, 0, gates, 0, unprinted(), bytes), FULL_RUN));
  check("in a longer one", printed(marrubigai_write_sheet(CHIP, latches, 0, gates, 0, unprinted(), MOST_BYTES), FULL_RUN));
  check("one byte less is too short", not_printed(marrubigai_write_sheet(CHIP, latches, 0, gates, 0, unprinted(), bytes - 1)));
  check("so is no byte", not_printed(marrubigai_write_sheet(CHIP, latches, 0, gates, 0, unprinted(), 0)));
  check("each number in its field",
        printed(marrubigai_write_sheet(DISTINCT_NET, DISTINCT_LATCHES, 2, DISTINCT_GATES, 1, unprinted(), longer), DISTINCT));
  check("each number of two ports in its field",
        printed(marrubigai_write_sheet(DISTINCT_TWO_NET, DISTINCT_LATCHES, 2, DISTINCT_GATES, 1, unprinted(), sizeof DISTINCT_TWO - 1),
                DISTINCT_TWO));
  check("one byte less is too short for it",
        not_printed(marrubigai_write_sheet(DISTINCT_TWO_NET, DISTINCT_LATCHES, 2, DISTINCT_GATES, 1, unprinted(), sizeof DISTINCT_TWO - 2)));
  check("a record with a memory loop is 6 at line 3",
        refused_at(marrubigai_write_sheet((marrubigai_netlist){.inputs = 1, .m = 1, .n = 1, .address = {4}, .re = 1}, latches, 0, gates, 0,
                                          unprinted(), MOST_BYTES),
                   MARRUBIGAI_MEMORY_LOOP, 3));
  check("the record is tested before the room",
        refused_at(marrubigai_write_sheet(DISTINCT_NET, DISTINCT_LATCHES, 1, DISTINCT_GATES, 1, unprinted(), 0), MARRUBIGAI_OUT_OF_ORDER, 0));
}

// the input and the first port's bit read are wires 1 and 2; behind them wire 3, the second's, which nothing uses, and the gate, wire 4
static const char UNUSED_TWO[] =
    LINE("N", "         1", "         0", "         1")
    LINE("T", "         1", "         1", "         0")
    LINE("G", "         2", "         4", EMPTY)
    LINE("A", "         0", EMPTY, EMPTY)
    LINE("D", "         8", EMPTY, EMPTY)
    LINE("B", "         2", EMPTY, EMPTY)
    LINE("R", "         0", EMPTY, EMPTY)
    LINE("C", "         1", "         1", "         9");
static const char UNUSED_ONE[] =
    LINE("N", "         1", "         0", "         1")
    LINE("M", "         1", "         1", "         0")
    LINE("G", "         2", "         4", EMPTY)
    LINE("A", "         0", EMPTY, EMPTY)
    LINE("D", "         6", EMPTY, EMPTY)
    LINE("C", "         1", "         1", "         7");

static marrubigai_count_reply one_port(const char *file, size_t bytes, size_t room) {
  return marrubigai_one_port((const uint8_t *)file, bytes, unprinted(), room);
}

static void conversions(void) {
  const size_t bytes = sizeof UNUSED_TWO - 1, need = sizeof UNUSED_ONE - 1;
  check("a sheet for one port in a buffer of its length", printed(one_port(UNUSED_TWO, bytes, need), UNUSED_ONE));
  check("in a longer one", printed(one_port(UNUSED_TWO, bytes, MOST_BYTES), UNUSED_ONE));
  check("one byte less is too short", not_printed(one_port(UNUSED_TWO, bytes, need - 1)));
  check("a sheet with one port is as it was", printed(one_port(UNUSED_ONE, need, need), UNUSED_ONE));
  check("one byte less is too short for it too", not_printed(one_port(UNUSED_ONE, need, need - 1)));
  check("a second port that is read is 18 at its line, whatever the room",
        refused_at(one_port(DISTINCT_TWO, sizeof DISTINCT_TWO - 1, 0), MARRUBIGAI_SECOND_PORT, 3));
  char changed[sizeof UNUSED_TWO];
  memcpy(changed, UNUSED_TWO, sizeof changed);
  changed[6 * 32 + 10] = '1';
  check("one that reads is 18 at the R line", refused_at(one_port(changed, bytes, MOST_BYTES), MARRUBIGAI_SECOND_PORT, 7));
  changed[6 * 32 + 10] = '6';
  check("a memory loop comes before", refused_at(one_port(changed, bytes, MOST_BYTES), MARRUBIGAI_MEMORY_LOOP, 7));
  check("an empty file is 1", refused_at(one_port(UNUSED_TWO, 0, MOST_BYTES), MARRUBIGAI_RAGGED, 0));
}

// The record of DISTINCT with reset 0 everywhere, as a binary file: its inputs stay 1 to 3, its read bits become 4 to 8, its latches 9 and 10, its
// gate stays 11. The gate's codes are 17 and 3: the differences are 5 and 14.
static const marrubigai_latch DISTINCT_ZERO[] = {{.next = 22, .reset = 0}, {.next = 17, .reset = 0}};
static const char DISTINCT_AIG[] = "aig 11 8 2 12 1\n" "22\n13\n" "18\n5\n7\n20\n" "8\n10\n11\n12\n14\n" "23\n21\n9\n" "\5\16";

static void exports(void) {
  const size_t bytes = sizeof DISTINCT_AIG - 1;
  check("the file of the full run's chip", printed(marrubigai_export(CHIP, latches, 0, gates, 0, unprinted(), MOST_BYTES),
                                                   "aig 2 2 0 5 0\n0\n2\n1\n1\n5\n"));
  check("a file in a buffer of its length",
        printed(marrubigai_export(DISTINCT_NET, DISTINCT_ZERO, 2, DISTINCT_GATES, 1, unprinted(), bytes), DISTINCT_AIG));
  check("one byte less is too short",
        not_printed(marrubigai_export(DISTINCT_NET, DISTINCT_ZERO, 2, DISTINCT_GATES, 1, unprinted(), bytes - 1)));
  marrubigai_netlist unknown = DISTINCT_NET;
  unknown.unknown_start = 1;
  check("the start does not show",
        printed(marrubigai_export(unknown, DISTINCT_ZERO, 2, DISTINCT_GATES, 1, unprinted(), MOST_BYTES), DISTINCT_AIG));
  check("a reset of 1 gives 19 at its line, before the room",
        refused_at(marrubigai_export(DISTINCT_NET, DISTINCT_LATCHES, 2, DISTINCT_GATES, 1, unprinted(), 0), MARRUBIGAI_RESET, 3));
  check("a second port gives 3 at line 2, before that",
        refused_at(marrubigai_export(DISTINCT_TWO_NET, DISTINCT_LATCHES, 2, DISTINCT_GATES, 1, unprinted(), 0), MARRUBIGAI_OUT_OF_ORDER, 2));
  check("a latch list shorter than its size gives 3, place 0, before both",
        refused_at(marrubigai_export(DISTINCT_TWO_NET, DISTINCT_LATCHES, 1, DISTINCT_GATES, 1, unprinted(), 0), MARRUBIGAI_OUT_OF_ORDER, 0));
}

// what the header calls room enough is what the largest of its kind needs, and no more, but for the lists: V leaves 599
static void rooms(void) {
  static marrubigai_gate most_gates[MARRUBIGAI_LIST_ROOM];
  static int32_t numbers[MARRUBIGAI_GROUP_ROOM];
  // every gate is of the read bit with itself, wire 1: no constant
  for (size_t g = 0; g < 599; g++) most_gates[g] = (marrubigai_gate){.left = 2, .right = 2};
  const marrubigai_netlist largest = {.gates = 599, .m = 1, .n = 1};
  check("the largest group", marrubigai_write_group(largest, latches, 0, most_gates, 599, 0, MARRUBIGAI_WIRES, 0, 0, 0, numbers,
                                                    MARRUBIGAI_GROUP_ROOM).count == MARRUBIGAI_GROUP_ROOM);
  static uint8_t sheet[MARRUBIGAI_SHEET_BYTES + 32];
  check("the longest sheet is not ragged",
        marrubigai_read(sheet, MARRUBIGAI_SHEET_BYTES, latches, 0, gates, 0).number == MARRUBIGAI_MISPRINT);
  const marrubigai_netlist most_lines = {.gates = 598, .m = 12, .n = 1, .second_port = 1};
  check("the longest sheet written", marrubigai_write_sheet(most_lines, latches, 0, most_gates, 598, sheet, sizeof sheet).count ==
                                         MARRUBIGAI_SHEET_BYTES);
  check("a longer one is", marrubigai_read(sheet, sizeof sheet, latches, 0, gates, 0).number == MARRUBIGAI_RAGGED);
  // a gate takes four bytes at most, and the line of a latch five: all codes are of latches whose variables are above 499
  static marrubigai_latch most_latches[MARRUBIGAI_LIST_ROOM];
  for (size_t l = 0; l < 568; l++) most_latches[l] = (marrubigai_latch){.next = 1137, .reset = 0};
  marrubigai_netlist all_latches = {.latches = 568, .m = 12, .n = 32, .we = 1137, .re = 1137, .p = 1137};
  for (uint32_t t = 0; t < 12; t++) all_latches.address[t] = 1000 + 2 * t;
  for (size_t t = 0; t < 32; t++) all_latches.write_data[t] = 1137;
  check("the longest file", marrubigai_export(all_latches, most_latches, 568, gates, 0, sheet, sizeof sheet).count == MARRUBIGAI_AIGER_BYTES);
  check("the longest header", marrubigai_put_header(text, MARRUBIGAI_HEADER_BYTES, UINT32_MAX, UINT32_MAX).count == MARRUBIGAI_HEADER_BYTES);
  check("a refusal", marrubigai_put_refusal(text, MARRUBIGAI_HEADER_BYTES, UINT32_MAX, UINT32_MAX).count == MARRUBIGAI_HEADER_BYTES);
  check("the longest number, and one byte behind it", marrubigai_put_number(text, MARRUBIGAI_NUMBER_BYTES, INT32_MIN).count + 1 == MARRUBIGAI_NUMBER_BYTES);
  static uint32_t words[MARRUBIGAI_MEMORY_WORDS];
  static uint8_t longest_trace[MARRUBIGAI_TRACE_BYTES];
  const marrubigai_netlist widest = {.gates = 599, .m = 12, .n = 1};
  static const uint8_t claim[] = "s UNSATISFIABLE\n";
  check("the largest memory and the longest trace",
        marrubigai_replay(widest, latches, 0, most_gates, 599, 255, claim, sizeof claim - 1, words, MARRUBIGAI_MEMORY_WORDS,
                          longest_trace, MARRUBIGAI_TRACE_BYTES).claimed == 1);
  check("no word less", marrubigai_replay(widest, latches, 0, most_gates, 599, 255, claim, sizeof claim - 1, words, MARRUBIGAI_MEMORY_WORDS - 1,
                                          longest_trace, MARRUBIGAI_TRACE_BYTES).number == MARRUBIGAI_NO_ROOM);
  check("no byte less", marrubigai_replay(widest, latches, 0, most_gates, 599, 255, claim, sizeof claim - 1, words, MARRUBIGAI_MEMORY_WORDS,
                                          longest_trace, MARRUBIGAI_TRACE_BYTES - 1).number == MARRUBIGAI_NO_ROOM);
  static const int32_t longest[] = {INT32_MIN};
  check("the longest number", marrubigai_put_clauses(text, MARRUBIGAI_NUMBER_BYTES, longest, 1).count == MARRUBIGAI_NUMBER_BYTES);
}

static int follows(uint32_t ports, uint32_t kind, uint32_t j, uint32_t i, uint32_t port, marrubigai_group_reply expected) {
  marrubigai_group_reply reply = marrubigai_next_group(2, ports, kind, j, i, port);
  return reply.end == expected.end && reply.kind == expected.kind && reply.j == expected.j && reply.i == expected.i &&
         reply.port == expected.port;
}

// groups that are written and clauses in them, from the wires of frame 0 on
static void walked(const char *what, const marrubigai_netlist *net, uint32_t depth, uint32_t most, uint32_t expected) {
  uint32_t clauses = 0, groups = 0;
  marrubigai_group_reply group = {.kind = MARRUBIGAI_WIRES};
  int32_t numbers[64];
  while (!group.end && groups < 100) {
    marrubigai_count_reply reply =
        marrubigai_write_group(*net, latches, 0, gates, 0, depth, group.kind, group.j, group.i, group.port, numbers, COUNT(numbers));
    for (size_t t = 0; t < reply.count; t++) clauses += numbers[t] == 0;
    groups += reply.number == MARRUBIGAI_PASSED;
    group = marrubigai_next_group(depth, net->second_port + 1, group.kind, group.j, group.i, group.port);
  }
  check(what, groups == most && clauses == expected);
}

// depth 2
static void orders(void) {
  static const marrubigai_group_reply end = {.end = 1};
  check("behind the wires of frame 0 comes its closing",
        follows(1, MARRUBIGAI_WIRES, 0, 0, 0, (marrubigai_group_reply){0, MARRUBIGAI_CLOSING, 0, 0, 1}));
  check("then the wires of frame 1", follows(1, MARRUBIGAI_CLOSING, 0, 0, 1, (marrubigai_group_reply){0, MARRUBIGAI_WIRES, 0, 1, 0}));
  check("behind the wires of frame 2 comes the pair (1, 2)",
        follows(1, MARRUBIGAI_WIRES, 9, 2, 9, (marrubigai_group_reply){0, MARRUBIGAI_PAIR, 1, 2, 1}));
  check("then (0, 2)", follows(1, MARRUBIGAI_PAIR, 1, 2, 1, (marrubigai_group_reply){0, MARRUBIGAI_PAIR, 0, 2, 1}));
  check("then its closing", follows(1, MARRUBIGAI_PAIR, 0, 2, 1, (marrubigai_group_reply){0, MARRUBIGAI_CLOSING, 0, 2, 1}));
  check("then the property", follows(1, MARRUBIGAI_CLOSING, 9, 2, 1, (marrubigai_group_reply){0, MARRUBIGAI_PROPERTY, 0, 0, 0}));
  check("then the end", follows(1, MARRUBIGAI_PROPERTY, 9, 9, 9, end));
  check("behind a frame over the depth there is none", follows(1, MARRUBIGAI_WIRES, 0, 3, 0, end));
  check("nor behind a pair of a frame with itself", follows(1, MARRUBIGAI_PAIR, 2, 2, 1, end));
  check("nor behind what is no kind", follows(1, 4, 0, 0, 1, end));
  check("nor behind a second port that is not there", follows(1, MARRUBIGAI_CLOSING, 0, 2, 2, end));
  check("behind a closing comes the second port's", follows(2, MARRUBIGAI_CLOSING, 0, 0, 1, (marrubigai_group_reply){0, MARRUBIGAI_CLOSING, 0, 0, 2}));
  check("then the wires of the next frame", follows(2, MARRUBIGAI_CLOSING, 0, 0, 2, (marrubigai_group_reply){0, MARRUBIGAI_WIRES, 0, 1, 0}));
  check("behind a pair comes the second port's", follows(2, MARRUBIGAI_PAIR, 1, 2, 1, (marrubigai_group_reply){0, MARRUBIGAI_PAIR, 1, 2, 2}));
  check("then the first port's next pair", follows(2, MARRUBIGAI_PAIR, 1, 2, 2, (marrubigai_group_reply){0, MARRUBIGAI_PAIR, 0, 2, 1}));
  check("behind the last pair the closing", follows(2, MARRUBIGAI_PAIR, 0, 2, 2, (marrubigai_group_reply){0, MARRUBIGAI_CLOSING, 0, 2, 1}));
  check("behind the last closing the property", follows(2, MARRUBIGAI_CLOSING, 0, 2, 2, (marrubigai_group_reply){0, MARRUBIGAI_PROPERTY, 0, 0, 0}));
  check("behind port 0 there is none", follows(2, MARRUBIGAI_CLOSING, 0, 2, 0, end));
  check("nor behind port 3", follows(2, MARRUBIGAI_CLOSING, 0, 2, 3, end));
  check("no ports have no group", follows(0, MARRUBIGAI_WIRES, 0, 0, 0, end));
  check("three have none", follows(3, MARRUBIGAI_WIRES, 0, 0, 0, end));
  check("nor has the greatest number", follows(UINT32_MAX, MARRUBIGAI_CLOSING, 0, 0, 1, end));
  // the walk of the program that prints a formula: each group is there, and their clauses are those of the heading
  walked("depth 1 has six groups, and 15 clauses in them", &CHIP, 1, 6, 15);
  walked("with two ports nine, and 28", &TWO_PORTS, 1, 9, 28);
}

// what the header calls a limit is the last that is taken
static void limits(void) {
  check("the largest depth", marrubigai_heading(CHIP, latches, 0, gates, 0, MARRUBIGAI_MOST_DEPTH).number == MARRUBIGAI_PASSED);
  check("one more", marrubigai_heading(CHIP, latches, 0, gates, 0, MARRUBIGAI_MOST_DEPTH + 1).number == MARRUBIGAI_DEPTH);
  marrubigai_netlist net = {.m = MARRUBIGAI_MOST_ADDRESS_BITS, .n = MARRUBIGAI_MOST_DATA_BITS};
  net.inputs = MARRUBIGAI_MOST_WIRES - MARRUBIGAI_MOST_DATA_BITS;
  check("the largest record", marrubigai_heading(net, latches, 0, gates, 0, 0).number == MARRUBIGAI_PASSED);
  check("its variables at the largest depth", marrubigai_heading(net, latches, 0, gates, 0, MARRUBIGAI_MOST_DEPTH).variables == 675841);
  marrubigai_netlist two = net;
  two.second_port = 1;
  two.inputs -= MARRUBIGAI_MOST_DATA_BITS;
  check("the most variables", marrubigai_heading(two, latches, 0, gates, 0, MARRUBIGAI_MOST_DEPTH).variables == MARRUBIGAI_MOST_VARIABLES);
  two.inputs++;
  check("one wire more with two ports", answers_heading(marrubigai_heading(two, latches, 0, gates, 0, 0), MARRUBIGAI_SIZE, 2, 0, 0));
  marrubigai_netlist wider = net, longer = net, larger = net, most = net;
  wider.n = MARRUBIGAI_MOST_DATA_BITS + 1;
  wider.inputs = 0;
  longer.m = MARRUBIGAI_MOST_ADDRESS_BITS + 1;
  larger.inputs++;
  most.inputs = MARRUBIGAI_MOST_WIRES + 1;
  check("one data bit more", answers_heading(marrubigai_heading(wider, latches, 0, gates, 0, 0), MARRUBIGAI_SIZE, 2, 0, 0));
  check("one address bit more", answers_heading(marrubigai_heading(longer, latches, 0, gates, 0, 0), MARRUBIGAI_SIZE, 2, 0, 0));
  check("one wire more", answers_heading(marrubigai_heading(larger, latches, 0, gates, 0, 0), MARRUBIGAI_SIZE, 2, 0, 0));
  check("more inputs than wires", answers_heading(marrubigai_heading(most, latches, 0, gates, 0, 0), MARRUBIGAI_SIZE, 1, 0, 0));
}

// A chip that reads and never writes: a memory of two words of one bit, at address 0, that begins as 0, and a property that says that the bit read is 0. Its
// invariant says that word 0 is 0, which is bit 2 of a state: bit 1 is the bit held.
static const char NEVER[] =
    LINE("N", "         1", "         0", "         0")
    LINE("M", "         1", "         1", "         0")
    LINE("A", "         0", EMPTY, EMPTY)
    LINE("D", "         2", EMPTY, EMPTY)
    LINE("C", "         0", "         1", "         5");
enum { NEVER_STORE = 9 * 5 + 2 + 1, NEVER_MARKS = 400 };
static int32_t steps[NEVER_STORE];
static uint32_t step_marks[NEVER_MARKS];

static marrubigai_certificate_reply forever(const char *sheet, const int32_t *invariant, size_t numbers, size_t store_room, size_t mark_room) {
  static const uint32_t requests[] = {0, 0, 0, 33, 0, 0, 35, 0, 0, 18, 0, 0, 7, 0, 0, 26, 0, 0, 40, 0, 0, 42, 1, 0, 40, 2, 0};
  static const int32_t lemmas[] = {0};
  static const uint32_t hints[] = {10, 0, 45, 5, 10, 15, 20, 25, 30, 35, 40};
  for (size_t t = 0; t < COUNT(steps); t++) steps[t] = UNTOUCHED;
  for (size_t t = 0; t < COUNT(step_marks); t++) step_marks[t] = UNTOUCHED;
  return marrubigai_certify_forever((const uint8_t *)sheet, sizeof NEVER - 1, invariant, numbers, requests, COUNT(requests), lemmas, COUNT(lemmas), hints,
                                    COUNT(hints), steps, store_room, step_marks, mark_room);
}

static void certificates_for_ever(void) {
  static const int32_t invariant[] = {-2, 0}, other[] = {-1, 0}, past[] = {-4, 0};
  char changed[sizeof NEVER];
  check("a property that holds for ever is certified", answers_certificate(forever(NEVER, invariant, 2, NEVER_STORE, NEVER_MARKS), MARRUBIGAI_PASSED, 1, 0) &&
                                                            steps[9 * 5] == -2 && steps[9 * 5 + 1] == 0 && steps[9 * 5 + 2] == 0);
  check("not by an empty invariant", answers_certificate(forever(NEVER, invariant, 0, NEVER_STORE, NEVER_MARKS), MARRUBIGAI_PASSED, 0, 0));
  check("not by another", answers_certificate(forever(NEVER, other, 2, NEVER_STORE, NEVER_MARKS), MARRUBIGAI_PASSED, 0, 0));
  check("not by one of words past the memory", answers_certificate(forever(NEVER, past, 2, NEVER_STORE, NEVER_MARKS), MARRUBIGAI_PASSED, 0, 0));
  check("not without marks", answers_certificate(forever(NEVER, invariant, 2, NEVER_STORE, 0), MARRUBIGAI_PASSED, 0, 0));
  memcpy(changed, NEVER, sizeof changed);
  changed[32 + 30] = '1';
  check("not from a start of 1", answers_certificate(forever(changed, invariant, 2, NEVER_STORE, NEVER_MARKS), MARRUBIGAI_PASSED, 0, 0));
  int kept = 1;
  for (size_t t = 0; t < COUNT(step_marks); t++) kept = kept && step_marks[t] == UNTOUCHED;
  check("where the invariant fails at the start the marks are as they were", kept);
  changed[32 + 30] = ' ';
  check("not from an unknown start", answers_certificate(forever(changed, invariant, 2, NEVER_STORE, NEVER_MARKS), MARRUBIGAI_PASSED, 0, 0));
  memcpy(changed, NEVER, sizeof changed);
  changed[4 * 32 + 10] = '1';
  check("not where each frame writes", answers_certificate(forever(changed, invariant, 2, NEVER_STORE, NEVER_MARKS), MARRUBIGAI_PASSED, 0, 0));
  int whole = answers_certificate(forever(NEVER, invariant, 2, NEVER_STORE - 1, NEVER_MARKS), MARRUBIGAI_NO_ROOM, 0, 0);
  for (size_t t = 0; t < COUNT(steps); t++) whole = whole && steps[t] == UNTOUCHED;
  for (size_t t = 0; t < COUNT(step_marks); t++) whole = whole && step_marks[t] == UNTOUCHED;
  check("a store one number short is 9, and everything is as it was", whole);
  changed[4 * 32 + 10] = '9';
  marrubigai_certificate_reply reply = forever(changed, invariant, 2, NEVER_STORE, NEVER_MARKS);
  check("a code outside its limit is 5 at its line", reply.number == MARRUBIGAI_CODE && reply.place == 5 && reply.certified == 0 && reply.lemma == 0);
}

int main(int count, char **arguments) {
  if (count == 2 && strcmp(arguments[1], "words") == 0) { // for the script that compares them with the page
    for (uint32_t number = 0; number < 32; number++) printf("%u %s\n", (unsigned)number, marrubigai_refusal_word(number));
    return 0;
  }
  check("the version's text has its numbers",
        strcmp(MARRUBIGAI_VERSION, VERSION(MARRUBIGAI_VERSION_MAJOR, MARRUBIGAI_VERSION_MINOR)) == 0);
  check("the library is built for this header", marrubigai_version().major == MARRUBIGAI_VERSION_MAJOR &&
                                                    marrubigai_version().minor == MARRUBIGAI_VERSION_MINOR);
  reading();
  importing();
  lines();
  headings();
  groups();
  port_groups();
  positions();
  sources();
  replays();
  port_replays();
  certificates();
  certificates_for_ever();
  printing();
  sheets();
  conversions();
  exports();
  rooms();
  orders();
  limits();
  printf("%d passed, %d failed\n", passed, failed);
  return failed != 0;
}
