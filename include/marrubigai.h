/* The library for C: `scripts/build.sh library` writes target/staticlib/libmarrubigai.a. docs/LIBRARY.md has the link line, the conditions and
 * places of refusals, and a program that searches depth by depth; the contracts stand in crates/marrubigai/src. Every function takes any
 * numbers, tests them first, and after a refusal has changed nothing that it was lent, but for the memory of marrubigai_replay.
 *
 * The library has no state of its own: any call may run in any thread, at the same time as any other. A call keeps what it needs on its
 * thread's stack (enum marrubigai_stack says how much) and allocates nothing.
 *
 * A slice is a pointer and how many elements it has. Nothing can test these two, so they are the caller's to get right:
 *   - The pointer is that of an array of at least so many elements, which nothing else writes to during the call.
 *   - At length 0 nothing is read or written through it, but it is still an element's address and not NULL: any array's will do. (GCC and
 *     Clang warn of a NULL that they see, and of an answer that is not looked at.)
 *   - What a function writes to (a pointer without const) overlaps nothing else that the same call is lent. */
#ifndef MARRUBIGAI_H
#define MARRUBIGAI_H

#include <stddef.h>
#include <stdint.h>

/* the version of this interface: the first number goes up where a program that was written for the version before has to be changed, the
 * second where something is added; while the first is 0, the second goes up for both */
#define MARRUBIGAI_VERSION_MAJOR 0
#define MARRUBIGAI_VERSION_MINOR 11
#define MARRUBIGAI_VERSION "0.11"

#if defined(__GNUC__) /* Clang says so too */
#define MARRUBIGAI_ANSWERS __attribute__((warn_unused_result))
#define MARRUBIGAI_LENT __attribute__((warn_unused_result, nonnull))
#else
#define MARRUBIGAI_ANSWERS
#define MARRUBIGAI_LENT
#endif

#ifdef __cplusplus
extern "C" {
#endif

/* limits: what is above them is refused, and the last follows from the others; the least m and n is 1 */
enum marrubigai_limit {
  MARRUBIGAI_MOST_DEPTH = 255,
  MARRUBIGAI_MOST_ADDRESS_BITS = 12,  /* m */
  MARRUBIGAI_MOST_DATA_BITS = 32,     /* n */
  MARRUBIGAI_MOST_WIRES = 600,        /* inputs, latches and gates each, and with the n read bits of each port all together */
  MARRUBIGAI_MOST_VARIABLES = 1198081 /* of a formula; with one port 675,841 */
};

/* 2 x wire, plus 1 for the inverted wire; 0 is false, 1 is true */
typedef uint32_t marrubigai_code;

typedef struct {
  uint32_t inputs, latches, gates;
  uint32_t m, n, initial_word; /* address width, data width, what every word starts as */
  uint32_t unknown_start; /* 0, or 1: each word starts as anything, each by itself, and initial_word is not looked at; above 1 is refused */
  uint32_t second_port; /* 0, or 1: a second read port, whose n read bits follow the first's; above 1 is refused, and 1 beside an unknown start */
  marrubigai_code address[MARRUBIGAI_MOST_ADDRESS_BITS], write_data[MARRUBIGAI_MOST_DATA_BITS]; /* bit 0 first; those past the widths are ignored */
  marrubigai_code we, re, p; /* write enable, read enable, property */
  marrubigai_code address2[MARRUBIGAI_MOST_ADDRESS_BITS], re2; /* where the second port reads, and its read enable; ignored where there is none: only `address` writes */
} marrubigai_netlist;

typedef struct { marrubigai_code next; uint32_t reset; } marrubigai_latch;
typedef struct { marrubigai_code left, right; } marrubigai_gate;

/* number is 0 where nothing is refused; what stands beside a refusal is all zeros, but for two: a running record that was not to start is as it was
 * handed in, and `line` beside a misprint is the line's number. A count is of numbers or bytes written. */
typedef struct { uint32_t number, place; size_t count; } marrubigai_count_reply;
typedef struct { uint32_t number, place, variables, clauses; } marrubigai_heading_reply;
typedef struct { uint32_t number, place; marrubigai_netlist net; } marrubigai_sheet_reply;
typedef struct { uint32_t number, place; uint8_t letter; uint32_t first, second, third, empty, line; } marrubigai_line_reply;
typedef struct { uint32_t depth, frame, base; } marrubigai_position; /* a running record: base is that of the frame */
typedef struct { uint32_t number, place; marrubigai_position position; } marrubigai_position_reply;
typedef struct { uint32_t number, place; int32_t literal; } marrubigai_literal_reply;
typedef struct { uint32_t number, place, claimed, first; } marrubigai_replay_reply; /* claimed: 1 where the answer claims to be unsatisfiable */
typedef struct { uint32_t number, place, certified; size_t lemma; } marrubigai_certificate_reply; /* lemma: the first that does not follow */
typedef struct { uint32_t end, kind, j, i, port; } marrubigai_group_reply; /* end: 1 where no group follows; what does not apply is 0 */
typedef struct { uint32_t major, minor; } marrubigai_version_reply;

/* a refusal's number; 10 is none, and is not used again */
enum marrubigai_refusal {
  MARRUBIGAI_PASSED = 0, /* nothing is refused */
  MARRUBIGAI_RAGGED = 1,
  MARRUBIGAI_MISPRINT = 2,
  MARRUBIGAI_OUT_OF_ORDER = 3,
  MARRUBIGAI_SIZE = 4,
  MARRUBIGAI_CODE = 5,
  MARRUBIGAI_MEMORY_LOOP = 6,
  MARRUBIGAI_DEPTH = 7,
  MARRUBIGAI_NO_SUCH_GROUP = 8,
  MARRUBIGAI_NO_ROOM = 9,
  MARRUBIGAI_NOT_AIGER = 11,
  MARRUBIGAI_INTERFACE = 12,
  MARRUBIGAI_UNDEFINED = 13,
  MARRUBIGAI_NO_ANSWER = 14,
  MARRUBIGAI_NO_VIOLATION = 15,
  MARRUBIGAI_WRONG_BASE = 16,
  MARRUBIGAI_TIED_ADDRESS = 17,
  MARRUBIGAI_SECOND_PORT = 18,
  MARRUBIGAI_RESET = 19
};

/* the kinds of group */
enum marrubigai_kind { MARRUBIGAI_WIRES = 0, MARRUBIGAI_PAIR = 1, MARRUBIGAI_CLOSING = 2, MARRUBIGAI_PROPERTY = 3 };

/* the moves of a running record */
enum marrubigai_way { MARRUBIGAI_START = 0, MARRUBIGAI_ON = 1, MARRUBIGAI_BACK = 2 };

/* room that is always enough */
enum marrubigai_room {
  MARRUBIGAI_SHEET_BYTES = 20064, /* no sheet has more; with one port 19,680 */
  MARRUBIGAI_LIST_ROOM = 600,     /* latches or gates */
  MARRUBIGAI_GROUP_ROOM = 5992,   /* numbers of a group */
  MARRUBIGAI_HEADER_BYTES = 28,   /* what put_header writes, or put_refusal */
  MARRUBIGAI_NUMBER_BYTES = 12,   /* clauses as text: for each number */
  MARRUBIGAI_AIGER_BYTES = 3095,  /* what export writes */
  MARRUBIGAI_MEMORY_WORDS = 4096, /* words of a memory */
  MARRUBIGAI_TRACE_BYTES = 153856 /* the lines of a run */
};

/* bytes of stack that are enough for a call, as it was measured */
enum marrubigai_stack {
  MARRUBIGAI_CALL_STACK = 65536,   /* any but the next two */
  MARRUBIGAI_IMPORT_STACK = 327680,
  MARRUBIGAI_REPLAY_STACK = 1441792
};

/* a refusal's word; "passed" for 0, and "unknown" for what is no refusal's number */
static inline const char *marrubigai_refusal_word(uint32_t number) {
  switch (number) {
    case MARRUBIGAI_PASSED: return "passed";
    case MARRUBIGAI_RAGGED: return "ragged";
    case MARRUBIGAI_MISPRINT: return "misprint";
    case MARRUBIGAI_OUT_OF_ORDER: return "out of order";
    case MARRUBIGAI_SIZE: return "size";
    case MARRUBIGAI_CODE: return "code";
    case MARRUBIGAI_MEMORY_LOOP: return "memory loop";
    case MARRUBIGAI_DEPTH: return "depth";
    case MARRUBIGAI_NO_SUCH_GROUP: return "no such group";
    case MARRUBIGAI_NO_ROOM: return "no room";
    case MARRUBIGAI_NOT_AIGER: return "not aiger";
    case MARRUBIGAI_INTERFACE: return "interface";
    case MARRUBIGAI_UNDEFINED: return "undefined";
    case MARRUBIGAI_NO_ANSWER: return "no answer";
    case MARRUBIGAI_NO_VIOLATION: return "no violation";
    case MARRUBIGAI_WRONG_BASE: return "wrong base";
    case MARRUBIGAI_TIED_ADDRESS: return "tied address";
    case MARRUBIGAI_SECOND_PORT: return "second port";
    case MARRUBIGAI_RESET: return "reset";
    default: return "unknown";
  }
}

/* the version of the header that the library was built for: where it is not that of this header, the archive is another's */
MARRUBIGAI_ANSWERS marrubigai_version_reply marrubigai_version(void);

/* reads a sheet: its record, and its latches and gates into the first elements of the lists */
MARRUBIGAI_LENT marrubigai_sheet_reply marrubigai_read(const uint8_t *file, size_t bytes, marrubigai_latch *latches, size_t latch_room,
    marrubigai_gate *gates, size_t gate_room);

/* imports a netlist in ASCII AIGER, for a memory of m address bits and n data bits, whose words all start as `word`, or as anything where `unknown`
 * is 1 (`word` then counts for nothing; a number above 1 is refused): the last n inputs of the text are the read bits, in order from bit 0; its
 * outputs are the m address bits, the n write-data bits, write enable, read enable and the property, m + n + 3 in all. Where `second_port` is 1 the
 * memory has two ports (a number above 1 is refused, and so is 1 beside an unknown start): the last 2n inputs are the read bits, the first port's
 * first, and behind the write data the second port's m address bits and its read enable are outputs too, 2m + n + 4 in all.
 * Record and lists as where a sheet is read; every latch has reset 0. No order or name of inputs is tested beyond their number: docs/LIBRARY.md
 * says what to look at in a text that a tool has written.
 * Its time: the text is gone through for each block of 262,144 variables that its lines name, 8,192 blocks at most. 1 MB as tools write it, with
 * the variables 1 to M, takes some 10 ms; 1 MB with variables all over the 2^31, the worst known, took 45 s. */
MARRUBIGAI_LENT marrubigai_sheet_reply marrubigai_import(const uint8_t *text, size_t bytes, uint32_t m, uint32_t n, uint32_t word,
    uint32_t unknown, uint32_t second_port, marrubigai_latch *latches, size_t latch_room, marrubigai_gate *gates, size_t gate_room);

/* the line behind the first `line` lines of a sheet: its letter, its fields (0 where one is empty), 1 as `empty` where it is an M or T line
 * whose start word is left empty, and how many lines are read with it, one more. Where it is misprinted, 2 with its place, line + 1, and it is
 * read too: letter and fields are 0, and `line` is the place. Where there is none (missing, cut short, or behind 627 lines, the most that a
 * sheet has), number and letter are 0 and the line number is `line` itself. */
MARRUBIGAI_LENT marrubigai_line_reply marrubigai_next_line(const uint8_t *file, size_t bytes, uint32_t line);

/* how many variables and clauses the formula of a depth has */
MARRUBIGAI_LENT marrubigai_heading_reply marrubigai_heading(marrubigai_netlist net, const marrubigai_latch *latches, size_t latch_count,
    const marrubigai_gate *gates, size_t gate_count, uint32_t depth);

/* writes the clauses of one group, each ended by 0, and answers how many numbers that is: the wires of frame i, the pair (j, i) or the closing
 * of frame i of a port (1, or 2 where there is a second), or the property; j counts only for a pair, i not for the property, and the port only
 * for a pair and a closing. Only the property's numbers depend on the depth: not P of frames 0 to depth, and 0. Constants are left out: where P
 * is code 0 there are none, where it is code 1 they are -1 and 0. */
MARRUBIGAI_LENT marrubigai_count_reply marrubigai_write_group(marrubigai_netlist net, const marrubigai_latch *latches, size_t latch_count,
    const marrubigai_gate *gates, size_t gate_count, uint32_t depth, uint32_t kind, uint32_t j, uint32_t i, uint32_t port, int32_t *out,
    size_t room);

/* the group that follows one in the order of the whole at a depth with so many ports (second_port + 1), which begins with the wires of frame 0:
 * kind MARRUBIGAI_WIRES and zeros. Behind the property, behind what is no group of the depth, and where the number of ports is neither 1 nor 2,
 * comes the end. j, i and port count as in marrubigai_write_group. */
MARRUBIGAI_ANSWERS marrubigai_group_reply marrubigai_next_group(uint32_t depth, uint32_t ports, uint32_t kind, uint32_t j, uint32_t i,
    uint32_t port);

/* moves a running record, which the caller keeps: to frame 0 of its depth (START: frame and base are not looked at), one frame on, or back to frame
 * 0. The base is then that of the frame. A refused start answers zeros; another refused move answers the record as it was handed in, and so does a
 * number that is no move, which is 8. */
MARRUBIGAI_LENT marrubigai_position_reply marrubigai_move(marrubigai_netlist net, const marrubigai_latch *latches, size_t latch_count,
    const marrubigai_gate *gates, size_t gate_count, marrubigai_position position, uint32_t way);

/* the group of a running record's frame: what marrubigai_write_group writes and answers for its depth and frame, after the test of its base */
MARRUBIGAI_LENT marrubigai_count_reply marrubigai_write_group_at(marrubigai_netlist net, const marrubigai_latch *latches, size_t latch_count,
    const marrubigai_gate *gates, size_t gate_count, marrubigai_position position, uint32_t kind, uint32_t j, uint32_t port, int32_t *out,
    size_t room);

/* the literal of a code in a running record's frame, as it stands in clauses: a variable's number, negative where it is inverted; 1 where the
 * code is true, -1 where it is false. That of the code `net.p ^ 1` is the literal of not-P. The lists have no part in it. */
MARRUBIGAI_ANSWERS marrubigai_literal_reply marrubigai_literal_at(marrubigai_netlist net, marrubigai_position position, marrubigai_code code);

/* the literal that says where a word that a port reads comes from, as it stands in clauses: of a pair of frames j < i, whether frame i reads what
 * frame j wrote; of a closing of frame i, whether it reads what the word was at the start. Where frame i reads at the port, one of these is true, and
 * else none. A wires group or the property has none, which is 8. The lists have no part in it. */
MARRUBIGAI_ANSWERS marrubigai_literal_reply marrubigai_source_literal(marrubigai_netlist net, uint32_t depth, uint32_t kind, uint32_t j, uint32_t i,
    uint32_t port);

/* writes the one sheet that stands for a record with its lists, and answers its length, 32 x (latches + gates + m + n + 3) bytes, and with a
 * second port 32 x (m + 1) more: 9 where the buffer is shorter. marrubigai_read of it gives the same record and lists in all entries that are
 * used, and a sheet that was read is written as the same bytes. */
MARRUBIGAI_LENT marrubigai_count_reply marrubigai_write_sheet(marrubigai_netlist net, const marrubigai_latch *latches, size_t latch_count,
    const marrubigai_gate *gates, size_t gate_count, uint8_t *out, size_t room);

/* converts a sheet with two ports to one with one port that has the same runs, and answers its length, 32 x (m + 1) bytes less; a sheet with one
 * port is written as it is. 1 to 6 and 17 as where a sheet is read; then 18 at the first line that has a code of a read bit of the second port, or
 * at the R line where its code is not 0; then 9 where the buffer is shorter than what is to be written. */
MARRUBIGAI_LENT marrubigai_count_reply marrubigai_one_port(const uint8_t *file, size_t bytes, uint8_t *out, size_t room);

/* writes a record with its lists as a binary AIGER file, for tools that compare circuits, and answers its length: 9 where the buffer is shorter.
 * The file's inputs are the record's inputs and then its n read bits, its outputs those of marrubigai_import with one port, and nothing stands behind
 * its gates; m, n and the start word are not in it. Each gate, next state and output has in it the value that it has in the record. A second port is
 * 3 at place 2, and the first latch with reset 1 is 19 at its line. */
MARRUBIGAI_LENT marrubigai_count_reply marrubigai_export(marrubigai_netlist net, const marrubigai_latch *latches, size_t latch_count,
    const marrubigai_gate *gates, size_t gate_count, uint8_t *out, size_t room);

/* runs a solver's answer, in the SAT Competition's output form, through the frames 0 to depth. Only the inputs are taken from it, and of each
 * port the read bits of frame 0 where it does not read there; from an unknown start also the read bits of a frame that reads a word which no
 * earlier frame read or wrote: they are this word at first, and a word that no frame reads or writes is 0. The chip is stepped with its whole
 * memory, the first 2^m words lent, whatever they hold. `first` is then the first frame that breaks the property, and the trace holds for each
 * frame a line of V digits 0 or 1, wire 1 first: (depth + 1)(V + 1) bytes.
 * Where the answer is `s UNSATISFIABLE`, claimed is 1 and nothing was written. 14 where it is malformed, or gives something that the run is fed no
 * value or both; 15 where the run breaks nothing; 9 where memory or trace are shorter than their need, tested before the answer counts. After 14 the
 * first 2^m words are 0; after 15, and where a frame is answered, they are the chip's after frame `depth`; after any other refusal they are as they
 * were. */
MARRUBIGAI_LENT marrubigai_replay_reply marrubigai_replay(marrubigai_netlist net, const marrubigai_latch *latches, size_t latch_count,
    const marrubigai_gate *gates, size_t gate_count, uint32_t depth, const uint8_t *answer, size_t bytes, uint32_t *memory, size_t words,
    uint8_t *trace, size_t trace_room);

/* checks a certificate that no run breaks the property in the frames 0 to the depth: a refutation of the formula of an input, which is a depth line (the
 * depth in ten columns, and a line feed) and a sheet, as the program `frames` reads it. Where `certified` is 1 this is proved: it rests on no solver, and
 * on nothing that was lent. The lemmas are clauses, each ended by 0, down to an empty one; the hints are, for each lemma, how many they are and then
 * where clauses start, as places in the formula's numbers (its groups in the order of the whole) with the lemmas behind them, counted from 0. Each lemma
 * has to follow from what is before it by unit propagation along its hints. Where one does not, certified is 0 and `lemma` is the first such, from 0.
 * The refusals are those of the input, as `frames` prints them; then 9 where the store has not room for the numbers of the formula and the lemmas, or the
 * marks are not two for each of 0 to the variables that marrubigai_heading counts. After a refusal store and marks are as they were. Else the store
 * begins with the formula's numbers and the lemmas, and the marks within this need are scratch; what is behind it is as it was. */
MARRUBIGAI_LENT marrubigai_certificate_reply marrubigai_certify(const uint8_t *input, size_t bytes, const int32_t *lemmas, size_t lemma_numbers,
    const uint32_t *hints, size_t hint_count, int32_t *store, size_t store_room, uint32_t *marks, size_t mark_room);

/* checks a certificate that the property holds in every frame of every run, at any depth: an inductive invariant of a sheet, which has no depth line
 * before it. Where `certified` is 1 this is proved: nothing that was lent is believed. The invariant is clauses, each ended by 0, over the bits of a
 * state; each three of the requests ask for a clause about one step; lemmas and hints refute, as above, that a step from the invariant breaks the
 * property or leaves the invariant (docs/LIBRARY.md has the numbering and the requests). Where it is not certified, `lemma` is the first lemma that does
 * not follow, 0 where the invariant does not hold at the start. The refusals are those of a sheet; then 9 where the store has not room for five numbers
 * for each three of the requests, the invariant and the lemmas. After a refusal store and marks are as they were. Else the store begins with these
 * numbers, and all the marks are scratch, but as they were where the invariant does not hold at the start. Variables are those below half
 * the number of marks. */
MARRUBIGAI_LENT marrubigai_certificate_reply marrubigai_certify_forever(const uint8_t *sheet, size_t bytes, const int32_t *invariant,
    size_t invariant_numbers, const uint32_t *requests, size_t request_numbers, const int32_t *lemmas, size_t lemma_numbers, const uint32_t *hints,
    size_t hint_count, int32_t *store, size_t store_room, uint32_t *marks, size_t mark_room);

/* the text of the program `frames`: DIMACS' problem line, numbers that a group call wrote with a clause a line, and a refusal, its
 * number and place in ten columns each. Each answers how many bytes it wrote; 9 where the buffer is shorter than the text.
 * put_clauses prints any number in decimal, INT32_MIN too, which is no clause number, and ends a line behind each 0. */
MARRUBIGAI_LENT marrubigai_count_reply marrubigai_put_header(uint8_t *out, size_t room, uint32_t variables, uint32_t clauses);
MARRUBIGAI_LENT marrubigai_count_reply marrubigai_put_clauses(uint8_t *out, size_t room, const int32_t *numbers, size_t count);
MARRUBIGAI_LENT marrubigai_count_reply marrubigai_put_refusal(uint8_t *out, size_t room, uint32_t number, uint32_t place);

/* prints one number in decimal, as put_clauses does, from the right into the end of the buffer: its last byte is the buffer's, and those
 * before it stay as they were. Any number, INT32_MIN too, whose 11 bytes are the most; 0 is one byte. It answers how many bytes it filled;
 * 9 where the buffer is shorter. */
MARRUBIGAI_LENT marrubigai_count_reply marrubigai_put_number(uint8_t *out, size_t room, int32_t number);

#ifdef __cplusplus
}
#endif

#endif
