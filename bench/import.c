// Imports an ASCII AIGER text from standard input (m = n = 1, start word 0) through the exported call, and prints the refusal's number and
// place, 0 0 where there is none.

#include <stdio.h>
#include <stdlib.h>

#include "../include/marrubigai.h"

int main(void) {
  static marrubigai_latch latches[MARRUBIGAI_LIST_ROOM];
  static marrubigai_gate gates[MARRUBIGAI_LIST_ROOM];
  size_t room = 1 << 20, bytes = 0;
  uint8_t *text = malloc(room);
  if (text == NULL) return 1;
  for (size_t more; (more = fread(text + bytes, 1, room - bytes, stdin)) > 0;) {
    bytes += more;
    if (bytes == room && (text = realloc(text, room *= 2)) == NULL) return 1;
  }
  marrubigai_sheet_reply reply = marrubigai_import(text, bytes, 1, 1, 0, 0, 0, latches, MARRUBIGAI_LIST_ROOM, gates, MARRUBIGAI_LIST_ROOM);
  printf("%u %u\n", (unsigned)reply.number, (unsigned)reply.place);
  return 0;
}
