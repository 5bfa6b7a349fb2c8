// A memory with several ports as one with a single port, which they have in turn. A cycle, which is a frame of the design, then has a phase for each
// port, which is a frame of the sheet.
#pragma once

#include "memory.h"

struct Phased {
  Aig aig;
  Memory memory; // with one port
  std::vector<Lit> phase; // registers, of which the first so many are true in a phase
  Lit last = FALSE; // the last of them: what is asked about counts in the last phase alone
  std::vector<Lit> literals; // by node of the graph that it was made of: what it is in the last phase

  Lit literal(Lit of) const { return literals[of / 2] ^ (of & 1); }
  std::vector<Lit> literals_of(std::vector<Lit> of) const {
    for (Lit &each : of) each = literal(each);
    return of;
  }
};

// Ports that only read come first, and the first port, which writes, comes last: so all of them read words from before the cycle's write. Registers,
// and inputs that an earlier phase depends on, are the same in all phases of a cycle. The first port reads unless its enable is FALSE.
// What a port has in a frame in which it does not read may differ where several read: nothing may depend on that.
Phased in_phases(const Aig &aig, const Memory &memory);
