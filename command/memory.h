// The memory of a design, cut out of it: what goes into its ports and what comes out of them.
#pragma once

#include "logic.h"

struct ReadPort {
  std::vector<Lit> address, read; // bit 0 first; read: the port's output, new nodes of the graph
  Lit re = FALSE;
};

struct Memory {
  std::string name, source;
  std::vector<Array> arrays;
  std::vector<ReadPort> ports; // the address of the first is the one that is written at
  std::vector<Lit> write_data; // bit 0 first
  Lit we = FALSE;
  // What every word begins as, bit 0 first: 0, 1, x where it is unknown, * where it differs from word to word.
  std::string start;
  std::vector<std::string> notes;
};

constexpr size_t MOST_PORTS = 5; // so that a sheet has room for the 51 frames that are asked about where nothing is said

// Finds the memory, which the user may have chosen by its name. A Failure where there is none, or several.
const Cell &only_memory(const Design &design, const std::string &chosen);

// Of each read of the source, the port that it goes through, and whether anything that is asked about depends on it.
struct PortPlan {
  std::vector<size_t> port;
  std::vector<char> counts;
};
PortPlan one_port(const Cell &memory);
PortPlan port_for_each(const Cell &memory);

// In two steps, as what goes into the memory may depend on what comes out of it: made, its output drives the logic behind it; finished, it has its
// ports, and all registers have their next values. What does not fit into the ports is a NoFit that says so by name.
class MemoryCut {
public:
  MemoryCut(Logic &logic, const Cell &cell, const PortPlan &plan);
  Memory finish();
  // In place of finish, of a cut with a port for each read: through which port each can go, of as few as will do. Reads that the roots do not depend
  // on do not count. What does not fit into so many ports is a NoFit.
  PortPlan plan_ports(const std::vector<Lit> &roots, size_t most);

private:
  // a port of yosys' memory
  struct Access {
    Lit active = TRUE; // whether it does something in this frame
    std::vector<Lit> address;
    std::vector<Lit> enable, data; // of a write, bit by bit
  };

  Logic &logic;
  Aig &aig;
  const Cell &cell;
  const PortPlan plan;
  size_t width, address_bits, readers, writers;
  std::vector<std::vector<Register>> output; // of each clocked read, the register behind the memory; else empty
  std::vector<Access> writes, reads;
  Memory memory;

  [[noreturn]] void refuse(const std::string &what) const;
  bool is_clocked(size_t reader) const { return cell.bits("RD_CLK_ENABLE")[reader] == '1'; }
  const std::vector<Lit> &word_of(size_t reader) const { return memory.ports[plan.port[reader]].read; }
  Access write_access(size_t at);
  Access read_access(size_t at);
  void gather();
  void finish_output(size_t reader);
  void finish_registers();
  bool can_part(const Access &one, const Access &other) const;
  std::vector<char> reads_below(std::vector<Lit> roots) const;
  std::vector<Lit> joined_address(std::vector<Access> accesses);
  void join_writes();
  void join_reads(size_t port);
  Lit in_array(const std::vector<Lit> &address) const;
};
