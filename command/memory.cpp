#include "memory.h"

#include <algorithm>

#include "failure.h"

namespace {

std::vector<Bit> part(const std::vector<Bit> &bits, size_t at, size_t width) {
  auto first = bits.begin() + static_cast<std::ptrdiff_t>(at * width);
  return {first, first + static_cast<std::ptrdiff_t>(width)};
}

std::string words_text(const Cell &cell) {
  return std::to_string(cell.number("SIZE")) + " words of " + std::to_string(cell.number("WIDTH")) + " bits";
}

// what every word begins as, by its bits: 0, 1, x, or * where words differ
std::string start_of(const Cell &cell) {
  std::string contents = cell.bits("INIT"), start;
  size_t width = cell.number("WIDTH"), size = cell.number("SIZE");
  for (size_t t = 0; t < width; t++) {
    auto value = [&](size_t word) { return word * width + t < contents.size() ? contents[word * width + t] : 'x'; };
    bool same = true;
    for (size_t word = 1; word < size; word++) same = same && value(word) == value(0);
    start += same ? value(0) : '*';
  }
  return start;
}

// Of the reads that count: whether one frame can have two of them at different addresses, or one and a write.
struct Parting {
  std::vector<size_t> counted;
  std::vector<std::vector<char>> reads;
  std::vector<char> from_writes;
};

// Whether the counted reads from `next` on can go through so many ports, so that in no frame a port has two addresses. The first port has the
// address that is written at; where there is a choice it only writes, which makes fewer clauses.
bool place(const Parting &parting, size_t ports, size_t next, std::vector<size_t> &port) {
  if (next == parting.counted.size()) return true;
  size_t at = parting.counted[next];
  for (size_t turn = 1; turn <= ports; turn++) {
    size_t chosen = turn % ports;
    bool fits = chosen != 0 || !parting.from_writes[at];
    for (size_t before = 0; before < next; before++) {
      size_t other = parting.counted[before];
      fits = fits && !(port[other] == chosen && parting.reads[at][other]);
    }
    port[at] = chosen;
    if (fits && place(parting, ports, next + 1, port)) return true;
  }
  return false;
}

} // namespace

const Cell &only_memory(const Design &design, const std::string &chosen) {
  std::vector<const Cell *> found;
  for (const Cell &cell : design.cells)
    if (cell.type == "$mem_v2") found.push_back(&cell);
  if (found.empty() && !chosen.empty())
    throw Failure("--memory " + chosen + ": the design has no memory of this name that is written and read; without --memory it says which there are");
  if (found.empty()) {
    std::string said;
    for (const std::string &warning : design.warnings) said += "\n  " + warning;
    throw Failure(design.top + ": the design has no memory that is written and read, and this engine is for chips with one.\n" +
                  "An array that yosys dissolves into registers, as one whose every index is a constant, is none." + said);
  }
  if (found.size() == 1) return *found[0];
  std::string list;
  for (const Cell *cell : found) list += "\n  --memory " + cell->name + "   " + cell->source + ", " + words_text(*cell);
  throw Failure(design.top + ": the design has " + std::to_string(found.size()) +
                " memories, and one can stay a memory. Say which; the others become registers, which fits where they are small:" + list);
}

PortPlan one_port(const Cell &memory) {
  size_t readers = memory.number("RD_PORTS");
  return {std::vector<size_t>(readers, 0), std::vector<char>(readers, 1)};
}

PortPlan port_for_each(const Cell &memory) {
  PortPlan plan = one_port(memory);
  for (size_t reader = 0; reader < plan.port.size(); reader++) plan.port[reader] = reader;
  return plan;
}

MemoryCut::MemoryCut(Logic &of, const Cell &its_cell, const PortPlan &its_plan)
    : logic(of), aig(of.aig), cell(its_cell), plan(its_plan), width(cell.number("WIDTH")), address_bits(cell.number("ABITS")),
      readers(cell.number("RD_PORTS")), writers(cell.number("WR_PORTS")), output(readers) {
  memory.name = cell.name;
  memory.source = cell.source;
  memory.arrays = cell.arrays;
  memory.start = start_of(cell);
  if (writers == 0) refuse("is never written");
  if (readers == 0) refuse("is never read");
  for (char wide : cell.bits("RD_WIDE_CONTINUATION") + cell.bits("WR_WIDE_CONTINUATION"))
    if (wide == '1') refuse("has a port that takes several words at once: read and write it word by word");
  // the clock is known before anything is read as data
  for (size_t at = 0; at < writers; at++) {
    if (cell.bits("WR_CLK_ENABLE")[at] != '1') refuse("is written without a clock: write it in an always @(posedge ..)");
    logic.take_clock(cell.port("WR_CLK")[at], cell.bits("WR_CLK_POLARITY")[at] == '1', cell);
  }
  memory.ports.resize(1 + *std::max_element(plan.port.begin(), plan.port.end()));
  for (ReadPort &port : memory.ports)
    for (size_t t = 0; t < width; t++) port.read.push_back(aig.add_read());
  for (size_t at = 0; at < readers; at++) {
    std::vector<Bit> data = part(cell.port("RD_DATA"), at, width);
    if (is_clocked(at)) {
      std::string initial = cell.bits("RD_INIT_VALUE");
      logic.take_clock(cell.port("RD_CLK")[at], cell.bits("RD_CLK_POLARITY")[at] == '1', cell);
      // yosys makes a register of the address one of the word in this way, but then what it begins as is lost
      if (cell.bits("RD_TRANSPARENCY_MASK").find('1', at * writers) < (at + 1) * writers) refuse("has a register before its address");
      if (cell.port("RD_ARST")[at] != BIT_0) refuse("has an output register with an asynchronous reset: make it a synchronous one");
      for (size_t t = 0; t < width; t++) output[at].push_back(logic.add_register(initial[at * width + t]));
    }
    for (size_t t = 0; t < width; t++) logic.drive(data[t], is_clocked(at) ? output[at][t].value : word_of(at)[t]);
  }
}

void MemoryCut::refuse(const std::string &what) const { throw NoFit(cell.source + ": memory " + cell.name + " (" + words_text(cell) + ") " + what); }

MemoryCut::Access MemoryCut::write_access(size_t at) {
  Access access;
  access.enable = logic.lits(part(cell.port("WR_EN"), at, width));
  access.active = FALSE;
  for (Lit enable : access.enable) access.active = aig.lor(access.active, enable);
  // Only what stands there in a frame that writes counts; yosys leaves it undefined in others.
  for (Bit bit : part(cell.port("WR_ADDR"), at, address_bits)) access.address.push_back(logic.where(logic.lit(bit), access.active));
  std::vector<Bit> data = part(cell.port("WR_DATA"), at, width);
  for (size_t t = 0; t < width; t++) access.data.push_back(logic.where(logic.lit(data[t]), access.enable[t]));
  return access;
}

MemoryCut::Access MemoryCut::read_access(size_t at) {
  Access access;
  if (is_clocked(at)) access.active = logic.lit(cell.port("RD_EN")[at]);
  for (Bit bit : part(cell.port("RD_ADDR"), at, address_bits)) access.address.push_back(logic.where(logic.lit(bit), access.active));
  return access;
}

// the register behind the memory, with its enable and its synchronous reset
void MemoryCut::finish_output(size_t reader) {
  std::string values = cell.bits("RD_SRST_VALUE");
  Lit reset = logic.lit(cell.port("RD_SRST")[reader]), active = reads[reader].active;
  bool enable_first = cell.bits("RD_CE_OVER_SRST")[reader] == '1';
  for (size_t t = 0; t < width; t++) {
    Lit word = word_of(reader)[t];
    Lit held = output[reader][t].value;
    char value = values[reader * width + t];
    Lit reset_value = reset == FALSE || value == '0' ? FALSE : value == '1' ? TRUE : logic.lit(BIT_X);
    Lit next = enable_first ? aig.mux(active, aig.mux(reset, reset_value, word), held) : aig.mux(reset, reset_value, aig.mux(active, word, held));
    aig.set_next(output[reader][t].latch, next);
  }
}

void MemoryCut::gather() {
  for (size_t at = 0; at < writers; at++) writes.push_back(write_access(at));
  for (size_t at = 0; at < readers; at++) reads.push_back(read_access(at));
}

void MemoryCut::finish_registers() {
  for (size_t at = 0; at < readers; at++)
    if (is_clocked(at)) finish_output(at);
  logic.finish_registers();
}

// whether both can be active in one frame, at different addresses
bool MemoryCut::can_part(const Access &one, const Access &other) const {
  return can_differ(aig, one.active, one.address, other.active, other.address);
}

// The reads that something depends on, through registers and the memory too. What is written counts as a whole, not bit by bit.
std::vector<char> MemoryCut::reads_below(std::vector<Lit> stack) const {
  std::vector<char> seen(aig.size(), 0), found(readers, 0);
  auto push = [&](const std::vector<Lit> &literals) { stack.insert(stack.end(), literals.begin(), literals.end()); };
  bool written = false;
  while (!stack.empty()) {
    uint32_t index = stack.back() / 2;
    stack.pop_back();
    if (seen[index]) continue;
    seen[index] = 1;
    const Aig::Node &node = aig.node(index);
    if (node.kind == Aig::Kind::latch) push({node.left});
    if (node.kind == Aig::Kind::gate) push({node.left, node.right});
    if (node.kind != Aig::Kind::read) continue;
    for (size_t at = 0; at < readers; at++) {
      const std::vector<Lit> &word = word_of(at);
      if (found[at] || std::find(word.begin(), word.end(), 2 * index) == word.end()) continue;
      found[at] = 1;
      push(reads[at].address);
      push({reads[at].active});
    }
    for (const Access &write : writes)
      if (!written) push(write.address), push(write.enable), push(write.data);
    written = true;
  }
  return found;
}

PortPlan MemoryCut::plan_ports(const std::vector<Lit> &roots, size_t most) {
  gather();
  finish_registers();
  PortPlan found{std::vector<size_t>(readers, 0), reads_below(roots)};
  Parting parting{{}, std::vector<std::vector<char>>(readers, std::vector<char>(readers, 0)), std::vector<char>(readers, 0)};
  for (size_t at = 0; at < readers; at++)
    if (found.counts[at]) parting.counted.push_back(at);
  if (parting.counted.empty()) return found;
  for (size_t at = 0; at < writers; at++)
    for (size_t other = 0; other < at; other++)
      if (can_part(writes[at], writes[other]))
        refuse("is written at two addresses in one frame, and a second write port is not built.\nWrite one word in a step of the clock.");
  for (size_t at : parting.counted) {
    for (const Access &write : writes) parting.from_writes[at] = parting.from_writes[at] || can_part(reads[at], write);
    for (size_t other : parting.counted)
      if (other < at) parting.reads[at][other] = parting.reads[other][at] = can_part(reads[at], reads[other]);
  }
  for (size_t ports = 1; ports <= most; ports++)
    if (place(parting, ports, 0, found.port)) return found;
  refuse("is read and written at more than " + std::to_string(most) + " addresses in one frame, which is the most.\n" +
         "Read fewer words in a step of the clock; --property asks about one assertion alone, and only what that reads counts.");
}

// The address of whichever is active in a frame. Two that are active in one frame must have the same.
std::vector<Lit> MemoryCut::joined_address(std::vector<Access> accesses) {
  for (size_t at = 0; at < accesses.size(); at++)
    for (size_t other = 0; other < at; other++)
      if (can_part(accesses[at], accesses[other])) refuse("is used at more addresses in one frame than it has ports");
  if (accesses.empty()) return std::vector<Lit>(address_bits, FALSE);
  // An address may not depend on what is read in its frame: those whose enable does come behind, where the last enable is not asked.
  auto rank = [&](const Access &access) { return access.active == TRUE ? 2 : aig.depends_on(access.active, Aig::Kind::read) ? 1 : 0; };
  std::stable_sort(accesses.begin(), accesses.end(), [&](const Access &left, const Access &right) { return rank(left) < rank(right); });
  std::vector<Lit> address = accesses.back().address;
  if (accesses.back().active == TRUE) return address; // where the others are active too, they have the same
  for (size_t i = accesses.size() - 1; i-- > 0;)
    for (size_t t = 0; t < address.size(); t++) address[t] = aig.mux(accesses[i].active, accesses[i].address[t], address[t]);
  return address;
}

// true where the address is one of the array's
Lit MemoryCut::in_array(const std::vector<Lit> &address) const {
  uint64_t first = cell.number("OFFSET"), last = first + cell.number("SIZE") - 1;
  Lit from_first = TRUE, to_last = TRUE; // of the bits so far, lowest first
  for (size_t t = 0; t < address.size(); t++) {
    Lit bit = address[t];
    from_first = first >> t & 1 ? aig.land(bit, from_first) : aig.lor(bit, from_first);
    to_last = last >> t & 1 ? aig.lor(bit ^ 1, to_last) : aig.land(bit ^ 1, to_last);
  }
  return aig.land(from_first, to_last);
}

// One enable and one word: the later port wins, and a bit that is not enabled is written as it is read.
void MemoryCut::join_writes() {
  std::vector<Lit> enable(width, FALSE);
  memory.write_data.assign(width, FALSE);
  for (const Access &write : writes)
    for (size_t t = 0; t < width; t++) {
      memory.write_data[t] = enable[t] == FALSE ? write.data[t] : aig.mux(write.enable[t], write.data[t], memory.write_data[t]);
      enable[t] = aig.lor(enable[t], write.enable[t]);
    }
  memory.we = FALSE;
  for (Lit each : enable) memory.we = aig.lor(memory.we, each);
  for (size_t t = 0; t < width; t++)
    if (enable[t] != memory.we) memory.write_data[t] = aig.mux(enable[t], memory.write_data[t], memory.ports[0].read[t]);
  memory.we = aig.land(memory.we, in_array(memory.ports[0].address));
}

// A frame that need not read may do so: what is read then is taken nowhere. So where an enable would depend on what is read, all frames do.
void MemoryCut::join_reads(size_t port) {
  bool partial_writes = writes.size() > 1;
  for (const Access &write : writes)
    for (Lit enable : write.enable) partial_writes = partial_writes || enable != write.active;
  Lit re = port == 0 && partial_writes ? memory.we : FALSE;
  for (size_t at = 0; at < readers; at++)
    if (plan.counts[at] && plan.port[at] == port) re = aig.lor(re, reads[at].active);
  memory.ports[port].re = aig.depends_on(re, Aig::Kind::read) ? TRUE : re;
}

Memory MemoryCut::finish() {
  gather();
  bool is_read = std::count(plan.counts.begin(), plan.counts.end(), 1) > 0, leaves_array = false;
  for (size_t port = 0; port < memory.ports.size(); port++) {
    std::vector<Access> accesses = port == 0 && is_read ? writes : std::vector<Access>();
    for (size_t at = 0; at < readers; at++)
      if (plan.counts[at] && plan.port[at] == port) accesses.push_back(reads[at]);
    memory.ports[port].address = joined_address(accesses);
    leaves_array = leaves_array || in_array(memory.ports[port].address) != TRUE;
  }
  if (is_read && leaves_array)
    memory.notes.push_back("memory " + cell.name + " has " + words_text(cell) + ", and its index can be beyond them: what is written there is " +
                           "dropped, and what is read there is what the memory begins as");
  join_writes();
  for (size_t port = 0; port < memory.ports.size(); port++) join_reads(port);
  finish_registers();
  return memory;
}
