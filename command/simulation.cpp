#include "simulation.h"

#include <random>

#include "transition.h"

namespace {

constexpr unsigned LANES = 64;
constexpr unsigned EPISODES[] = {24, 48, 96, 192, 48, 96}; // frames of each, from the start

class Simulator {
public:
  Simulator(const Chip &simulated, const std::vector<Pointer> &wanted, uint32_t excusing)
      : chip(simulated), net(simulated.net), pointers(wanted), excused(excusing), wires(simulated.wires() + 1), memory(size_t{LANES} << net.m) {
    samples.bits.resize(net.latches + chip.read_bits());
    samples.pointed.assign(pointers.size(), std::vector<std::vector<Lanes>>(net.n));
    if (words() <= MOST_WORDS_BY_THEMSELVES) samples.nonzero.resize(words());
  }

  Samples run() {
    for (unsigned frames : EPISODES) {
      begin();
      for (unsigned frame = 0; frame < frames; frame++) {
        sample();
        step();
      }
    }
    return std::move(samples);
  }

private:
  const Chip &chip;
  const marrubigai_netlist &net;
  const std::vector<Pointer> &pointers;
  uint32_t excused;
  std::vector<Lanes> wires, state, seldom, often; // of a frame; latches and bits held; by input, the runs in which it is mostly 0, or 1
  std::vector<uint32_t> memory; // by run and word
  Lanes counted = 0;
  std::mt19937_64 random{1};
  Samples samples;

  uint32_t words() const { return uint32_t{1} << net.m; }
  uint32_t &word(unsigned lane, uint32_t address) { return memory[(size_t{lane} << net.m) + address]; }
  Lanes value(marrubigai_code code) const { return code % 2 ? ~wires[code / 2] : wires[code / 2]; }

  void begin() {
    state.clear();
    for (uint32_t l = 0; l < net.latches; l++) state.push_back(chip.latches[l].reset ? ~Lanes{0} : 0);
    for (uint32_t r = 0; r < chip.read_bits(); r++) state.push_back(random());
    uint32_t mask = static_cast<uint32_t>((uint64_t{1} << net.n) - 1);
    for (uint32_t &each : memory) each = (net.unknown_start ? static_cast<uint32_t>(random()) : net.initial_word) & mask;
    seldom.clear(), often.clear();
    for (uint32_t i = 0; i < net.inputs; i++) seldom.push_back(random() & random()), often.push_back(random() & random());
    counted = ~Lanes{0};
  }

  void sample() {
    samples.count++;
    if (excused < net.latches) counted &= state[excused];
    samples.counted.push_back(counted);
    for (size_t bit = 0; bit < state.size(); bit++) samples.bits[bit].push_back(state[bit]);
    for (size_t p = 0; p < pointers.size(); p++) {
      std::vector<Lanes> read = gather([&](uint32_t t) { return state[pointers[p].bits[t]]; }, pointers[p].offset);
      for (uint32_t t = 0; t < net.n; t++) samples.pointed[p][t].push_back(read[t]);
    }
    for (size_t address = 0; address < samples.nonzero.size(); address++) {
      Lanes any = 0;
      for (unsigned lane = 0; lane < LANES; lane++) any |= Lanes{word(lane, static_cast<uint32_t>(address)) != 0} << lane;
      samples.nonzero[address].push_back(any);
    }
  }

  template <typename Bit> uint32_t address(const Bit &bit, unsigned lane) const {
    uint32_t made = 0;
    for (uint32_t t = 0; t < net.m; t++) made |= static_cast<uint32_t>(bit(t) >> lane & 1) << t;
    return made;
  }

  // the words at an address, bit by bit
  template <typename Bit> std::vector<Lanes> gather(const Bit &bit, uint32_t offset) {
    std::vector<Lanes> read(net.n);
    for (unsigned lane = 0; lane < LANES; lane++) {
      uint32_t found = word(lane, (address(bit, lane) + offset) & (words() - 1));
      for (uint32_t t = 0; t < net.n; t++) read[t] |= Lanes{found >> t & 1} << lane;
    }
    return read;
  }

  void settle() {
    for (uint32_t g = 0; g < net.gates; g++)
      wires[chip.first_read() + chip.read_bits() + g] = value(chip.gates[g].left) & value(chip.gates[g].right);
  }

  void step() {
    for (uint32_t i = 0; i < net.inputs; i++) {
      Lanes even = random(), high = even | random() | random(), low = even & random() & random();
      wires[1 + i] = (high & often[i]) | (low & seldom[i] & ~often[i]) | (even & ~often[i] & ~seldom[i]);
    }
    for (uint32_t l = 0; l < net.latches; l++) wires[net.inputs + 1 + l] = state[l];
    settle(); // addresses and enables depend on no read bit
    for (uint32_t port = 0; port <= net.second_port; port++) {
      const marrubigai_code *codes = port ? net.address2 : net.address;
      Lanes enable = value(port ? net.re2 : net.re);
      std::vector<Lanes> read = gather([&](uint32_t t) { return value(codes[t]); }, 0);
      for (uint32_t t = 0; t < net.n; t++) {
        Lanes &held = state[net.latches + port * net.n + t];
        held = (read[t] & enable) | (held & ~enable);
        wires[chip.first_read(port) + t] = held;
      }
    }
    settle();
    for (unsigned lane = 0; lane < LANES; lane++) {
      if (!(value(net.we) >> lane & 1)) continue;
      uint32_t written = 0;
      for (uint32_t t = 0; t < net.n; t++) written |= static_cast<uint32_t>(value(net.write_data[t]) >> lane & 1) << t;
      word(lane, address([&](uint32_t t) { return value(net.address[t]); }, lane)) = written;
    }
    for (uint32_t l = 0; l < net.latches; l++) state[l] = value(chip.latches[l].next);
  }
};

} // namespace

Samples simulate(const Chip &chip, const std::vector<Pointer> &pointers, uint32_t excused) { return Simulator(chip, pointers, excused).run(); }
