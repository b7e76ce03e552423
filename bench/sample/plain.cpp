// plain LISTING --orders N [--seed S] [--from I] [--length K] [--depth D]: what the crates `sample_..` count, by a loop
// without proofs: the same words, orders, ends and counts, printed as lines `runs`, `cut`, `hung`, `traps`, `trap`,
// `outcomes` and `outcome`, without the states of the outcomes.
//
// It takes the instructions of the programs that are measured, and no sweeps: ld, sd, sc and amoswap.c of untagged
// values, addi, beq, bne and ecall. Each step makes every check of the machine for them.
#include <algorithm>
#include <array>
#include <cstdint>
#include <cstdio>
#include <cstdlib>
#include <cstring>
#include <fstream>
#include <map>
#include <memory>
#include <optional>
#include <sstream>
#include <string>
#include <utility>
#include <vector>

namespace {

using u64 = std::uint64_t;

[[noreturn]] void fail(const std::string &text) {
  std::fprintf(stderr, "plain: %s\n", text.c_str());
  std::exit(2);
}

// --- words ---

class Generator {
public:
  Generator(u64 seed, u64 run) {
    u64 number = seed << 40 | run;
    for (u64 &word : words_) word = split_mix(number);
  }

  u64 next() {
    const u64 word = rotated(words_[0] + words_[3], 23) + words_[0];
    const u64 shifted = words_[1] << 17;
    words_[2] ^= words_[0];
    words_[3] ^= words_[1];
    words_[1] ^= words_[2];
    words_[0] ^= words_[3];
    words_[2] ^= shifted;
    words_[3] = rotated(words_[3], 45);
    return word;
  }

  // a number below `count`
  u64 draw(u64 count) { return static_cast<u64>(static_cast<unsigned __int128>(next()) * count >> 64); }

private:
  static u64 rotated(u64 word, int count) { return word << count | word >> (64 - count); }

  static u64 split_mix(u64 &number) {
    u64 word = number += 0x9e3779b97f4a7c15;
    word = (word ^ word >> 30) * 0xbf58476d1ce4e5b9;
    word = (word ^ word >> 27) * 0x94d049bb133111eb;
    return word ^ word >> 31;
  }

  std::array<u64, 4> words_;
};

// --- the machine ---

constexpr u64 code_base = 0x10000000, ram_base = 0x80000000, granule_bytes = 16;
constexpr int pcc_register = 32;
constexpr std::uint32_t global = 1, execute = 2, load = 4, store = 8, load_cap = 16, store_cap = 32, store_local = 64;
constexpr std::uint32_t unsealed = 0x3ffff;

enum Cause { no_cause = 0, tag = 1, seal = 2, no_execute = 3, no_load = 4, no_store = 5, no_store_cap = 6,
             no_store_local = 7, length = 8, align = 9, place = 10, fetch = 11 };

// A register. The bounds are those of a tagged value; the upper half of an untagged one is in `upper`.
struct Value {
  u64 address = 0, upper = 0, base = 0, top = 0;
  std::uint32_t permissions = 0, type = 0;
  bool is_tagged = false;

  bool has(std::uint32_t permission) const { return permissions & permission; }
  bool holds(u64 from, u64 bytes) const { return base <= from && from <= top && bytes <= top - from; }
  bool operator==(const Value &other) const {
    return address == other.address && upper == other.upper && is_tagged == other.is_tagged && base == other.base &&
           top == other.top && permissions == other.permissions && type == other.type;
  }
};

enum class Status : std::uint8_t { running, halted, trapped };

struct Hart {
  std::array<Value, 32> registers;
  Value pcc;
  Status status = Status::running;
  std::uint8_t cause = 0, trapping = 0;

  bool operator==(const Hart &other) const {
    return pcc.address == other.pcc.address && status == other.status && registers == other.registers;
  }
};

enum class Name : std::uint8_t { addi, ld, sd, sc, amoswap, beq, bne, ecall };

struct Instruction {
  Name name;
  std::uint8_t destination = 0, first = 0, second = 0;
  std::int64_t immediate = 0;
};

struct Granule {
  u64 low = 0, high = 0;
  bool operator==(const Granule &other) const { return low == other.low && high == other.high; }
};

struct Image {
  std::vector<Instruction> code;
  std::vector<Hart> harts;
  u64 ram = 4096;
};

class Machine {
public:
  explicit Machine(const Image &image) : harts(image.harts), image_(image), memory_(image.ram / granule_bytes) {}

  // The opening state: memory is null there, and only noted granules aren't any more.
  void reset() {
    std::copy(image_.harts.begin(), image_.harts.end(), harts.begin());
    for (const std::uint32_t number : noted) memory_[number] = Granule{};
    noted.clear();
  }

  // Takes a step of a hart, and returns whether it changed memory.
  bool step(Hart &hart) {
    bool changed = false;
    std::pair<Cause, int> trap = {no_cause, 0};
    const Instruction *instruction = fetched(hart.pcc, trap);
    if (instruction) perform(*instruction, hart, trap, changed);
    if (trap.first) {
      hart.status = Status::trapped;
      hart.cause = static_cast<std::uint8_t>(trap.first);
      hart.trapping = static_cast<std::uint8_t>(trap.second);
    }
    return changed;
  }

  const Granule &granule(std::uint32_t number) const { return memory_[number]; }

  std::vector<Hart> harts;
  std::vector<std::uint32_t> noted; // granules that were changed, some of them more than once

private:
  const Instruction *fetched(const Value &pcc, std::pair<Cause, int> &trap) const {
    const u64 number = (pcc.address - code_base) / 4;
    Cause cause = no_cause;
    if (!pcc.is_tagged) cause = tag;
    else if (pcc.type != unsealed) cause = seal;
    else if (!pcc.has(execute)) cause = no_execute;
    else if (!pcc.holds(pcc.address, 4)) cause = length;
    else if (pcc.address % 4) cause = align;
    else if (number >= image_.code.size()) cause = fetch;
    else return &image_.code[number];
    trap = {cause, pcc_register};
    return nullptr;
  }

  Cause access(const Value &authority, u64 at, u64 width, bool loads, bool stores) const {
    if (!authority.is_tagged) return tag;
    if (authority.type != unsealed) return seal;
    if (loads && !authority.has(load)) return no_load;
    if (stores && !authority.has(store)) return no_store;
    if (!authority.holds(at, width)) return length;
    if (at % width) return align;
    if (at < ram_base || at - ram_base + width > image_.ram) return place;
    return no_cause;
  }

  void perform(const Instruction &instruction, Hart &hart, std::pair<Cause, int> &trap, bool &changed) {
    const Value &first = hart.registers[instruction.first];
    const Value &second = hart.registers[instruction.second];
    const u64 at = first.address + static_cast<u64>(instruction.immediate);
    bool branches = false;
    switch (instruction.name) {
    case Name::addi:
      write(hart, instruction.destination, at, 0);
      break;
    case Name::ld:
      if ((trap.first = access(first, at, 8, true, false))) break;
      write(hart, instruction.destination, half(at), 0);
      break;
    case Name::sd: {
      if ((trap.first = access(first, at, 8, false, true))) break;
      Granule granule = memory_[number_of(at)];
      (at % granule_bytes ? granule.high : granule.low) = second.address;
      changed = put(at, granule);
      break;
    }
    case Name::sc:
      if ((trap.first = access(first, at, 16, false, true))) break;
      changed = put(at, untagged(second));
      break;
    case Name::amoswap: {
      if ((trap.first = access(first, at, 16, true, true))) break;
      const Granule old = memory_[number_of(at)];
      changed = put(at, untagged(second));
      write(hart, instruction.destination, old.low, old.high);
      break;
    }
    case Name::beq: branches = first.address == second.address; break;
    case Name::bne: branches = first.address != second.address; break;
    case Name::ecall: hart.status = Status::halted; return;
    }
    if (trap.first) {
      trap.second = instruction.first;
    } else if (!branches) {
      hart.pcc.address += 4;
    } else if (hart.pcc.holds(static_cast<u64>(instruction.immediate), 4)) {
      hart.pcc.address = static_cast<u64>(instruction.immediate);
    } else {
      trap = {length, pcc_register};
    }
  }

  static std::uint32_t number_of(u64 at) { return static_cast<std::uint32_t>((at - ram_base) / granule_bytes); }

  u64 half(u64 at) const {
    const Granule &granule = memory_[number_of(at)];
    return at % granule_bytes ? granule.high : granule.low;
  }

  static Granule untagged(const Value &value) {
    if (value.is_tagged) fail("a tagged value is stored");
    return {value.address, value.upper};
  }

  bool put(u64 at, Granule granule) {
    const std::uint32_t number = number_of(at);
    if (memory_[number] == granule) return false;
    memory_[number] = granule;
    noted.push_back(number);
    return true;
  }

  static void write(Hart &hart, int number, u64 address, u64 upper) {
    if (number == 0) return;
    Value &value = hart.registers[static_cast<std::size_t>(number)];
    value = Value{};
    value.address = address;
    value.upper = upper;
  }

  const Image &image_;
  std::vector<Granule> memory_;
};

// --- orders ---

struct Drawing {
  u64 seed = 0, length = 1000, depth = 0; // depth 0: the walk
};

// Whether a hart's steps have brought it back to a state that it had: at first, or after 1, 3, 7, 15, .. of them.
class Round {
public:
  void begin(const Hart &hart) { mark(hart, 1); }

  bool is_back(const Hart &hart) {
    if (hart == marked_) return true;
    if (++since_ == span_) mark(hart, 2 * span_);
    return false;
  }

private:
  void mark(const Hart &hart, u64 span) {
    marked_ = hart;
    since_ = 0;
    span_ = span;
  }

  Hart marked_;
  u64 since_ = 0, span_ = 1;
};

// Harts by random priorities: the least rank goes first.
class Ranks {
public:
  void begin(std::size_t harts, const Drawing &drawing, Generator &words) {
    harts_ = harts;
    for (std::size_t hart = 0; hart < harts; hart++) ranks_[hart] = hart;
    for (std::size_t other = harts - 1; other > 0; other--) std::swap(ranks_[other], ranks_[words.draw(other + 1)]);
    changes_.clear();
    for (u64 change = 1; change < drawing.depth; change++) changes_.push_back(words.draw(drawing.length));
    last_ = harts + changes_.size();
    waiting_ = 0;
    latest_ = harts;
  }

  std::size_t choose(const std::vector<std::size_t> &running, u64 place) {
    for (std::size_t change = 0; change < changes_.size(); change++)
      if (changes_[change] == place) ranks_[first(running)] = harts_ + change;
    return first(running);
  }

  void before(std::size_t hart, const Hart &state) {
    if (hart == latest_) return;
    latest_ = hart;
    in_succession_ = 0;
    round_.begin(state);
  }

  void after(std::size_t hart, const Hart &state, bool changed) {
    in_succession_++;
    if (changed) {
      waiting_ = 0;
      round_.begin(state);
    } else if (round_.is_back(state)) {
      waiting_ |= u64{1} << hart;
    }
    if (in_succession_ == 100) {
      ranks_[hart] = last_++;
      in_succession_ = 0;
    }
  }

private:
  // a hart that waits comes after all that don't
  std::size_t first(const std::vector<std::size_t> &running) const {
    const auto place = [&](std::size_t hart) { return ranks_[hart] | (waiting_ >> hart & 1) << 32; };
    std::size_t least = running[0];
    for (const std::size_t hart : running)
      if (place(hart) < place(least)) least = hart;
    return least;
  }

  std::size_t harts_ = 0, latest_ = 0;
  std::array<u64, 8> ranks_{};
  std::vector<u64> changes_;
  u64 last_ = 0, in_succession_ = 0;
  u64 waiting_ = 0; // a bit for each hart
  Round round_;
};

enum class End { ended, cut, hung };

class Runner {
public:
  Runner(const Image &image, const Drawing &drawing) : machine(image), drawing_(drawing) {}

  End run(u64 number, std::string *order = nullptr) {
    machine.reset();
    Generator words(drawing_.seed, number);
    const std::size_t harts = machine.harts.size();
    if (drawing_.depth) ranks_.begin(harts, drawing_, words);
    running_.resize(harts);
    for (std::size_t hart = 0; hart < harts; hart++) running_[hart] = hart;
    for (taken = 0; !running_.empty() && taken < drawing_.length; taken++) {
      const std::size_t chosen =
          drawing_.depth ? ranks_.choose(running_, taken) : running_[words.draw(running_.size())];
      Hart &hart = machine.harts[chosen];
      if (drawing_.depth) ranks_.before(chosen, hart);
      const bool changed = machine.step(hart);
      if (drawing_.depth) ranks_.after(chosen, hart, changed);
      if (hart.status != Status::running) running_.erase(std::find(running_.begin(), running_.end(), chosen));
      if (order) order->push_back(static_cast<char>('0' + chosen));
    }
    return running_.empty() ? End::ended : is_hung() ? End::hung : End::cut;
  }

  Machine machine;
  u64 taken = 0;

private:
  bool is_hung() {
    for (const std::size_t hart : running_)
      if (!goes_round(machine.harts[hart])) return false;
    return true;
  }

  // What it changes is undone by the next run.
  bool goes_round(Hart hart) {
    Round round;
    round.begin(hart);
    for (int step = 0; step < 1000; step++) {
      if (machine.step(hart) || hart.status != Status::running) return false;
      if (round.is_back(hart)) return true;
    }
    return false;
  }

  const Drawing &drawing_;
  std::vector<std::size_t> running_; // the harts that run, ascending
  Ranks ranks_;
};

// --- counting ---

struct Seen {
  u64 runs = 0, first = 0;
  void add(u64 run) {
    if (runs++ == 0) first = run;
  }
};

// A table of the states in which runs ended, by a row of words for each.
class Ends {
public:
  Ends() : table_(1024, 0) {}

  Seen &operator[](const std::vector<u64> &row) {
    u64 at = hash(row);
    for (;; at++) {
      std::uint32_t &number = table_[at & (table_.size() - 1)];
      if (number == 0) {
        ends.push_back({row, Seen{}});
        number = static_cast<std::uint32_t>(ends.size());
        if (2 * ends.size() > table_.size()) grow();
        return ends.back().second;
      }
      if (ends[number - 1].first == row) return ends[number - 1].second;
    }
  }

  std::vector<std::pair<std::vector<u64>, Seen>> ends; // in the order of their first runs

private:
  // two words at a time, by the halves of a product, as wyhash does, in two sums
  static u64 hash(const std::vector<u64> &row) {
    u64 sum = row.size(), other = 0;
    std::size_t at = 0;
    for (; at + 4 <= row.size(); at += 4) {
      sum = mixed(row[at] ^ 0xa0761d6478bd642f, row[at + 1] ^ sum);
      other = mixed(row[at + 2] ^ 0xe7037ed1a0b428db, row[at + 3] ^ other);
    }
    for (; at < row.size(); at++) sum = mixed(row[at] ^ 0xa0761d6478bd642f, sum);
    return sum ^ other;
  }

  static u64 mixed(u64 one, u64 other) {
    const unsigned __int128 product = static_cast<unsigned __int128>(one) * other;
    return static_cast<u64>(product) ^ static_cast<u64>(product >> 64);
  }

  void grow() {
    table_.assign(2 * table_.size(), 0);
    for (std::size_t end = 0; end < ends.size(); end++) {
      u64 at = hash(ends[end].first);
      while (table_[at & (table_.size() - 1)] != 0) at++;
      table_[at & (table_.size() - 1)] = static_cast<std::uint32_t>(end + 1);
    }
  }

  std::vector<std::uint32_t> table_;
};

// The words of a state: of each hart, and of the granules that aren't null. A tagged value of these programs is one of
// the opening state, so that its tag and its address say what it is.
void row_of(Machine &machine, std::vector<u64> &row) {
  constexpr std::size_t words = 3 + 2 * 31;
  row.resize(words * machine.harts.size());
  u64 *at = row.data();
  for (const Hart &hart : machine.harts) {
    u64 tags = 0;
    u64 *const head = at;
    at += 3;
    for (std::size_t number = 1; number < 32; number++) {
      const Value &value = hart.registers[number];
      tags = tags << 1 | value.is_tagged;
      *at++ = value.address;
      *at++ = value.upper;
    }
    head[0] = static_cast<u64>(hart.status) << 16 | static_cast<u64>(hart.cause) << 8 | hart.trapping;
    head[1] = tags;
    head[2] = hart.pcc.address;
  }
  std::sort(machine.noted.begin(), machine.noted.end());
  machine.noted.erase(std::unique(machine.noted.begin(), machine.noted.end()), machine.noted.end());
  for (const std::uint32_t number : machine.noted) {
    const Granule &granule = machine.granule(number);
    if (granule == Granule{}) continue;
    row.push_back(number);
    row.push_back(granule.low);
    row.push_back(granule.high);
  }
}

struct Tally {
  u64 longest = 0;
  Seen cut, hung;
  std::map<std::pair<std::size_t, int>, Seen> traps;
  Ends ends;
};

Tally counted(Runner &runner, u64 first, u64 count) {
  Tally tally;
  std::vector<u64> row;
  for (u64 run = first; run < first + count; run++) {
    const End end = runner.run(run);
    tally.longest = std::max(tally.longest, runner.taken);
    for (std::size_t hart = 0; hart < runner.machine.harts.size(); hart++) {
      const Hart &state = runner.machine.harts[hart];
      if (state.status == Status::trapped) tally.traps[{hart, state.cause}].add(run);
    }
    if (end == End::ended) {
      row_of(runner.machine, row);
      tally.ends[row].add(run);
    } else {
      (end == End::cut ? tally.cut : tally.hung).add(run);
    }
  }
  return tally;
}

void print_seen(Runner &runner, const Seen &seen) {
  std::string order;
  if (seen.runs) runner.run(seen.first, &order);
  std::printf(" runs=%llu", static_cast<unsigned long long>(seen.runs));
  if (seen.runs) std::printf(" first=%llu order=%s", static_cast<unsigned long long>(seen.first), order.c_str());
  std::printf("\n");
}

void print(Runner &runner, const Tally &tally, u64 first, u64 count) {
  std::printf("runs %llu numbers=%llu..%llu longest=%llu\n", static_cast<unsigned long long>(count),
              static_cast<unsigned long long>(first), static_cast<unsigned long long>(first + count - 1),
              static_cast<unsigned long long>(tally.longest));
  std::printf("cut");
  print_seen(runner, tally.cut);
  std::printf("hung");
  print_seen(runner, tally.hung);
  std::printf("traps %zu\n", tally.traps.size());
  for (const auto &[key, seen] : tally.traps) {
    std::printf("trap hart=%zu cause=%d", key.first, key.second);
    print_seen(runner, seen);
  }
  std::printf("outcomes %zu\n", tally.ends.ends.size());
  std::size_t number = 0;
  for (const auto &end : tally.ends.ends) {
    std::printf("outcome %zu", number++);
    print_seen(runner, end.second);
  }
}

// --- listings ---

// The words of a line without its comment, without commas; `4(c5)` is two words.
std::vector<std::string> words_of(std::string line) {
  line = line.substr(0, line.find('#'));
  for (char &byte : line)
    if (std::strchr(",()", byte)) byte = ' ';
  std::istringstream stream(line);
  std::vector<std::string> words;
  for (std::string word; stream >> word;) words.push_back(word);
  return words;
}

u64 number_of(const std::string &word) {
  char *end = nullptr;
  const u64 number = std::strtoull(word.c_str(), &end, 0);
  if (word.empty() || *end) fail("no number: " + word);
  return number;
}

std::uint8_t register_of(const std::string &word) {
  const u64 number = word.size() > 1 && word[0] == 'c' ? number_of(word.substr(1)) : 32;
  if (number > 31) fail("no register: " + word);
  return static_cast<std::uint8_t>(number);
}

// BASE LENGTH ADDRESS PERMISSIONS, from the word `at` on
Value capability(const std::vector<std::string> &words, std::size_t at) {
  static const std::map<std::string, std::uint32_t> bits = {{"global", global}, {"execute", execute}, {"load", load},
    {"store", store}, {"load_cap", load_cap}, {"store_cap", store_cap}, {"store_local", store_local}};
  if (words.size() != at + 4) fail("no capability");
  Value value;
  value.base = number_of(words[at]);
  value.top = value.base + number_of(words[at + 1]);
  value.address = number_of(words[at + 2]);
  value.type = unsealed;
  value.is_tagged = true;
  std::istringstream names(words[at + 3]);
  for (std::string name; std::getline(names, name, '+');) {
    if (!bits.count(name)) fail("no permission: " + name);
    value.permissions |= bits.at(name);
  }
  return value;
}

Instruction instruction(const std::vector<std::string> &words, const std::map<std::string, u64> &labels) {
  const std::string &name = words[0];
  const auto count = words.size();
  const auto offset = [&] { return static_cast<std::int64_t>(std::strtoll(words[2].c_str(), nullptr, 0)); };
  if (name == "ecall" && count == 1) return {Name::ecall};
  if (count != 4) fail("no instruction: " + name);
  if (name == "addi")
    return {Name::addi, register_of(words[1]), register_of(words[2]), 0, std::strtoll(words[3].c_str(), nullptr, 0)};
  if (name == "ld") return {Name::ld, register_of(words[1]), register_of(words[3]), 0, offset()};
  if (name == "sd") return {Name::sd, 0, register_of(words[3]), register_of(words[1]), offset()};
  if (name == "sc") return {Name::sc, 0, register_of(words[3]), register_of(words[1]), offset()};
  if (name == "amoswap.c")
    return {Name::amoswap, register_of(words[1]), register_of(words[3]), register_of(words[2]), 0};
  if (name != "beq" && name != "bne") fail("no instruction: " + name);
  if (!labels.count(words[3])) fail("no label: " + words[3]);
  return {name == "beq" ? Name::beq : Name::bne, 0, register_of(words[1]), register_of(words[2]),
          static_cast<std::int64_t>(labels.at(words[3]))};
}

Image read_listing(const char *path) {
  std::ifstream file(path);
  if (!file) fail(std::string("cannot read ") + path);
  Image image;
  std::map<std::string, u64> labels;
  std::vector<std::vector<std::string>> code;
  for (std::string line; std::getline(file, line);) {
    const std::vector<std::string> words = words_of(line);
    if (words.empty()) continue;
    if (words[0] == ".ram") {
      image.ram = number_of(words.at(1));
    } else if (words[0] == ".hart") {
      image.harts.emplace_back();
      image.harts.back().pcc = capability(words, 1);
    } else if (words[0] == ".set" && words.at(2) == "int") {
      image.harts.back().registers[register_of(words[1])].address = number_of(words.at(3));
    } else if (words[0] == ".set" && words.at(2) == "cap") {
      image.harts.back().registers[register_of(words[1])] = capability(words, 3);
    } else if (words[0].back() == ':') {
      labels[words[0].substr(0, words[0].size() - 1)] = code_base + 4 * code.size();
    } else {
      code.push_back(words);
    }
  }
  for (const auto &words : code) image.code.push_back(instruction(words, labels));
  if (image.harts.empty() || image.harts.size() > 8) fail("1 to 8 harts");
  return image;
}

} // namespace

int main(int count, char **words) {
  if (count < 4 || count % 2 == 1) fail("LISTING --orders N [--seed S] [--from I] [--length K] [--depth D]");
  Drawing drawing;
  u64 orders = 1, first = 0;
  const std::map<std::string, u64 *> options = {{"--orders", &orders}, {"--seed", &drawing.seed}, {"--from", &first},
                                                {"--length", &drawing.length}, {"--depth", &drawing.depth}};
  for (int word = 2; word < count; word += 2) {
    const auto option = options.find(words[word]);
    if (option == options.end()) fail(std::string("no option: ") + words[word]);
    *option->second = number_of(words[word + 1]);
  }
  const Image image = read_listing(words[1]);
  const auto runner = std::make_unique<Runner>(image, drawing);
  const Tally tally = counted(*runner, first, orders);
  print(*runner, tally, first, orders);
}
