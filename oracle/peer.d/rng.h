// Chance from a seed (splitmix64, as in src/rng.rs), so that every game can be made again.
#pragma once

#include <cstddef>
#include <cstdint>

class Rng {
 public:
  explicit Rng(uint64_t seed) : state(seed) {}

  // A number below this one, which is not 0.
  size_t below(size_t end) { return next() % end; }

  bool one_in(size_t n) { return below(n) == 0; }

  template <typename List>
  const auto& pick(const List& from) {
    return from[below(from.size())];
  }

 private:
  uint64_t state;

  uint64_t next() {
    state += 0x9e3779b97f4a7c15;
    uint64_t mixed = state;
    mixed = (mixed ^ (mixed >> 30)) * 0xbf58476d1ce4e5b9;
    mixed = (mixed ^ (mixed >> 27)) * 0x94d049bb133111eb;
    return mixed ^ (mixed >> 31);
  }
};
