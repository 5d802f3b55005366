// peer GAMES SEED FILE   makes so many games, holds the port to OpenShogiLib on each, and writes FILE over for each
#include <cstdlib>
#include <iostream>
#include <map>
#include <optional>

#include "comparisons.h"
#include "text.h"

namespace {

struct Comparison {
  const char* name;
  const char* counted;
  size_t (*compare)(const Case&);
};

constexpr Comparison COMPARISONS[] = {
    {"shared text", "moves", shared_text},
#ifdef WITH_POSITIONS
    {"positions", "positions", positions},
#endif
};

class Tally {
 public:
  void count(bool holds) { ++(holds ? passed : failed); }

  void add(const Game& game) {
    moves += game.moves.size();
    for (size_t ply = 1; ply <= game.moves.size(); ++ply)
      for (const Trait trait : TRAITS) traits[trait] += is(trait, game.moves[ply - 1], game.before(ply));
  }

  void add(const Comparison& comparison, size_t count) { alike[comparison.name] += count; }

  void tell_alike() {
    for (const Comparison& comparison : COMPARISONS)
      std::cout << comparison.name << ": " << alike[comparison.name] << " " << comparison.counted << " are the same\n";
  }

  // A trait that no move had is a failure: the games then show nothing of it.
  void count_traits() {
    std::cout << moves << " moves";
    for (const Trait trait : TRAITS) {
      std::cout << ", " << name(trait) << " " << traits[trait];
      count(traits[trait] > 0);
    }
    std::cout << "\n";
  }

  bool all_passed() const { return failed == 0; }

  void report() const { std::cout << passed << " passed, " << failed << " failed\n"; }

 private:
  size_t passed = 0, failed = 0, moves = 0;
  std::map<Trait, size_t> traits;
  std::map<std::string, size_t> alike;
};

using Count = std::optional<size_t>;

// How much a comparison of a game's text finds the same; nothing where there is a difference, which is told.
Count same_in(const Comparison& comparison, const Game& game, const std::string& text, const std::string& file) {
  try {
    return comparison.compare({game, block_of(text), file});
  } catch (const Failure& failure) {
    std::cout << comparison.name << ": " << failure.what() << "\n";
    return {};
  }
}

// All comparisons of a game; the first text of a run that fails is shown.
void compare(const Game& game, const std::string& text, const std::string& file, Tally& tally) {
  for (const Comparison& comparison : COMPARISONS) {
    const Count same = same_in(comparison, game, text, file);
    if (!same && tally.all_passed()) std::cout << text;
    tally.count(same.has_value());
    tally.add(comparison, same.value_or(0));
  }
}

}  // namespace

int main(int, char** words) {
  const size_t games = std::strtoull(words[1], nullptr, 10);
  Rng rng(std::strtoull(words[2], nullptr, 10));
  Tally tally;
  for (size_t k = 0; k < games; ++k) {
    const Game game = random_game(rng);
    compare(game, kif_text(game, rng), words[3], tally);
    tally.add(game);
  }
  tally.tell_alike();
  tally.count_traits();
  tally.report();
  return tally.all_passed() ? EXIT_SUCCESS : EXIT_FAILURE;
}
