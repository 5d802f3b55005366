#include "game.h"

#include <osl/container.h>

#include <iterator>

using osl::Move;
using osl::NumEffectState;

namespace {

constexpr size_t LONGEST = 200;
constexpr size_t LONGEST_BRANCH = 20;

bool could_promote(Move move) {
  const auto side = move.player();
  return !move.isDrop() && canPromote(move.oldPtype()) && (move.from().canPromote(side) || move.to().canPromote(side));
}

// A legal move, mostly one with a trait that is drawn first, so that rare ones come often; none where there is a mate.
std::optional<Move> random_move(const NumEffectState& state, std::optional<Move> before, Rng& rng) {
  osl::MoveVector legal;
  state.generateWithFullUnpromotions(legal);
  if (legal.empty()) return {};
  const Trait wish = TRAITS[rng.below(std::size(TRAITS))];
  std::vector<Move> wished;
  for (const Move move : legal)
    if (is(wish, move, before)) wished.push_back(move);
  return wished.empty() || rng.one_in(3) ? legal[rng.below(legal.size())] : rng.pick(wished);
}

// Plays up to so many moves behind the last one, if there is one, from a position, which becomes what they lead to.
std::vector<Move> play(NumEffectState& state, std::optional<Move> last, size_t plies, Rng& rng) {
  std::vector<Move> moves;
  while (moves.size() < plies && (last = random_move(state, last, rng))) {
    state.makeMove(*last);
    moves.push_back(*last);
  }
  return moves;
}

// What a game came to with Black to move, since OpenShogiLib reads no 後手番; 平手 where a mate came too early.
NumEffectState random_start(Rng& rng) {
  NumEffectState state;
  const size_t plies = 2 * rng.below(LONGEST / 2);
  return play(state, {}, plies, rng).size() == plies ? state : NumEffectState();
}

// Another line of play from some ply of a game on, if one is found at once.
std::optional<Branch> random_branch(const Game& game, Rng& rng) {
  NumEffectState state = game.start;
  const size_t ply = 1 + rng.below(game.moves.size());
  for (size_t k = 1; k < ply; ++k) state.makeMove(game.moves[k - 1]);
  const auto others = play(state, game.before(ply), 1 + rng.below(LONGEST_BRANCH), rng);
  return others.front() == game.moves[ply - 1] ? std::nullopt : std::optional(Branch{ply, others});
}

}  // namespace

const char* name(Trait trait) {
  switch (trait) {
    case Trait::same: return "同";
    case Trait::drop: return "打";
    case Trait::promotion: return "成";
    case Trait::declined: return "不成";
    case Trait::capture: return "captures";
  }
  return "";
}

bool is(Trait trait, Move move, std::optional<Move> before) {
  switch (trait) {
    case Trait::same: return before && before->to() == move.to();
    case Trait::drop: return move.isDrop();
    case Trait::promotion: return move.isPromotion();
    case Trait::declined: return could_promote(move) && !move.isPromotion();
    case Trait::capture: return move.isCapture();
  }
  return false;
}

std::optional<Move> Game::before(size_t ply) const {
  return ply > 1 ? std::optional(moves[ply - 2]) : std::nullopt;
}

Game random_game(Rng& rng) {
  Game game;
  if (rng.one_in(4)) game.start = random_start(rng);
  NumEffectState state = game.start;
  game.moves = play(state, {}, 1 + rng.below(LONGEST), rng);
  if (!game.moves.empty() && rng.one_in(4)) game.branch = random_branch(game, rng);
  return game;
}
