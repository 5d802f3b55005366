// Legal games, made by a random player over OpenShogiLib.
#pragma once

#include <osl/numEffectState.h>

#include <optional>
#include <vector>

#include "rng.h"

// What a move may be, more than one of these at a time: 同, 打, 成, 不成 where it could promote, and a capture.
enum class Trait { same, drop, promotion, declined, capture };

constexpr Trait TRAITS[] = {Trait::same, Trait::drop, Trait::promotion, Trait::declined, Trait::capture};

const char* name(Trait trait);

// Whether a move is this, behind the move before it, if there is one.
bool is(Trait trait, osl::Move move, std::optional<osl::Move> before);

// Legal moves from a ply on, which is counted from 1; the first is another than the game has there.
struct Branch {
  size_t ply;
  std::vector<osl::Move> moves;
};

struct Game {
  osl::NumEffectState start;
  std::vector<osl::Move> moves;
  std::optional<Branch> branch;

  // The move before the one at this ply, if there is one.
  std::optional<osl::Move> before(size_t ply) const;
};

// A game from 平手, or in one of four cases from what a game came to with Black to move.
Game random_game(Rng& rng);
