// What the port makes of a game, held to what OpenShogiLib makes of it. A difference is thrown; without one the answer
// is how many moves or positions are the same.
#pragma once

#include "game.h"
#include "port.h"

// A game, its block by the port, and the name of a file that may be written over.
struct Case {
  const Game& game;
  const std::string& block;
  const std::string& file;
};

// The text in mode SHARED reads back to the same block, and OpenShogiLib reads the game from it, move for move.
size_t shared_text(const Case& given);

// The port has the positions that OpenShogiLib has: the start, that after every move of the main line and of the
// variation, and after an ending the one before it.
size_t positions(const Case& given);
