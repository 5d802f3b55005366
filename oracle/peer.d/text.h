// The KIF text of a game, in UTF-8, with drawn header lines, times, remarks and an ending.
#pragma once

#include <string>

#include "game.h"

std::string kif_text(const Game& game, Rng& rng);
