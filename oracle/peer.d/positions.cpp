#include "comparisons.h"

#ifdef WITH_POSITIONS

#include <algorithm>
#include <array>

using osl::Move;
using osl::NumEffectState;

namespace {

// In the order in which the port numbers them, from 1. The first seven are the ones that a hand has.
constexpr std::array<osl::Ptype, 14> KINDS = {
    osl::PAWN, osl::LANCE, osl::KNIGHT, osl::SILVER,  osl::GOLD,    osl::BISHOP,  osl::ROOK,
    osl::KING, osl::PPAWN, osl::PLANCE, osl::PKNIGHT, osl::PSILVER, osl::PBISHOP, osl::PROOK,
};
constexpr size_t IN_HAND = 7;
// Where a position has its cells and its hand counts.
constexpr size_t CELLS = 4, COUNTS = CELLS + 81;

char cell(osl::Piece piece) {
  if (piece.isEmpty()) return 0;
  const size_t kind = std::find(KINDS.begin(), KINDS.end(), piece.ptype()) - KINDS.begin();
  return (piece.owner() == osl::BLACK ? 1 : 17) + kind;
}

// A position of OpenShogiLib, laid out as the port's are: その他, with a board.
std::string laid_out(const NumEffectState& state) {
  std::string position = {16, 1, char(state.turn() == osl::BLACK ? 0 : 1), 0};
  for (int x = 1; x <= 9; ++x)
    for (int y = 1; y <= 9; ++y) position += cell(state.pieceAt(osl::Square(x, y)));
  for (const auto side : {osl::BLACK, osl::WHITE})
    for (size_t k = 0; k < IN_HAND; ++k) position += char(state.countPiecesOnStand(side, KINDS[k]));
  position.resize(POSITION);
  return position;
}

// The position itself, then what each of the moves leads to.
std::vector<std::string> played(NumEffectState state, const std::vector<Move>& moves) {
  std::vector<std::string> positions = {laid_out(state)};
  for (const Move move : moves) {
    state.makeMove(move);
    positions.push_back(laid_out(state));
  }
  return positions;
}

std::vector<std::string> main_line(const Case& given) {
  auto positions = played(given.game.start, given.game.moves);
  const bool has_ending = entry_count(given.block, 0) > positions.size();
  if (has_ending) positions.push_back(positions.back());
  return positions;
}

// From its ply on the variation's moves stand in place of the game's; what comes before belongs to the main line.
std::vector<std::string> variation(const Game& game) {
  const auto& [ply, others] = *game.branch;
  std::vector<Move> moves(game.moves.begin(), game.moves.begin() + ply - 1);
  moves.insert(moves.end(), others.begin(), others.end());
  const auto positions = played(game.start, moves);
  return {positions.begin() + ply, positions.end()};
}

std::string part(size_t at) {
  if (at < CELLS) return "byte " + std::to_string(at);
  if (at >= COUNTS) return "hand count " + std::to_string(at - COUNTS);
  return "cell " + std::to_string((at - CELLS) / 9 + 1) + std::to_string((at - CELLS) % 9 + 1);
}

void same(const std::string& where, const std::string& ours, const std::string& theirs) {
  const size_t at = std::mismatch(ours.begin(), ours.end(), theirs.begin()).first - ours.begin();
  if (at == POSITION) return;
  throw Failure(part(at) + " after " + where + " is " + std::to_string(ours[at]) + ", and OpenShogiLib has " +
                std::to_string(theirs[at]));
}

// A line of a block has these positions after its entries, and no more entries.
size_t same_line(const std::string& block, uint64_t line, const std::vector<std::string>& theirs) {
  const std::string name = "line " + std::to_string(line);
  if (entry_count(block, line) != theirs.size()) throw Failure(name + " has too many entries or too few");
  for (size_t entry = 0; entry < theirs.size(); ++entry)
    same(name + ", entry " + std::to_string(entry), position_after(block, line, entry), theirs[entry]);
  return theirs.size();
}

}  // namespace

size_t positions(const Case& given) {
  const size_t count = same_line(given.block, 0, main_line(given));
  return given.game.branch ? count + same_line(given.block, 1, variation(given.game)) : count;
}

#endif
