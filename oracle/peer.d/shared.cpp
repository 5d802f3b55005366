#include <iconv.h>
#include <osl/record/kakinoki.h>

#include <fstream>
#include <sstream>

#include "comparisons.h"

namespace {

// A text in UTF-8 as CP932, which OpenShogiLib reads.
std::string cp932(const std::string& text) {
  const iconv_t turn = iconv_open("CP932", "UTF-8");
  if (turn == iconv_t(-1)) throw Failure("iconv knows no CP932");
  std::string turned(text.size(), '\0');
  char *from = const_cast<char*>(text.data()), *to = turned.data();
  size_t left = text.size(), room = turned.size();
  const bool whole = iconv(turn, &from, &left, &to, &room) != size_t(-1);
  iconv_close(turn);
  if (!whole) throw Failure("iconv stops at byte " + std::to_string(text.size() - left));
  turned.resize(turned.size() - room);
  return turned;
}

osl::KakinokiFile read_by_peer(const std::string& text, const std::string& file) {
  std::ofstream(file, std::ios::binary) << text;
  try {
    return osl::KakinokiFile(file);
  } catch (const std::exception& refused) {
    throw Failure(std::string("OpenShogiLib refuses it: ") + refused.what());
  }
}

// A position or a move in OpenShogiLib's words, which do not tell equal pieces apart.
template <typename Thing>
std::string shown(const Thing& thing) {
  std::ostringstream words;
  words << thing;
  return words.str();
}

void same(const std::string& what, const std::string& ours, const std::string& theirs) {
  if (ours != theirs) throw Failure(what + " is " + ours + ", and OpenShogiLib reads " + theirs);
}

}  // namespace

size_t shared_text(const Case& given) {
  const std::string text = text_of(given.block, SHARED);
  if (block_of(text) != given.block) throw Failure("the shared text reads back to another block");
  const osl::KakinokiFile read = read_by_peer(cp932(text), given.file);
  same("the start", shown(given.game.start), shown(read.initialState()));
  const auto moves = read.moves();
  same("the number of moves", shown(given.game.moves.size()), shown(moves.size()));
  for (size_t k = 0; k < moves.size(); ++k) same("move " + shown(k + 1), shown(given.game.moves[k]), shown(moves[k]));
  return moves.size();
}
