#include "port.h"

#include <kif.h>

namespace {

constexpr size_t LONGEST_BLOCK = 65535;
// No block is written to so long a text.
constexpr size_t LONGEST_TEXT = 200000;

const uint8_t* in(const std::string& bytes) { return reinterpret_cast<const uint8_t*>(bytes.data()); }

uint8_t* out(std::string& bytes) { return reinterpret_cast<uint8_t*>(bytes.data()); }

// A number of a block, in two bytes with the lower first.
size_t number_at(const std::string& block, size_t at) { return in(block)[at] + 256 * in(block)[at + 1]; }

void must(bool holds, const char* call, uint64_t number, uint64_t first, uint64_t second) {
  if (holds) return;
  throw Failure(std::string(call) + " answers " + std::to_string(number) + ", " + std::to_string(first) + ", " +
                std::to_string(second));
}

}  // namespace

std::string block_of(const std::string& text) {
  std::string block(LONGEST_BLOCK, '\0');
  uint64_t number, taken, length, lost;
  kif_fill(in(text), text.size(), out(block), block.size(), &number, &taken, &length, &lost);
  must(number == 0 && taken == text.size() && lost == 0, "kif_fill", number, taken, length);
  block.resize(length);
  return block;
}

std::string text_of(const std::string& block, uint64_t mode) {
  std::string text(LONGEST_TEXT, '\0');
  uint64_t number, length, left_out;
  kif_write_as(in(block), block.size(), mode, out(text), text.size(), &number, &length, &left_out);
  must(number == 0 && left_out == 0, "kif_write_as", number, length, left_out);
  text.resize(length);
  return text;
}

#ifdef WITH_POSITIONS
std::string position_after(const std::string& block, uint64_t line, uint64_t entry) {
  std::string position(POSITION, '\0');
  uint64_t number, length, turn;
  kif_position(in(block), block.size(), line, entry, out(position), position.size(), &number, &length, &turn);
  must(number == 0 && length == position.size() && turn == in(position)[2], "kif_position", number, length, turn);
  return position;
}
#endif

size_t entry_count(const std::string& block, uint64_t line) {
  const size_t lines = number_at(block, 16);
  return number_at(block, lines + 8 * line + 4);
}
