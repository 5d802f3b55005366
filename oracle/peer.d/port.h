// The port's calls, through the C surface of its library. What it refuses is thrown.
#pragma once

#include <cstdint>
#include <stdexcept>
#include <string>

struct Failure : std::runtime_error {
  using std::runtime_error::runtime_error;
};

// The mode of kif_write_as in which 打 stands for an origin of (0,0): OpenShogiLib refuses (00).
constexpr uint64_t SHARED = 2;

// The block of a text, which must be taken to its last byte with all of its times.
std::string block_of(const std::string& text);

// The text of a block in a mode, which must leave no line out.
std::string text_of(const std::string& block, uint64_t mode);

// The length of a position, which is laid out as a block's diagram is.
constexpr size_t POSITION = 100;

// The position after an entry of a line of a block.
std::string position_after(const std::string& block, uint64_t line, uint64_t entry);

// How many entries a line of a block has.
size_t entry_count(const std::string& block, uint64_t line);
