/* README's example: each call, and then the number and figures that its comment says. The script makes example.inc of README.md. */
#include "called.h"

#include <inttypes.h>

static void expect(const char *call, uint64_t n, uint64_t x, uint64_t y, uint64_t number, uint64_t first, uint64_t second) {
  if (n == number && x == first && y == second) return;
  fprintf(stderr, "README.md: %s\n  answers %" PRIu64 ", %" PRIu64 ", %" PRIu64 "\n", call, n, x, y);
  exit(1);
}

static void expect_true(const char *call, bool answer) {
  if (answer) return;
  fprintf(stderr, "README.md: %s\n  is false\n", call);
  exit(1);
}

int main(int words, char **word) {
  static const uint8_t s[] = "1同歩打\n";
  static uint8_t text[KIF_LONGEST_TEXT];
  EXPECT(words == 2 && file_text(word[1], text, sizeof text) == 137);
#include "example.inc"
  return 0;
}
