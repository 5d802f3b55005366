/* kif.h by itself and once more, as C and as C++: its version says one thing, and a program links. */
#include "kif.h"
#include "kif.h"

#include "called.h"

#include <string.h>

#define TEXT_OF(x) #x
#define TEXT(x) TEXT_OF(x)

int main(void) {
  uint64_t number, first, second;
  EXPECT(strcmp(TEXT(KIF_VERSION_MAJOR) "." TEXT(KIF_VERSION_MINOR) "." TEXT(KIF_VERSION_PATCH), KIF_VERSION) == 0);
  kif_measure(NULL, 0, &number, &first, &second);
  EXPECT(number == KIF_DONE && first == 156 && second == 0);
  EXPECT(!kif_sound(NULL, 0));
  return 0;
}
