// Prints a chapter of anchors whose ids fall into one group of the table that counts them, or of plain ids.
//   collide COUNT BITS     ids whose hash ends in so many zero bits; with 0, plain ids
#include <stdint.h>
#include <stdio.h>
#include <stdlib.h>

static const uint64_t multiplier = 0x9e3779b97f4a7c15ULL;

// The hash of the standard library's tables: it has no secret.
static uint64_t fold(uint64_t a, uint64_t b) {
  unsigned __int128 product = (unsigned __int128)a * b;
  return (uint64_t)product ^ (uint64_t)(product >> 64);
}

int main(int count, char **words) {
  if (count != 3) return 2;
  const char *letters = "abcdefghijklmnopqrstuvwxyzABCDEFGHIJKLMNOPQRSTUVWXYZ0123456789_:";
  enum { length = 9 };
  long wanted = atol(words[1]);
  uint32_t mask = (1u << atoi(words[2])) - 1;
  uint64_t start = fold(0x243f6a8885a308d3ULL ^ length, multiplier ^ 16);
  char id[length + 1] = {0};
  for (uint64_t number = 0; wanted > 0; number++) {
    uint64_t state = start;
    for (int place = 0; place < length; place++) {
      unsigned char letter = letters[number >> 6 * (length - 1 - place) & 63];
      id[place] = letter;
      state = fold(state ^ letter * 0x010101ULL, multiplier ^ 2);
    }
    if ((((uint32_t)(state ^ state >> 32)) & mask) == 0) {
      printf("[[%s]]\n", id);
      wanted--;
    }
  }
  return 0;
}
