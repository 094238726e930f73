/* Words of 7 letters whose hashes have the same low BITS bits, if the hash of an index has a fixed seed (foldhash's):
 *
 *   collide N BITS > WORDS      one word a line, as an attacker would make them
 */
#include <stdint.h>
#include <stdio.h>
#include <stdlib.h>

enum { LETTERS = 7 };
static const char abc[] = "abcdefghijklmnopqrstuvwxyz0123456789";
static const uint64_t MULTIPLE = 0x9e3779b97f4a7c15u, SEED = 0x243f6a8885a308d3u;
static char word[LETTERS + 1];
static long left;
static uint32_t mask;

static uint64_t fold(uint64_t a, uint64_t b) {
  unsigned __int128 product = (unsigned __int128)a * b;
  return (uint64_t)product ^ (uint64_t)(product >> 64);
}

/* Tries each letter at a place, with the state of the hash before it. */
static void try_letters(int place, uint64_t state) {
  if (place == LETTERS) {
    if ((((uint32_t)(state ^ (state >> 32))) & mask) == 0) {
      puts(word);
      left--;
    }
    return;
  }
  for (int i = 0; abc[i] && left > 0; i++) {
    word[place] = abc[i];
    try_letters(place + 1, fold(state ^ (0x10101u * (uint64_t)(unsigned char)abc[i]), MULTIPLE ^ 2));
  }
}

int main(int count, char **words) {
  if (count != 3) {
    fputs("collide N BITS\n", stderr);
    return 2;
  }
  left = atol(words[1]);
  mask = (1u << atoi(words[2])) - 1;
  try_letters(0, fold(SEED ^ LETTERS, MULTIPLE ^ 16));
  return left > 0;
}
