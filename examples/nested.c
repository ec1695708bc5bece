/* Three levels of inlining: digest has the code of absorb, that the code of mix, and that the code of rotate. */

static inline long rotate(long word, long by) {
  unsigned long bits = (unsigned long)word;
  return (long)((bits << by) | (bits >> (64 - by)));
}

static inline long mix(long state, long word) {
  long turned = rotate(state ^ word, 13);
  long sum = turned + word;
  return rotate(sum, 32) ^ turned;
}

static inline long absorb(long state, long word) {
  while (word > 0) {
    long low = word & 255;
    state = mix(state, low);
    word >>= 8;
  }
  return state;
}

__attribute__((noinline)) long next(long seed) {
  return mix(seed, 7);
}

long digest(long seed, long words) {
  long state = seed;
  for (long index = 0; index < words; index++) {
    long word = next(state + index);
    state = absorb(state, word);
  }
  return mix(state, words);
}
