/* The numbers that wait for an operation: global variables, a call by a pointer, and calls that don't return. */
#include "calculator.h"

#define MOST 64

int puts(const char *text);
_Noreturn void abort(void);

static long numbers[MOST];
long depth;

_Noreturn void fail(const char *why) {
  puts(why);
  abort();
}

void push(long number) {
  if (depth == MOST)
    fail("too many numbers");
  numbers[depth++] = number;
}

long pop(void) {
  if (depth == 0)
    fail("a number is missing");
  return numbers[--depth];
}

void each_number(void (*see)(long number)) {
  for (long index = 0; index < depth; index++)
    see(numbers[index]);
}
