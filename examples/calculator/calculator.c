/* The program: what it is given, word by word, and the numbers that are left at the end. */
#include "calculator.h"

int puts(const char *text);

static void show(long number) {
  char digits[24];
  char *first = &digits[sizeof digits - 1];
  unsigned long left = number < 0 ? -(unsigned long)number : (unsigned long)number;
  *first = 0;
  do {
    *--first = (char)('0' + left % 10);
    left /= 10;
  } while (left > 0);
  if (number < 0)
    *--first = '-';
  puts(first);
}

void calculate(const char *word) {
  if (*word < '0' || *word > '9') {
    long right = pop();
    long left = pop();
    push(operate(*word, left, right));
    return;
  }
  long number = 0;
  for (; *word >= '0' && *word <= '9'; word++)
    number = 10 * number + (*word - '0');
  push(number);
}

int main(int count, char **words) {
  for (int word = 1; word < count; word++)
    calculate(words[word]);
  if (depth == 0)
    puts("nothing is left");
  each_number(show);
  return 0;
}
