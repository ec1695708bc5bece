/* What the calculator can do: a table of function pointers, and a call in tail position by one of them. */
#include "calculator.h"

static long add(long left, long right) {
  return left + right;
}

static long subtract(long left, long right) {
  return left - right;
}

static long multiply(long left, long right) {
  return left * right;
}

static long divide(long left, long right) {
  if (right == 0)
    fail("a division by zero");
  return left / right;
}

static long (*const operations[128])(long left, long right) = {
    ['+'] = add,
    ['-'] = subtract,
    ['*'] = multiply,
    ['/'] = divide,
};

long operate(char sign, long left, long right) {
  long (*operation)(long, long) = operations[sign & 127];
  if (!operation)
    fail("an unknown operation");
  return operation(left, right);
}
