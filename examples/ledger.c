/* What a warehouse owes: loops, calls, more values across a call than there are registers for, and many variables. */

__attribute__((noinline)) long price(long item, long count) {
  long each = item + 3;
  long whole = 0;
  for (long left = count; left > 0; left--) {
    whole += each;
    each -= left & 1;
  }
  return whole;
}

long ledger(long item, long orders, long discount, long freight, long limit, long tax, long rebate, long credit) {
  long sum = 0;
  long largest = 0;
  long late = 0;
  long last = item;
  for (long order = 1; order <= orders; order++) {
    long cost = price(item, order);
    if (cost > limit) {
      cost -= discount;
      late += tax;
    }
    if (cost > largest)
      largest = cost;
    last ^= cost;
    sum += cost + freight;
  }
  long due = sum + late - rebate;
  if (due < credit)
    return largest;
  return due - credit + price(largest, tax) + last;
}
