/* A calculator for sums in reverse Polish notation, as "3 4 + 5 *": what its three files know of each other. */

extern long depth;

void push(long number);
long pop(void);
void each_number(void (*see)(long number));
_Noreturn void fail(const char *why);
long operate(char sign, long left, long right);
