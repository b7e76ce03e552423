/* Arithmetic, control flow and constants, for .ci/assembly: what compilers print of it is assembled. */
typedef unsigned char byte;
typedef unsigned short half;
typedef unsigned int word;
typedef unsigned long large;

int sign_of(long n) { return (n > 0) - (n < 0); }
int between(large n, large low, large high) { return low <= n && n < high; }
short add_short(short a, signed char b) { return a + b; }
byte low_byte(word n) { return n; }
large word_of(large n) { return n & 0xffffffffUL; }
long mixed(long n) { return n ^ 0x13579bdf02468aceL; }
long far_below(long n) { return n - 0x7fffffff12345L; }
int middle(int n) { return n + 0x12345; }
long shifted(long n, int by) { return (n << by) | ((large)n >> (64 - by)); }
word turned(word n) { return n << 7 | n >> 25; }
large reversed(large n) {
  large made = 0;
  for (int i = 0; i < 64; i++) {
    made = made << 1 | (n & 1);
    n >>= 1;
  }
  return made;
}
int ones(large n) {
  int count = 0;
  while (n) {
    n &= n - 1;
    count++;
  }
  return count;
}
word check(const byte *text, long count) {
  word sum = 0xffffffff;
  for (long i = 0; i < count; i++) {
    sum ^= text[i];
    for (int k = 0; k < 8; k++) sum = sum >> 1 ^ (0xedb88320u & -(sum & 1));
  }
  return ~sum;
}
int grade(int points) {
  switch (points) {
  case 0: return 60;
  case 1: return 5;
  case 2: return -4000;
  case 3: return 1 << 21;
  case 4: return 77;
  case 5: return 3;
  case 6: return 81;
  case 9: return 2;
  default: return points;
  }
}
long stepped(int kind, long (*step)(long)) {
  switch (kind) {
  case 10: return step(1);
  case 11: return step(2) + 3;
  case 12: return step(step(kind));
  case 13: return grade(kind) - step(4);
  case 14: return step(-1);
  case 15: return kind;
  default: return 0;
  }
}
int nested(int n) { return n < 2 ? n : nested(n - 1) + nested(n - 2); }
long ten(long a, long b, long c, long d, long e, long f, long g, long h, long i, int j) {
  return a + b - c + d - e + f - g + h - i + j;
}
long calls_ten(void) { return ten(1, 2, 3, 4, 5, 6, 7, 8, 9, 10); }
int room(int n) {
  volatile byte bytes[n];
  bytes[0] = 1;
  bytes[n - 1] = 2;
  return bytes[0] + bytes[n - 1];
}
__attribute__((weak)) half soft(half n) { return n + 1; }
__attribute__((section(".text.unlikely"))) int rare(int n) { return n - 9; }
int named_twice(int n) { return n ^ 5; }
int named_again(int n) __attribute__((alias("named_twice")));
