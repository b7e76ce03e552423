/* Data of all kinds, for .ci/assembly: what compilers print of it is assembled. */
typedef unsigned long size;
extern void *memcpy(void *, const void *, size);

struct item { struct item *next; int weight; };
static struct item last = {0, 70}, middle = {&last, -5};
struct item first = {&middle, 1};
int weight_of(struct item *item) {
  int sum = 0;
  for (; item; item = item->next) sum += item->weight;
  return sum;
}

const char *colours[] = {"red", "green", "blue", "\"odd\"\n\t\\ \1\377 one"};
const char *colour(unsigned n) { return n < 4 ? colours[n] : "none"; }
char text[] = "written\0twice";
static const short odds[] = {1, 3, 5, 7, 9, -11};
int odd(int n) { return odds[n & 3]; }

static int twice(int n) { return n + n; }
static int half(int n) { return n >> 1; }
int (*const choices[])(int) = {twice, half, 0};
int choose(int k, int n) { return choices[k & 1](n); }

long large = -1;
int shared = 5;
unsigned long table[40];
void fill(void) { for (int i = 0; i < 40; i++) table[i] = (unsigned long)i << (i & 31); }
unsigned long get(int i) { return table[i]; }
int next(void) { return ++shared; }
void *itself = &itself;
char *inside = text + 8;

struct block { char bytes[200]; };
struct block here, there;
void assign(void) { here = there; }
void copy(char *to, const char *from, size count) { while (count--) *to++ = *from++; }

__attribute__((aligned(64))) char wide[3] = {1, 2, 3};
__attribute__((section(".data.kept"))) int kept = 0x1234;
struct packed { char tag; long value; } __attribute__((packed));
struct packed packed[] = {{'a', 1}, {'b', -2}};
long value_of(int i) { return packed[i].value; }
