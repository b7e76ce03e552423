/*
 * The heap of the module: blocks by size, four sizes between one power of two and the next. A freed
 * block goes to the list of its size, or, at the end of all that is given, makes that end earlier. A
 * block at the end grows in place where no freed one has the size: else each call that grows a text
 * from small on would take new memory, and leave a large block behind. Nothing is given back to the
 * host: who meets the end of memory begins with a new instance.
 */
typedef unsigned long size;
typedef unsigned char byte;

/* What the Rattle side calls Tried: two words. */
typedef struct {
  size ok;
  byte *at;
} tried;

/* What stands before each block's bytes. */
typedef struct block {
  size bytes; /* of the block, these two words included */
  struct block *next;
} block;

enum { HEAD = 16, LEAST = 32, FINE = 64, CLASSES = 256, PAGE = 65536 };

extern byte __heap_base;
static block *freed[CLASSES];
static byte *end; /* of all that is given, but for what is freed before it */
static byte nothing;
static size most = (size)1 << 40; /* bytes that memory grows to */

/* The bytes of the block for so many of the caller's; a multiple of 16. */
static size whole(size bytes) {
  size all = bytes + HEAD;
  if (all <= LEAST) return LEAST;
  if (all <= FINE) return (all + 15) & ~15UL;
  size step = 61 - __builtin_clzl(all - 1);
  return (((all - 1) >> step) + 1) << step;
}

/* The list for blocks of that size, which is one that `whole` gives. */
static size list_of(size bytes) {
  if (bytes <= FINE) return bytes / 16;
  size step = 61 - __builtin_clzl(bytes - 1);
  return step * 4 + 16 + (((bytes - 1) >> step) & 3);
}

/* Whether memory reaches up to there, grown where it has to be. A failed growth may answer anything. */
static int reaches(byte *place) {
  size have = __builtin_wasm_memory_size(0) * PAGE;
  if ((size)place <= have) return 1;
  if ((size)place > most) return 0;
  __builtin_wasm_memory_grow(0, ((size)place - have + PAGE - 1) / PAGE);
  return (size)place <= __builtin_wasm_memory_size(0) * PAGE;
}

static block *take(size bytes) {
  block **list = &freed[list_of(bytes)];
  block *found = *list;
  if (found) {
    *list = found->next;
    return found;
  }
  if (!end) end = (byte *)(((size)&__heap_base + 15) & ~15UL);
  if (!reaches(end + bytes)) return 0;
  found = (block *)end;
  end += bytes;
  found->bytes = bytes;
  return found;
}

static tried given(block *found) {
  tried answer = {found != 0, found ? (byte *)found + HEAD : &nothing};
  return answer;
}

tried rattle_alloc(size bytes, size align) {
  (void)align; /* divides 16 */
  return given(bytes >> 40 ? 0 : take(whole(bytes)));
}

static int is_last(block *one) {
  return (byte *)one + one->bytes == end;
}

void rattle_dealloc(byte *at) {
  block *old = (block *)(at - HEAD);
  if (is_last(old)) {
    end = (byte *)old;
    return;
  }
  block **list = &freed[list_of(old->bytes)];
  old->next = *list;
  *list = old;
}

tried rattle_realloc(byte *at, size kept, size bytes, size align) {
  (void)align;
  if (bytes >> 40) return given(0);
  block *old = (block *)(at - HEAD);
  size wanted = whole(bytes);
  if (wanted <= old->bytes) return given(old);
  if (!freed[list_of(wanted)] && is_last(old) && reaches((byte *)old + wanted)) {
    end = (byte *)old + wanted;
    old->bytes = wanted;
    return given(old);
  }
  block *new = take(wanted);
  if (!new) return given(0);
  __builtin_memcpy((byte *)new + HEAD, at, kept);
  rattle_dealloc(at);
  return given(new);
}

/* For the page: room for a text, or 0; and given back. */
byte *page_room(size bytes) {
  tried answer = rattle_alloc(bytes, 16);
  return answer.ok ? answer.at : 0;
}

void page_free(byte *at) {
  rattle_dealloc(at);
}

/* For the page: memory grows to so many bytes and no further. What is there stays. */
void page_limit(size bytes) {
  most = bytes;
}
