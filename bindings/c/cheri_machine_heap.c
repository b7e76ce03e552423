/*
 * The heap of libcheri_machine: what the compiled library calls for memory, over malloc, realloc and
 * free alone. A part of the library, for bindings/build; a program includes cheri_machine.h.
 */
#include <stdlib.h>

/* Whether there is memory, and where: two words, as the library reads them. */
typedef struct tried {
    size_t ok;
    void *at;
} tried;

/* A failed call answers this, since a pointer that the library has is never null. */
static char nothing;

static tried answer(void *at) {
    tried given = {at != NULL, at != NULL ? at : &nothing};
    return given;
}

/* Memory for `bytes` bytes, whose alignment divides 16, as that of every block of malloc does. */
tried rattle_alloc(size_t bytes, size_t align) {
    return answer(malloc(bytes != 0 ? bytes : align));
}

/* The block made one of `bytes` bytes, of which the first `kept` are as they were. */
tried rattle_realloc(void *at, size_t kept, size_t bytes, size_t align) {
    (void)kept;
    return answer(realloc(at, bytes != 0 ? bytes : align));
}

void rattle_dealloc(void *at) {
    free(at);
}
