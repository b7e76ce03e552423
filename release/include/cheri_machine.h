/*
 * cheri_machine: a proved CHERI-RISC-V machine, opened by a listing and stepped hart by hart.
 *
 * A listing is the text that docs/FORMATS.md of this project describes. The caller keeps a handle,
 * closed at first; an open one owns one machine, in memory of malloc, so that a step costs a step
 * however many went before. Nothing is kept elsewhere: two handles know nothing of each other.
 *
 *     cheri_machine machine = CHERI_MACHINE_CLOSED;
 *     cheri_opened opened = cheri_machine_new(&machine, listing, length, 1000);
 *     cheri_event event = cheri_machine_step(&machine, 0);
 *     cheri_machine_free(&machine);
 *
 * Every function answers for all arguments, but a handle is one that was closed at first and which
 * only these functions changed: no copy of it is used beside it, and one thread at a time uses it.
 * What each answers is proved, by the contract of the Rattle function of its name in
 * crates/cheri_machine.
 */
#ifndef CHERI_MACHINE_H
#define CHERI_MACHINE_H

#include <stdbool.h>
#include <stddef.h>
#include <stdint.h>

#define CHERI_MACHINE_VERSION 1

#ifdef __cplusplus
extern "C" {
#define CHERI_MACHINE_SIZE(type, size) static_assert(sizeof(type) == (size), #type " has another size")
#else
#define CHERI_MACHINE_SIZE(type, size) _Static_assert(sizeof(type) == (size), #type " has another size")
#endif

/* A handle. Its fields are the library's own. */
typedef struct cheri_machine {
    void *at;
    bool is_open;
} cheri_machine;
CHERI_MACHINE_SIZE(cheri_machine, 16);

/* A closed handle, with which each begins. */
#define CHERI_MACHINE_CLOSED {NULL, false}

/* What an answer says: 0 where it is done, else why it is not. */
enum {
    CHERI_MACHINE_DONE = 0,
    CHERI_MACHINE_LISTING = 1,           /* the listing is refused, for the fault `kind` at `line` */
    CHERI_MACHINE_LIMIT = 2,             /* the limit of the trace is not from 1 to 100,000 */
    CHERI_MACHINE_NO_MEMORY = 3,         /* malloc or realloc failed */
    CHERI_MACHINE_CLOSED_HANDLE = 4,     /* the handle has no machine */
    CHERI_MACHINE_NO_SUCH_HART = 5,      /* no hart has this number */
    CHERI_MACHINE_TRACE_FULL = 6,        /* the trace has as many events as its limit */
    CHERI_MACHINE_HART_STOPPED = 7,      /* the hart has halted or trapped */
    CHERI_MACHINE_BAD_RANGE = 8,         /* a sweep ends before it begins, or past the addresses */
    CHERI_MACHINE_NO_SUCH_REGISTER = 9,  /* the number of a register is above 31 */
    CHERI_MACHINE_NO_SUCH_GRANULE = 10,  /* memory has no granule of this number */
    CHERI_MACHINE_NO_SUCH_EVENT = 11,    /* the trace has no event of this number */
    CHERI_MACHINE_NO_ROOM = 12           /* the text is longer than the room for it */
};

/* How an opening ended. `kind` and `line` are those of the listing's fault, and else 0; the line is
   0 where the fault is of the whole listing. The kinds are the numbers of docs/FORMATS.md. */
typedef struct cheri_opened {
    uint32_t status, kind;
    uint64_t line;
} cheri_opened;
CHERI_MACHINE_SIZE(cheri_opened, 16);

/* How much a machine has, and the most events that its trace may have. */
typedef struct cheri_sizes {
    uint32_t status, limit;
    uint64_t harts, granules, events;
} cheri_sizes;
CHERI_MACHINE_SIZE(cheri_sizes, 32);

/* The kinds of an event, and the outcomes of a step. */
enum {
    CHERI_MACHINE_NO_EVENT = 0,
    CHERI_MACHINE_STEP = 1,
    CHERI_MACHINE_SWEEP = 2
};
enum {
    CHERI_MACHINE_GOES_ON = 0,
    CHERI_MACHINE_HALTED = 1,
    CHERI_MACHINE_TRAPPED = 2
};

/* An event of the trace. What its kind doesn't have is 0. */
typedef struct cheri_event {
    uint32_t status;
    uint32_t cleared;     /* how many tags a sweep cleared */
    uint8_t kind;         /* a step or a sweep */
    uint8_t hart;         /* which hart stepped */
    uint8_t outcome;      /* how the step ended */
    uint8_t cause, reg;   /* of a trap: its cause, and the register that it speaks of, 32 for PCC */
    uint64_t pc;          /* the address of PCC before the step */
    uint64_t lo, hi, hi_high; /* a sweep's range, up to `hi + hi_high * 2^64` */
} cheri_event;
CHERI_MACHINE_SIZE(cheri_event, 48);

/* A value: a word of 128 bits, in halves as those of cheri_caps, and its tag. */
typedef struct cheri_value {
    uint64_t addr, upper;
    bool tag;
    uint32_t status;
} cheri_value;
CHERI_MACHINE_SIZE(cheri_value, 24);

/* Whether a hart runs: `state` is one of the outcomes. */
typedef struct cheri_hart {
    uint32_t status;
    uint8_t state, cause, reg;
} cheri_hart;
CHERI_MACHINE_SIZE(cheri_hart, 8);

/* How the writing of a text ended, and how many bytes the text has. */
typedef struct cheri_text {
    uint32_t status;
    uint64_t length;
} cheri_text;
CHERI_MACHINE_SIZE(cheri_text, 16);

/* Opens a handle by a listing of `length` bytes: it then has the machine before its first step. The
   trace may have `limit` events, from 1 to 100,000. What the handle had before is freed first. The
   listing is judged before the limit; after a refusal, and out of memory, the handle is closed. No
   pointer is null, also where the length is 0. */
cheri_opened cheri_machine_new(cheri_machine *machine, const uint8_t *listing, size_t length,
                                       uint32_t limit);

/* Closes a handle and frees what it had. A closed one stays closed. */
void cheri_machine_free(cheri_machine *machine);

/* One step of a hart, and a sweep, which clears the tag of every capability whose base lies from
   `lo` up to, not including, `hi + hi_high * 2^64`. Each answers the event that the trace grows by.
   One that is refused changes nothing. Neither takes memory. */
cheri_event cheri_machine_step(cheri_machine *machine, uint8_t hart);
cheri_event cheri_machine_sweep(cheri_machine *machine, uint64_t lo, uint64_t hi,
                                          uint64_t hi_high);

/* What there is now. These leave the machine as it is, and take no memory. Granule k has the 16
   bytes from 0x80000000 + 16 * k on; events count from 0. */
cheri_sizes cheri_machine_sizes(cheri_machine *machine);
cheri_hart cheri_machine_hart(cheri_machine *machine, uint8_t hart);
cheri_value cheri_machine_register(cheri_machine *machine, uint8_t hart, uint8_t reg);
cheri_value cheri_machine_pcc(cheri_machine *machine, uint8_t hart);
cheri_value cheri_machine_granule(cheri_machine *machine, uint32_t number);
cheri_event cheri_machine_event(cheri_machine *machine, uint32_t number);

/* The report of what was taken so far, byte for byte what `cheri_sim run` prints of it, into `room`
   of `size` bytes, which is not null. Where it is longer, the answer says how long it is, and the
   room is as it was. Leaves the machine as it is. */
cheri_text cheri_machine_report(cheri_machine *machine, uint8_t *room, size_t size);

/* The explanation of the events numbered from `first` to `last`, counted from 0, in the same way: what
   `cheri_explain` prints of them. It says what each read, found, left and set, why it trapped, and why a
   tag was lost. So of the last event, where there are n, first and last are n - 1. It takes the machine's
   operations once more, from the first on, as only an explanation does. */
cheri_text cheri_machine_explain(cheri_machine *machine, uint32_t first, uint32_t last, uint8_t *room,
                                 size_t size);

#ifdef __cplusplus
}
#endif

#endif
