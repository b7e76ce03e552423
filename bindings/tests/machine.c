/*
 * Tests of cheri_machine.h.
 *
 *     machine [LISTING ORDER REPORT EXPLANATION]..     runs each listing in its order, and compares the
 *                                                      report and the explanation, byte for byte, and
 *                                                      what the other calls read with the report's lines
 *
 * Before that it tries a closed handle, refusals, and two handles at once. Built with -DCOUNTED and
 * linked with --wrap=malloc,--wrap=realloc,--wrap=free it refuses each allocation in turn, and counts
 * that each block is freed once. Ends with 1 where something differs.
 */
#include "cheri_machine.h"

#include <inttypes.h>
#include <stdio.h>
#include <stdlib.h>
#include <string.h>

static long compared, wrong;

static void check(bool holds, const char *what, const char *where) {
    compared++;
    if (holds) return;
    wrong++;
    fprintf(stderr, "machine: %s: %s\n", where, what);
}

#ifdef COUNTED
/* Blocks of the library that are not freed, what is left until one is refused, and how many were. */
static long live, refuse_at, taken;

void *__real_malloc(size_t size);
void *__real_realloc(void *at, size_t size);
void __real_free(void *at);

/* What the test takes itself counts too, but is not refused, as it takes nothing meanwhile. */
void *__wrap_malloc(size_t size) {
    void *at;
    taken++;
    if (refuse_at > 0 && --refuse_at == 0) return NULL;
    at = __real_malloc(size);
    if (at != NULL) live++;
    return at;
}

void *__wrap_realloc(void *at, size_t size) {
    taken++;
    if (refuse_at > 0 && --refuse_at == 0) return NULL;
    if (at == NULL) live++;
    return __real_realloc(at, size);
}

void __wrap_free(void *at) {
    if (at != NULL) live--;
    __real_free(at);
}
#endif

typedef struct {
    uint8_t *bytes;
    size_t length;
} text;

static text read_file(const char *path) {
    text whole = {NULL, 0};
    FILE *file = fopen(path, "rb");
    size_t room = 0;
    if (file == NULL) {
        fprintf(stderr, "machine: cannot read %s\n", path);
        exit(2);
    }
    for (;;) {
        if (whole.length == room) {
            room = 2 * room + 4096;
            whole.bytes = realloc(whole.bytes, room);
            if (whole.bytes == NULL) exit(2);
        }
        size_t got = fread(whole.bytes + whole.length, 1, room - whole.length, file);
        if (got == 0) break;
        whole.length += got;
    }
    fclose(file);
    return whole;
}

static text text_of(const char *words) {
    text whole = {(uint8_t *)(uintptr_t)words, strlen(words)};
    return whole;
}

/* The report of a machine, in room that just has place for it. */
static text report_of(cheri_machine *machine, const char *where) {
    uint8_t none = 7;
    cheri_text first = cheri_machine_report(machine, &none, 0), second;
    text whole = {malloc(first.length + 1), first.length};
    if (whole.bytes == NULL) exit(2);
    check(first.status == CHERI_MACHINE_NO_ROOM && none == 7, "a report without room", where);
    memset(whole.bytes, 0xa5, whole.length + 1);
    second = cheri_machine_report(machine, whole.bytes, whole.length - 1);
    check(second.status == CHERI_MACHINE_NO_ROOM && second.length == first.length &&
              whole.bytes[0] == 0xa5 && whole.bytes[whole.length - 1] == 0xa5,
          "a report in too little room", where);
    second = cheri_machine_report(machine, whole.bytes, whole.length);
    check(second.status == CHERI_MACHINE_DONE && second.length == first.length &&
              whole.bytes[whole.length] == 0xa5,
          "a report in just enough room", where);
    return whole;
}

/* The explanation of some events. */
static text explanation_of(cheri_machine *machine, uint32_t first, uint32_t last, const char *where) {
    uint8_t none = 7;
    cheri_text answer = cheri_machine_explain(machine, first, last, &none, 0);
    text whole = {malloc(answer.length + 1), answer.length};
    if (whole.bytes == NULL) exit(2);
    check(answer.status == CHERI_MACHINE_NO_ROOM && none == 7, "an explanation without room", where);
    whole.bytes[whole.length] = 0xa5;
    answer = cheri_machine_explain(machine, first, last, whole.bytes, whole.length);
    check(answer.status == CHERI_MACHINE_DONE && answer.length == whole.length &&
              whole.bytes[whole.length] == 0xa5,
          "an explanation in just enough room", where);
    return whole;
}

static bool same(text a, text b) {
    return a.length == b.length && memcmp(a.bytes, b.bytes, a.length) == 0;
}

/* One number of a sweep in an order: its low 64 bits, and what is above them. */
static uint64_t number_at(const uint8_t **at, uint64_t *high) {
    unsigned base = 10;
    uint64_t low = 0;
    *high = 0;
    if ((*at)[0] == '0' && (*at)[1] == 'x') {
        base = 16;
        *at += 2;
    }
    for (;; ++*at) {
        unsigned digit = **at >= '0' && **at <= '9'   ? **at - '0'
                         : **at >= 'a' && **at <= 'f' ? **at - 'a' + 10
                         : **at >= 'A' && **at <= 'F' ? **at - 'A' + 10
                                                      : 99;
        if (digit >= base) return low;
        __extension__ typedef unsigned __int128 wide;
        wide product = (wide)low * base + digit;
        low = (uint64_t)product;
        *high = *high * base + (uint64_t)(product >> 64);
    }
}

/* Takes the operations of an order until one is refused, and answers the last event. */
static cheri_event run(cheri_machine *machine, text order) {
    cheri_event last = {0};
    const uint8_t *at = order.bytes, *end = at + order.length;
    if (order.length >= 8 && memcmp(at, "order 2\n", 8) == 0) at += 8;
    while (at < end) {
        if (*at >= '0' && *at <= '7') {
            last = cheri_machine_step(machine, (uint8_t)(*at++ - '0'));
        } else if (*at == '[') {
            uint64_t lo, hi, high;
            at++;
            lo = number_at(&at, &high);
            at++;
            hi = number_at(&at, &high);
            at++;
            last = cheri_machine_sweep(machine, lo, hi, high);
        } else {
            at++;
            continue;
        }
        if (last.status != CHERI_MACHINE_DONE) break;
    }
    return last;
}

static bool is_value(cheri_value value, const char *words) {
    int tag;
    uint64_t upper, lower;
    if (sscanf(words, "%d %16" SCNx64 "_%16" SCNx64, &tag, &upper, &lower) != 3) return false;
    return value.status == CHERI_MACHINE_DONE && value.tag == (tag == 1) && value.upper == upper &&
           value.addr == lower;
}

static bool is_hart(cheri_hart hart, const char *words) {
    unsigned cause, reg;
    if (hart.status != CHERI_MACHINE_DONE) return false;
    if (strcmp(words, "running") == 0) return hart.state == CHERI_MACHINE_GOES_ON;
    if (strcmp(words, "halted") == 0) return hart.state == CHERI_MACHINE_HALTED;
    return sscanf(words, "trapped cause=%u reg=%u", &cause, &reg) == 2 &&
           hart.state == CHERI_MACHINE_TRAPPED && hart.cause == cause && hart.reg == reg;
}

static bool is_event(cheri_event event, const char *words) {
    unsigned hart, cause, reg, cleared;
    uint64_t pc, lo, hi;
    char how[8], high;
    if (event.status != CHERI_MACHINE_DONE) return false;
    if (sscanf(words, "sweep lo=%16" SCNx64 " hi=%c%16" SCNx64 " cleared=%u", &lo, &high, &hi, &cleared) == 4)
        return event.kind == CHERI_MACHINE_SWEEP && event.lo == lo && event.hi == hi &&
               event.hi_high == (uint64_t)(high - '0') && event.cleared == cleared;
    if (sscanf(words, "hart=%u pc=%16" SCNx64 " %7s cause=%u reg=%u", &hart, &pc, how, &cause, &reg) < 3)
        return false;
    if (event.kind != CHERI_MACHINE_STEP || event.hart != hart || event.pc != pc) return false;
    if (strcmp(how, "done") == 0) return event.outcome == CHERI_MACHINE_GOES_ON && event.cause == 0;
    if (strcmp(how, "halt") == 0) return event.outcome == CHERI_MACHINE_HALTED && event.cause == 0;
    return event.outcome == CHERI_MACHINE_TRAPPED && event.cause == cause && event.reg == reg;
}

/* What the calls read, beside the lines of the report. Registers and granules that have no line
   are 0. */
static void compare_lines(cheri_machine *machine, text report, const char *where) {
    cheri_sizes sizes = cheri_machine_sizes(machine);
    unsigned number, hart = 0, harts = 0, events = 0, reg;
    uint64_t shown_harts = 0, shown_granules = 0, other_harts = 0, other_granules = 0, addr;
    char *line = (char *)report.bytes, *end = line + report.length, *next;
    int length;
    for (; line < end; line = next) {
        next = memchr(line, '\n', (size_t)(end - line));
        *next++ = 0;
        length = 0;
        if (sscanf(line, "hart %u %n", &number, &length) == 1 && length > 0) {
            hart = number;
            harts++;
            check(is_hart(cheri_machine_hart(machine, (uint8_t)hart), line + length), line, where);
        } else if (strncmp(line, "pcc ", 4) == 0) {
            check(is_value(cheri_machine_pcc(machine, (uint8_t)hart), line + 4), line, where);
        } else if (sscanf(line, "c%u %n", &reg, &length) == 1 && length > 0) {
            shown_harts++;
            check(is_value(cheri_machine_register(machine, (uint8_t)hart, (uint8_t)reg), line + length),
                  line, where);
        } else if (sscanf(line, "mem %16" SCNx64 " %n", &addr, &length) == 1 && length > 0) {
            shown_granules++;
            check(is_value(cheri_machine_granule(machine, (uint32_t)((addr - 0x80000000) / 16)),
                           line + length),
                  line, where);
        } else if (sscanf(line, "%u %n", &number, &length) == 1 && length > 0) {
            events++;
            check(is_event(cheri_machine_event(machine, number), line + length), line, where);
        }
    }
    for (hart = 0; hart < sizes.harts; hart++)
        for (reg = 0; reg < 32; reg++) {
            cheri_value value = cheri_machine_register(machine, (uint8_t)hart, (uint8_t)reg);
            other_harts += value.tag || value.addr != 0 || value.upper != 0;
        }
    for (number = 0; number < sizes.granules; number++) {
        cheri_value value = cheri_machine_granule(machine, number);
        other_granules += value.tag || value.addr != 0 || value.upper != 0;
    }
    check(harts == sizes.harts && events == sizes.events, "the sizes", where);
    check(other_harts == shown_harts && other_granules == shown_granules, "the other values", where);
}

/* The explanation of the last event: the last lines of the whole. */
static void try_last(cheri_machine *machine, text whole, const char *where) {
    uint32_t events = cheri_machine_sizes(machine).events, number = events == 0 ? 0 : events - 1;
    text last = explanation_of(machine, number, number, where);
    size_t at = 0, lines = 0;
    for (; lines < 3 && at < last.length; at++) lines += last.bytes[at] == '\n';
    check(last.length <= whole.length && memcmp(last.bytes, whole.bytes, at) == 0 &&
              memcmp(last.bytes + at, whole.bytes + whole.length - (last.length - at), last.length - at) == 0,
          "the last event's explanation", where);
    free(last.bytes);
}

/* A listing in an order, in two machines step by step, of which each must be as if alone. */
static void try_run(char **paths) {
    const char *listing_path = paths[0], *order_path = paths[1];
    text listing = read_file(listing_path), order = read_file(order_path), printed = read_file(paths[2]),
         explained = read_file(paths[3]);
    cheri_machine one = CHERI_MACHINE_CLOSED, other = CHERI_MACHINE_CLOSED;
    text report, explanation;
    check(cheri_machine_new(&one, listing.bytes, listing.length, 100000).status == 0, "new", listing_path);
    check(cheri_machine_new(&other, listing.bytes, listing.length, 100000).status == 0, "new", listing_path);
    run(&other, order);
    check(cheri_machine_sizes(&one).events == 0, "a machine steps by another", listing_path);
    cheri_machine_free(&other);
    run(&one, order);
    report = report_of(&one, order_path);
    check(same(report, printed), "the report", order_path);
    compare_lines(&one, report, order_path);
    explanation = explanation_of(&one, 0, UINT32_MAX, order_path);
    check(same(explanation, explained), "the explanation", order_path);
    try_last(&one, explanation, order_path);
    cheri_machine_free(&one);
    free(explanation.bytes);
    free(explained.bytes);
    free(report.bytes);
    free(listing.bytes);
    free(order.bytes);
    free(printed.bytes);
}

static const char SMALL[] = ".ram 16\n.hart 0x10000000 4 0x10000000 execute\necall\n";

static void try_closed(cheri_machine *machine, const char *where) {
    uint8_t room[4] = {1, 2, 3, 4};
    cheri_text report = cheri_machine_report(machine, room, sizeof room);
    check(cheri_machine_step(machine, 0).status == CHERI_MACHINE_CLOSED_HANDLE, "step", where);
    check(cheri_machine_sweep(machine, 0, 0, 0).status == CHERI_MACHINE_CLOSED_HANDLE, "sweep", where);
    check(cheri_machine_sizes(machine).status == CHERI_MACHINE_CLOSED_HANDLE, "sizes", where);
    check(cheri_machine_hart(machine, 0).status == CHERI_MACHINE_CLOSED_HANDLE, "hart", where);
    check(cheri_machine_register(machine, 0, 0).status == CHERI_MACHINE_CLOSED_HANDLE, "register", where);
    check(cheri_machine_pcc(machine, 0).status == CHERI_MACHINE_CLOSED_HANDLE, "pcc", where);
    check(cheri_machine_granule(machine, 0).status == CHERI_MACHINE_CLOSED_HANDLE, "granule", where);
    check(cheri_machine_event(machine, 0).status == CHERI_MACHINE_CLOSED_HANDLE, "event", where);
    check(report.status == CHERI_MACHINE_CLOSED_HANDLE && report.length == 0 && room[3] == 4, "report", where);
    report = cheri_machine_explain(machine, 0, 0, room, sizeof room);
    check(report.status == CHERI_MACHINE_CLOSED_HANDLE && report.length == 0 && room[3] == 4, "explain", where);
    cheri_machine_free(machine);
    check(!machine->is_open, "a closed handle that is freed", where);
}

static void try_refusals(void) {
    cheri_machine machine = CHERI_MACHINE_CLOSED;
    text small = text_of(SMALL), wrong_line = text_of(".ram 16\naddi\n");
    cheri_opened opened;
    cheri_event event;
    try_closed(&machine, "a new handle");
    opened = cheri_machine_new(&machine, wrong_line.bytes, wrong_line.length, 10);
    check(opened.status == CHERI_MACHINE_LISTING && opened.kind > 0 && opened.line == 2, "a wrong line", "new");
    try_closed(&machine, "after a wrong line");
    opened = cheri_machine_new(&machine, small.bytes, 0, 10);
    check(opened.status == CHERI_MACHINE_LISTING && opened.line == 0, "an empty listing", "new");
    opened = cheri_machine_new(&machine, small.bytes, small.length, 0);
    check(opened.status == CHERI_MACHINE_LIMIT && opened.kind == 0, "limit 0", "new");
    opened = cheri_machine_new(&machine, small.bytes, small.length, 100001);
    check(opened.status == CHERI_MACHINE_LIMIT, "limit 100,001", "new");
    try_closed(&machine, "after a wrong limit");
    opened = cheri_machine_new(&machine, small.bytes, small.length, 2);
    check(opened.status == CHERI_MACHINE_DONE && machine.is_open, "a good listing", "new");
    check(cheri_machine_step(&machine, 1).status == CHERI_MACHINE_NO_SUCH_HART, "hart 1", "step");
    check(cheri_machine_sweep(&machine, 2, 1, 0).status == CHERI_MACHINE_BAD_RANGE, "2 to 1", "sweep");
    check(cheri_machine_sweep(&machine, 0, 1, 1).status == CHERI_MACHINE_BAD_RANGE, "2^64 + 1", "sweep");
    check(cheri_machine_sweep(&machine, 0, 0, UINT64_MAX).status == CHERI_MACHINE_BAD_RANGE, "2^128", "sweep");
    check(cheri_machine_register(&machine, 0, 32).status == CHERI_MACHINE_NO_SUCH_REGISTER, "c32", "register");
    check(cheri_machine_register(&machine, 1, 32).status == CHERI_MACHINE_NO_SUCH_HART, "hart 1", "register");
    check(cheri_machine_pcc(&machine, 255).status == CHERI_MACHINE_NO_SUCH_HART, "hart 255", "pcc");
    check(cheri_machine_hart(&machine, 1).status == CHERI_MACHINE_NO_SUCH_HART, "hart 1", "hart");
    check(cheri_machine_granule(&machine, 1).status == CHERI_MACHINE_NO_SUCH_GRANULE, "granule 1", "granule");
    check(cheri_machine_event(&machine, 0).status == CHERI_MACHINE_NO_SUCH_EVENT, "event 0", "event");
    check(cheri_machine_sizes(&machine).events == 0, "refused operations", "sizes");
    event = cheri_machine_step(&machine, 0);
    check(event.status == CHERI_MACHINE_DONE && event.outcome == CHERI_MACHINE_HALTED && event.pc == 0x10000000,
          "ecall", "step");
    check(cheri_machine_step(&machine, 0).status == CHERI_MACHINE_HART_STOPPED, "a halted hart", "step");
    event = cheri_machine_sweep(&machine, 0, 0, 1);
    check(event.status == CHERI_MACHINE_DONE && event.cleared == 1 && event.hi_high == 1, "all", "sweep");
    check(cheri_machine_sweep(&machine, 0, 0, 1).status == CHERI_MACHINE_TRACE_FULL, "full", "sweep");
    check(cheri_machine_step(&machine, 0).status == CHERI_MACHINE_TRACE_FULL, "full", "step");
    opened = cheri_machine_new(&machine, small.bytes, small.length, 7);
    check(opened.status == 0 && cheri_machine_sizes(&machine).limit == 7, "an open handle", "new");
    opened = cheri_machine_new(&machine, wrong_line.bytes, wrong_line.length, 7);
    check(opened.status == CHERI_MACHINE_LISTING, "an open handle and a wrong line", "new");
    try_closed(&machine, "an open handle after a wrong line");
}

#ifdef COUNTED
/* Refuses each allocation in turn, of a report or of an explanation, and answers how many there are. */
static long try_text_memory(cheri_machine *machine, bool explains) {
    static uint8_t room[8192], kept[8192];
    long before = live, turn;
    cheri_text answer;
    for (turn = 1;; turn++) {
        memset(room, 0xa5, sizeof room);
        refuse_at = turn;
        answer = explains ? cheri_machine_explain(machine, 0, 9, room, sizeof room)
                          : cheri_machine_report(machine, room, sizeof room);
        bool refused = refuse_at == 0;
        refuse_at = 0;
        check(live == before, "what a text leaves", "memory of a text");
        if (!refused) break;
        check(answer.status == CHERI_MACHINE_NO_MEMORY && answer.length == 0 && room[0] == 0xa5,
              "a refusal", "memory of a text");
    }
    check(answer.status == CHERI_MACHINE_DONE, "no refusal", "memory of a text");
    memcpy(kept, room, sizeof kept);
    answer = explains ? cheri_machine_explain(machine, 0, 9, room, sizeof room)
                      : cheri_machine_report(machine, room, sizeof room);
    check(answer.status == CHERI_MACHINE_DONE && memcmp(kept, room, sizeof kept) == 0,
          "the machine after refusals", "memory of a text");
    return turn - 1;
}

/* Refuses each allocation in turn, of an opening, a report and an explanation. */
static void try_memory(void) {
    cheri_machine machine = CHERI_MACHINE_CLOSED;
    text small = text_of(SMALL);
    long before = live, turn, openings, reports, explanations, steps;
    for (turn = 1;; turn++) {
        refuse_at = turn;
        cheri_opened opened = cheri_machine_new(&machine, small.bytes, small.length, 50);
        bool refused = refuse_at == 0;
        refuse_at = 0;
        if (!refused) {
            check(opened.status == CHERI_MACHINE_DONE, "no refusal", "memory of new");
            break;
        }
        check(opened.status == CHERI_MACHINE_NO_MEMORY && opened.kind == 0 && opened.line == 0,
              "a refusal", "memory of new");
        check(!machine.is_open && live == before, "what a refusal leaves", "memory of new");
    }
    openings = turn - 1;
    taken = 0;
    cheri_machine_step(&machine, 0);
    cheri_machine_sweep(&machine, 0, 0, 1);
    cheri_machine_sizes(&machine);
    cheri_machine_register(&machine, 0, 1);
    cheri_machine_granule(&machine, 0);
    cheri_machine_event(&machine, 0);
    cheri_machine_hart(&machine, 0);
    cheri_machine_pcc(&machine, 0);
    steps = taken;
    check(steps == 0, "they take no memory", "memory of steps");
    reports = try_text_memory(&machine, false);
    explanations = try_text_memory(&machine, true);
    cheri_machine_free(&machine);
    check(live == before, "a block is left", "memory of free");
    cheri_machine_free(&machine);
    check(live == before, "freed twice", "memory of free");
    check(openings >= 5 && reports >= 2 && explanations >= 5, "how many were refused", "memory");
    printf("refused: %ld allocations of an opening, %ld of a report, %ld of an explanation\n", openings, reports,
           explanations);
}
#endif

int main(int count, char **words) {
    int at;
    if (count % 4 != 1) {
        fprintf(stderr, "usage: machine [LISTING ORDER REPORT EXPLANATION]..\n");
        return 2;
    }
    try_refusals();
#ifdef COUNTED
    try_memory();
#endif
    for (at = 1; at < count; at += 4) try_run(words + at);
#ifdef COUNTED
    check(live == 0, "blocks are left", "the end");
#endif
    printf("%ld compared, %ld wrong\n", compared, wrong);
    return wrong != 0;
}
