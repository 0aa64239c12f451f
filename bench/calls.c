/* What each call of the library's header takes: its stack, and its instructions. x86-64 Linux.
 *
 * Every call runs on a painted stack of its own, one instruction at a time: after each one the processor traps, and a signal handler counts. Its stack
 * is counted from the caller's stack pointer at the call, so the return address is in it: down to the lowest byte that was written, also below the stack
 * pointer, or to the lowest stack pointer, whichever is lower.
 *
 * Random calls, on states with 1 to 32 flows, packets of all sizes; bad numbers at times. Prints for each call: its name, how many were made, the
 * largest stack, and of instructions the median of those calls that were neither refused nor idle, and the largest of all. */

#define _GNU_SOURCE
#include <signal.h>
#include <stdio.h>
#include <stdlib.h>
#include <string.h>
#include <ucontext.h>

#include "plain/inplace.h"

/* ---- One call, watched ---- */

enum { STACK = 8192, PAINTED = 4096, BURST = 32 };

static _Alignas(16) unsigned char stack[STACK];

/* Where the stack pointer stands at the call: one argument lies above it. */
static unsigned char *const at_call = stack + STACK - 64;

static volatile size_t steps;
static volatile uintptr_t lowest_pointer;

static void step(int number, siginfo_t *info, void *context)
{
    (void)number;
    (void)info;
    uintptr_t pointer = (uintptr_t)((ucontext_t *)context)->uc_mcontext.gregs[REG_RSP];
    steps++;
    if (pointer >= (uintptr_t)stack && pointer < lowest_pointer)
        lowest_pointer = pointer;
}

/* Calls the function with six arguments in registers and a seventh on the stack that is passed, trapping after each instruction. */
void stepped(void (*function)(void), const uint64_t *arguments, unsigned char *stack_pointer);

__asm__(".text\n"
        "stepped:\n"
        "    pushq %rbp\n"
        "    movq %rsp, %rbp\n"
        "    movq %rdx, %rsp\n"
        "    movq %rdi, %rax\n"
        "    movq %rsi, %r10\n"
        "    movq 48(%r10), %rcx\n"
        "    movq %rcx, (%rsp)\n"
        "    movq 0(%r10), %rdi\n"
        "    movq 8(%r10), %rsi\n"
        "    movq 16(%r10), %rdx\n"
        "    movq 24(%r10), %rcx\n"
        "    movq 32(%r10), %r8\n"
        "    movq 40(%r10), %r9\n"
        "    pushfq\n"
        "    orq $0x100, (%rsp)\n"
        "    popfq\n"
        "    call *%rax\n"
        "    pushfq\n"
        "    andq $~0x100, (%rsp)\n"
        "    popfq\n"
        "    movq %rbp, %rsp\n"
        "    popq %rbp\n"
        "    ret\n"
        "nothing:\n"
        "    ret\n");
void nothing(void);

struct taken {
    size_t stack;
    size_t instructions;
};

static struct taken watched(void (*function)(void), const uint64_t *arguments)
{
    static unsigned char paint;
    paint++;
    memset(at_call - PAINTED, paint, PAINTED);
    steps = 0;
    lowest_pointer = (uintptr_t)at_call;
    stepped(function, arguments, at_call);
    const unsigned char *lowest = at_call - PAINTED;
    while (lowest < at_call && *lowest == paint)
        lowest++;
    if ((uintptr_t)lowest > lowest_pointer)
        lowest = (const unsigned char *)lowest_pointer;
    return (struct taken){(size_t)(at_call - lowest), steps};
}

/* What is stepped around a call, besides the call: a function that only returns is one instruction. */
static size_t around;

/* ---- What was seen of each call ---- */

enum call { RESET, OPEN, OFFER, DEPART, BURST_OF_32, SITE_RESET, SITE_OPEN, SITE_OFFER, SITE_DEPART, CALLS };

enum { MOST = 8192 };

static struct seen {
    const char *name;
    size_t made, stack, largest, done;
    size_t instructions[MOST]; /* of those that were done */
} seen[CALLS] = {
    {.name = "hb_reset"},      {.name = "hb_open"},      {.name = "hb_offer"},      {.name = "hb_depart"},      {.name = "hb_burst"},
    {.name = "hb_site_reset"}, {.name = "hb_site_open"}, {.name = "hb_site_offer"}, {.name = "hb_site_depart"},
};

static hb_reply reply;

/* Makes a call, the reply's place being its first argument if it gives one, and notes what it took. */
static void make(enum call call, void (*function)(void), const uint64_t *arguments)
{
    struct seen *s = &seen[call];
    reply = (hb_reply){0};
    struct taken t = watched(function, arguments);
    t.instructions -= around;
    s->made++;
    if (t.stack > s->stack)
        s->stack = t.stack;
    /* bursts are compared where they make as many departures */
    if (call == BURST_OF_32 && reply.count != BURST)
        return;
    if (t.instructions > s->largest)
        s->largest = t.instructions;
    if (reply.kind != HB_REFUSED && reply.kind != HB_IDLE && s->done < MOST)
        s->instructions[s->done++] = t.instructions;
}

static int by_number(const void *a, const void *b)
{
    size_t x = *(const size_t *)a, y = *(const size_t *)b;
    return x < y ? -1 : x > y;
}

static size_t median(struct seen *s)
{
    qsort(s->instructions, s->done, sizeof s->instructions[0], by_number);
    return s->done > 0 ? s->instructions[s->done / 2] : 0;
}

/* ---- Random calls ---- */

static uint64_t drawn = 1;

static size_t draw(size_t below)
{
    drawn = drawn * 6364136223846793005u + 1442695040888963407u;
    return (size_t)(drawn >> 33) % below;
}

static size_t mostly(size_t good, size_t bad)
{
    return draw(32) == 0 ? bad : good;
}

#define ARGUMENTS(...) ((const uint64_t[7]){__VA_ARGS__})
#define AT(place) ((uint64_t)(uintptr_t)(place))
#define CALLED(function) ((void (*)(void))(function))

union state {
    hb_scheduler scheduler;
    hb_site site;
    _Alignas(PLAIN_ALIGNMENT) unsigned char room[PLAIN_STATE];
};

/* A new state, some flows, then offers and departures, about as many of one as of the other. */
static void order_calls(size_t calls)
{
    static union state s;
    static uint8_t list[BURST];
    size_t flows = 1 + draw(HB_FLOWS), load = 32 + draw(80), bytes = 1 + draw(HB_PACKET_MAX);
    make(RESET, CALLED(hb_reset), ARGUMENTS(AT(&s)));
    for (size_t f = 0; f < flows; f++)
        make(OPEN, CALLED(hb_open), ARGUMENTS(AT(&reply), AT(&s), mostly(f, draw(40)), mostly(1 + draw(HB_WEIGHT_MAX), 17)));
    for (size_t n = 0; n < calls; n++) {
        if (draw(128) < load)
            make(OFFER, CALLED(hb_offer), ARGUMENTS(AT(&reply), AT(&s), mostly(draw(flows), 32), mostly(1 + draw(bytes), 257)));
        else if (draw(8) > 0)
            make(DEPART, CALLED(hb_depart), ARGUMENTS(AT(&reply), AT(&s)));
        else
            make(BURST_OF_32, CALLED(hb_burst), ARGUMENTS(AT(&reply), AT(&s), mostly(BURST, BURST + 1), AT(list), sizeof list));
    }
}

static void site_calls(size_t calls)
{
    static union state s;
    static uint8_t store[HB_STORE_SIZE], packet[HB_PACKET_MAX + 1], outgoing[HB_OUTGOING_MIN];
    size_t flows = 1 + draw(HB_FLOWS), load = 32 + draw(64), bytes = 1 + draw(HB_PACKET_MAX);
    make(SITE_RESET, CALLED(hb_site_reset), ARGUMENTS(AT(&s)));
    for (size_t f = 0; f < flows; f++)
        make(SITE_OPEN, CALLED(hb_site_open), ARGUMENTS(AT(&reply), AT(&s), mostly(f, draw(40)), mostly(1 + draw(HB_WEIGHT_MAX), 17)));
    for (size_t n = 0; n < calls; n++) {
        size_t length = mostly(1 + draw(bytes), HB_PACKET_MAX + 1), store_length = mostly(sizeof store, 0);
        if (draw(128) < load)
            make(SITE_OFFER, CALLED(hb_site_offer),
                 ARGUMENTS(AT(&reply), AT(&s), mostly(draw(flows), 32), AT(packet), length, AT(store), store_length));
        else
            make(SITE_DEPART, CALLED(hb_site_depart),
                 ARGUMENTS(AT(&reply), AT(&s), AT(store), store_length, AT(outgoing), mostly(sizeof outgoing, 255)));
    }
}

int main(void)
{
    static _Alignas(16) unsigned char handler_stack[65536];
    stack_t other = {.ss_sp = handler_stack, .ss_size = sizeof handler_stack};
    struct sigaction trapped = {.sa_sigaction = step, .sa_flags = SA_SIGINFO | SA_ONSTACK};
    if (sigaltstack(&other, NULL) != 0 || sigaction(SIGTRAP, &trapped, NULL) != 0)
        return 2;
    around = watched(nothing, ARGUMENTS(0)).instructions - 1;

    for (size_t run = 0; run < 64; run++) {
        order_calls(96);
        site_calls(64);
    }
    for (size_t call = 0; call < CALLS; call++)
        printf("%s %zu %zu %zu %zu\n", seen[call].name, seen[call].made, seen[call].stack, median(&seen[call]), seen[call].largest);
    return 0;
}
