/* The plain C program of the bench: the replay and the bench's loops over scheduler.h (see README.md). */

#include <stdio.h>
#include <stdlib.h>

#include "scheduler.h"

/* ---- Replay ---- */

enum {
    MAX_INPUT = 65536,
    MAX_NUMBER = 65535,
};

struct output {
    size_t used;
    char text[1 << 16];
};

static void flush(struct output *out)
{
    fwrite(out->text, 1, out->used, stdout);
    out->used = 0;
}

static void put_text(struct output *out, const char *text)
{
    size_t length = strlen(text);
    if (sizeof out->text - out->used < length)
        flush(out);
    memcpy(out->text + out->used, text, length);
    out->used += length;
}

/* Puts "name=value", then a space or a line feed. */
static void put_field(struct output *out, const char *name, unsigned value, char end)
{
    char digits[16];
    char *first = digits + sizeof digits;
    *--first = '\0';
    *--first = end;
    do {
        *--first = (char)('0' + value % 10);
        value /= 10;
    } while (value > 0);
    put_text(out, name);
    put_text(out, first);
}

/* Moves *at past the text if it stands there. */
static bool take_text(const char **at, const char *end, const char *text)
{
    size_t length = strlen(text);
    if ((size_t)(end - *at) < length || memcmp(*at, text, length) != 0)
        return false;
    *at += length;
    return true;
}

static bool is_digit(char c)
{
    return c >= '0' && c <= '9';
}

/* 0 to 65,535 without leading zeros. */
static bool take_number(const char **at, const char *end, unsigned *number)
{
    const char *first = *at;
    unsigned value = 0;
    while (*at < end && is_digit(**at) && *at - first < 5)
        value = value * 10 + (unsigned)(*(*at)++ - '0');
    *number = value;
    return *at > first && value <= MAX_NUMBER && (*first != '0' || *at - first == 1);
}

struct replay {
    struct scheduler scheduler;
    unsigned departures;
    struct output out;
};

static void send(struct replay *r, unsigned count)
{
    struct departure d;
    while (count-- > 0) {
        if (!depart(&r->scheduler, &d)) {
            put_field(&r->out, "idle=", r->departures, '\n');
            return;
        }
        put_field(&r->out, "sent=", ++r->departures, ' ');
        put_field(&r->out, "flow=", d.flow, ' ');
        put_field(&r->out, "size=", d.size, ' ');
        put_field(&r->out, "mark=", d.mark, ' ');
        put_field(&r->out, "allow=", d.allowance, '\n');
    }
}

/* Runs the line at *at and moves past it; false if it is no event. */
static bool run_line(struct replay *r, const char **at, const char *end, unsigned line)
{
    enum refusal refusal = ACCEPTED;
    unsigned first, second, slot;
    if (take_text(at, end, "flow=")) {
        if (!take_number(at, end, &first) || !take_text(at, end, " weight=") ||
            !take_number(at, end, &second) || !take_text(at, end, "\n"))
            return false;
        refusal = open_flow(&r->scheduler, first, second);
    } else if (take_text(at, end, "arrive=")) {
        if (!take_number(at, end, &first) || !take_text(at, end, " size=") ||
            !take_number(at, end, &second) || !take_text(at, end, "\n"))
            return false;
        refusal = offer(&r->scheduler, first, second, &slot);
    } else {
        if (!take_text(at, end, "send=") || !take_number(at, end, &first) ||
            !take_text(at, end, "\n"))
            return false;
        send(r, first);
    }
    if (refusal != ACCEPTED) {
        put_field(&r->out, "refused=", refusal, ' ');
        put_field(&r->out, "line=", line, '\n');
    }
    return true;
}

static void replay(void)
{
    static char input[MAX_INPUT + 1];
    static struct replay r;
    size_t length = fread(input, 1, sizeof input, stdin);
    reset(&r.scheduler);
    if (length > MAX_INPUT) {
        put_field(&r.out, "bad=", 0, '\n');
    } else {
        const char *at = input;
        const char *end = input + length;
        for (unsigned line = 1; at < end; line++) {
            if (!run_line(&r, &at, end, line)) {
                put_field(&r.out, "bad=", line, '\n');
                break;
            }
        }
    }
    flush(&r.out);
}

/* ---- The bench's loops ---- */

static uint32_t checksum;

static void fold(uint32_t value)
{
    checksum = (checksum * 31 + value) % 1000003;
}

static void fold_departure(const struct departure *d)
{
    fold(d->flow);
    fold(d->size);
    fold(d->mark);
    fold(d->allowance);
}

enum { IDLE = 7777 };

static unsigned mixed_size(uint64_t number)
{
    return (unsigned)(1 + number * 37 % 256);
}

static void open_flows(struct scheduler *s, unsigned flows)
{
    reset(s);
    for (unsigned f = 0; f < flows; f++)
        open_flow(s, f, 1 + f % 4);
}

/* One offer and one departure, over and over. */
static void pairs(unsigned flows, uint64_t n)
{
    unsigned slot;
    struct scheduler s;
    struct departure d;
    open_flows(&s, flows);
    for (unsigned f = 0; f < flows; f++) {
        offer(&s, f, mixed_size(f), &slot);
        offer(&s, f, mixed_size(f), &slot);
    }
    for (uint64_t i = 0; i < n; i++) {
        fold(offer(&s, i % flows, mixed_size(i), &slot));
        if (depart(&s, &d))
            fold_departure(&d);
        else
            fold(IDLE);
    }
}

/* Fills every queue, then sends 100 packets in one burst. */
static void bursts(uint64_t n)
{
    unsigned slot;
    struct scheduler s;
    uint8_t list[100] = {0};
    uint64_t offers = 0;
    open_flows(&s, FLOWS);
    for (uint64_t i = 0; i < n; i++) {
        for (unsigned f = 0; f < FLOWS; f++)
            while (offer(&s, f, mixed_size(offers++), &slot) == ACCEPTED)
                ;
        size_t made = 0;
        burst(&s, sizeof list, list, sizeof list, &made);
        fold((uint32_t)made);
        for (size_t place = 0; place < sizeof list; place++)
            fold(list[place]);
    }
}

/* A burst of 100 from one full state, over and over: works on a copy, so that the state is kept. */
static void again(uint64_t n)
{
    unsigned slot;
    struct scheduler full;
    uint8_t list[100] = {0};
    open_flows(&full, FLOWS);
    for (unsigned k = 0; k < FLOWS * QUEUE; k++)
        offer(&full, k / QUEUE, mixed_size(k), &slot);
    for (uint64_t i = 0; i < n; i++) {
        struct scheduler s = full;
        size_t made = 0;
        burst(&s, sizeof list, list, sizeof list, &made);
        fold((uint32_t)made);
        fold(list[sizeof list - 1]);
    }
}

/* One packet into the store and one out of it, over and over. */
static void store_pairs(size_t length, uint64_t n)
{
    unsigned slot;
    static uint8_t store[STORE];
    struct scheduler s;
    struct departure d;
    bool departed;
    uint8_t outgoing[OUTGOING] = {0};
    uint8_t packet[MAX_SIZE];
    reset(&s);
    for (unsigned f = 0; f < 4; f++)
        open_flow(&s, f, 1);
    for (size_t j = 0; j < length; j++)
        packet[j] = (uint8_t)(j * 7);
    for (uint64_t i = 0; i < n; i++) {
        packet[0] = (uint8_t)i;
        packet[length - 1] = (uint8_t)(i + 1);
        fold(store_offer(&s, store, sizeof store, i % 4, packet, length, &slot));
        store_depart(&s, store, sizeof store, outgoing, sizeof outgoing, &d, &departed);
        if (departed) {
            fold_departure(&d);
            fold(outgoing[0]);
            fold(outgoing[d.size - 1]);
        } else {
            fold(IDLE);
        }
    }
}

/* A hundred departures from one full state, one call each, over and over: works on a copy, so that the state is kept. */
static void departs(uint64_t n)
{
    unsigned slot;
    struct scheduler full;
    struct departure d;
    open_flows(&full, FLOWS);
    for (unsigned k = 0; k < FLOWS * QUEUE; k++)
        offer(&full, k / QUEUE, MAX_SIZE, &slot);
    for (uint64_t i = 0; i < n; i++) {
        struct scheduler s = full;
        for (unsigned made = 0; made < 100; made++) {
            if (depart(&s, &d))
                fold_departure(&d);
            else
                fold(IDLE);
        }
    }
}

/* The same with the packets' bytes. */
static void store_departs(uint64_t n)
{
    unsigned slot;
    static uint8_t store[STORE];
    struct scheduler full;
    struct departure d;
    bool departed;
    uint8_t outgoing[OUTGOING] = {0};
    uint8_t packet[MAX_SIZE];
    open_flows(&full, FLOWS);
    for (unsigned k = 0; k < FLOWS * QUEUE; k++) {
        memset(packet, (int)k, sizeof packet);
        store_offer(&full, store, sizeof store, k / QUEUE, packet, sizeof packet, &slot);
    }
    for (uint64_t i = 0; i < n; i++) {
        struct scheduler s = full;
        for (unsigned made = 0; made < 100; made++) {
            store_depart(&s, store, sizeof store, outgoing, sizeof outgoing, &d, &departed);
            if (departed)
                fold_departure(&d);
            else
                fold(IDLE);
        }
        fold(outgoing[0]);
        fold(outgoing[OUTGOING - 1]);
    }
}

/* ---- Command line ---- */

static int usage(void)
{
    fputs("usage: plain pairs FLOWS N   FLOWS from 1 to 32\n"
          "       plain burst N\n"
          "       plain again N\n"
          "       plain store LEN N     LEN from 1 to 256\n"
          "       plain departs N\n"
          "       plain store_departs N\n"
          "       plain replay\n",
          stderr);
    return 2;
}

static bool number_in(const char *word, uint64_t low, uint64_t high, uint64_t *number)
{
    char *end;
    *number = strtoull(word, &end, 10);
    return *word != '\0' && *end == '\0' && *number >= low && *number <= high;
}

/* The modes that are built. -DMODES=MODE_STORE, say, builds a program with that mode alone. */
enum {
    MODE_PAIRS = 1,
    MODE_BURST = 2,
    MODE_AGAIN = 4,
    MODE_STORE = 8,
    MODE_REPLAY = 16,
    MODE_DEPARTS = 32,
    MODE_STORE_DEPARTS = 64,
};

#ifndef MODES
#define MODES (MODE_PAIRS | MODE_BURST | MODE_AGAIN | MODE_STORE | MODE_REPLAY | MODE_DEPARTS | MODE_STORE_DEPARTS)
#endif

int main(int argc, char **argv)
{
    const char *mode = argc > 1 ? argv[1] : "";
    uint64_t first, n;
    if ((MODES & MODE_REPLAY) && argc == 2 && strcmp(mode, "replay") == 0) {
        replay();
        return 0;
    }
    if ((MODES & MODE_PAIRS) && argc == 4 && strcmp(mode, "pairs") == 0 &&
        number_in(argv[2], 1, FLOWS, &first) && number_in(argv[3], 0, INT64_MAX, &n))
        pairs((unsigned)first, n);
    else if ((MODES & MODE_BURST) && argc == 3 && strcmp(mode, "burst") == 0 &&
             number_in(argv[2], 0, INT64_MAX, &n))
        bursts(n);
    else if ((MODES & MODE_AGAIN) && argc == 3 && strcmp(mode, "again") == 0 &&
             number_in(argv[2], 0, INT64_MAX, &n))
        again(n);
    else if ((MODES & MODE_STORE) && argc == 4 && strcmp(mode, "store") == 0 &&
             number_in(argv[2], 1, MAX_SIZE, &first) && number_in(argv[3], 0, INT64_MAX, &n))
        store_pairs((size_t)first, n);
    else if ((MODES & MODE_DEPARTS) && argc == 3 && strcmp(mode, "departs") == 0 &&
             number_in(argv[2], 0, INT64_MAX, &n))
        departs(n);
    else if ((MODES & MODE_STORE_DEPARTS) && argc == 3 && strcmp(mode, "store_departs") == 0 &&
             number_in(argv[2], 0, INT64_MAX, &n))
        store_departs(n);
    else
        return usage();
    printf("%u\n", checksum);
    return 0;
}
