// The library `panel` for outside programs. A line on standard input is a call, a line on standard output its answer:
//
//     build RULE ROOM                       lavumbishe_build with ROOM lent words
//     readback IMAGE ROOM                   lavumbishe_read_back with ROOM lent bytes
//     match IMAGE TEXT ROOM                 lavumbishe_match with ROOM lent ends
//     begin IMAGE MASK PLACE ROOM           lavumbishe_begin with ROOM lent ends; the mask and the place that are lent hold these words
//     step IMAGE MASK PLACE STRETCH ROOM    lavumbishe_step likewise
//     check IMAGE TEXT START END STATES     lavumbishe_check_spelling
//     propose IMAGE TEXT END ROOM           lavumbishe_propose_spelling with ROOM lent states
//     stack CALL                            one of these calls; answers how many bytes of stack it went down
//     spoil given AREA PLACE CALL           not the call: changes, in the area of that number, what is given to be read
//     spoil lent AREA PLACE CALL            likewise what is lent at PLACE, or just outside (-1, ROOM); both so that a check can be seen to fail
//
// RULE, IMAGE, TEXT, STRETCH, MASK, PLACE and STATES are values in hex between commas, `-` for none; N*V is N times the value V. START and END are one
// value each. A call is answered by NUMBER COUNT (the result's low half: with number 2 the place of the rule) and, for each area lent, LENT: all of it as
// it is after the call, in the same form, `=` for an element of the pattern. Before the call those of ROOM hold the pattern, and so do the elements on
// both sides of every area lent: element i is the highest bytes of (i + 1) * PATTERN, its highest bit set (which no end of a match has, no state, and no
// byte of a plain writing). If one on the sides has changed, the answer is `outside lent`, the area and the place; if what was given to be read has,
// `outside given` and the area.
#include "lavumbishe.h"
#include <string.h>
#include <unistd.h>

#define PATTERN 0x9e3779b97f4a7c15u
#define MOST_GIVEN (1l << 19)
#define MOST_LENT (1l << 19)
#define GUARD 128l

// ---- areas of elements of 1, 4 or 8 bytes
struct area {
    uint64_t *at;
    long size, length;
};

static void *place_of(struct area area, long place) { return (char *)area.at + area.size * place; }

// One element, by copies of constant length.
static uint64_t get(struct area area, long place) {
    uint8_t byte;
    uint32_t end;
    uint64_t word;
    if (area.size == 1)
        return memcpy(&byte, place_of(area, place), 1), byte;
    if (area.size == 4)
        return memcpy(&end, place_of(area, place), 4), end;
    return memcpy(&word, place_of(area, place), 8), word;
}

static void set(struct area area, long place, uint64_t word) {
    uint8_t byte = (uint8_t)word;
    uint32_t end = (uint32_t)word;
    if (area.size == 1)
        memcpy(place_of(area, place), &byte, 1);
    else if (area.size == 4)
        memcpy(place_of(area, place), &end, 4);
    else
        memcpy(place_of(area, place), &word, 8);
}

// ---- lines in and out
static char line[1 << 20], input[65536], output[65536];
static long input_at, input_length, output_length;

static int next_byte(void) {
    if (input_at == input_length) {
        input_at = 0, input_length = read(0, input, sizeof input);
        if (input_length <= 0)
            return -1;
    }
    return (unsigned char)input[input_at++];
}

// A line without its last byte 10, closed by a byte 0; whether there was one.
static int next_line(void) {
    size_t length = 0;
    int byte;
    while ((byte = next_byte()) >= 0 && byte != '\n')
        if (length + 1 < sizeof line)
            line[length++] = (char)byte;
    line[length] = 0;
    return byte == '\n';
}

static void flush(void) {
    for (long at = 0, put; at < output_length; at += put)
        if ((put = write(1, output + at, (size_t)(output_length - at))) <= 0)
            break;
    output_length = 0;
}

static void put(char c) {
    if (output_length == sizeof output)
        flush();
    output[output_length++] = c;
}

static void put_text(const char *text) {
    while (*text)
        put(*text++);
}

static void put_number(uint64_t n, unsigned base) {
    char digits[24];
    int count = 0;
    do
        digits[count++] = "0123456789abcdef"[n % base];
    while (n /= base);
    while (count)
        put(digits[--count]);
}

// ---- the fields of a line
static const char *at;

static int take(const char *name) {
    size_t length = strlen(name);
    if (strncmp(at, name, length) != 0 || at[length] != ' ')
        return 0;
    at += length + 1;
    return 1;
}

static int digit(char c) { return c >= '0' && c <= '9' ? c - '0' : c >= 'a' && c <= 'f' ? c - 'a' + 10 : 16; }

static uint64_t take_digits(int base) {
    uint64_t n = 0;
    for (; digit(*at) < base; at++)
        n = n * (uint64_t)base + (uint64_t)digit(*at);
    return n;
}

static long take_number(void) {
    long sign = *at == '-' ? -1 : 1;
    at += *at == '-';
    long n = sign * (long)take_digits(10);
    at += *at == ' ';
    return n;
}

// How often the value that comes next stands there: N before a `*`, or once.
static long take_times(void) {
    const char *start = at;
    long times = (long)take_digits(10);
    if (*at == '*')
        return at++, times;
    at = start;
    return 1;
}

// A list of values, as many as there is room for.
static void take_values(struct area *area, long most) {
    at += *at == '-';
    while (*at && *at != ' ') {
        long times = take_times();
        uint64_t value = take_digits(16);
        while (times-- > 0 && area->length < most)
            set(*area, area->length++, value);
        if (*at != ',')
            break;
        at++;
    }
    at += *at == ' ';
}

// ---- what is given to be read, and copies to compare it with; places are given by value
static uint64_t given_at[3][MOST_GIVEN / 8], copy_at[3][MOST_GIVEN / 8], places[2];
static struct area given[3];
static int givens, place_count;

static void take_given(long size) {
    struct area *area = &given[givens];
    *area = (struct area){given_at[givens], size, 0};
    take_values(area, MOST_GIVEN / size);
    memcpy(copy_at[givens++], area->at, (size_t)(size * area->length));
}

static void take_place(void) {
    places[place_count++] = take_digits(16);
    at += *at == ' ';
}

// ---- what is lent: in the pattern, or with values
static uint64_t lent_at[3][2 * GUARD + MOST_LENT / 8];
static struct area lent[3];
static int lents;

static uint64_t pattern(struct area area, long place) {
    long bits = 8 * area.size;
    return ((uint64_t)place + 1) * PATTERN >> (64 - bits) | (uint64_t)1 << (bits - 1);
}

static void put_pattern(struct area area, long from, long to) {
    for (long i = from; i < to; i++)
        set(area, i, pattern(area, i));
}

static void take_lent(long size, int with_values) {
    struct area *area = &lent[lents];
    long most = MOST_LENT / size;
    *area = (struct area){lent_at[lents++] + GUARD, size, 0};
    if (with_values) {
        take_values(area, most);
    } else {
        long room = take_number();
        area->length = room < 0 ? 0 : room > most ? most : room;
        put_pattern(*area, 0, area->length);
    }
    put_pattern(*area, -GUARD, 0);
    put_pattern(*area, area->length, area->length + GUARD);
}

// ---- answers
static void put_signed(long n) {
    if (n < 0)
        put('-');
    put_number((uint64_t)(n < 0 ? -n : n), 10);
}

static void put_outside(const char *what, int which) {
    put_text("outside ");
    put_text(what);
    put_number((uint64_t)which, 10);
}

static int changed_outside(void) {
    for (int which = 0; which < givens; which++)
        if (memcmp(given_at[which], copy_at[which], (size_t)(given[which].size * given[which].length)) != 0) {
            put_outside("given ", which);
            return 1;
        }
    for (int which = 0; which < lents; which++)
        for (long i = -GUARD, length = lent[which].length; i < length + GUARD; i = i == -1 ? length : i + 1)
            if (get(lent[which], i) != pattern(lent[which], i)) {
                put_outside("lent ", which);
                put(' ');
                put_signed(i);
                return 1;
            }
    return 0;
}

static void show_area(struct area area) {
    if (area.length == 0)
        put('-');
    for (long i = 0, end; i < area.length; i = end) {
        int kept = get(area, i) == pattern(area, i);
        for (end = i + 1; end < area.length && get(area, end) == (kept ? pattern(area, end) : get(area, i)); end++)
            ;
        if (i)
            put(',');
        if (end - i > 1)
            put_number((uint64_t)(end - i), 10), put('*');
        if (kept)
            put('=');
        else
            put_number(get(area, i), 16);
    }
}

static void show(uint64_t result) {
    if (changed_outside())
        return;
    put_number(lavumbishe_number(result), 10);
    put(' ');
    // the low half as it is, whatever the number: lavumbishe_count would show 0 after a refusal
    put_number(result & 0xffffffffu, 10);
    for (int which = 0; which < lents; which++)
        put(' '), show_area(lent[which]);
}

// ---- the stack below the caller, filled before a call and looked at after it
#define STACK (2ul << 20)

static __attribute__((noinline)) unsigned long stack_below(int fill) {
    volatile unsigned char below[STACK];
    unsigned long kept = 0;
    for (unsigned long i = 0; fill && i < STACK; i++)
        below[i] = 0xa7;
    while (!fill && kept < STACK && below[kept] == 0xa7)
        kept++;
    return STACK - kept;
}

// ---- the operations on the areas of a line
static size_t length(struct area area) { return (size_t)area.length; }

static uint64_t build(void) { return lavumbishe_build((uint8_t *)given[0].at, length(given[0]), lent[0].at, length(lent[0])); }

static uint64_t read_back(void) { return lavumbishe_read_back(given[0].at, length(given[0]), (uint8_t *)lent[0].at, length(lent[0])); }

static uint64_t match(void) {
    return lavumbishe_match(given[0].at, length(given[0]), (uint8_t *)given[1].at, length(given[1]), (uint32_t *)lent[0].at, length(lent[0]));
}

static uint64_t begin(void) {
    return lavumbishe_begin(given[0].at, length(given[0]), lent[0].at, length(lent[0]), lent[1].at, (uint32_t *)lent[2].at, length(lent[2]));
}

static uint64_t step(void) {
    return lavumbishe_step(given[0].at, length(given[0]), lent[0].at, length(lent[0]), lent[1].at, (uint8_t *)given[1].at, length(given[1]),
                           (uint32_t *)lent[2].at, length(lent[2]));
}

static uint64_t check(void) {
    return lavumbishe_check_spelling(given[0].at, length(given[0]), (uint8_t *)given[1].at, length(given[1]), places[0], places[1],
                                     (uint32_t *)given[2].at, length(given[2]));
}

static uint64_t propose(void) {
    return lavumbishe_propose_spelling(given[0].at, length(given[0]), (uint8_t *)given[1].at, length(given[1]), places[0], (uint32_t *)lent[0].at,
                                       length(lent[0]));
}

// An operation's name and its fields in their order: b, w and s bytes, words and states to be read; p a place; B, W and E bytes, words and ends or
// states lent in the pattern, V words lent with values.
static const struct operation {
    const char *name, *fields;
    uint64_t (*call)(void);
} operations[] = {{"build", "bW", build},   {"readback", "wB", read_back}, {"match", "wbE", match},      {"begin", "wVVE", begin},
                  {"step", "wVVbE", step}, {"check", "wbpps", check},     {"propose", "wbpE", propose}};

static void take_field(char kind) {
    long size = kind == 'b' || kind == 'B' ? 1 : kind == 's' || kind == 'E' ? 4 : 8;
    if (kind == 'p')
        take_place();
    else if (kind == 'b' || kind == 'w' || kind == 's')
        take_given(size);
    else
        take_lent(size, kind == 'V');
}

static const struct operation *take_call(void) {
    givens = lents = place_count = 0;
    for (size_t i = 0; i < sizeof operations / sizeof operations[0]; i++)
        if (take(operations[i].name)) {
            for (const char *kind = operations[i].fields; *kind; kind++)
                take_field(*kind);
            return &operations[i];
        }
    put_text("unknown");
    return 0;
}

// ---- lines
static void call(void) {
    const struct operation *of = take_call();
    if (of)
        show(of->call());
}

static void measure(void) {
    const struct operation *of = take_call();
    if (!of)
        return;
    stack_below(1);
    of->call();
    put_number(stack_below(0), 10);
}

static void spoil(void) {
    const struct area *areas = take("lent") ? lent : (take("given"), given);
    long which = take_number(), place = take_number();
    if (!take_call())
        return;
    set(areas[which], place, get(areas[which], place) + 1);
    show(0);
}

int main(void) {
    while (next_line()) {
        at = line;
        if (take("stack"))
            measure();
        else if (take("spoil"))
            spoil();
        else
            call();
        put('\n');
        flush();
    }
    return 0;
}
