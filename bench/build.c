// Build in plain C: the rule by recursive descent into tokens, or its place; its states and depth counted, and the image laid out in the words lent.
#include "tree.h"

uint64_t baseline_build(const uint8_t *rule, size_t rule_len, uint64_t *image, size_t image_len);

enum { MOST_RULE = 1024 };

// With so many tokens there are more than MOST_STATES states, even if all brackets vanish. `+` copies no further then (copy_group).
enum { ENOUGH = MOST_RULE + MOST_STATES + 2 };

// A byte puts two tokens at most, and so does the whole rule; the last copy may double what was enough.
struct reader {
    const uint8_t *at, *end;
    size_t count;
    struct token tokens[2 * ENOUGH + 2 * (MOST_RULE + 1)];
};

// What a reader tells: of items one after another the least holds, of alternatives the largest.
enum read { WRONG, FULL, CAN_BE_EMPTY };

static int peek(const struct reader *reader) { return reader->at < reader->end ? *reader->at : -1; }

static int take(struct reader *reader, int byte) {
    if (peek(reader) != byte)
        return 0;
    reader->at++;
    return 1;
}

static struct token *put_token(struct reader *reader, enum kind kind) {
    struct token *token = &reader->tokens[reader->count++];
    token->kind = kind;
    return token;
}

static int hex_digit(int byte) {
    return byte >= '0' && byte <= '9' ? byte - '0' : byte >= 'A' && byte <= 'F' ? byte - 'A' + 10 : byte >= 'a' && byte <= 'f' ? byte - 'a' + 10 : -1;
}

// The byte that an escape stands for, at least `least`, after its `\`; -1 where none can come, and then the reader stays there. So too below.
static int read_escape(struct reader *reader, int least) {
    int byte = peek(reader), high, low;
    if (byte == '-' || is_sign(byte))
        return byte < least ? -1 : (reader->at++, byte);
    if (byte != 'x')
        return -1;
    reader->at++;
    if ((high = hex_digit(peek(reader))) < 0 || 16 * high + 15 < least)
        return -1;
    reader->at++;
    if ((low = hex_digit(peek(reader))) < 0 || 16 * high + low < least)
        return -1;
    reader->at++;
    return 16 * high + low;
}

static int read_single(struct reader *reader, int least) {
    int byte = peek(reader);
    if (byte == '\\')
        return reader->at++, read_escape(reader, least);
    if (byte == '-' || !is_plain(byte) || byte < least)
        return -1;
    reader->at++;
    return byte;
}

// A class, after its `[`.
static int read_class(struct reader *reader, uint64_t *class) {
    do {
        int low = read_single(reader, 0), high = low;
        if (low >= 0 && take(reader, '-'))
            high = read_single(reader, low);
        if (high < 0)
            return 0;
        for (int byte = low; byte <= high; byte++)
            set_bit(class, (size_t)byte);
    } while (!take(reader, ']'));
    return 1;
}

static int read_letter(struct reader *reader, uint64_t *class) {
    int byte = peek(reader);
    class[0] = class[1] = class[2] = class[3] = 0;
    if (byte == '[')
        return reader->at++, read_class(reader, class);
    if (byte == '.') {
        class[0] = class[1] = class[2] = class[3] = ~(uint64_t)0;
        clear_bit(class, 10);
        return reader->at++, 1;
    }
    if (byte == '\\')
        reader->at++, byte = read_escape(reader, 0);
    else if (is_plain(byte))
        reader->at++;
    else
        return 0;
    if (byte < 0)
        return 0;
    set_bit(class, (size_t)byte);
    return 1;
}

// A number of at least `least`. After a digit it can grow by as many nines as digits may follow, after `0` by none.
static int read_number(struct reader *reader, int least) {
    int number = 0, digits = 0;
    while (digits < 3 && (digits == 0 || number > 0) && peek(reader) >= '0' && peek(reader) <= '9') {
        int next = 10 * number + peek(reader) - '0', most = next == 0 || digits == 2 ? next : digits == 1 ? 10 * next + 9 : 100 * next + 99;
        if (most < least)
            return -1;
        number = next, digits++, reader->at++;
    }
    return digits == 0 || number < least ? -1 : number;
}

// `{x}`, `{x,y}` or `{,y}`, after its `{`.
static enum read read_bounds(struct reader *reader, struct token *token) {
    int low = 0, high;
    if (take(reader, ','))
        high = read_number(reader, 1);
    else {
        high = low = read_number(reader, 0);
        if (low >= 0 && take(reader, ','))
            high = read_number(reader, low > 1 ? low : 1);
    }
    if (low < 0 || high < 1 || !take(reader, '}'))
        return WRONG;
    token->options = (unsigned)(high - low), token->times = (unsigned)low;
    return low == 0 ? CAN_BE_EMPTY : FULL;
}

static enum read read_item(struct reader *reader) {
    struct token *token = put_token(reader, ONCE);
    token->options = 0, token->times = 1;
    if (!read_letter(reader, token->class))
        return WRONG;
    switch (peek(reader)) {
    case '?': token->kind = OPTION; break;
    case '*': token->kind = STAR; break;
    case '+': token->kind = PLUS; break;
    case '{': return reader->at++, read_bounds(reader, token);
    default: return FULL;
    }
    reader->at++;
    return token->kind == PLUS ? FULL : CAN_BE_EMPTY;
}

static enum read read_alternatives(struct reader *reader, int *several);

// The close of several alternatives; of a single one the brackets vanish.
static void put_close(struct reader *reader, size_t open, int several) {
    if (several)
        put_token(reader, CLOSE);
    else
        reader->tokens[open].kind = NOTHING;
}

// A union with `*` is its body's sole item: one more open before it.
static void put_body(struct reader *reader, size_t open) {
    put_token(reader, CLOSE);
    for (size_t i = reader->count++; i > open; i--)
        reader->tokens[i] = reader->tokens[i - 1];
}

// The group once more, with `*`. Each `+` round another doubles the tokens: with enough of them the answer is 3, however many are left out.
static void copy_group(struct reader *reader, size_t from) {
    size_t to = reader->count;
    if (to >= ENOUGH)
        return;
    put_token(reader, OPEN);
    for (size_t i = from; i < to; i++)
        if (reader->tokens[i].kind != NOTHING)
            reader->tokens[reader->count++] = reader->tokens[i];
    put_token(reader, CLOSE_STAR);
}

// A group with its sign, after its `(`. A `?` on what can be empty is dropped.
static enum read read_group(struct reader *reader) {
    size_t open = reader->count;
    int several;
    enum read read = read_alternatives(reader, &several);
    if (read == WRONG || !take(reader, ')'))
        return WRONG;
    switch (peek(reader)) {
    case '?':
        reader->at++;
        if (read == CAN_BE_EMPTY)
            return put_close(reader, open, several), read;
        put_token(reader, CLOSE_OPTION);
        return CAN_BE_EMPTY;
    case '*':
        reader->at++;
        if (several)
            put_body(reader, open);
        put_token(reader, CLOSE_STAR);
        return CAN_BE_EMPTY;
    case '+':
        reader->at++;
        put_close(reader, open, several);
        return copy_group(reader, open), read;
    default:
        return put_close(reader, open, several), read;
    }
}

static enum read read_sequence(struct reader *reader) {
    enum read all = CAN_BE_EMPTY;
    int next;
    do {
        enum read read = take(reader, '(') ? read_group(reader) : read_item(reader);
        if (read == WRONG)
            return WRONG;
        if (read < all)
            all = read;
        next = peek(reader);
    } while (next >= 0 && next != '|' && next != ')');
    return all;
}

// After their open; the close is left to the caller.
static enum read read_alternatives(struct reader *reader, int *several) {
    enum read any;
    put_token(reader, OPEN);
    any = read_sequence(reader);
    for (*several = 0; any != WRONG && take(reader, '|'); *several = 1) {
        put_token(reader, BAR);
        enum read read = read_sequence(reader);
        any = read == WRONG || read > any ? read : any;
    }
    return any;
}

uint64_t baseline_build(const uint8_t *rule, size_t rule_len, uint64_t *image, size_t image_len) {
    struct reader reader;
    size_t states, depth;
    int several;
    if (rule_len > MOST_RULE)
        return (uint64_t)1 << 32;
    reader.at = rule, reader.end = rule + rule_len, reader.count = 0;
    if (read_alternatives(&reader, &several) == WRONG || reader.at != reader.end)
        return ((uint64_t)2 << 32) + (uint64_t)(reader.at - rule);
    put_close(&reader, 0, several);
    measure(reader.tokens, reader.count, &states, &depth);
    if (states > MOST_STATES)
        return (uint64_t)3 << 32;
    if (depth > MOST_DEPTH)
        return (uint64_t)4 << 32;
    if (image_length(states, depth) > image_len)
        return (uint64_t)5 << 32;
    lay_out(reader.tokens, reader.count, states, depth, image);
    return image_length(states, depth);
}
