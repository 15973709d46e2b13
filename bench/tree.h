// A tree as its tokens, and its image laid out: what build.c and readback.c share. Plain C, to measure the proved library against.
#ifndef TREE_H
#define TREE_H

#include <stddef.h>
#include <stdint.h>
#include <string.h>

enum { MOST_STATES = 512, MOST_DEPTH = 8, MOST_WORDS = 4834 };

// The close of a group that keeps its `?` or its `*` is a kind of its own.
enum kind { ONCE, OPTION, STAR, PLUS, OPEN, BAR, CLOSE, CLOSE_OPTION, CLOSE_STAR, NOTHING };

// A letter is its class, so many times with `?` and then so many times with the sign of its kind.
struct token {
    enum kind kind;
    unsigned options, times;
    uint64_t class[4];
};

static inline int letter_can_be_empty(const struct token *token) { return token->times == 0 || token->kind == OPTION || token->kind == STAR; }

static inline void set_bit(uint64_t *words, size_t i) { words[i / 64] |= (uint64_t)1 << (i % 64); }

static inline void clear_bit(uint64_t *words, size_t i) { words[i / 64] &= ~((uint64_t)1 << (i % 64)); }

static inline int has_bit(const uint64_t *words, size_t i) { return words[i / 64] >> (i % 64) & 1; }

// The first bit from `from` on that is set, or `to`: looked for bit by bit, or, with SPARING, by whole words.
static inline size_t next_bit(const uint64_t *words, size_t from, size_t to) {
#ifdef SPARING
    while (from < to) {
        uint64_t rest = words[from / 64] >> (from % 64);
        if (rest)
            return from + (size_t)__builtin_ctzll(rest);
        from += 64 - from % 64;
    }
    return to;
#else
    while (from < to && !has_bit(words, from))
        from++;
    return from;
#endif
}

static inline size_t image_length(size_t states, size_t depth) { return 10 + (states + 63) / 64 * (515 + 11 * depth); }

// An open group: whether it has several alternatives, and whether one before the one at hand and what stands before the group can be empty.
struct group {
    unsigned char several, empty_before, empty_outside;
};

// How many states and how deep; whether the tokens are a tree's at all: no alternative is without an item, a group without a sign has several, and
// one with `*` a single body. A `?` on a group that can be empty without it is taken off. No rule and no image nests as deep as there is room here.
static inline int measure(struct token *tokens, size_t count, size_t *states, size_t *depth) {
    struct group groups[MOST_STATES], *group;
    size_t open = 0;
    int bare = 1, empty = 1;
    *states = 1, *depth = 0;
    for (struct token *token = tokens; token < tokens + count; token++) {
        switch (token->kind) {
        case NOTHING:
            continue;
        case OPEN:
            groups[open++] = (struct group){0, 0, (unsigned char)empty};
            if (open > *depth)
                *depth = open;
            *states += 1, bare = empty = 1;
            break;
        case BAR:
            if (open == 0 || bare)
                return 0;
            group = &groups[open - 1];
            group->several = 1, group->empty_before |= empty;
            *states += 1, bare = empty = 1;
            break;
        case CLOSE:
        case CLOSE_OPTION:
        case CLOSE_STAR:
            if (open == 0 || bare)
                return 0;
            group = &groups[--open];
            group->empty_before |= empty;
            if (token->kind == CLOSE_OPTION && group->empty_before)
                token->kind = CLOSE;
            if ((token->kind == CLOSE && !group->several) || (token->kind == CLOSE_STAR && group->several))
                return 0;
            *states += 1, bare = 0;
            empty = group->empty_outside && (group->empty_before || token->kind != CLOSE);
            break;
        default:
            *states += token->options + token->times, bare = 0;
            empty = empty && letter_can_be_empty(token);
        }
    }
    return open == 0 && !bare;
}

// An image's masks where they lie in its words.
struct masks {
    size_t width, depth;
    uint64_t *letters, *repeats, *scatter, *gather, *propagate, *back;
};

static inline struct masks masks_of(uint64_t *words, size_t width, size_t depth) {
    struct masks masks = {width, depth, words + 5, 0, 0, 0, 0, 0};
    masks.repeats = masks.letters + 256 * width + 1;
    masks.scatter = masks.repeats + 256 * width + 1;
    masks.gather = masks.scatter + 3 * width * depth + 1;
    masks.propagate = masks.gather + 3 * width * depth + 1;
    masks.back = masks.propagate + 3 * width * (depth + 1) + 1;
    return masks;
}

enum { BLOCK, SOURCE, TARGET };

static inline uint64_t *three(const struct masks *masks, uint64_t *section, size_t depth, int which) {
    return section + (3 * depth + (size_t)which) * masks->width;
}

// Back edges have no block.
static inline uint64_t *back_edges(const struct masks *masks, size_t depth, int which) {
    return masks->back + (2 * depth + (size_t)which - SOURCE) * masks->width;
}

// A propagate edge makes the chain that ends where it starts longer, or begins one.
static inline void lay_edge(const struct masks *masks, size_t depth, size_t from, size_t to) {
    uint64_t *source = three(masks, masks->propagate, depth, SOURCE), *target = three(masks, masks->propagate, depth, TARGET);
    uint64_t *block = three(masks, masks->propagate, depth, BLOCK);
    if (has_bit(target, from))
        clear_bit(target, from);
    else
        set_bit(source, from);
    set_bit(target, to);
    set_bit(block, from);
    set_bit(block, to);
}

static inline void lay_letter(const struct masks *masks, const uint64_t *class, enum kind kind, size_t depth, size_t state) {
    for (size_t b = next_bit(class, 0, 256); b < 256; b = next_bit(class, b + 1, 256)) {
        set_bit(masks->letters + masks->width * b, state + 1);
        if (kind == STAR || kind == PLUS)
            set_bit(masks->repeats + masks->width * b, state + 1);
    }
    if (kind == OPTION || kind == STAR)
        lay_edge(masks, depth, state, state + 1);
}

// An open union: its start, its first alternative's end or 0, the start of the alternative at hand, and whether an alternative before that one and
// what stands before the union can be empty. A repeated group is a union around its body.
struct frame {
    size_t start, first_end, alternative;
    int empty_before, empty_outside;
};

// The end of an alternative.
static inline void lay_end(const struct masks *masks, struct frame *frame, size_t depth, size_t state, int empty) {
    set_bit(three(masks, masks->gather, depth, SOURCE), state);
    if (!frame->first_end)
        frame->first_end = state;
    frame->empty_before |= empty;
}

static inline void lay_close(const struct masks *masks, const struct frame *frame, enum kind kind, size_t depth, size_t state) {
    uint64_t *block = three(masks, masks->gather, depth, BLOCK);
    for (size_t i = frame->first_end; i <= state; i++)
        set_bit(block, i);
    set_bit(three(masks, masks->gather, depth, TARGET), state + 1);
    set_bit(three(masks, masks->scatter, depth, BLOCK), frame->alternative + 1);
    set_bit(three(masks, masks->scatter, depth, SOURCE), frame->start);
    if (frame->empty_before || kind != CLOSE)
        lay_edge(masks, depth, frame->start, state + 1);
    if (kind == CLOSE_STAR) {
        set_bit(back_edges(masks, depth, SOURCE), state);
        set_bit(back_edges(masks, depth, TARGET), frame->alternative);
    }
}

// The image of a tree with so many states and that depth, within the limits.
static inline void lay_out(const struct token *tokens, size_t count, size_t states, size_t depth, uint64_t *words) {
    size_t width = (states + 63) / 64, state = 0, open = 0;
    struct masks masks = masks_of(words, width, depth);
    struct frame frames[MOST_DEPTH];
    int empty = 1;
    memset(words, 0, image_length(states, depth) * sizeof *words);
    words[0] = 3, words[1] = states, words[2] = width, words[3] = depth;
    masks.letters[-1] = masks.repeats[-1] = 256 * width;
    masks.scatter[-1] = masks.gather[-1] = 3 * width * depth;
    masks.propagate[-1] = 3 * width * (depth + 1);
    masks.back[-1] = 2 * width * depth;
    for (const struct token *token = tokens; token < tokens + count; token++) {
        switch (token->kind) {
        case NOTHING:
            break;
        case OPEN:
            frames[open] = (struct frame){state, 0, state + 1, 0, empty};
            set_bit(three(&masks, masks.scatter, open, TARGET), ++state);
            open++, empty = 1;
            break;
        case BAR:
            lay_end(&masks, &frames[open - 1], open - 1, state, empty);
            set_bit(three(&masks, masks.scatter, open - 1, TARGET), ++state);
            frames[open - 1].alternative = state, empty = 1;
            break;
        case CLOSE:
        case CLOSE_OPTION:
        case CLOSE_STAR:
            open--;
            lay_end(&masks, &frames[open], open, state, empty);
            lay_close(&masks, &frames[open], token->kind, open, state++);
            empty = frames[open].empty_outside && (frames[open].empty_before || token->kind != CLOSE);
            break;
        default:
            for (unsigned i = 0; i < token->options; i++)
                lay_letter(&masks, token->class, OPTION, open, state++);
            for (unsigned i = 0; i < token->times; i++)
                lay_letter(&masks, token->class, token->kind, open, state++);
            empty = empty && letter_can_be_empty(token);
        }
    }
}

// The twelve signs.
static inline int is_sign(int byte) {
    switch (byte) {
    case '\\': case '|': case '(': case ')': case '[': case ']': case '{': case '}': case '?': case '*': case '+': case '.':
        return 1;
    default:
        return 0;
    }
}

static inline int is_plain(int byte) { return byte >= 33 && byte <= 126 && !is_sign(byte); }

#endif
