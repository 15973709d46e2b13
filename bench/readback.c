// Read back in plain C: the words taken apart into tokens, laid out again and compared, and the tokens written plainly.
#include "tree.h"

uint64_t baseline_read_back(const uint64_t *image, size_t image_len, uint8_t *writing, size_t writing_len);

// Whether the shape and the counts are those of an image of this length.
static int read_shape(const uint64_t *image, size_t length) {
    if (length < 4 || image[0] != 3 || image[1] < 2 || image[1] > MOST_STATES || image[2] != (image[1] + 63) / 64 || image[3] > MOST_DEPTH)
        return 0;
    return length == image_length((size_t)image[1], (size_t)image[3]);
}

// What the masks of any byte or depth have together: loops, states that a propagate edge enters, union starts and ends, ends of repeated bodies.
struct marks {
    uint64_t loops[8], entered[8], starts[8], ends[8], backs[8];
};

static void read_marks(const struct masks *masks, struct marks *marks) {
    size_t width = masks->width;
    memset(marks, 0, sizeof *marks);
    for (size_t i = 0; i < width; i++) {
        for (size_t b = 0; b < 256; b++)
            marks->loops[i] |= masks->repeats[width * b + i];
        for (size_t k = 0; k <= masks->depth; k++)
            marks->entered[i] |= three(masks, masks->propagate, k, BLOCK)[i] & ~three(masks, masks->propagate, k, SOURCE)[i];
        for (size_t k = 0; k < masks->depth; k++) {
            marks->starts[i] |= three(masks, masks->scatter, k, SOURCE)[i];
            marks->ends[i] |= three(masks, masks->gather, k, TARGET)[i];
            marks->backs[i] |= back_edges(masks, k, SOURCE)[i];
        }
    }
}

static enum kind kind_of(const struct marks *marks, const struct token *token, size_t state) {
    if (token->class[0] | token->class[1] | token->class[2] | token->class[3]) {
        if (has_bit(marks->loops, state))
            return has_bit(marks->entered, state) ? STAR : PLUS;
        return has_bit(marks->entered, state) ? OPTION : ONCE;
    }
    if (has_bit(marks->ends, state))
        return has_bit(marks->backs, state - 1) ? CLOSE_STAR : has_bit(marks->entered, state) ? CLOSE_OPTION : CLOSE;
    return has_bit(marks->starts, state - 1) ? OPEN : BAR;
}

// The token before each state but the first. Bits that no state has are left to the comparison.
static void take_apart(const struct masks *masks, size_t states, struct token *tokens) {
    struct marks marks;
    for (size_t i = 0; i + 1 < states; i++)
        tokens[i] = (struct token){ONCE, 0, 1, {0}};
    for (size_t b = 0; b < 256; b++) {
        const uint64_t *letters = masks->letters + masks->width * b;
        for (size_t state = next_bit(letters, 1, states); state < states; state = next_bit(letters, state + 1, states))
            set_bit(tokens[state - 1].class, b);
    }
    read_marks(masks, &marks);
    for (size_t i = 0; i + 1 < states; i++)
        tokens[i].kind = kind_of(&marks, &tokens[i], i + 1);
}

// Whether the words are the image of a tree, and the tokens of that tree.
static int check(const uint64_t *image, size_t length, struct token *tokens) {
    uint64_t again[MOST_WORDS];
    size_t states, depth;
    if (!read_shape(image, length))
        return 0;
    struct masks masks = masks_of((uint64_t *)image, (size_t)image[2], (size_t)image[3]);
    take_apart(&masks, (size_t)image[1], tokens);
    if (!measure(tokens, (size_t)image[1] - 1, &states, &depth) || depth != masks.depth)
        return 0;
    lay_out(tokens, states - 1, states, depth, again);
    return memcmp(image, again, length * sizeof *image) == 0;
}

// Writes where there are bytes, and counts in any case.
struct writer {
    uint8_t *out;
    size_t length;
};

static void put_byte(struct writer *writer, int byte) {
    if (writer->out)
        writer->out[writer->length] = (uint8_t)byte;
    writer->length++;
}

static void write_byte(struct writer *writer, size_t byte) {
    if (byte != '-' && is_plain((int)byte)) {
        put_byte(writer, (int)byte);
        return;
    }
    put_byte(writer, '\\');
    if (byte == '-' || is_sign((int)byte)) {
        put_byte(writer, (int)byte);
        return;
    }
    put_byte(writer, 'x');
    put_byte(writer, "0123456789ABCDEF"[byte / 16]);
    put_byte(writer, "0123456789ABCDEF"[byte % 16]);
}

// The last byte of the run that starts with this one.
static size_t run_end(const uint64_t *class, size_t byte) {
    while (byte < 255 && has_bit(class, byte + 1))
        byte++;
    return byte;
}

// Whether it is every byte but 10.
static int is_dot(const uint64_t *class) { return class[0] == ~((uint64_t)1 << 10) && (class[1] & class[2] & class[3]) == ~(uint64_t)0; }

static void write_class(struct writer *writer, const uint64_t *class) {
    if (is_dot(class)) {
        put_byte(writer, '.');
        return;
    }
    size_t low = next_bit(class, 0, 256), high = run_end(class, low), next = next_bit(class, high + 1, 256);
    if (low == high && next == 256) {
        write_byte(writer, low);
        return;
    }
    put_byte(writer, '[');
    for (; low < 256; low = next_bit(class, high + 1, 256)) {
        high = run_end(class, low);
        write_byte(writer, low);
        if (low < high) {
            put_byte(writer, '-');
            write_byte(writer, high);
        }
    }
    put_byte(writer, ']');
}

static void write_all(struct writer *writer, const struct token *tokens, size_t count) {
    static const char signs[][3] = {"", "?", "*", "+", "(", "|", ")", ")?", ")*"};
    for (const struct token *token = tokens; token < tokens + count; token++) {
        if (token->kind < OPEN)
            write_class(writer, token->class);
        for (const char *sign = signs[token->kind]; *sign; sign++)
            put_byte(writer, *sign);
    }
}

uint64_t baseline_read_back(const uint64_t *image, size_t image_len, uint8_t *writing, size_t writing_len) {
    struct token tokens[MOST_STATES - 1];
    struct writer writer = {0, 0};
    if (!check(image, image_len, tokens))
        return (uint64_t)6 << 32;
    write_all(&writer, tokens, (size_t)image[1] - 1);
    if (writer.length > writing_len)
        return (uint64_t)8 << 32;
    size_t length = writer.length;
    writer = (struct writer){writing, 0};
    write_all(&writer, tokens, (size_t)image[1] - 1);
    return length;
}
