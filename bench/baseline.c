// The same run in plain C, to measure against, as good as we know how: masks of W words in tables of work, W a constant of each copy, and for one
// word the depth too; propagate's source kept less one; no propagate at all in a rule without chains. Idle depths are passed over, by one test for all
// inner ones on the way up, one for the outermost chains and one for the way down. Rules with cycles have copies of their own: there the back edges of
// live sources are gone along one by one, and a second round is made where they add a state. Over long texts steps are remembered, from a set of live
// states by a byte to the set after it: a table that is filled as the text asks for it, and one loop over it for rules of every size. It trusts the
// image.
typedef unsigned long word;
typedef unsigned char byte;

#define MOST 8
#define INLINE static inline __attribute__((always_inline))
#define APART static __attribute__((noinline))

// the masks of a kind for one depth
struct three {
    word block[MOST], source[MOST], target[MOST];
};

// the states that back edges leave, of all depths, and for each the state where its edge leads: its word and its bit
struct cycles {
    word source[MOST], bit[64 * MOST];
    byte at[64 * MOST];
};

struct call;

// from the live states at a place to those at a later one; the total of ends by then
typedef word copy(const struct call *c, word *live, word p, word stop, word total);

// what is run, over what, where the ends go, and the image's masks in tables of work
struct call {
    copy *run;
    const word *image;
    const byte *text;
    unsigned *places;
    word room, depth;
    int W, chains, cyclic;
    struct three scatters[8], gathers[8], propagates[9];
    // all that the inner depths could move on the way up, and on the way down
    word up[MOST], down[MOST];
    struct cycles cycles;
};

// x + y + carry and x - y - borrow; what goes out goes into the next word
INLINE word sum(word x, word y, word *carry) {
    word s = x + y, t = s + *carry;
    *carry = (word)(s < x) | (word)(t < s);
    return t;
}

INLINE word difference(word x, word y, word *borrow) {
    word s = x - y, t = s - *borrow;
    *borrow = (word)(x < y) | (word)(s < *borrow);
    return t;
}

// live | ((block - (live & source)) & target)
INLINE void scatter(int W, word *live, const struct three *m) {
    word borrow = 0;
    for (int i = 0; i < W; i++)
        live[i] |= difference(m->block[i], live[i] & m->source[i], &borrow) & m->target[i];
}

// live | ((block + (live & source)) & target)
INLINE void gather(int W, word *live, const struct three *m) {
    word carry = 0;
    for (int i = 0; i < W; i++)
        live[i] |= sum(m->block[i], live[i] & m->source[i], &carry) & m->target[i];
}

// with from = (live & block) | target:  live | (block & (((source - 1) - from) ^ from)); the source is less by one already
INLINE void propagate(int W, int chains, word *live, const struct three *m) {
    word borrow = 0;
    if (!chains)
        return;
    for (int i = 0; i < W; i++) {
        word from = (live[i] & m->block[i]) | m->target[i];
        live[i] |= m->block[i] & (difference(m->source[i], from, &borrow) ^ from);
    }
}

INLINE int some(int W, const word *live, const word *mask) {
    word both = 0;
    for (int i = 0; i < W; i++)
        both |= live[i] & mask[i];
    return both != 0;
}

// up through the depths and down again, idle ones passed over; one word with at most one inner depth goes through it as fast as tests would tell
INLINE void pass(int W, word depth, int chains, word *live, const struct call *c) {
    int tests = W > 1 || depth > 1;
    if (tests ? some(W, live, c->up) : depth > 0) {
        word k = depth;
        do {
            propagate(W, chains, live, c->propagates + k);
            gather(W, live, c->gathers + k - 1);
        } while (--k);
    }
    if (!tests || some(W, live, c->propagates[0].block))
        propagate(W, chains, live, c->propagates);
    if (tests ? some(W, live, c->down) : depth > 0) {
        word k = 1;
        do {
            scatter(W, live, c->scatters + k - 1);
            propagate(W, chains, live, c->propagates + k);
        } while (++k <= depth);
    }
}

// to the starts of the bodies whose ends are live: no sum goes down, so end by end; whether there is a state more
INLINE int back(int W, word *live, const struct cycles *m) {
    word more = 0, starts[MOST] = {0};
    if (!some(W, live, m->source))
        return 0;
    for (int i = 0; i < W; i++)
        for (word left = live[i] & m->source[i]; left; left &= left - 1) {
            int state = 64 * i + __builtin_ctzl(left);
            starts[W == 1 ? 0 : m->at[state]] |= m->bit[state];
        }
    for (int i = 0; i < W; i++) {
        more |= starts[i] & ~live[i];
        live[i] |= starts[i];
    }
    return more != 0;
}

// two rounds are enough: what a back edge adds lies within its body, whose end was live already, and bodies inside are entered by their starts
INLINE void settle(int W, word depth, int chains, int cyclic, word *live, const struct call *c) {
    pass(W, depth, chains, live, c);
    if (cyclic && back(W, live, &c->cycles))
        pass(W, depth, chains, live, c);
}

INLINE void move(int W, word *live, const word *letters, const word *repeats) {
    word carry = 0;
    for (int i = 0; i < W; i++) {
        word x = live[i];
        live[i] = (((x << 1) | carry) & letters[i]) | (x & repeats[i]);
        carry = x >> 63;
    }
    live[0] |= 1;
}

INLINE word note(word total, word place, word hit, unsigned *places, word room) {
    if (!hit)
        return total;
    if (total < room)
        places[total] = (unsigned)place;
    return total + 1;
}

INLINE word accepting(const struct call *c) { return 1ul << (c->image[1] - 1) % 64; }

INLINE word run(int W, word depth, int chains, int cyclic, const struct call *c, word *live, word p, word stop, word total) {
    const word *letters = c->image + 5, *repeats = letters + 256 * W + 1;
    word x[MOST], bit = accepting(c);
    for (int i = 0; i < W; i++)
        x[i] = live[i];
    for (; p < stop; p++) {
        move(W, x, letters + W * c->text[p], repeats + W * c->text[p]);
        settle(W, depth, chains, cyclic, x, c);
        total = note(total, p + 1, x[W - 1] & bit, c->places, c->room);
    }
    for (int i = 0; i < W; i++)
        live[i] = x[i];
    return total;
}

// each copy in a function of its own, which the compiler lays out as if there were no others
#define COPY(name, W, depth, chains, cyclic) \
    APART word name(const struct call *c, word *live, word p, word stop, word total) { \
        return run(W, depth, chains, cyclic, c, live, p, stop, total); \
    }
#define COPIES(kind, chains, cyclic) \
    COPY(kind##_1_0, 1, 0, chains, cyclic) \
    COPY(kind##_1_1, 1, 1, chains, cyclic) \
    COPY(kind##_1_2, 1, 2, chains, cyclic) \
    COPY(kind##_1_3, 1, 3, chains, cyclic) \
    COPY(kind##_1, 1, c->depth, chains, cyclic) \
    COPY(kind##_2, 2, c->depth, chains, cyclic) \
    COPY(kind##_3, 3, c->depth, chains, cyclic) \
    COPY(kind##_4, 4, c->depth, chains, cyclic) \
    COPY(kind##_5, 5, c->depth, chains, cyclic) \
    COPY(kind##_6, 6, c->depth, chains, cyclic) \
    COPY(kind##_7, 7, c->depth, chains, cyclic) \
    COPY(kind##_8, 8, c->depth, chains, cyclic) \
    static copy *const kind[] = {kind##_1_0, kind##_1_1, kind##_1_2, kind##_1_3, kind##_1, kind##_2, \
                                 kind##_3,   kind##_4,   kind##_5,   kind##_6,   kind##_7, kind##_8};

COPIES(plain, 0, 0)
COPIES(chained, 1, 0)
// a repeated group can be left out: where there is a cycle there is a chain
COPIES(cyclic, 1, 1)

enum { SETS = 120, UNKNOWN = 255, SPAN = 16, LONG = 2048 };

// sets of live states that were met, and for each and each byte the number of the set after it, and SETS more if that has the accepting state
struct memory {
    word sets[SETS + 1][MOST], kept;
    byte next[SETS + 1][256], slots[256];
};

// the number of a set, now kept. It is looked for in one slot: to keep it twice does no harm. When no more are kept it stands in the last row, from
// which no step is ever known
static word number_of(const word *live, struct memory *m) {
    word hash = 0, differs = 0;
    for (int i = 0; i < MOST; i++)
        hash = (hash << 5 | hash >> 59) ^ live[i];
    byte *slot = m->slots + (hash * 0x9E3779B97F4A7C15 >> 56);
    for (int i = 0; i < MOST; i++)
        differs |= live[i] ^ m->sets[*slot][i];
    if (!differs)
        return *slot;
    word number = m->kept < SETS ? m->kept++ : SETS;
    if (number < SETS)
        *slot = (byte)number;
    for (int i = 0; i < MOST; i++)
        m->sets[number][i] = live[i];
    return number;
}

// whether each of eight bytes leaves the set as it is
INLINE int all_stay(const byte *next, word at, const byte *text) {
    word other = 0;
    for (int i = 0; i < 8; i++)
        other |= next[text[i]] ^ at;
    return !other;
}

// Bytes that change nothing are passed over eight at once; where one does, SPAN bytes are taken one by one before that is tried again. A step that is
// not known is made by the ordinary loop, which also takes the rest when, with no more sets kept, more than about one byte in eight is of those.
APART word run_long(const struct call *c, const word *first, word length, word total) {
    struct memory m;
    word at = 0, p = 0, missed = 0;
    const byte *text = c->text;
    m.kept = 1;
    __builtin_memset(m.next, UNKNOWN, sizeof m.next);
    __builtin_memset(m.slots, 0, sizeof m.slots);
    for (int i = 0; i < MOST; i++)
        m.sets[0][i] = first[i];
    while (p < length) {
        while (length - p >= 8 && all_stay(m.next[at], at, text + p))
            p += 8;
        for (word left = length - p > SPAN ? SPAN : length - p; left > 0; left--) {
            word from = at, before = total, live[MOST];
            at = m.next[from][text[p++]];
            if (at < SETS)
                continue;
            if (at < UNKNOWN) {
                at -= SETS;
                total = note(total, p, 1, c->places, c->room);
                continue;
            }
            for (int i = 0; i < MOST; i++)
                live[i] = m.sets[from][i];
            total = c->run(c, live, p - 1, p, total);
            at = number_of(live, &m);
            if (at == SETS && ++missed > p / 8 + 64)
                return c->run(c, live, p, length, total);
            if (from < SETS && at < SETS)
                m.next[from][text[p - 1]] = (byte)(total > before ? at + SETS : at);
        }
    }
    return total;
}

// the masks of count depths from a section's first word on, the source less some; whether there is a block
static word take(long W, long count, const word *from, struct three *to, word less) {
    word any = 0;
    for (long k = 0; k < count; k++) {
        word borrow = less;
        for (long i = 0; i < W; i++) {
            word x = from[3 * W * k + W + i];
            any |= to[k].block[i] = from[3 * W * k + i];
            to[k].source[i] = x - borrow;
            borrow = x < borrow;
            to[k].target[i] = from[3 * W * k + 2 * W + i];
        }
    }
    return any;
}

// the states of a mask in order, and how many
static int list(long W, const word *mask, unsigned short *states) {
    int count = 0;
    for (long i = 0; i < W; i++)
        for (word left = mask[i]; left; left &= left - 1)
            states[count++] = (unsigned short)(64 * i + __builtin_ctzl(left));
    return count;
}

// the back edges; bodies of one depth lie one after another, so that their ends and their starts belong together in turn; whether there is one
static int take_cycles(const word *image, struct cycles *to) {
    unsigned short sources[64 * MOST], targets[64 * MOST];
    long W = (long)image[2], depth = (long)image[3];
    const word *from = image + 10 + W * (515 + 9 * depth);
    int any = 0;
    for (long i = 0; i < W; i++)
        to->source[i] = 0;
    for (long k = 0; k < depth; k++, from += 2 * W) {
        int count = list(W, from, sources);
        list(W, from + W, targets);
        for (int i = 0; i < count; i++, any = 1) {
            to->source[sources[i] / 64] |= 1ul << sources[i] % 64;
            to->bit[sources[i]] = 1ul << targets[i] % 64;
            to->at[sources[i]] = (byte)(targets[i] / 64);
        }
    }
    return any;
}

static void take_all(struct call *c) {
    long W = c->W, depth = (long)c->depth;
    const word *from = c->image + 7 + 512 * W;
    take(W, depth, from, c->scatters, 0);
    take(W, depth, from + 3 * W * depth + 1, c->gathers, 0);
    c->chains = take(W, depth + 1, from + 6 * W * depth + 2, c->propagates, 1) != 0;
    c->cyclic = take_cycles(c->image, &c->cycles);
    for (long i = 0; i < W; i++) {
        c->up[i] = c->down[i] = 0;
        for (long k = 0; k < depth; k++) {
            c->up[i] |= c->gathers[k].source[i] | c->propagates[k + 1].block[i];
            c->down[i] |= c->scatters[k].source[i] | c->propagates[k + 1].block[i];
        }
    }
}

word baseline_run(const word *image, word words, const byte *text, word length, unsigned *places, word room) {
    struct call c;
    word live[MOST] = {1}, total;
    (void)words;
    c.image = image, c.text = text, c.places = places, c.room = room;
    c.W = (int)image[2], c.depth = image[3];
    take_all(&c);
    c.run = (c.cyclic ? cyclic : c.chains ? chained : plain)[c.W > 1 ? c.W + 3 : c.depth < 4 ? (int)c.depth : 4];
    settle(c.W, c.depth, 1, c.cyclic, live, &c);
    total = note(0, 0, live[c.W - 1] & accepting(&c), places, room);
    // the loop of one word without inner depths or chains is as fast as a table
    if (length < LONG || (c.W == 1 && c.depth == 0 && !c.chains))
        return c.run(&c, live, 0, length, total);
    return run_long(&c, live, length, total);
}
