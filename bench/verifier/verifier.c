/* The pass of bpf_verifier in C, as docs/FORMATS.md tells it: the peer that `verify` is timed
   against. It proves nothing, and takes only programs whose bytes decode.

   Its input is a line `verify N`, and then programs, one a line in hexadecimal digits. Each is
   verified N times and its verdict is printed: `accepted SLOTS`, or `refused CODE SLOT`. */
#include <stdint.h>
#include <stdio.h>
#include <stdlib.h>
#include <string.h>

enum { RECORD_BYTES = 128, STACK_BYTES = 512, WORDS = 64, SLOTS = 4096, TAIL = 0, WIDE = 0x18 };

static const uint64_t RECORD = 0x100000000, STACK = 0x200000000;

struct instruction {
    uint8_t opcode, dst, src;
    int16_t offset;
    int32_t immediate;
    uint64_t wide;
};

struct range {
    uint64_t lo, hi;
};

static const struct range ALL = {0, UINT64_MAX};

/* What is kept of words of the stack has a block of its own, which a state has only where some
   word is kept: as bits, and their ranges. */
struct words {
    uint64_t kept;
    struct range range[WORDS];
    struct words *next;
};

struct state {
    struct range range[11];
    uint64_t marks[8];
    unsigned known;
    struct words *words;
    struct state *next;
};

struct helper {
    unsigned number;
    int count;
    struct range arguments[5], answer;
};

static const struct helper helpers[] = {
    {1, 1, {{0, UINT32_MAX}}, {1, 1440}},
    {2, 1, {{0, 999}}, {1, 60}},
    {3, 2, {{0, UINT32_MAX}, {0, 10000}}, {0, 4294977295}},
};

static struct state *spare;
static struct words *spare_words;

static struct words *fresh_words(void)
{
    struct words *w = spare_words;
    if (w)
        spare_words = w->next;
    else if (!(w = malloc(sizeof *w)))
        abort();
    return w;
}

static void drop_words(struct state *s)
{
    if (s->words) {
        s->words->next = spare_words;
        spare_words = s->words;
        s->words = NULL;
    }
}

static struct state *fresh(void)
{
    struct state *s = spare;
    if (s)
        spare = s->next;
    else if (!(s = malloc(sizeof *s)))
        abort();
    return s;
}

static void give_back(struct state *s)
{
    drop_words(s);
    s->next = spare;
    spare = s;
}

static void free_spare(void)
{
    while (spare) {
        struct state *s = spare;
        spare = s->next;
        free(s);
    }
    while (spare_words) {
        struct words *w = spare_words;
        spare_words = w->next;
        free(w);
    }
}

/* ---- words of the stack */

static void copy_words(struct state *to, const struct state *from)
{
    to->words = NULL;
    if (!from->words)
        return;
    to->words = fresh_words();
    to->words->kept = from->words->kept;
    for (uint64_t rest = from->words->kept; rest; rest &= rest - 1) {
        int w = __builtin_ctzll(rest);
        to->words->range[w] = from->words->range[w];
    }
}

static void keep(struct state *s, int word, struct range r)
{
    if (!s->words) {
        s->words = fresh_words();
        s->words->kept = 0;
    }
    s->words->kept |= (uint64_t)1 << word;
    s->words->range[word] = r;
}

static void forget(struct state *s, uint64_t first, uint64_t last)
{
    if (!s->words)
        return;
    for (uint64_t w = first; w <= last; w++)
        s->words->kept &= ~((uint64_t)1 << w);
    if (!s->words->kept)
        drop_words(s);
}

/* ---- ranges */

static struct range of(uint64_t word) { return (struct range){word, word}; }

static int is_single(struct range r) { return r.lo == r.hi; }

static struct range full(int bits) { return bits == 64 ? ALL : (struct range){0, UINT32_MAX}; }

static struct range reduced(int bits, struct range r)
{
    if (bits == 64)
        return r;
    if (r.lo >> 32 != r.hi >> 32)
        return full(32);
    return (struct range){(uint32_t)r.lo, (uint32_t)r.hi};
}

static struct range wrapped(int bits, unsigned __int128 lo, unsigned __int128 hi)
{
    if (lo >> bits != hi >> bits)
        return full(bits);
    return reduced(bits, (struct range){(uint64_t)lo, (uint64_t)hi});
}

static uint64_t ones(uint64_t n) { return n ? UINT64_MAX >> __builtin_clzll(n) : 0; }

static uint64_t least(uint64_t a, uint64_t b) { return a < b ? a : b; }

static uint64_t most(uint64_t a, uint64_t b) { return a > b ? a : b; }

static int64_t sign_extended(uint64_t word, int bits)
{
    return (int64_t)(word << (64 - bits)) >> (64 - bits);
}

/* What the machine itself gives for two words. */
static uint64_t word_result(int code, int bits, int offset, uint64_t a, uint64_t b)
{
    int shift = (int)(b % (unsigned)bits), is_signed = offset == 1;
    uint64_t value = 0;
    if (bits == 32)
        a = (uint32_t)a, b = (uint32_t)b;
    int64_t x = sign_extended(a, bits), y = sign_extended(b, bits);
    switch (code) {
    case 0x0: value = a + b; break;
    case 0x1: value = a - b; break;
    case 0x2: value = a * b; break;
    case 0x3: value = !b ? 0 : !is_signed ? a / b : y == -1 ? 0 - a : (uint64_t)(x / y); break;
    case 0x4: value = a | b; break;
    case 0x5: value = a & b; break;
    case 0x6: value = a << shift; break;
    case 0x7: value = a >> shift; break;
    case 0x8: value = 0 - a; break;
    case 0x9: value = !b ? a : !is_signed ? a % b : y == -1 ? 0 : (uint64_t)(x % y); break;
    case 0xa: value = a ^ b; break;
    case 0xb: value = offset ? (uint64_t)sign_extended(b, offset) : b; break;
    case 0xc: value = (uint64_t)(x >> shift); break;
    }
    return bits == 32 ? (uint32_t)value : value;
}

static struct range ranged(int code, int bits, int offset, struct range a, struct range b)
{
    unsigned __int128 size = (unsigned __int128)1 << bits;
    int shift = (int)(b.lo % (unsigned)bits);
    switch (code) {
    case 0x0:
        return wrapped(bits, (unsigned __int128)a.lo + b.lo, (unsigned __int128)a.hi + b.hi);
    case 0x1:
        return wrapped(bits, a.lo + (size - b.hi), a.hi + (size - b.lo));
    case 0x2:
        if ((unsigned __int128)a.hi * b.hi < size)
            return (struct range){a.lo * b.lo, a.hi * b.hi};
        return full(bits);
    case 0x3:
        if (offset)
            return full(bits);
        return b.lo ? (struct range){a.lo / b.hi, a.hi / b.lo} : (struct range){0, a.hi};
    case 0x4:
        return (struct range){most(a.lo, b.lo), ones(most(a.hi, b.hi))};
    case 0x5:
        return (struct range){0, least(a.hi, b.hi)};
    case 0x6:
        if (is_single(b) && (unsigned __int128)a.hi << shift < size)
            return (struct range){a.lo << shift, a.hi << shift};
        return full(bits);
    case 0x7:
        if (is_single(b))
            return (struct range){a.lo >> shift, a.hi >> shift};
        return (struct range){0, a.hi};
    case 0x9:
        if (offset)
            return full(bits);
        if (!b.lo)
            return (struct range){0, a.hi};
        return a.hi < b.lo ? a : (struct range){0, least(a.hi, b.hi - 1)};
    case 0xa:
        return (struct range){0, ones(most(a.hi, b.hi))};
    case 0xb:
        return !offset || b.hi < (uint64_t)1 << (offset - 1) ? b : full(bits);
    default:
        return full(bits);
    }
}

static struct range swapped(int opcode, int bytes, struct range a)
{
    uint64_t mask = bytes == 8 ? UINT64_MAX : ((uint64_t)1 << 8 * bytes) - 1;
    int little = opcode == 0xd4;
    if (is_single(a)) {
        uint64_t low = a.lo & mask;
        return of(little ? low : __builtin_bswap64(low) >> (64 - 8 * bytes));
    }
    return little && a.hi <= mask ? a : (struct range){0, mask};
}

/* ---- one instruction */

static int size_of(int opcode) { return (int[]){4, 2, 1, 8}[opcode >> 3 & 3]; }

static int is_memory(int opcode) { return (opcode & 7) >= 1 && (opcode & 7) <= 3; }

static int is_jump(int opcode) { return (opcode & 7) == 5 || (opcode & 7) == 6; }

static int is_unconditional(int opcode) { return opcode == 0x05 || opcode == 0x06; }

static int is_condition(int opcode)
{
    return is_jump(opcode) && !is_unconditional(opcode) && opcode != 0x85 && opcode != 0x95;
}

static const struct helper *helper_of(const struct instruction *i)
{
    for (size_t k = 0; k < sizeof helpers / sizeof *helpers; k++)
        if (helpers[k].number == (uint32_t)i->immediate)
            return &helpers[k];
    return NULL;
}

static int64_t target(const struct instruction *i, int slot)
{
    return (int64_t)slot + 1 + (i->opcode == 0x06 ? i->immediate : i->offset);
}

/* The registers that an instruction reads, as bits. */
static unsigned reads(const struct instruction *i, const struct helper *helper)
{
    unsigned dst = 1u << i->dst, src = i->opcode & 8 ? 1u << i->src : 0;
    int code = i->opcode >> 4;
    switch (i->opcode & 7) {
    case 0: return 0;
    case 1: return 1u << i->src;
    case 2: return dst;
    case 3: return dst | 1u << i->src;
    case 5:
    case 6:
        if (is_unconditional(i->opcode))
            return 0;
        if (i->opcode == 0x85)
            return helper ? ((1u << helper->count) - 1) << 1 : 0;
        return i->opcode == 0x95 ? 1u : dst | src;
    default:
        return code == 0xb ? src : code == 0x8 || code == 0xd ? dst : dst | src;
    }
}

static int all_marked(const struct state *s, uint64_t at, uint64_t count)
{
    for (uint64_t end = at + count; at < end; at = (at / 64 + 1) * 64) {
        uint64_t bits = least(end - at, 64 - at % 64);
        uint64_t mask = (bits == 64 ? UINT64_MAX : ((uint64_t)1 << bits) - 1) << at % 64;
        if (mask & ~s->marks[at / 64])
            return 0;
    }
    return 1;
}

static int memory_fault(const struct instruction *i, const struct state *s)
{
    int is_load = (i->opcode & 7) == 1, bytes = size_of(i->opcode);
    struct range r = s->range[is_load ? i->src : i->dst];
    __int128 low = (__int128)r.lo + i->offset, high = (__int128)r.hi + i->offset + bytes - 1;
    int in_record = RECORD <= low && high < RECORD + RECORD_BYTES;
    int in_stack = STACK <= low && high < STACK + STACK_BYTES;
    if (!in_record && !in_stack)
        return 309;
    if (!is_load)
        return in_record ? 311 : 0;
    if (in_stack && !all_marked(s, (uint64_t)(low - STACK), (uint64_t)(high - low + 1)))
        return 310;
    return 0;
}

static int fault_of(const struct instruction *program, int slots, int slot, const struct state *s)
{
    const struct instruction *i = &program[slot];
    int opcode = i->opcode, next = slot + (opcode == WIDE ? 2 : 1);
    const struct helper *helper = opcode == 0x85 ? helper_of(i) : NULL;
    if (is_condition(opcode) || is_unconditional(opcode)) {
        int64_t to = target(i, slot);
        if (to <= slot || to >= slots || program[to].opcode == TAIL)
            return 306;
    }
    if (!is_unconditional(opcode) && opcode != 0x95 && next >= slots)
        return 307;
    if (s) {
        if (reads(i, helper) & ~s->known)
            return 308;
        if (is_memory(opcode)) {
            int fault = memory_fault(i, s);
            if (fault)
                return fault;
        }
    }
    if (opcode == 0x85 && !helper)
        return 312;
    if (s && helper)
        for (int k = 0; k < helper->count; k++) {
            struct range passed = s->range[k + 1], taken = helper->arguments[k];
            if (passed.lo < taken.lo || passed.hi > taken.hi)
                return 313;
        }
    int writes = (opcode & 7) == 0 || (opcode & 7) == 1 || (opcode & 7) == 4 || (opcode & 7) == 7;
    return writes && i->dst == 10 ? 314 : 0;
}

static void set(struct state *s, int number, struct range r)
{
    s->range[number] = r;
    s->known |= 1u << number;
}

/* Whether eight bytes at the one address of a range are an aligned word of the stack. */
static int is_word(const struct instruction *i, struct range r)
{
    uint64_t at = r.lo + (uint64_t)(int64_t)i->offset;
    return size_of(i->opcode) == 8 && is_single(r) && at >= STACK && at % 8 == 0;
}

static struct range loaded(const struct state *s, const struct instruction *i)
{
    struct range base = s->range[i->src];
    uint64_t at = base.lo + (uint64_t)(int64_t)i->offset;
    if (i->opcode >> 5 != 3)
        return ALL;
    if (s->words && is_word(i, base) && s->words->kept >> (at - STACK) / 8 & 1)
        return s->words->range[(at - STACK) / 8];
    return (struct range){0, UINT64_MAX >> (64 - 8 * size_of(i->opcode))};
}

static void store(struct state *s, const struct instruction *i)
{
    struct range base = s->range[i->dst], value = of((uint64_t)(int64_t)i->immediate);
    uint64_t at = base.lo + (uint64_t)(int64_t)i->offset - STACK, bytes = (uint64_t)size_of(i->opcode);
    if ((i->opcode & 7) == 3)
        value = s->range[i->src];
    if (is_word(i, base))
        keep(s, (int)(at / 8), value);
    else
        forget(s, at / 8, (at + base.hi - base.lo + bytes - 1) / 8);
    if (is_single(base))
        for (uint64_t k = at; k < at + bytes; k++)
            s->marks[k / 64] |= (uint64_t)1 << k % 64;
}

static void advance(struct state *s, const struct instruction *i)
{
    int opcode = i->opcode, code = opcode >> 4, bits = (opcode & 7) == 4 ? 32 : 64;
    struct range a = s->known >> i->dst & 1 ? s->range[i->dst] : ALL;
    switch (opcode & 7) {
    case 0:
        set(s, i->dst, of(i->wide));
        break;
    case 1:
        set(s, i->dst, loaded(s, i));
        break;
    case 2:
    case 3:
        store(s, i);
        break;
    case 5: {
        const struct helper *helper = helper_of(i);
        s->known &= ~0x3fu;
        set(s, 0, helper->answer);
        break;
    }
    default: {
        struct range b = of((uint64_t)(int64_t)i->immediate), result;
        if (opcode & 8)
            b = s->range[i->src];
        if (code == 0xb)
            a = b;
        if (code == 0x8)
            b = a;
        if (code == 0xd)
            result = swapped(opcode, i->immediate / 8, a);
        else if (is_single(a) && is_single(b))
            result = of(word_result(code, bits, i->offset, a.lo, b.lo));
        else if (code == 0x8)
            result = full(bits);
        else
            result = ranged(code, bits, i->offset, reduced(bits, a), reduced(bits, b));
        set(s, i->dst, result);
    }
    }
}

/* ---- along an edge of a conditional jump */

static struct range without(struct range a, struct range b)
{
    if (is_single(b)) {
        if (a.lo == b.lo)
            a.lo++;
        else if (a.hi == b.lo)
            a.hi--;
    }
    return a;
}

static int narrow_below(struct range *a, struct range *b)
{
    if (!b->hi)
        return 0;
    uint64_t lo = a->lo;
    a->hi = least(a->hi, b->hi - 1);
    b->lo = most(b->lo, lo + 1);
    return 1;
}

static int narrow_at_most(struct range *a, struct range *b)
{
    a->hi = least(a->hi, b->hi);
    b->lo = most(b->lo, a->lo);
    return 1;
}

/* Narrows both where the comparison holds; 0 where no words of both lead there. */
static int narrow(int code, struct range *a, struct range *b)
{
    struct range x = *a, y = *b;
    int some = 1;
    switch (code) {
    case 0x1: a->lo = b->lo = most(x.lo, y.lo), a->hi = b->hi = least(x.hi, y.hi); break;
    case 0x5:
        if (is_single(x) && is_single(y) && x.lo == y.lo)
            return 0;
        *a = without(x, y), *b = without(y, x);
        break;
    case 0xa: some = narrow_below(a, b); break;
    case 0xb: some = narrow_at_most(a, b); break;
    case 0x2: some = narrow_below(b, a); break;
    case 0x3: some = narrow_at_most(b, a); break;
    }
    return some && a->lo <= a->hi && b->lo <= b->hi;
}

static int opposite(int code)
{
    switch (code) {
    case 0x1: return 0x5;
    case 0x5: return 0x1;
    case 0x2: return 0xb;
    case 0x3: return 0xa;
    case 0xa: return 0x3;
    case 0xb: return 0x2;
    default: return code;
    }
}

static int follow(struct state *s, const struct instruction *i, int taken)
{
    int code = i->opcode >> 4, is_register = i->opcode & 8, is_low = (i->opcode & 7) == 6;
    if (code == 0x4 || code == 0x6 || code == 0x7 || code == 0xc || code == 0xd)
        return 1;
    if (is_register && i->dst == i->src)
        return 1;
    uint64_t word = is_low ? (uint32_t)i->immediate : (uint64_t)(int64_t)i->immediate;
    struct range a = s->range[i->dst], b = is_register ? s->range[i->src] : of(word);
    if (is_low && (a.hi > UINT32_MAX || b.hi > UINT32_MAX))
        return 1;
    if (!narrow(taken ? code : opposite(code), &a, &b))
        return 0;
    s->range[i->dst] = a;
    if (is_register)
        s->range[i->src] = b;
    return 1;
}

/* ---- the pass */

static struct state *waiting[SLOTS];

static void join_words(struct state *both, const struct state *s)
{
    if (!both->words)
        return;
    uint64_t kept = s->words ? both->words->kept & s->words->kept : 0;
    for (uint64_t rest = kept; rest; rest &= rest - 1) {
        int w = __builtin_ctzll(rest);
        struct range *a = &both->words->range[w], *b = &s->words->range[w];
        a->lo = least(a->lo, b->lo);
        a->hi = most(a->hi, b->hi);
    }
    both->words->kept = kept;
    if (!kept)
        drop_words(both);
}

static void put(int64_t to, struct state *s)
{
    struct state *both = waiting[to];
    if (!both) {
        waiting[to] = s;
        return;
    }
    both->known &= s->known;
    for (int k = 0; k < 11; k++) {
        both->range[k].lo = least(both->range[k].lo, s->range[k].lo);
        both->range[k].hi = most(both->range[k].hi, s->range[k].hi);
    }
    for (int k = 0; k < 8; k++)
        both->marks[k] &= s->marks[k];
    join_words(both, s);
    give_back(s);
}

static struct state *start(void)
{
    struct state *s = fresh();
    memset(s, 0, sizeof *s);
    set(s, 1, of(RECORD));
    set(s, 2, of(RECORD_BYTES));
    set(s, 3, (struct range){0, UINT32_MAX});
    set(s, 4, (struct range){1, 16});
    set(s, 10, of(STACK + STACK_BYTES));
    return s;
}

/* 0, or the number of the first fault, with its slot. */
static int verify(const struct instruction *program, int slots, int *at)
{
    int fault = 0;
    put(0, start());
    for (int slot = 0; slot < slots; slot++) {
        const struct instruction *i = &program[slot];
        struct state *s = waiting[slot];
        waiting[slot] = NULL;
        if (fault) {
            if (s)
                give_back(s);
            continue;
        }
        if (i->opcode == TAIL)
            continue;
        fault = fault_of(program, slots, slot, s);
        if (fault || i->opcode == 0x95) {
            *at = slot;
            if (s)
                give_back(s);
        } else if (!s) {
        } else if (is_unconditional(i->opcode)) {
            put(target(i, slot), s);
        } else if (is_condition(i->opcode)) {
            struct state *taken = fresh();
            *taken = *s;
            copy_words(taken, s);
            if (follow(taken, i, 1))
                put(target(i, slot), taken);
            else
                give_back(taken);
            if (follow(s, i, 0))
                put(slot + 1, s);
            else
                give_back(s);
        } else {
            advance(s, i);
            put(slot + (i->opcode == WIDE ? 2 : 1), s);
        }
    }
    free_spare();
    return fault;
}

static uint8_t byte_at(const char *digits)
{
    char two[3] = {digits[0], digits[1], 0};
    return (uint8_t)strtoul(two, NULL, 16);
}

static int read_program(const char *line, struct instruction *program)
{
    int slots = 0;
    for (; line[16 * slots]; slots++) {
        uint8_t slot[8];
        for (int b = 0; b < 8; b++)
            slot[b] = byte_at(line + 16 * slots + 2 * b);
        struct instruction *i = &program[slots];
        i->opcode = slot[0];
        i->dst = slot[1] & 15;
        i->src = slot[1] >> 4;
        memcpy(&i->offset, slot + 2, 2);
        memcpy(&i->immediate, slot + 4, 4);
        if (i->opcode == TAIL && slots)
            i[-1].wide = (uint64_t)(uint32_t)i->immediate << 32 | (uint32_t)i[-1].immediate;
    }
    return slots;
}

int main(void)
{
    static char line[16 * SLOTS + 2];
    static struct instruction program[SLOTS];
    unsigned long times;
    if (scanf("verify %lu", &times) != 1)
        return 2;
    while (scanf("%65537s", line) == 1) {
        int slots = read_program(line, program), fault = 0, at = 0;
        for (unsigned long k = 0; k < times; k++)
            fault = verify(program, slots, &at);
        if (fault)
            printf("refused %d %d\n", fault, at);
        else
            printf("accepted %d\n", slots);
    }
    return 0;
}
