/* Times the library against plain C of the same algorithms, in one run. timing/run builds and runs it. */
#include <stdint.h>
#include <stdio.h>
#include <string.h>
#include <time.h>

/* the number of a field, and how many times */
typedef uint8_t Run(uint32_t number, uint32_t rounds);
Run rattle_shift, rattle_table, rattle_tower, rattle_multiply, rattle_raise_to_q, rattle_forward, rattle_back, rattle_apply, rattle_invert;

/* ---- fields, by the same algorithms; a field is a struct and a function, as a generic function is compiled for one make */

typedef struct { uint32_t modulus, width; uint8_t mask; } Shift;

static Shift shift_new(uint32_t p) {
    uint32_t width = 31 - (uint32_t)__builtin_clz(p);
    return (Shift){p, width, (uint8_t)((1u << width) - 1)};
}

static inline uint8_t shift_product(const Shift *f, uint8_t x, uint8_t y) {
    uint32_t a = x & f->mask, b = y & f->mask, r = 0;
    for (uint32_t i = f->width; i-- > 0;) {
        uint32_t doubled = r << 1;
        r = doubled ^ (f->modulus & -(doubled >> f->width)) ^ (b & -((a >> i) & 1));
    }
    return (uint8_t)r;
}

typedef struct { uint8_t mask, powers[256], logs[256]; } Table;

static Table table_new(uint32_t p, uint8_t g) {
    Shift base = shift_new(p);
    Table t = {base.mask, {0}, {0}};
    uint8_t x = 1;
    memset(t.logs, 255, sizeof t.logs);
    for (int k = 0; k < base.mask; k++, x = shift_product(&base, g, x)) t.powers[k] = x;
    for (int k = base.mask; k-- > 0;) t.logs[t.powers[k]] = (uint8_t)k;
    t.logs[0] = 255;
    return t;
}

static inline uint8_t table_product(const Table *t, uint8_t a, uint8_t b) {
    uint8_t i = t->logs[a & t->mask], j = t->logs[b & t->mask];
    if (i == 255 || j == 255) return 0;
    unsigned sum = (unsigned)i + j;
    return t->powers[sum < t->mask ? sum : sum - t->mask];
}

typedef struct { Shift base; uint32_t c; } Tower;

static inline uint8_t tower_product(const Tower *t, uint8_t x, uint8_t y) {
    uint32_t m = t->base.width;
    if (m > 4) return 0;
    uint8_t whole = (uint8_t)((1u << 2 * m) - 1), mask = (uint8_t)((1u << m) - 1), c = (uint8_t)(t->c & mask);
    x &= whole, y &= whole;
    uint8_t a = x & mask, b = x >> m, d = y & mask, e = y >> m;
    uint8_t be = shift_product(&t->base, b, e);
    uint8_t low = shift_product(&t->base, a, d) ^ shift_product(&t->base, be, c);
    uint8_t high = shift_product(&t->base, a, e) ^ shift_product(&t->base, b, d) ^ be;
    return (uint8_t)(low | high << m);
}

#define PRODUCTS(name, make, product)                                             \
    static uint8_t name(uint32_t number, uint32_t rounds) {                                        \
        make;                                                                     \
        uint8_t x = 1;                                                            \
        for (uint32_t i = 0; i < rounds; i++) x = product(&f, x, 83) ^ (uint8_t)i; \
        return x;                                                                 \
    }
PRODUCTS(plain_shift, Shift f = shift_new(number), shift_product)
PRODUCTS(plain_table, Table f = table_new(number, 3), table_product)
PRODUCTS(plain_tower, Tower f = ((Tower){shift_new(number), 8}), tower_product)

/* ---- blocks over the shift field */

typedef struct { int size; uint8_t low[32], rows[32][32]; } Modulus;

static inline void add_multiple(const Shift *f, uint8_t factor, const uint8_t *block, uint8_t *sum, int n) {
    for (int i = 0; i < n; i++) sum[i] ^= shift_product(f, factor, block[i]);
}

static void multiply_by_x(const Shift *f, const Modulus *m, uint8_t *block) {
    uint8_t top = block[m->size - 1];
    for (int i = m->size; i-- > 1;) block[i] = block[i - 1] ^ shift_product(f, top, m->low[i]);
    block[0] = shift_product(f, top, m->low[0]);
}

static void multiply(const Shift *f, const Modulus *m, const uint8_t *factor, uint8_t *block) {
    uint8_t product[32] = {0};
    for (int i = m->size; i-- > 0;) {
        multiply_by_x(f, m, product);
        add_multiple(f, factor[i], block, product, m->size);
    }
    memcpy(block, product, (size_t)m->size);
}

static void square(const Shift *f, const Modulus *m, uint8_t *block) {
    uint8_t copy[32];
    memcpy(copy, block, (size_t)m->size);
    multiply(f, m, copy, block);
}

static void raise_to_q(const Shift *f, const Modulus *m, uint8_t *block) {
    uint8_t sum[32] = {0};
    for (int i = m->size; i-- > 0;) add_multiple(f, block[i], m->rows[i], sum, m->size);
    memcpy(block, sum, (size_t)m->size);
}

static Modulus modulus_new(const Shift *f, const uint8_t *low, int size) {
    Modulus m = {size, {0}, {{0}}};
    uint8_t w[32] = {0}, power[32] = {0};
    memcpy(m.low, low, (size_t)size);
    w[0] = power[0] = 1;
    multiply_by_x(f, &m, w);
    for (uint32_t i = 0; i < f->width; i++) square(f, &m, w);
    for (int i = 0; i < size; i++) {
        memcpy(m.rows[i], power, sizeof power);
        multiply(f, &m, w, power);
    }
    return m;
}

/* raise to 2 (k = 0) or to q^k, count times over */
static void advance(const Shift *f, const Modulus *m, int k, int count, uint8_t *block) {
    if (k == 0)
        for (int i = 0; i < count; i++) square(f, m, block);
    else
        for (int i = k % m->size * (count % m->size) % m->size; i-- > 0;) raise_to_q(f, m, block);
}

static void follow_chain(const Shift *f, const Modulus *m, int k, int n, uint8_t *block) {
    uint8_t first[32], raised[32];
    memcpy(first, block, (size_t)m->size);
    for (int i = 31 - __builtin_clz((unsigned)n); i-- > 0;) {
        memcpy(raised, block, (size_t)m->size);
        advance(f, m, k, n >> (i + 1), raised);
        multiply(f, m, raised, block);
        if (n >> i & 1) {
            advance(f, m, k, 1, block);
            multiply(f, m, first, block);
        }
    }
}

static void forward(const Shift *f, const Modulus *m, int t, uint8_t *block) {
    uint8_t raised[32];
    memcpy(raised, block, (size_t)m->size);
    for (int i = 0; i < t; i++) raise_to_q(f, m, raised);
    multiply(f, m, raised, block);
}

static void back(const Shift *f, const Modulus *m, int l, int t, uint8_t *block) {
    uint8_t top[32];
    memcpy(top, block, (size_t)m->size);
    advance(f, m, 2 * t, l, top);
    follow_chain(f, m, 0, (int)f->width, block);
    follow_chain(f, m, 1, t, block);
    follow_chain(f, m, 2 * t, l, block);
    multiply(f, m, top, block);
    advance(f, m, 1, t - 1, block);
    advance(f, m, 0, (int)f->width - 1, block);
}

static const uint8_t START[32] = {7, 1, 2, 3, 4, 5, 6, 7, 8, 9, 10, 11, 12, 13, 14, 15, 16, 17, 18, 19, 20, 21, 22, 23, 24, 25, 26, 27, 28, 29, 30, 31};

#define ON_BLOCKS(name, work)                              \
    static uint8_t name(uint32_t number, uint32_t rounds) {                 \
        static const uint8_t low[31] = {1, 0, 0, 1};       \
        Shift f = shift_new(number);                       \
        Modulus m = modulus_new(&f, low, 31);              \
        uint8_t block[32];                                 \
        memcpy(block, START, sizeof block);                \
        for (uint32_t i = 0; i < rounds; i++) work;        \
        return block[0];                                   \
    }
ON_BLOCKS(plain_multiply, multiply(&f, &m, START, block))
ON_BLOCKS(plain_raise_to_q, raise_to_q(&f, &m, block))
ON_BLOCKS(plain_forward, forward(&f, &m, 15, block))
ON_BLOCKS(plain_back, back(&f, &m, 15, 15, block))

/* ---- affine maps on 32 codes */

typedef struct { uint8_t constants[32], rows[32][32]; } Map;

static Map some_map(uint32_t x) {
    uint8_t codes[1056];
    Map map;
    for (int i = 0; i < 1056; i++) codes[i] = (uint8_t)((x = x * 1664525u + 1013904223u) >> 24);
    memcpy(map.constants, codes, 32);
    memcpy(map.rows, codes + 32, 1024);
    return map;
}

static void apply(const Shift *f, const Map *map, const uint8_t *block, uint8_t *out) {
    memcpy(out, map->constants, 32);
    for (int i = 32; i-- > 0;) add_multiple(f, block[i], map->rows[i], out, 32);
}

static uint8_t plain_apply(uint32_t number, uint32_t rounds) {
    Shift f = shift_new(number);
    Map map = some_map(1);
    uint8_t block[32], image[32];
    memcpy(block, START, sizeof block);
    for (uint32_t i = 0; i < rounds; i++) {
        apply(&f, &map, block, image);
        memcpy(block, image, sizeof block);
    }
    return block[0];
}

static void shear_rows(const Shift *f, uint8_t factor, int place, const uint8_t *step, uint8_t rows[32][32]) {
    for (int i = 0; i < 32; i++) add_multiple(f, shift_product(f, factor, rows[i][place]), step, rows[i], 32);
}

static int inverse(const Shift *f, const Map *map, Map *found) {
    uint8_t work[32][32];
    memcpy(work, map->rows, sizeof work);
    memset(found, 0, sizeof *found);
    for (int i = 0; i < 32; i++) found->rows[i][i] = 1;
    for (int k = 0; k < 32; k++) {
        int place = k;
        while (place < 32 && work[k][place] == 0) place++;
        if (place == 32) return 0;
        uint8_t step[32] = {0};
        if (place != k) {
            step[k] = 1;
            shear_rows(f, 1, place, step, work);
            shear_rows(f, 1, place, step, found->rows);
        }
        memcpy(step, work[k], sizeof step);
        uint8_t factor = 0;
        while (factor < f->mask && shift_product(f, step[k], factor) != 1) factor++;
        step[k] ^= 1;
        shear_rows(f, factor, k, step, work);
        shear_rows(f, factor, k, step, found->rows);
    }
    for (int i = 32; i-- > 0;) add_multiple(f, map->constants[i], found->rows[i], found->constants, 32);
    return 1;
}

static uint8_t plain_invert(uint32_t number, uint32_t rounds) {
    Shift f = shift_new(number);
    uint8_t found = 0;
    for (uint32_t seed = 0; seed < rounds; seed++) {
        Map map = some_map(seed), inverted;
        found ^= (uint8_t)inverse(&f, &map, &inverted);
    }
    return found;
}

/* ---- the runs, in turn, and the least time of each */

static double seconds(Run *run, uint32_t number, uint32_t rounds, uint8_t *answer) {
    struct timespec from, to;
    clock_gettime(CLOCK_MONOTONIC, &from);
    *answer = run(number, rounds);
    clock_gettime(CLOCK_MONOTONIC, &to);
    return (double)(to.tv_sec - from.tv_sec) + 1e-9 * (double)(to.tv_nsec - from.tv_nsec);
}

int main(void) {
    static const struct { const char *name; Run *library, *plain; uint32_t number, rounds; } items[] = {
        {"product, shift field of 283", rattle_shift, plain_shift, 283, 20000000},
        {"product, power table of 283 and 3", rattle_table, plain_table, 283, 50000000},
        {"product, tower with 8 on shift 19", rattle_tower, plain_tower, 19, 5000000},
        {"block product, 31 codes", rattle_multiply, plain_multiply, 283, 10000},
        {"q-th power, 31 codes", rattle_raise_to_q, plain_raise_to_q, 283, 20000},
        {"step forward, 31 codes, t 15", rattle_forward, plain_forward, 283, 1000},
        {"step back, 31 codes, l 15, t 15", rattle_back, plain_back, 283, 150},
        {"affine map applied, 32 codes", rattle_apply, plain_apply, 283, 20000},
        {"affine map inverted, 32 codes", rattle_invert, plain_invert, 283, 300},
    };
    int wrong = 0;
    printf("%-36s %14s %14s %7s\n", "", "library, ns", "plain C, ns", "ratio");
    for (size_t i = 0; i < sizeof items / sizeof *items; i++) {
        volatile uint32_t unknown = items[i].number; /* so that neither side is compiled for one number */
        uint32_t number = unknown;
        double library = 1e9, plain = 1e9;
        for (int turn = 0; turn < 5; turn++) {
            uint8_t a, b;
            double s = seconds(items[i].library, number, items[i].rounds, &a), t = seconds(items[i].plain, number, items[i].rounds, &b);
            library = s < library ? s : library, plain = t < plain ? t : plain;
            wrong += a != b;
        }
        printf("%-36s %14.1f %14.1f %7.2f\n", items[i].name, 1e9 * library / items[i].rounds, 1e9 * plain / items[i].rounds, library / plain);
    }
    if (wrong) printf("%d answers differ\n", wrong);
    return wrong != 0;
}
