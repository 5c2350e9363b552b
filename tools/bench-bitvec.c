/* The loops of tools/bench-bitvec in C: each operation over all operand pairs at width 10.
   The first operand runs on past its width, so that all pairs come sixteen times. LOOP names the loop to run. */
#include <stdint.h>
#include <stdio.h>

enum op { NOT, NEG, ADD, SUB, MUL, UDIV, UREM, AND, OR, XOR, SHL, LSHR, ULT, ULE, SLT, SLE, CONCAT };
struct row { enum op op; uint8_t width, low; };
struct answer { uint8_t is_bits, width; uint16_t number; };

static const struct row ROWS[17] = {
    {NOT, 10, 10}, {NEG, 10, 10}, {ADD, 10, 10}, {SUB, 10, 10}, {MUL, 10, 10}, {UDIV, 10, 10},
    {UREM, 10, 10}, {AND, 10, 10}, {OR, 10, 10}, {XOR, 10, 10}, {SHL, 10, 10}, {LSHR, 10, 10},
    {ULT, 10, 10}, {ULE, 10, 10}, {SLT, 10, 10}, {SLE, 10, 10}, {CONCAT, 6, 10},
};

static unsigned masked(unsigned n, unsigned w) { return n & ((1u << w) - 1); }

static struct answer word(unsigned w, unsigned n) { return (struct answer){1, w, masked(n, w)}; }

static struct answer truth(int t) { return (struct answer){0, 0, t}; }

static int signed_of(unsigned n, unsigned w) {
    int size = 1 << w;
    return (int)n < size / 2 ? (int)n : (int)n - size;
}

static inline __attribute__((always_inline)) struct answer apply(struct row r, unsigned a, unsigned b) {
    unsigned w = r.width, v = r.low, x = masked(a, w), y = masked(b, v);
    switch (r.op) {
    case NOT: return word(w, ~x);
    case NEG: return word(w, -x);
    case ADD: return word(w, x + y);
    case SUB: return word(w, x - y);
    case MUL: return word(w, x * y);
    case UDIV: return word(w, y == 0 ? ~0u : x / y);
    case UREM: return word(w, y == 0 ? x : x % y);
    case AND: return word(w, x & y);
    case OR: return word(w, x | y);
    case XOR: return word(w, x ^ y);
    case SHL: return word(w, y >= w ? 0 : x << y);
    case LSHR: return word(w, y >= w ? 0 : x >> y);
    case ULT: return truth(x < y);
    case ULE: return truth(x <= y);
    case SLT: return truth(signed_of(x, w) < signed_of(y, w));
    case SLE: return truth(signed_of(x, w) <= signed_of(y, w));
    default: return word(w + v, x << v | y);
    }
}

/* one operation after the other, each over all pairs */
static void by_rows(void) {
    for (int i = 0; i < 17; i++) {
        uint32_t sum = 0;
        for (unsigned a = 0; a < 16384; a++)
            for (unsigned b = 0; b < 1024; b++)
                sum += apply(ROWS[i], a, b).number;
        printf("%u\n", sum);
    }
}

/* one pair after the other, each under all operations */
static void by_pairs(void) {
    uint32_t sum = 0;
    for (unsigned a = 0; a < 16384; a++)
        for (unsigned b = 0; b < 1024; b++)
            for (int i = 0; i < 17; i++)
                sum += apply(ROWS[i], a, b).number;
    printf("%u\n", sum);
}

#define EACH(OP) case OP: for (int k = 0; k < 64; k++) out[k] = apply((struct row){OP, r.width, r.low}, a[k], b[k]).number; break;

/* 64 pairs at a time, the operation chosen once for all of them */
static void block(struct row r, const uint16_t *a, const uint16_t *b, uint16_t *restrict out) {
    switch (r.op) {
        EACH(NOT) EACH(NEG) EACH(ADD) EACH(SUB) EACH(MUL) EACH(UDIV) EACH(UREM) EACH(AND) EACH(OR) EACH(XOR)
        EACH(SHL) EACH(LSHR) EACH(ULT) EACH(ULE) EACH(SLT) EACH(SLE) EACH(CONCAT)
    }
}

static void by_blocks(void) {
    uint16_t left[64], right[64], out[64];
    for (int i = 0; i < 17; i++) {
        uint32_t sum = 0;
        for (unsigned a = 0; a < 16384; a++)
            for (unsigned base = 0; base < 16; base++) {
                for (int k = 0; k < 64; k++) {
                    left[k] = a;
                    right[k] = base * 64 + k;
                }
                block(ROWS[i], left, right, out);
                for (int k = 0; k < 64; k++)
                    sum += out[k];
            }
        printf("%u\n", sum);
    }
}

int main(void) {
    LOOP();
    return 0;
}
