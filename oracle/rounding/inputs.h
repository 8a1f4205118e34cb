/* What is rounded to F16: for every finite F16 h, of either sign, h itself and, of the numbers between it and the next one, the middle and the middle's
   two neighbours in the source; then numbers from half a step past the largest F16 on, and numbers that only 0 is near to, drawn with a fixed seed. Each
   row is in an order drawn with that seed, too. */
typedef unsigned u32;
typedef unsigned long long u64;

struct input {
    float f32;
    double f64;
};
enum { EXACT, TIE, ABOVE, BELOW, SUBNORMAL, OVERFLOW, ZERO, RESULTS, ALL, ROWS };
static const char *const row_name[] = {"exact", "tie", "above a tie", "below a tie", "subnormal, all four", "overflow", "to zero", "every result, all four", "all of these"};
static struct {
    struct input of[400000];
    u32 count;
} row[ROWS];

static float float_of(u32 bits) { return (union { u32 b; float f; }){bits}.f; }
static u32 bits_of(float x) { return (union { float f; u32 b; }){x}.b; }
static double double_of(u64 bits) { return (union { u64 b; double f; }){bits}.f; }
static u64 bits64_of(double x) { return (union { double f; u64 b; }){x}.b; }

static u64 state = 88172645463325252;
static u64 drawn(u64 below) {
    state ^= state << 13;
    state ^= state >> 7;
    state ^= state << 17;
    return state % below;
}

/* The value of the F16 with these bits; 7C00 counts as 65536, the number after the largest. */
static double value_of(u32 h) {
    u64 sign = (u64)(h >> 15) << 63, size = h & 0x7fff;
    double low = (double)size * 0x1p-24;
    return double_of(sign | (size < 0x400 ? bits64_of(low) : (size << 42) + (1008ull << 52)));
}

static void put(int where, float f32, double f64) {
    int only[] = {where, ALL, RESULTS};
    for (int i = 0; i < (where < OVERFLOW ? 3 : 2); i++)
        row[only[i]].of[row[only[i]].count++] = (struct input){f32, f64};
}

static void make_inputs(void) {
    for (u32 h = 0; h < 0x10000; h++) {
        if ((h & 0x7fff) >= 0x7c00)
            continue;
        double exact = value_of(h), tie = (exact + value_of(h + 1)) / 2;
        float f = (float)tie;
        u32 size = h & 0x7fff;
        int first = size < 0x400 ? SUBNORMAL : EXACT, step = size < 0x400 ? 0 : 1;
        put(first, (float)exact, exact);
        put(size == 0x7bff ? OVERFLOW : first + step, f, tie);
        put(size == 0x7bff ? OVERFLOW : first + 2 * step, float_of(bits_of(f) + 1), double_of(bits64_of(tie) + 1));
        put(first + 3 * step, float_of(bits_of(f) - 1), double_of(bits64_of(tie) - 1));
    }
    for (u32 i = 0; i < 60000; i++) {
        u64 sign = drawn(2);
        put(OVERFLOW, float_of(sign << 31 | (0x477ff000 + drawn(0x7f800001 - 0x477ff000))), double_of(sign << 63 | (0x40effe0000000000 + drawn(0x3f00020000000001))));
        put(ZERO, float_of(sign << 31 | drawn(0x33000001)), double_of(sign << 63 | drawn(0x3e60000000000001)));
    }
    for (int r = 0; r < ROWS; r++)
        for (u32 i = row[r].count; i > 1; i--) {
            u32 j = drawn(i);
            struct input moved = row[r].of[j];
            row[r].of[j] = row[r].of[i - 1];
            row[r].of[i - 1] = moved;
        }
}
