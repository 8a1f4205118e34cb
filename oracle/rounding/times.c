/* Times rounding to F16 in several states of the crate `rounding`, which take turns; a figure is the best of 40 turns. COLUMNS names the states; the last one
   is an empty call. First every answer of the others is held to the C compiler's own conversion. With the word `sample` it prints
   some of the inputs, for count.c. */
#include "inputs.h"
#include <stdio.h>
#include <string.h>
#include <time.h>

#define X(name) unsigned short name##_f32_to_half(float), name##_f64_to_half(double);
COLUMNS
#undef X
static const struct {
    const char *name;
    unsigned short (*of_f32)(float), (*of_f64)(double);
} column[] = {
#define X(name) {#name, name##_f32_to_half, name##_f64_to_half},
    COLUMNS
#undef X
};
enum { STATES = sizeof column / sizeof *column };

static unsigned short bits_of_half(_Float16 h) {
    unsigned short bits;
    memcpy(&bits, &h, sizeof bits);
    return bits;
}

static unsigned long wrong_answers(void) {
    unsigned long wrong = 0;
    for (u32 i = 0; i < row[ALL].count; i++)
        for (int c = 0; c < STATES - 1; c++) {
            struct input x = row[ALL].of[i];
            wrong += column[c].of_f32(x.f32) != bits_of_half((_Float16)x.f32);
            wrong += column[c].of_f64(x.f64) != bits_of_half((_Float16)x.f64);
        }
    return wrong;
}

static double now(void) {
    struct timespec t;
    clock_gettime(CLOCK_MONOTONIC, &t);
    return t.tv_sec * 1e9 + t.tv_nsec;
}

/* One turn: calls in a row, or a chain, in which each call waits for the answer of the one before it: a number that is always 0, which the compiler can't
   know. */
static volatile u32 sixteen = 16, answer;

static double turn(int c, int r, int wide, int chain) {
    unsigned short (*of_f32)(float) = column[c].of_f32, (*of_f64)(double) = column[c].of_f64;
    const struct input *of = row[r].of;
    u32 count = row[r].count, shift = sixteen, h = 0, sum = 0;
    double begun = now();
    if (wide && chain)
        for (u32 i = 0; i < count; i++)
            h = of_f64(double_of(bits64_of(of[i].f64) ^ h >> shift));
    else if (wide)
        for (u32 i = 0; i < count; i++)
            sum += of_f64(of[i].f64);
    else if (chain)
        for (u32 i = 0; i < count; i++)
            h = of_f32(float_of(bits_of(of[i].f32) ^ h >> shift));
    else
        for (u32 i = 0; i < count; i++)
            sum += of_f32(of[i].f32);
    answer = sum + h;
    return (now() - begun) / count;
}

/* The first 256 inputs of each row, by their bits, as C reads them. */
static void print_sample(void) {
    for (int r = 0; r < ROWS; r++) {
        printf("{ /* %s */\n", row_name[r]);
        for (int i = 0; i < 256; i++)
            printf("{0x%08x, 0x%016llx},\n", bits_of(row[r].of[i].f32), bits64_of(row[r].of[i].f64));
        printf("},\n");
    }
}

int main(int words, char **word) {
    make_inputs();
    if (words == 2 && strcmp(word[1], "sample") == 0) {
        print_sample();
        return 0;
    }
    unsigned long wrong = wrong_answers();
    printf("%u inputs of F32 and of F64, each to %d states: %lu answers are not the C compiler's own\n", row[ALL].count, STATES - 1, wrong);
    for (int chain = 0; chain < 2; chain++)
        for (int wide = 0; wide < 2; wide++) {
            printf("\n| %s, ns a call%s |", wide ? "F64" : "F32", chain ? ", each waiting for the one before" : "");
            for (int c = 0; c < STATES; c++)
                printf(" %s |", column[c].name);
            printf("\n|---|");
            for (int c = 0; c < STATES; c++)
                printf("---|");
            for (int r = 0; r < ROWS; r++) {
                double best[STATES];
                for (int k = 0; k < 40; k++)
                    for (int c = 0; c < STATES; c++) {
                        double spent = turn(c, r, wide, chain);
                        if (k == 0 || spent < best[c])
                            best[c] = spent;
                    }
                printf("\n| %s |", row_name[r]);
                for (int c = 0; c < STATES; c++)
                    printf(" %.2f |", best[c]);
                fflush(stdout);
            }
            printf("\n");
        }
    return wrong != 0;
}
