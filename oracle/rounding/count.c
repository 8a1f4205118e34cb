/* For an emulator that counts instructions, x86-64, with no library: rounds the inputs that times.c printed of a row, `count COLUMN F64 ROW`, each a digit.
   COLUMNS names the states. */
#define X(name) unsigned short name##_f32_to_half(float), name##_f64_to_half(double);
COLUMNS
#undef X
static unsigned short (*const of_f32[])(float) = {
#define X(name) name##_f32_to_half,
    COLUMNS
#undef X
};
static unsigned short (*const of_f64[])(double) = {
#define X(name) name##_f64_to_half,
    COLUMNS
#undef X
};
static const struct {
    union { unsigned bits; float value; } f32;
    union { unsigned long bits; double value; } f64;
} sample[][256] = {
#include "sample.h"
};

__asm__(".globl _start\n_start: mov %rsp, %rdi\ncall begin");

void begin(char **stack) {
    int column = *stack[2] - '0', wide = *stack[3] - '0', row = *stack[4] - '0';
    volatile unsigned short answer;
    for (int i = 0; i < 256; i++)
        answer = wide ? of_f64[column](sample[row][i].f64.value) : of_f32[column](sample[row][i].f32.value);
    (void)answer;
    __asm__ volatile("syscall" ::"a"(60), "D"(0));
    __builtin_unreachable();
}
