/* What booth.h says: its constants, its names, and the worked example through its functions. C and C++ alike. */
#include <stdio.h>
#include <string.h>

#include "booth.h"

#define SHOW(constant) printf(#constant " %u\n", (unsigned)(constant))

static const uint8_t sheet[59] = {
    0xd5, 0x17, 3, 12, 0, 1, 4, 1, 1, 5, 0, 0, 0, 0, 0, 0, 0,
    0xd5, 0x17, 1, 16, 0, 4, 17, 1, 4, 1, 1, 1, 0, 0, 0, 0, 0, 0, 0, 2, 0,
    0xd5, 0x17, 1, 16, 0, 4, 4, 2, 1, 1, 4, 1, 1, 1, 0, 0, 0, 0, 0, 0, 0,
};
static uint8_t results[3 * BOOTH_SLOT], marks[BOOTH_ENTRIES + 1];

static void constants(void) {
    SHOW(BOOTH_SLOT);
    SHOW(BOOTH_SHEET_BYTES);
    SHOW(BOOTH_ENTRIES);
    SHOW(BOOTH_DEPTH);
    SHOW(BOOTH_BOOL);
    SHOW(BOOTH_ABSTRACT_INT);
    SHOW(BOOTH_ABSTRACT_FLOAT);
    SHOW(BOOTH_I32);
    SHOW(BOOTH_U32);
    SHOW(BOOTH_F32);
    SHOW(BOOTH_F16);
    SHOW(BOOTH_CONST);
    SHOW(BOOTH_OVERRIDE);
    SHOW(BOOTH_EXEC);
    SHOW(BOOTH_SETTING);
    SHOW(BOOTH_NODE_LITERAL);
    SHOW(BOOTH_NODE_REFERENCE);
    SHOW(BOOTH_NODE_UNARY);
    SHOW(BOOTH_NODE_BINARY);
    SHOW(BOOTH_NOT);
    SHOW(BOOTH_NEG);
    SHOW(BOOTH_BITNOT);
    SHOW(BOOTH_OR);
    SHOW(BOOTH_AND);
    SHOW(BOOTH_ADD);
    SHOW(BOOTH_SUB);
    SHOW(BOOTH_MUL);
    SHOW(BOOTH_DIV);
    SHOW(BOOTH_REM);
    SHOW(BOOTH_EQ);
    SHOW(BOOTH_NE);
    SHOW(BOOTH_LT);
    SHOW(BOOTH_LE);
    SHOW(BOOTH_GT);
    SHOW(BOOTH_GE);
    SHOW(BOOTH_BITOR);
    SHOW(BOOTH_BITAND);
    SHOW(BOOTH_BITXOR);
    SHOW(BOOTH_SHL);
    SHOW(BOOTH_SHR);
    SHOW(BOOTH_OK);
    SHOW(BOOTH_REFUSED_UNARY);
    SHOW(BOOTH_REFUSED_BINARY);
    SHOW(BOOTH_REFUSED_COMPWISE_BINARY);
    SHOW(BOOTH_REFUSED_ADD_OVERFLOW);
    SHOW(BOOTH_REFUSED_SUB_OVERFLOW);
    SHOW(BOOTH_REFUSED_MUL_OVERFLOW);
    SHOW(BOOTH_REFUSED_DIV_BY_ZERO);
    SHOW(BOOTH_REFUSED_REM_ZERO_DIV);
    SHOW(BOOTH_REFUSED_SHL_OVERFLOW);
    SHOW(BOOTH_REFUSED_SHR_OVERFLOW);
    SHOW(BOOTH_REFUSED_FROM_ENTRY);
    SHOW(BOOTH_REFUSED_SHEET_TOO_LONG);
    SHOW(BOOTH_REFUSED_BAD_MARK);
    SHOW(BOOTH_REFUSED_CUT_SHORT);
    SHOW(BOOTH_REFUSED_BAD_STAGE);
    SHOW(BOOTH_REFUSED_TOO_MANY_ENTRIES);
    SHOW(BOOTH_REFUSED_BAD_NODE);
    SHOW(BOOTH_REFUSED_BAD_VALUE);
    SHOW(BOOTH_REFUSED_BAD_REF);
    SHOW(BOOTH_REFUSED_TOO_DEEP);
    SHOW(BOOTH_REFUSED_LEFTOVER);
    SHOW(BOOTH_REFUSED_RESULTS_SIZE);
    SHOW(BOOTH_REFUSED_NOT_A_SETTING);
    SHOW(BOOTH_REFUSED_SETTING_TYPE);
}

static void names(void) {
    unsigned number;
    for (number = 0; number < 256; number++) {
        printf("%u %s\n", number, booth_name((uint8_t)number));
    }
}

static void say(const char *what, uint64_t answer) {
    printf("%s: %u %u\n", what, (unsigned)BOOTH_NUMBER(answer), (unsigned)BOOTH_DETAIL(answer));
}

/* The three statuses, and every mark, in figures. */
static void state(void) {
    unsigned k;
    printf("statuses %u %u %u, marks ", results[0], results[BOOTH_SLOT], results[2 * BOOTH_SLOT]);
    for (k = 0; k < sizeof marks; k++) {
        printf("%u", marks[k]);
    }
    printf("\n");
}

/* A slot up to the first byte of its first component. */
static void leaves(const uint8_t *slot) {
    unsigned k;
    printf("leaves");
    for (k = 0; k < 9; k++) {
        printf(" %02x", slot[k]);
    }
    printf("\n");
}

static void functions(void) {
    static const uint8_t one[11] = {BOOTH_U32, 1, 1, 1}, zero[11] = {BOOTH_U32, 1, 1, 0}, count[11] = {BOOTH_U32, 1, 1, 32};
    uint8_t slot[BOOTH_SLOT];
    say("check", sheet_check(sheet, sizeof sheet));
    say("fresh", sheet_fresh(sheet, sizeof sheet, results, sizeof results));
    memset(marks, 7, sizeof marks);
    state();
    say("a sheet cut short", sheet_change_marks(sheet, 58, results, sizeof results, 0, BOOTH_U32, 32, marks, 127));
    say("marks too short", sheet_change_marks(sheet, sizeof sheet, results, sizeof results, 1, BOOTH_U32, 32, marks, 127));
    say("marks too long", sheet_change_marks(sheet, sizeof sheet, results, sizeof results, 0, BOOTH_U32, 32, marks, 129));
    say("no setting", sheet_change_marks(sheet, sizeof sheet, results, sizeof results, 1, BOOTH_U32, 32, marks, BOOTH_ENTRIES));
    state();
    say("marks", sheet_change_marks(sheet, sizeof sheet, results, sizeof results, 0, BOOTH_U32, 32, marks, BOOTH_ENTRIES));
    state();
    say("change", sheet_change(sheet, sizeof sheet, results, sizeof results, 0, BOOTH_U32, 31));
    state();
    say("sum", wgsl_binary(BOOTH_ADD, BOOTH_CONST, one, sizeof one, one, sizeof one, slot, sizeof slot));
    printf("which is %u\n", slot[8]);
    say("not", wgsl_unary(BOOTH_NOT, BOOTH_CONST, one, sizeof one, slot, sizeof slot));
    memset(slot, 0xaa, sizeof slot);
    say("quotient", wgsl_binary(BOOTH_DIV, BOOTH_CONST, one, sizeof one, zero, sizeof zero, slot, sizeof slot));
    leaves(slot);
    say("shift", wgsl_binary(BOOTH_SHL, BOOTH_CONST, one, sizeof one, count, sizeof count, slot, sizeof slot));
    leaves(slot);
}

int main(void) {
    constants();
    names();
    functions();
    return 0;
}
