/* The functions of libbooth.a, the static library of crate booth_c. C99 or C++11; link with -lm.
 *
 * An answer is a uint64_t: the number in bits 32 to 39, the detail in bits 0 to 31. Number 0 is success.
 * A slice is a pointer and then a length. Slices that are written to must not overlap any other.
 * No call keeps a pointer, allocates, or needs anything set up first. A refused call changes no byte that it was lent, but for the slot of a
 * refused shift, which keeps the left operand.
 * docs/FORMAT.md has the bytes of sheets, slots and operands, and says when each number is answered.
 */
#ifndef BOOTH_H
#define BOOTH_H

#include <stddef.h>
#include <stdint.h>

#ifdef __cplusplus
extern "C" {
#endif

/* Bytes of a slot: status, type, columns, rows, detail in 4 bytes, 16 components of 8 bytes; low byte first, unused components 0.
 * Where the status is a refusal, type, columns, rows and components are 0. Only a refused shift, 9 and 10, keeps its left operand: its type, which
 * is I32, U32 or AbstractInt, 1 column, 1 row, and its bits as the first component; of vectors, the operand of the first component that was refused.
 * Such a slot is no value: an entry that names it is refused with 11. */
#define BOOTH_SLOT 136
/* A sheet has at most this many bytes and entries, and an expression at most this many nodes one inside the other. */
#define BOOTH_SHEET_BYTES 16384
#define BOOTH_ENTRIES 128
#define BOOTH_DEPTH 32

#define BOOTH_NUMBER(answer) ((uint8_t)((answer) >> 32))
#define BOOTH_DETAIL(answer) ((uint32_t)(answer))

/* Types. */
enum {
    BOOTH_BOOL = 0,
    BOOTH_ABSTRACT_INT = 1,
    BOOTH_ABSTRACT_FLOAT = 2,
    BOOTH_I32 = 3,
    BOOTH_U32 = 4,
    BOOTH_F32 = 5,
    BOOTH_F16 = 6
};

/* Stages. The last is no stage of a call: it is the stage byte of a setting's record. */
enum {
    BOOTH_CONST = 0,
    BOOTH_OVERRIDE = 1,
    BOOTH_EXEC = 2,
    BOOTH_SETTING = 3
};

/* The first byte of a node in a sheet. */
enum {
    BOOTH_NODE_LITERAL = 1,
    BOOTH_NODE_REFERENCE = 2,
    BOOTH_NODE_UNARY = 3,
    BOOTH_NODE_BINARY = 4
};

/* Unary operators: ! - ~ */
enum {
    BOOTH_NOT = 1,
    BOOTH_NEG = 2,
    BOOTH_BITNOT = 3
};

/* Binary operators: || && + - * / % == != < <= > >= | & ^ << >> */
enum {
    BOOTH_OR = 1,
    BOOTH_AND = 2,
    BOOTH_ADD = 3,
    BOOTH_SUB = 4,
    BOOTH_MUL = 5,
    BOOTH_DIV = 6,
    BOOTH_REM = 7,
    BOOTH_EQ = 8,
    BOOTH_NE = 9,
    BOOTH_LT = 10,
    BOOTH_LE = 11,
    BOOTH_GT = 12,
    BOOTH_GE = 13,
    BOOTH_BITOR = 14,
    BOOTH_BITAND = 15,
    BOOTH_BITXOR = 16,
    BOOTH_SHL = 17,
    BOOTH_SHR = 18
};

/* Numbers of answers and statuses of slots. 1 to 11 end one operation or fill one slot; 20 to 32 end the whole call. */
enum {
    BOOTH_OK = 0,
    BOOTH_REFUSED_UNARY = 1,
    BOOTH_REFUSED_BINARY = 2,
    BOOTH_REFUSED_COMPWISE_BINARY = 3,
    BOOTH_REFUSED_ADD_OVERFLOW = 4,
    BOOTH_REFUSED_SUB_OVERFLOW = 5,
    BOOTH_REFUSED_MUL_OVERFLOW = 6,
    BOOTH_REFUSED_DIV_BY_ZERO = 7,
    BOOTH_REFUSED_REM_ZERO_DIV = 8,
    BOOTH_REFUSED_SHL_OVERFLOW = 9,      /* detail: the count; the slot keeps the left operand */
    BOOTH_REFUSED_SHR_OVERFLOW = 10,     /* detail: the count; the slot keeps the left operand */
    BOOTH_REFUSED_FROM_ENTRY = 11,       /* detail: the entry named; in slots only */
    BOOTH_REFUSED_SHEET_TOO_LONG = 20,
    BOOTH_REFUSED_BAD_MARK = 21,         /* 21 to 29, detail: a byte place in the sheet */
    BOOTH_REFUSED_CUT_SHORT = 22,
    BOOTH_REFUSED_BAD_STAGE = 23,        /* 0 for a call's own stage */
    BOOTH_REFUSED_TOO_MANY_ENTRIES = 24,
    BOOTH_REFUSED_BAD_NODE = 25,         /* 0 for a call's own operator */
    BOOTH_REFUSED_BAD_VALUE = 26,        /* 0 for a call's own operand or content */
    BOOTH_REFUSED_BAD_REF = 27,
    BOOTH_REFUSED_TOO_DEEP = 28,
    BOOTH_REFUSED_LEFTOVER = 29,
    BOOTH_REFUSED_RESULTS_SIZE = 30,
    BOOTH_REFUSED_NOT_A_SETTING = 31,
    BOOTH_REFUSED_SETTING_TYPE = 32
};

/* The name of a number: "ok" for 0, for example "ShlOverflow" for 9, "unknown" for a number that is never answered. */
static inline const char *booth_name(uint8_t number) {
    switch (number) {
    case BOOTH_OK: return "ok";
    case BOOTH_REFUSED_UNARY: return "Unary";
    case BOOTH_REFUSED_BINARY: return "Binary";
    case BOOTH_REFUSED_COMPWISE_BINARY: return "CompwiseBinary";
    case BOOTH_REFUSED_ADD_OVERFLOW: return "AddOverflow";
    case BOOTH_REFUSED_SUB_OVERFLOW: return "SubOverflow";
    case BOOTH_REFUSED_MUL_OVERFLOW: return "MulOverflow";
    case BOOTH_REFUSED_DIV_BY_ZERO: return "DivByZero";
    case BOOTH_REFUSED_REM_ZERO_DIV: return "RemZeroDiv";
    case BOOTH_REFUSED_SHL_OVERFLOW: return "ShlOverflow";
    case BOOTH_REFUSED_SHR_OVERFLOW: return "ShrOverflow";
    case BOOTH_REFUSED_FROM_ENTRY: return "FromEntry";
    case BOOTH_REFUSED_SHEET_TOO_LONG: return "SheetTooLong";
    case BOOTH_REFUSED_BAD_MARK: return "BadMark";
    case BOOTH_REFUSED_CUT_SHORT: return "CutShort";
    case BOOTH_REFUSED_BAD_STAGE: return "BadStage";
    case BOOTH_REFUSED_TOO_MANY_ENTRIES: return "TooManyEntries";
    case BOOTH_REFUSED_BAD_NODE: return "BadNode";
    case BOOTH_REFUSED_BAD_VALUE: return "BadValue";
    case BOOTH_REFUSED_BAD_REF: return "BadRef";
    case BOOTH_REFUSED_TOO_DEEP: return "TooDeep";
    case BOOTH_REFUSED_LEFTOVER: return "Leftover";
    case BOOTH_REFUSED_RESULTS_SIZE: return "ResultsSize";
    case BOOTH_REFUSED_NOT_A_SETTING: return "NotASetting";
    case BOOTH_REFUSED_SETTING_TYPE: return "SettingType";
    default: return "unknown";
    }
}

/* An operand is bytes: type, columns, rows, and 8 bytes for each component of its shape, low byte first.
 * The slot must have exactly BOOTH_SLOT bytes; all of them are written where the number is 0, 9 or 10, and else none.
 * Judged in this order: operator (25), stage (23), operands, left first (26), size of the slot (30), then what the operator itself refuses. */
uint64_t wgsl_unary(uint8_t op, uint8_t stage,
                    const uint8_t *operand, size_t operand_len,
                    uint8_t *slot, size_t slot_len);
uint64_t wgsl_binary(uint8_t op, uint8_t stage,
                     const uint8_t *left, size_t left_len,
                     const uint8_t *right, size_t right_len,
                     uint8_t *slot, size_t slot_len);

/* Checks a sheet. Detail: the number of its entries, or the place of the fault. */
uint64_t sheet_check(const uint8_t *sheet, size_t sheet_len);

/* Works out all entries. The results must have exactly BOOTH_SLOT bytes for each. Detail: the number of entries. */
uint64_t sheet_fresh(const uint8_t *sheet, size_t sheet_len,
                     uint8_t *results, size_t results_len);

/* Gives a setting new content and works out what depends on it, and writes no byte of any other slot. Detail: the number of dependents,
 * the setting itself left out. The results must have exactly BOOTH_SLOT bytes for each entry.
 * Judged in this order: the sheet (20 to 29), the results' size (30), the entry (31), the content (26), its type (32). */
uint64_t sheet_change(const uint8_t *sheet, size_t sheet_len,
                      uint8_t *results, size_t results_len,
                      uint64_t entry, uint8_t type, uint64_t bits);

/* As sheet_change, and tells which entries were worked. The marks must have exactly BOOTH_ENTRIES bytes, whatever the sheet has; else 30, judged
 * right after the sheet. After success byte k is 1 if entry k is the setting or depends on it, and else 0. */
uint64_t sheet_change_marks(const uint8_t *sheet, size_t sheet_len,
                            uint8_t *results, size_t results_len,
                            uint64_t entry, uint8_t type, uint64_t bits,
                            uint8_t *marks, size_t marks_len);

#ifdef __cplusplus
}
#endif

#endif
