/* Lists the entries of a sheet, gives setting 0 new content, and says which entries were worked for it.
 *
 *     cc -std=c99 -Ihost host/examples/example.c target/library/libbooth.a -lm -o example
 *     ./example crates/listing/data/example.sheet 32
 *
 * Status: 0 done; 1 the library refused the sheet or the change; 2 the words, the file or the output are at fault. */
#include <errno.h>
#include <inttypes.h>
#include <math.h>
#include <stdio.h>
#include <stdlib.h>
#include <string.h>

#include "booth.h"

/* One byte more than a sheet may have, so that the library itself refuses a file that is too long. */
static uint8_t sheet[BOOTH_SHEET_BYTES + 1];
static uint8_t results[BOOTH_ENTRIES * BOOTH_SLOT];
static uint8_t marks[BOOTH_ENTRIES];

static int complain(const char *what, const char *word) {
    fprintf(stderr, "example: %s%s\n", what, word);
    return 2;
}

static int refused(const char *what, uint64_t answer) {
    uint8_t number = BOOTH_NUMBER(answer);
    fprintf(stderr, "example: %s is refused: %s (%u), detail %" PRIu32 "\n", what, booth_name(number), number, BOOTH_DETAIL(answer));
    return 1;
}

/* A number in a slot: low byte first, on every machine. */
static uint64_t number_at(const uint8_t *bytes, int size) {
    uint64_t number = 0;
    while (size-- > 0) {
        number = number << 8 | bytes[size];
    }
    return number;
}

/* The components in a slot, by their type. */
static void print_components(const uint8_t *slot) {
    int components = slot[2] * slot[3];
    uint32_t low = (uint32_t)number_at(slot + 8, 4);
    float single;
    memcpy(&single, &low, sizeof single);
    if (components == 1 && slot[1] == BOOTH_U32) {
        printf(" %" PRIu32, low);
    } else if (components == 1 && slot[1] == BOOTH_I32) {
        printf(" %" PRId64, low <= INT32_MAX ? (int64_t)low : (int64_t)low - UINT32_MAX - 1);
    } else if (components == 1 && slot[1] == BOOTH_F32) {
        printf(" %.9g", (double)single);
    } else {
        printf(" type %u, %ux%u:", slot[1], slot[2], slot[3]);
        for (int c = 0; c < components; c++) printf(" %016" PRIx64, number_at(slot + 8 + 8 * c, 8));
    }
}

/* A value, or a refusal with its detail; a refused shift has its left operand too. */
static void print_entry(uint32_t k, const uint8_t *slot) {
    int shift = slot[0] == BOOTH_REFUSED_SHL_OVERFLOW || slot[0] == BOOTH_REFUSED_SHR_OVERFLOW;
    printf("entry %" PRIu32 ": %s", k, booth_name(slot[0]));
    if (slot[0] != BOOTH_OK) printf(" %" PRIu32, (uint32_t)number_at(slot + 4, 4));
    if (shift) printf(", operand");
    if (shift || slot[0] == BOOTH_OK) print_components(slot);
    printf("\n");
}

static void print_entries(uint32_t entries) {
    for (uint32_t k = 0; k < entries; k++) print_entry(k, results + k * BOOTH_SLOT);
}

/* The pattern that a word spells in a type; for Bool and F16 the pattern itself. What is too wide the library refuses. */
static int spelled(const char *word, uint8_t type, uint64_t *bits) {
    char *end;
    if (type == BOOTH_F32) {
        float single = strtof(word, &end);
        uint32_t low;
        memcpy(&low, &single, sizeof low);
        *bits = low;
        return end != word && *end == 0 && isfinite(single);
    }
    errno = 0;
    long long number = strtoll(word, &end, 10);
    *bits = type == BOOTH_I32 ? (uint32_t)number : (uint64_t)number;
    return end != word && *end == 0 && errno == 0 && (type != BOOTH_I32 || (number >= INT32_MIN && number <= INT32_MAX));
}

int main(int count, char **words) {
    if (count < 2 || count > 3) {
        return complain("usage: example SHEET [NUMBER]", "");
    }
    FILE *file = fopen(words[1], "rb");
    size_t length = file == NULL ? 0 : fread(sheet, 1, sizeof sheet, file);
    if (file == NULL || ferror(file) || fclose(file) != 0) {
        return complain("cannot read ", words[1]);
    }
    uint64_t answer = sheet_check(sheet, length);
    uint32_t entries = BOOTH_DETAIL(answer);
    if (BOOTH_NUMBER(answer) == BOOTH_OK) {
        answer = sheet_fresh(sheet, length, results, (size_t)entries * BOOTH_SLOT);
    }
    if (BOOTH_NUMBER(answer) != BOOTH_OK) {
        return refused(words[1], answer);
    }
    print_entries(entries);
    if (count == 3) {
        uint8_t type = results[1]; /* a setting has its own type in its slot once the sheet is worked out */
        uint64_t bits;
        if (!spelled(words[2], type, &bits)) {
            return complain("not a number of the setting's type: ", words[2]);
        }
        answer = sheet_change_marks(sheet, length, results, (size_t)entries * BOOTH_SLOT, 0, type, bits, marks, sizeof marks);
        if (BOOTH_NUMBER(answer) != BOOTH_OK) {
            return refused("the change", answer);
        }
        printf("changed entry 0; dependents: %" PRIu32 "; worked:", BOOTH_DETAIL(answer));
        for (uint32_t k = 0; k < entries; k++) {
            if (marks[k]) printf(" %" PRIu32, k);
        }
        printf("\n");
        print_entries(entries);
    }
    return fflush(stdout) == 0 ? 0 : complain("cannot write", "");
}
