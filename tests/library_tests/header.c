/* Shows the header alone: its constants, the lines that it makes, and how it frees. It needs no library.
 *
 *     header constants    prints each constant with its value
 *     header lines        reads faults, one a line as NUMBER SET TYPE CENID FIRST SECOND THIRD, and prints the line of each. A TYPE or a
 *                         CENID of - means none, and a CENID has ten hexadecimal digits
 *     header free         frees texts twice, and prints how many calls of free that made
 */
#include <stdio.h>
#include <stdlib.h>
#include <string.h>

static int frees;

static void counted_free(void *block)
{
    frees++;
    free(block);
}

#define free counted_free
#include "tigercanon.h"
#undef free

#define SHOW(name) printf("%s %d\n", #name, name)
#define GUARD 0x7f

static int show_constants(void)
{
    SHOW(TIGERCANON_DONE);
    SHOW(TIGERCANON_DIFFERENT);
    SHOW(TIGERCANON_REFUSED);
    SHOW(TIGERCANON_MEMORY);
    SHOW(TIGERCANON_UNKNOWN_TYPE);
    SHOW(TIGERCANON_LINE_TOO_LONG);
    SHOW(TIGERCANON_BAD_BYTE);
    SHOW(TIGERCANON_BAD_NUMBER);
    SHOW(TIGERCANON_BAD_POINT);
    SHOW(TIGERCANON_GAP_IN_RECORD);
    SHOW(TIGERCANON_TOO_MANY_RECORDS);
    SHOW(TIGERCANON_OUT_OF_MEMORY);
    SHOW(TIGERCANON_CHAIN_TWICE);
    SHOW(TIGERCANON_NO_CHAIN);
    SHOW(TIGERCANON_SEQUENCE_BROKEN);
    SHOW(TIGERCANON_LINK_MISSING);
    SHOW(TIGERCANON_LINK_TWICE);
    SHOW(TIGERCANON_NAME_TWICE);
    SHOW(TIGERCANON_NAME_UNKNOWN);
    SHOW(TIGERCANON_POLYGON_TWICE);
    SHOW(TIGERCANON_LAND_UNKNOWN);
    SHOW(TIGERCANON_POLYGON_UNKNOWN);
    SHOW(TIGERCANON_POLYGON_WITHOUT_CHAIN);
    SHOW(TIGERCANON_TOO_SYMMETRIC);
    printf("TIGERCANON_FORM %s\n", TIGERCANON_FORM);
    printf("TIGERCANON_EMPTY %s\n", TIGERCANON_EMPTY == NULL ? "null" : "an address");
    return 0;
}

static void read_cenid(const char *digits, uint8_t cenid[5])
{
    int i;
    for (i = 0; i < 5; i++) {
        char two[3] = {digits[2 * i], digits[2 * i + 1], 0};
        cenid[i] = (uint8_t)strtoul(two, NULL, 16);
    }
}

static int show_lines(void)
{
    unsigned number, set;
    unsigned long long first, second, third;
    char type, cenid[11], line[TIGERCANON_LINE + 1];
    while (scanf("%u %u %c %10s %llu %llu %llu", &number, &set, &type, cenid, &first, &second, &third) == 7) {
        struct tigercanon_fault fault = {(uint8_t)number, (uint8_t)set, 0, {0}, first, second, third};
        if (type != '-') {
            fault.record_type = (uint8_t)type;
        }
        if (cenid[0] != '-') {
            read_cenid(cenid, fault.cenid);
        }
        memset(line, GUARD, sizeof line);
        tigercanon_line(&fault, line);
        if (line[TIGERCANON_LINE] != GUARD || memchr(line, 0, TIGERCANON_LINE) == NULL) {
            return 1;
        }
        printf("%s\n", line);
    }
    return 0;
}

/* Whether a text has no bytes, and an address that isn't null and isn't that of its block. */
static bool is_empty(const struct tigercanon_text *text, uintptr_t block)
{
    return text->length == 0 && text->bytes != NULL && (uintptr_t)text->bytes != block;
}

static int show_free(void)
{
    struct tigercanon_text none = TIGERCANON_NO_TEXT, some = {malloc(9), 9};
    uintptr_t block = (uintptr_t)some.bytes;
    bool are_empty;
    tigercanon_free(&none);
    are_empty = is_empty(&none, 0);
    printf("without bytes: %d\n", frees);
    tigercanon_free(&some);
    are_empty = are_empty && is_empty(&some, block);
    printf("with bytes: %d\n", frees);
    tigercanon_free(&some);
    are_empty = are_empty && is_empty(&some, block);
    printf("once more: %d\n", frees);
    return are_empty ? 0 : 1;
}

int main(int count, char **words)
{
    const char *what = count == 2 ? words[1] : "";
    return strcmp(what, "constants") == 0 ? show_constants()
        : strcmp(what, "lines") == 0      ? show_lines()
        : strcmp(what, "free") == 0       ? show_free()
                                          : 2;
}
