/* Translates the sheet on standard input through include/wrackbasket.h, and writes its table as hexadecimal digits, a
 * line for each cell. */
#include "wrackbasket.h"
#include <stdio.h>

int main(void)
{
    uint8_t sheet[1009], table[756];
    size_t length = fread(sheet, 1, sizeof sheet, stdin);
    if (ferror(stdin))
        return 1;
    uint32_t answer = wrackbasket_translate(sheet, length, table, sizeof table);
    if (WRACKBASKET_NUMBER(answer) != 0) {
        printf("refused %u %u\n", WRACKBASKET_NUMBER(answer), WRACKBASKET_ADDRESS(answer));
        return 1;
    }
    for (size_t i = 0; i < 12 * WRACKBASKET_CELLS(answer); i++)
        printf(i % 12 == 11 ? "%02x\n" : "%02x", table[i]);
    return 0;
}
