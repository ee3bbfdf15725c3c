/* Runs the sheet on standard input, and beside it its table, through include/wrackbasket.h, a tick for each argument, a word
 * of faults in hexadecimal digits. Writes the step and the outputs at the start and after every tick, and stops where the two
 * do not show the same. */
#include "wrackbasket.h"
#include <stdio.h>
#include <stdlib.h>

static int show(uint64_t from_sheet, uint64_t from_table)
{
    if (from_sheet != from_table || WRACKBASKET_NUMBER(from_sheet) != 0) {
        printf("refused %u %u\n", WRACKBASKET_NUMBER(from_sheet), WRACKBASKET_TICK_PLACE(from_sheet));
        return 0;
    }
    printf("%u %04x\n", WRACKBASKET_STEP(from_sheet), WRACKBASKET_OUTPUTS(from_sheet));
    return 1;
}

int main(int count, char **words)
{
    uint8_t sheet[1009], table[756], at_step[WRACKBASKET_STATE_LENGTH], at_cell[WRACKBASKET_STATE_LENGTH];
    size_t length = fread(sheet, 1, sizeof sheet, stdin);
    if (ferror(stdin))
        return 1;
    uint32_t answer = wrackbasket_translate(sheet, length, table, sizeof table);
    if (WRACKBASKET_NUMBER(answer) != 0) {
        printf("refused %u %u\n", WRACKBASKET_NUMBER(answer), WRACKBASKET_ADDRESS(answer));
        return 1;
    }
    size_t cells = 12 * WRACKBASKET_CELLS(answer);
    wrackbasket_start(at_step, sizeof at_step);
    wrackbasket_start(at_cell, sizeof at_cell);
    int same = show(wrackbasket_show_sheet(sheet, length, at_step, sizeof at_step),
                    wrackbasket_show_table(table, cells, at_cell, sizeof at_cell));
    for (int i = 1; same && i < count; i++) {
        uint16_t word = (uint16_t)strtoul(words[i], NULL, 16);
        same = show(wrackbasket_tick_sheet(sheet, length, at_step, sizeof at_step, word),
                    wrackbasket_tick_table(table, cells, at_cell, sizeof at_cell, word));
    }
    return !same;
}
