/* The LowMC tables of a set, drawn by the rule of the LowMC reference. The library lends its tables and has none; whoever draws
   them by this rule gets the same. */
#ifndef DRAW_H
#define DRAW_H

#include <stdint.h>

/* Draws the tables of set 1, 2 or 3: key matrices, layer matrices and round constants, one behind the other, PICNIC_.._KEYS,
   PICNIC_.._LAYERS and PICNIC_.._CONSTANTS bytes. */
void draw_tables(uint64_t set, uint8_t *tables);

#endif
