/* What of a sheet is too small for a finger. */
#ifndef SHOW_MEASURE_H
#define SHOW_MEASURE_H

#include "sheet.h"

/* Prints a line for each, on a tablet of ten inches. Answers how many there are, or -1 where it cannot be measured
 * here. */
int measure_touches(const sheet *s);

#endif
