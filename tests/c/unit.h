/* What unit_other.c has for unit.c. */
#ifndef TESTS_UNIT_H
#define TESTS_UNIT_H

#include <naldrev_store.h>

const char *text_of_other_unit(size_t number);
naldrev_field empty_of_other_unit(void);

#endif
