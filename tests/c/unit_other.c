/* The second unit of unit.c. */
#include <naldrev_store.h>
#include <naldrev.h>

#include "unit.h"

const char *text_of_other_unit(size_t number) { return naldrev_text(number); }

naldrev_field empty_of_other_unit(void)
{
    const naldrev_field empty = NALDREV_EMPTY_FIELD;
    return empty;
}
