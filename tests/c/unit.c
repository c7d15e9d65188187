/* The headers in a program of two units (this one and unit_other.c), included twice and in either order; the version's numbers and text. */
#include <naldrev.h>
#include <naldrev_store.h>
#include <naldrev.h>
#include <naldrev_store.h>

#include "expect.h"
#include "unit.h"

#include <string.h>

int main(void)
{
    char text[32];
    snprintf(text, sizeof text, "%d.%d.%d", NALDREV_VERSION_MAJOR, NALDREV_VERSION_MINOR, NALDREV_VERSION_PATCH);
    EXPECT(strcmp(text, NALDREV_VERSION) == 0);
    EXPECT(NALDREV_VERSION_NUMBER == NALDREV_VERSION_MAJOR * 1000000L + NALDREV_VERSION_MINOR * 1000 + NALDREV_VERSION_PATCH);
    for (size_t i = 0; i < 20; i++)
        EXPECT(strcmp(naldrev_text(i), text_of_other_unit(i)) == 0);
    EXPECT(empty_of_other_unit().len == 0);
    return failures > 0;
}
