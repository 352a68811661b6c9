/* The version, limits and sizes of host/pirrozketa.h, as a C compiler reads them, for fixed/header.rs. Compiled by tests/library/run. */
#include "pirrozketa.h"

#include <string.h>

#define SIZE(name) { #name, PIRROZKETA_##name }

static const struct { const char *name; size_t size; } sizes[] = {
    SIZE(CONTEXT), SIZE(TARGET), SIZE(RULE_PHONES), SIZE(RULES), SIZE(CLASSES), SIZE(CLASS), SIZE(NAME), SIZE(LISTED_PHONES),
    SIZE(LEFT_AT), SIZE(TARGET_AT), SIZE(RIGHT_AT), SIZE(PHONES_AT), SIZE(RULE), SIZE(REPLY), SIZE(IMAGE), SIZE(LIST),
    SIZE(LEFT_STATES), SIZE(RIGHT_STATES), SIZE(WORDS), SIZE(SETS), SIZE(PHONES), SIZE(NUMBERS), SIZE(FILE), SIZE(READ_OUT),
    SIZE(SHEET_NAMES), SIZE(TREE), SIZE(KEPT),
    SIZE(VERSION), SIZE(VERSION_MAJOR), SIZE(VERSION_MINOR)
};

size_t header_size(const char *name);

/* SIZE_MAX where there is none of that name. */
size_t header_size(const char *name)
{
    for (size_t k = 0; k < sizeof sizes / sizeof *sizes; k++)
        if (!strcmp(sizes[k].name, name))
            return sizes[k].size;
    return SIZE_MAX;
}
