/* Naming the checks that fail. */
#include "check.h"

#include <stdarg.h>
#include <stdio.h>

void check(struct checks *checks, bool holds, const char *name, ...)
{
    va_list values;
    if (holds) {
        checks->passed++;
        return;
    }
    checks->failed++;
    printf("failed: ");
    va_start(values, name);
    vprintf(name, values);
    va_end(values);
    printf("\n");
}
