/* Errors, one line each on standard error. */
#include "report.h"

#include <stdarg.h>
#include <stdio.h>

void complain(const char *format, ...)
{
    va_list values;

    fputs("glass: ", stderr);
    va_start(values, format);
    vfprintf(stderr, format, values);
    va_end(values);
    fputc('\n', stderr);
}
