/* What goes wrong, told on standard error. */
#include "fault.h"

#include <stdarg.h>
#include <stdio.h>

int fault(int status, const char *form, ...)
{
    va_list words;
    va_start(words, form);
    fputs("station: ", stderr);
    vfprintf(stderr, form, words);
    fputs("\n", stderr);
    va_end(words);
    return status;
}

int no_memory(void)
{
    return fault(STATUS_FILE, "there is not memory enough for the part's cells");
}
