#include "style.h"

#include <stdlib.h>
#include <unistd.h>

bool style_wanted(FILE *report)
{
    const char *const none = getenv("NO_COLOR");

    return isatty(fileno(report)) && !(none && *none);
}

void style_bright(FILE *report, bool wanted, const char *text)
{
    fprintf(report, wanted ? "\033[1;33m%s\033[0m" : "%s", text);
}
