/* What the examples share: UTF-8 as units and back, and the words of a question. */
#include "dfsc_host.h"
#include <stdio.h>

#define LEN(a) (sizeof(a) / sizeof *(a))

static const char *const kinds[] = {"", "dc", "root", "link", "sysvol", "io"};

/* A text for an array of 256 units; none of it, which no call takes for a path or a name, where it is no UTF-8 or longer. */
static size_t units(const char *s, uint16_t *out) {
    size_t n = dfsch_units_of_utf8(s, strlen(s), out, 256);
    return n > 256 ? 0 : n;
}

static void print(const char *key, const uint16_t *text, uint32_t n) {
    char utf8[769] = "";
    if (!DFSC_IS_REFUSED(SHOWS, n))
        dfsch_utf8_of_units(text, n, utf8, sizeof utf8);
    printf("%s=%s\n", key, utf8);
}
