/* Stems the words that it is given as arguments: a line for each, with the stem, the kind and the number of endings cut, or what refused the word. */
#include <stdio.h>
#include <string.h>

#include "arabic_stemmer.h"

static const char *reason(uint32_t code)
{
    switch (code) {
    case ARABIC_STEMMER_TOO_LONG:
        return "refused: more than 255 bytes";
    case ARABIC_STEMMER_NOT_WELL_FORMED:
        return "refused: not well-formed UTF-8";
    default:
        return "refused: no room for the result";
    }
}

int main(int argc, char **argv)
{
    uint8_t output[ARABIC_STEMMER_ROOM];
    arabic_stemmer_answer version = arabic_stemmer_version(output, sizeof output);
    printf("%.*s\n", (int)version.count, (const char *)output);
    for (int i = 1; i < argc; i++) {
        const uint8_t *word = (const uint8_t *)argv[i];
        size_t length = strlen(argv[i]);
        arabic_stemmer_stem_answer stem = arabic_stemmer_stem(word, length, output, sizeof output);
        if (stem.code != ARABIC_STEMMER_DONE) {
            printf("%s\n", reason(stem.code));
            continue;
        }
        arabic_stemmer_kind_answer kind = arabic_stemmer_kind(word, length);
        printf("%.*s (%s, endings cut: %u)\n", (int)stem.count, (const char *)output, kind.kind == ARABIC_STEMMER_DEFINED ? "defined" : "open", (unsigned)stem.endings);
    }
    return 0;
}
