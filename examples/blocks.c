/* Normalises a text of any length, its first argument, in blocks that are cut at letters. The second argument is the most bytes
 * that a block may have, 4 to 255. A text that is not well-formed UTF-8 is refused, with what came before already written. */
#include <stdio.h>
#include <stdlib.h>
#include <string.h>

#include "arabic_stemmer.h"

/* A byte 0x80 to 0xBF goes on with a letter; every other starts one. */
static int starts_letter(uint8_t byte)
{
    return (byte & 0xC0) != 0x80;
}

/* How many bytes the next block has. No letter has more than 4 bytes: where none starts in so many, the text is not well formed,
 * and this block or the next one will be refused. */
static size_t next_block(const uint8_t *text, size_t length, size_t most)
{
    if (length <= most)
        return length;
    for (size_t cut = most; cut > 0; cut--)
        if (starts_letter(text[cut]))
            return cut;
    return most;
}

int main(int argc, char **argv)
{
    size_t most = argc == 3 ? strtoul(argv[2], NULL, 10) : 0;
    if (most < 4 || most > ARABIC_STEMMER_LONGEST_WORD) {
        fprintf(stderr, "usage: blocks TEXT MOST, with MOST from 4 to %d\n", ARABIC_STEMMER_LONGEST_WORD);
        return 1;
    }
    const uint8_t *text = (const uint8_t *)argv[1];
    size_t length = strlen(argv[1]);
    while (length > 0) {
        uint8_t output[ARABIC_STEMMER_ROOM];
        size_t block = next_block(text, length, most);
        arabic_stemmer_answer normalised = arabic_stemmer_normalise(text, block, output, sizeof output);
        if (normalised.code != ARABIC_STEMMER_DONE) {
            fprintf(stderr, "blocks: refused with code %u\n", (unsigned)normalised.code);
            return 1;
        }
        fwrite(output, 1, normalised.count, stdout);
        text += block;
        length -= block;
    }
    putchar('\n');
    if (fflush(stdout) != 0 || ferror(stdout)) {
        fprintf(stderr, "blocks: writing failed\n");
        return 1;
    }
    return 0;
}
