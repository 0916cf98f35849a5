/* Shows where a remark has a search word: words with the search word's stem are printed with the letters that the stem kept
 * underlined, and the others as they are. The first argument is the search word, the second the remark, whose words are parted by
 * single spaces. A refused word is named on standard error and makes the exit status 1. */
#include <stdio.h>
#include <string.h>

#include "arabic_stemmer.h"

/* A word's stem, and the place of each of its letters in the word. */
typedef struct {
    arabic_stemmer_places_answer answer;
    uint8_t stem[ARABIC_STEMMER_ROOM];
    uint16_t places[ARABIC_STEMMER_PLACES_ROOM];
} stemmed;

static void stem_word(const char *word, size_t length, stemmed *found)
{
    found->answer = arabic_stemmer_stem_places((const uint8_t *)word, length, found->stem, sizeof found->stem, found->places,
                                               ARABIC_STEMMER_PLACES_ROOM);
}

static int same_stem(const stemmed *one, const stemmed *other)
{
    return one->answer.count == other->answer.count && memcmp(one->stem, other->stem, one->answer.count) == 0;
}

/* Whether a letter of the stem came from the letter that begins here. Both letters of a ligature did: it is found once. */
static int is_kept(const stemmed *found, size_t place)
{
    for (size_t i = 0; i < found->answer.letters; i++)
        if (found->places[i] == place)
            return 1;
    return 0;
}

/* The end of the letter that begins here. A byte 0x80 to 0xBF goes on with a letter. */
static size_t letter_end(const char *word, size_t length, size_t begin)
{
    size_t end = begin + 1;
    while (end < length && ((uint8_t)word[end] & 0xC0) == 0x80)
        end++;
    return end;
}

static void print_bytes(const char *bytes, size_t length)
{
    fwrite(bytes, 1, length, stdout);
}

static void print_underlined(const char *letter, size_t length)
{
    fputs("\033[4m", stdout);
    print_bytes(letter, length);
    fputs("\033[24m", stdout);
}

/* A word whose stem was found, letter by letter. */
static void print_found(const char *word, size_t length, const stemmed *found)
{
    size_t end;
    for (size_t begin = 0; begin < length; begin = end) {
        end = letter_end(word, length, begin);
        if (is_kept(found, begin))
            print_underlined(word + begin, end - begin);
        else
            print_bytes(word + begin, end - begin);
    }
}

/* Prints a word of the remark. The answer is the code with which it was refused, or 0. */
static uint32_t print_word(const char *word, size_t length, const stemmed *searched)
{
    stemmed found;
    stem_word(word, length, &found);
    if (found.answer.code == ARABIC_STEMMER_DONE && same_stem(&found, searched))
        print_found(word, length, &found);
    else
        print_bytes(word, length);
    return found.answer.code;
}

/* Prints the remark and names the words that are refused, by their numbers from 1. The answer is how many they are. */
static size_t print_remark(const char *remark, const stemmed *searched)
{
    size_t refused = 0;
    for (size_t number = 1;; number++) {
        size_t length = strcspn(remark, " ");
        uint32_t code = print_word(remark, length, searched);
        if (code != ARABIC_STEMMER_DONE) {
            fprintf(stderr, "underline: word %zu of the remark is refused with code %u\n", number, (unsigned)code);
            refused++;
        }
        remark += length;
        if (*remark == '\0')
            return refused;
        putchar(*remark++);
    }
}

int main(int argc, char **argv)
{
    if (argc != 3) {
        fprintf(stderr, "usage: underline WORD REMARK\n");
        return 1;
    }
    stemmed searched;
    stem_word(argv[1], strlen(argv[1]), &searched);
    if (searched.answer.code != ARABIC_STEMMER_DONE) {
        fprintf(stderr, "underline: the search word is refused with code %u\n", (unsigned)searched.answer.code);
        return 1;
    }
    size_t refused = print_remark(argv[2], &searched);
    putchar('\n');
    if (fflush(stdout) != 0 || ferror(stdout)) {
        fprintf(stderr, "underline: writing failed\n");
        return 1;
    }
    return refused > 0;
}
