/* Prints what a help page shows of a word: the word, and under it the changes of its letters on the way to its stem, numbered. The
 * words are the arguments; with none it is a word of the program's own. A refused word is named on standard error and makes the exit
 * status 1. */
#include <stdio.h>
#include <string.h>

#include "arabic_stemmer.h"

/* U+0648 U+0633 U+064A U+0643 U+062A U+0628 U+0648 U+0646 U+0647 U+0627, which changes at both ends. */
static char own_word[] = "\xD9\x88\xD8\xB3\xD9\x8A\xD9\x83\xD8\xAA\xD8\xA8\xD9\x88\xD9\x86\xD9\x87\xD8\xA7";

/* Where the last part of a text begins. A space is before it. */
static size_t last_part(const char *text, size_t length)
{
    while (text[length - 1] != ' ')
        length--;
    return length;
}

/* Prints a line of the story as a sentence. Its last two parts are the letters that the step found and the number of letters left;
 * the step's name in front has spaces of its own. */
static void print_change(size_t number, const char *line, size_t length)
{
    size_t left = last_part(line, length);
    size_t letters = last_part(line, left - 1);
    printf("  %zu. %.*s found %.*s; letters left: %.*s\n", number, (int)(letters - 1), line, (int)(left - 1 - letters), line + letters,
           (int)(length - left), line + left);
}

/* Prints the lines of a story, which each end with LF. */
static void print_story(const char *story, size_t length)
{
    if (length == 0)
        printf("  Nothing is changed.\n");
    const char *end = story + length;
    for (size_t number = 1; story < end; number++) {
        const char *line_end = memchr(story, '\n', (size_t)(end - story));
        print_change(number, story, (size_t)(line_end - story));
        story = line_end + 1;
    }
}

/* Prints a word and its story. The answer is the code with which the word was refused, or 0; a refused word is not printed. */
static uint32_t print_word(const char *word)
{
    uint8_t story[ARABIC_STEMMER_STORY_ROOM];
    arabic_stemmer_answer answer = arabic_stemmer_story((const uint8_t *)word, strlen(word), story, sizeof story);
    if (answer.code == ARABIC_STEMMER_DONE) {
        printf("%s\n", word);
        print_story((const char *)story, answer.count);
    }
    return answer.code;
}

/* Prints the words and names those that are refused, by their numbers from 1. The answer is how many they are. */
static int print_words(char **words, int count)
{
    int refused = 0;
    for (int i = 0; i < count; i++) {
        uint32_t code = print_word(words[i]);
        if (code != ARABIC_STEMMER_DONE) {
            fprintf(stderr, "story: word %d is refused with code %u\n", i + 1, (unsigned)code);
            refused++;
        }
    }
    return refused;
}

int main(int argc, char **argv)
{
    char *own[] = {own_word};
    int refused = argc > 1 ? print_words(argv + 1, argc - 1) : print_words(own, 1);
    if (fflush(stdout) != 0 || ferror(stdout)) {
        fprintf(stderr, "story: writing failed\n");
        return 1;
    }
    return refused > 0;
}
