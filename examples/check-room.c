/* Lends arabic_stemmer_story as much as a story has, a byte less, nothing, and all the room. What is wrong with an answer, or with a
 * byte of the output or beside it, is said on standard error, and makes the exit status 1. */
#include <stdio.h>
#include <string.h>

#include "arabic_stemmer.h"

/* Bytes that are not lent stand in front of the output and behind it. */
enum { BESIDE = 8 };
static uint8_t memory[BESIDE + ARABIC_STEMMER_STORY_ROOM + BESIDE], expected[sizeof memory];

/* Bytes that no story begins with, and no two neighbours alike. */
static void fill(uint8_t *bytes)
{
    for (size_t i = 0; i < sizeof memory; i++)
        bytes[i] = (uint8_t)(0x80 + i % 127);
}

/* Whether a word with so much room has that code, and that story where the code is 0. */
static int holds(const uint8_t *word, size_t length, size_t room, uint32_t code, const char *story)
{
    size_t count = code == ARABIC_STEMMER_DONE ? strlen(story) : 0;
    fill(memory);
    fill(expected);
    memcpy(expected + BESIDE, story, count);
    arabic_stemmer_answer answer = arabic_stemmer_story(word, length, memory + BESIDE, room);
    if (answer.code == code && answer.count == count && memcmp(memory, expected, sizeof memory) == 0)
        return 1;
    fprintf(stderr, "check-room: a story of %zu bytes in %zu is not as promised: code %u, count %zu\n", strlen(story), room,
            (unsigned)answer.code, answer.count);
    return 0;
}

/* A word that has this story. */
static int has(const char *word, const char *story)
{
    const uint8_t *bytes = (const uint8_t *)word;
    size_t length = strlen(word), just = strlen(story);
    return holds(bytes, length, just, ARABIC_STEMMER_DONE, story)
        && holds(bytes, length, ARABIC_STEMMER_STORY_ROOM, ARABIC_STEMMER_DONE, story)
        && (just == 0 || holds(bytes, length, just - 1, ARABIC_STEMMER_NO_ROOM, story))
        && (just == 0 || holds(bytes, length, 0, ARABIC_STEMMER_NO_ROOM, story));
}

/* A word that is refused whatever is lent. */
static int refused(const uint8_t *word, size_t length, uint32_t code)
{
    return holds(word, length, ARABIC_STEMMER_STORY_ROOM, code, "") && holds(word, length, 0, code, "");
}

/* The longest story that is known: 255 times a sign that is deleted. */
static int has_longest(void)
{
    static char word[ARABIC_STEMMER_LONGEST_WORD + 1], story[ARABIC_STEMMER_STORY_ROOM + 1];
    size_t count = 0;
    for (int left = ARABIC_STEMMER_LONGEST_WORD - 1; left >= 0; left--) {
        word[left] = '!';
        count += (size_t)sprintf(story + count, "Normalize pre 0021 %d\n", left);
    }
    return count == 5755 && has(word, story);
}

int main(void)
{
    uint8_t long_word[ARABIC_STEMMER_LONGEST_WORD + 1];
    memset(long_word, 0xFF, sizeof long_word);
    int right = has("", "") && has("\xD8\xA8", "") && has("\xD8\xA3", "Normalize post last 0623 1\n")
        && has("\xD9\x88\xD8\xB3\xD9\x8A\xD9\x83\xD8\xAA\xD8\xA8\xD9\x88\xD9\x86\xD9\x87\xD8\xA7",
               "Suffix Verb Step1 0647+0627 8\n"
               "Suffix Verb Step2a 0648+0646 6\n"
               "Prefix Step2 0648 5\n"
               "Prefix Step3 Verb 0633+064A 4\n")
        && has_longest() && refused(long_word, sizeof long_word, ARABIC_STEMMER_TOO_LONG)
        && refused(long_word, 1, ARABIC_STEMMER_NOT_WELL_FORMED);
    return !right;
}
