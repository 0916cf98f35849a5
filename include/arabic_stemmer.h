/* The Arabic stemmer of rust-stemmers 1.2.0, proved. Link libarabic_stemmer.a, which ./build-library writes.
 *
 * Floating marks, vowel marks that stand alone as phones send them (U+FE70 to U+FE72, U+FE74, U+FE76 to U+FE7F), are taken
 * out of the word first where it is stemmed or normalised or its kind is asked for: a word that is not refused has the answers
 * of the same word without them, but for places, and its story has a line for each of them in front. Places and the 255 bytes
 * of a word are counted with them.
 *
 * Every function ends, allocates nothing and keeps no state: calls from several threads need no lock as long as
 * their outputs and places do not overlap. A word is any bytes and is only read. Pointers must not be null, also where the
 * length is 0; word, output and places must not overlap. */
#ifndef ARABIC_STEMMER_H
#define ARABIC_STEMMER_H

#include <stddef.h>
#include <stdint.h>

#ifdef __cplusplus
extern "C" {
#endif

/* The most bytes that a word may have. */
#define ARABIC_STEMMER_LONGEST_WORD 255

/* An output of so many bytes is long enough for every result but a story. */
#define ARABIC_STEMMER_ROOM 340

/* And one of so many bytes for every story; the longest one known has 5755. */
#define ARABIC_STEMMER_STORY_ROOM 5937

/* So many numbers are enough for the places of every stem's letters. */
#define ARABIC_STEMMER_PLACES_ROOM 255

/* Codes. With a code other than 0 all other numbers of the answer are 0, so that the kind is open; the output has its old bytes,
 * and the places are the old numbers. */
#define ARABIC_STEMMER_DONE 0            /* the result stands in front of the output, and a stem's places in front of theirs */
#define ARABIC_STEMMER_TOO_LONG 1        /* the word has more than 255 bytes: cut it, or leave it out */
#define ARABIC_STEMMER_NOT_WELL_FORMED 2 /* the word is not well-formed UTF-8: convert it first */
#define ARABIC_STEMMER_NO_ROOM 3         /* the output or the places are too short: lend the room that is named above */

/* Kinds. */
#define ARABIC_STEMMER_OPEN 0    /* noun or verb */
#define ARABIC_STEMMER_DEFINED 1 /* a noun with its article */

/* A code, and how many bytes of the output the result has. */
typedef struct {
    uint32_t code;
    size_t count;
} arabic_stemmer_answer;

/* A code, how many endings were cut, and how many bytes of the output the stem has. */
typedef struct {
    uint32_t code;
    uint32_t endings;
    size_t count;
} arabic_stemmer_stem_answer;

/* A code, how many endings were cut, how many bytes of the output the stem has, and how many letters: as many as places are
 * written. */
typedef struct {
    uint32_t code;
    uint32_t endings;
    size_t count;
    size_t letters;
} arabic_stemmer_places_answer;

/* A code, and a kind. */
typedef struct {
    uint32_t code;
    uint32_t kind;
} arabic_stemmer_kind_answer;

/* The stem of the word: with code 0 its bytes stand in front of the output, and the bytes behind the count are the
 * old ones. A word of nothing but floating marks and characters that normalising deletes has an empty stem, with code 0
 * and count 0.
 * The number of endings is that of all endings that were cut on the way to the stem, one after the other; what is taken or
 * changed in front is not counted, nor is a last letter that is changed. For a word of n letters when it is normalised it is
 * at most n - 2, and 0 where n is below 3; for a defined word it is at most 3. */
arabic_stemmer_stem_answer arabic_stemmer_stem(const uint8_t *word, size_t word_length, uint8_t *output, size_t output_length);

/* The same stem and number of endings, and a place for each letter of the stem: the byte, from 0, at which the letter that it
 * came from begins in the word as typed, floating marks included. With code 0 as many numbers as the stem has letters stand in
 * front of the places, and the numbers behind them are the old ones; the output is written as by arabic_stemmer_stem. The length
 * of the places is in numbers, not in bytes. Where the output or the places are too short the code is 3, and neither is written.
 * Both letters of a ligature have its place. Where two letters in front become one, the second's place is kept; of U+0623 U+0624
 * it is the first's. Places never fall along the stem. */
arabic_stemmer_places_answer arabic_stemmer_stem_places(const uint8_t *word, size_t word_length, uint8_t *output,
                                                        size_t output_length, uint16_t *places, size_t places_length);

/* The story of the stem, as ASCII text: a line for each change of the word's letters, in the order made, and none where nothing is
 * changed. A line has the step's name, the letters of the row that the step found, and how many letters the word has after the change,
 * parted by single spaces and ended by LF. Letters are four hexadecimal digits each, with capitals, joined by '+'; the number is
 * decimal. A step's name is that of the Rust function without r_, with spaces for underscores; r_Normalize_post is the two steps
 * "Normalize post last" and "Normalize post other". Each floating mark that is taken out is a line of the step "Floating mark" before
 * all others, with the mark in place of a row. For U+0648 U+0633 U+064A U+0643 U+062A U+0628 U+0648 U+0646 U+0647 U+0627:
 *
 *     Suffix Verb Step1 0647+0627 8
 *     Suffix Verb Step2a 0648+0646 6
 *     Prefix Step2 0648 5
 *     Prefix Step3 Verb 0633+064A 4
 *
 * ARABIC_STEMMER_STORY_ROOM bytes are enough. */
arabic_stemmer_answer arabic_stemmer_story(const uint8_t *word, size_t word_length, uint8_t *output, size_t output_length);

/* The word normalised, with nothing cut: floating and other vowel marks, the tatweel and some punctuation deleted, digits and
 * presentation forms replaced. A well-formed text of any length may be normalised in blocks of up to 255 bytes, each cut before a
 * byte that is not 0x80 to 0xBF: the results, joined, do not depend on where. A result normalised again is the same. A word of up
 * to 191 bytes has a result of at most 255; a longer result is refused when it is handed in again, and has to be cut. */
arabic_stemmer_answer arabic_stemmer_normalise(const uint8_t *word, size_t word_length, uint8_t *output, size_t output_length);

/* The stemmer's last step alone, on the word as given, floating marks and all: a last letter U+0622 to U+0626 becomes U+0621;
 * elsewhere these lose their hamza or madda. The result has as many bytes as the word, and finished again it is the
 * same. It is for whole words: in blocks, the last letter of each would change as a last letter. */
arabic_stemmer_answer arabic_stemmer_finish(const uint8_t *word, size_t word_length, uint8_t *output, size_t output_length);

/* Whether the word is defined. Codes are 0, 1 and 2; there is no output. It goes by the word as typed, without its
 * floating marks: two words that are normalised to the same bytes may be of two kinds. If they are of one kind, they have the same
 * stem and as many endings. */
arabic_stemmer_kind_answer arabic_stemmer_kind(const uint8_t *word, size_t word_length);

/* The version of the library and the edition whose stems it gives, as ASCII text with no zero behind it. Codes are 0
 * and 3; ARABIC_STEMMER_ROOM bytes are enough. */
arabic_stemmer_answer arabic_stemmer_version(uint8_t *output, size_t output_length);

#ifdef __cplusplus
}
#endif

#endif
