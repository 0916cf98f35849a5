/* stack [FILE]: how much stack the library's functions use, over the costly words or over the lines of FILE of up to 255 bytes. Each is
 * called on a stack of its own that was filled with a pattern, and the bytes from the lowest that lost the pattern to the top are
 * counted. So the return address of the call is in them, and nothing of the caller. For x86-64. */
#include <stdio.h>
#include <stdlib.h>
#include <string.h>

#include "arabic_stemmer.h"

enum { STACK = 64 * 1024, ARGUMENTS = 7 };

/* The seventh argument lies above the stack that is counted, where the caller puts it. */
static uint8_t stack[STACK + 16] __attribute__((aligned(4096)));
static uint8_t word[ARABIC_STEMMER_LONGEST_WORD], output[ARABIC_STEMMER_STORY_ROOM];
static uint16_t places[ARABIC_STEMMER_PLACES_ROOM];
static arabic_stemmer_places_answer places_answer;

/* What a function is lent. An answer of over 16 bytes is written where its caller says, in front of all arguments. */
enum { WORD = 1, OUTPUT = 2, PLACES = 4 };

typedef struct {
    const char *name;
    void *function;
    int lent;
    size_t most; /* bytes found so far */
} entry;

/* Calls the function with up to seven arguments on the stack of its own. */
static void call(void *function, const uintptr_t *argument)
{
    uintptr_t a = argument[0], b = argument[1], c = argument[2], d = argument[3];
    register uintptr_t e __asm__("r8") = argument[4];
    register uintptr_t f __asm__("r9") = argument[5];
    uint8_t *top = stack + STACK;
    memcpy(top, argument + 6, sizeof *argument);
    __asm__ volatile(
        "movq %%rsp, %%rbx\n\t"
        "movq %[top], %%rsp\n\t"
        "call *%[function]\n\t"
        "movq %%rbx, %%rsp"
        : "+D"(a), "+S"(b), "+d"(c), "+c"(d), "+r"(e), "+r"(f), [top] "+r"(top), [function] "+r"(function)
        :
        : "rax", "rbx", "r10", "r11", "memory", "cc", "xmm0", "xmm1", "xmm2", "xmm3", "xmm4", "xmm5", "xmm6", "xmm7", "xmm8", "xmm9",
          "xmm10", "xmm11", "xmm12", "xmm13", "xmm14", "xmm15");
}

static size_t used(const entry *e, size_t length, int pattern)
{
    uintptr_t argument[ARGUMENTS] = {0};
    size_t n = 0, kept = 0;
    if (e->lent & PLACES) argument[n++] = (uintptr_t)&places_answer;
    if (e->lent & WORD) {
        argument[n++] = (uintptr_t)word;
        argument[n++] = length;
    }
    if (e->lent & OUTPUT) {
        argument[n++] = (uintptr_t)output;
        argument[n++] = sizeof output;
    }
    if (e->lent & PLACES) {
        argument[n++] = (uintptr_t)places;
        argument[n++] = sizeof places / sizeof *places;
    }
    memset(stack, pattern, STACK);
    call(e->function, argument);
    while (kept < STACK && stack[kept] == pattern) kept++;
    if (kept == 0) {
        fprintf(stderr, "%s used the whole stack of %d bytes\n", e->name, STACK);
        exit(1);
    }
    return STACK - kept;
}

static entry entries[] = {{"stem", (void *)arabic_stemmer_stem, WORD | OUTPUT, 0},
                          {"stem_places", (void *)arabic_stemmer_stem_places, WORD | OUTPUT | PLACES, 0},
                          {"story", (void *)arabic_stemmer_story, WORD | OUTPUT, 0},
                          {"normalise", (void *)arabic_stemmer_normalise, WORD | OUTPUT, 0},
                          {"finish", (void *)arabic_stemmer_finish, WORD | OUTPUT, 0},
                          {"kind", (void *)arabic_stemmer_kind, WORD, 0},
                          {"version", (void *)arabic_stemmer_version, OUTPUT, 0}};
enum { ENTRIES = sizeof entries / sizeof *entries };

/* Takes the word through all functions, with two patterns, so that a byte that happens to be one of them is seen. */
static void measure(size_t length)
{
    for (entry *e = entries; e < entries + ENTRIES; e++)
        for (int pattern = 0x5A; pattern <= 0xA5; pattern += 0x4B) {
            size_t n = used(e, length, pattern);
            if (n > e->most) e->most = n;
        }
}

/* A word of n times a letter. */
static void repeated(const char *letter, size_t n)
{
    size_t bytes = strlen(letter);
    for (size_t i = 0; i < n; i++) memcpy(word + i * bytes, letter, bytes);
    measure(n * bytes);
}

static size_t listed(const char *path)
{
    char line[4096];
    size_t words = 0;
    FILE *file = fopen(path, "r");
    if (!file) {
        perror(path);
        exit(2);
    }
    while (fgets(line, sizeof line, file)) {
        size_t length = strcspn(line, "\n");
        if (length > sizeof word) continue;
        memcpy(word, line, length);
        measure(length);
        words++;
    }
    fclose(file);
    return words;
}

int main(int argc, char **argv)
{
    if (argc > 1) {
        printf("%zu words\n", listed(argv[1]));
    } else {
        repeated("\xD9\x87", 127);
        repeated("\xEF\xBB\xBB", 85);
        repeated("a", 255);
        repeated("\xD8\xA3", 127);
        repeated("\xD8\xA7\xD9\x84", 63);
        repeated("a", 0);
    }
    for (const entry *e = entries; e < entries + ENTRIES; e++) printf("%s %zu bytes\n", e->name, e->most);
    return 0;
}
