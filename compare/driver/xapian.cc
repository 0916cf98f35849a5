// Xapian's Arabic stemmer for editions.rs: the stem of a word in front of an output, or a count over the room if it does not fit.
#include <cstring>
#include <string>
#include <xapian.h>

extern "C" size_t xapian_stem(const char *word, size_t length, char *out, size_t room)
{
    static const Xapian::Stem arabic("arabic");
    const std::string stem = arabic(std::string(word, length));
    if (stem.size() > room)
        return room + 1;
    std::memcpy(out, stem.data(), stem.size());
    return stem.size();
}
