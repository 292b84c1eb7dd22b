// The five sheets, over six variables, and small ones for checks. Random numbers by splitmix64 from a fixed seed, so that every run has the same sheets.
#include "types.h"

enum { SHEETS = 5, CHECKED = 200, MOST = 4096 };

static const char *const sheet_names[SHEETS] = {
    "20 random phrases",
    "4,096 random phrases",
    "a quarter of the full complementary codes",
    "all codes with four literals",
    "three plain and three complement literals",
};

static uint64_t seed;

static uint64_t next_random(void)
{
    uint64_t z = seed += 0x9e3779b97f4a7c15ull;
    z = (z ^ z >> 30) * 0xbf58476d1ce4e5b9ull;
    z = (z ^ z >> 27) * 0x94d049bb133111ebull;
    return z ^ z >> 31;
}

static unsigned ones(unsigned x)
{
    unsigned n = 0;
    for (; x; x &= x - 1)
        n++;
    return n;
}

static unsigned random_phrases(unsigned count, uint16_t *sheet)
{
    for (unsigned i = 0; i < count; i++)
        sheet[i] = next_random() >> 52;
    return count;
}

static unsigned quarter(uint16_t *sheet)
{
    unsigned count = 0;
    for (unsigned c = 0; c < 4096; c++)
        if (((c | c >> 1) & 0x555) == 0x555 && (c & c >> 1 & 0x555) != 0)
            sheet[count++] = c;
    for (unsigned i = 0; i < count / 4; i++) {
        unsigned j = i + next_random() % (count - i);
        uint16_t c = sheet[i];
        sheet[i] = sheet[j];
        sheet[j] = c;
    }
    return count / 4;
}

static unsigned with_literals(unsigned plain, unsigned complement, unsigned any, uint16_t *sheet)
{
    unsigned count = 0;
    for (unsigned c = 0; c < 4096; c++)
        if (any ? ones(c) == any : ones(c & 0xaaa) == plain && ones(c & 0x555) == complement)
            sheet[count++] = c;
    return count;
}

static unsigned make_sheet(unsigned k, uint16_t *sheet)
{
    // 2 is the first start for which code 0 is not among the 4,096 phrases: with it the list is 0 alone.
    seed = 2 + k;
    switch (k) {
    case 0: return random_phrases(20, sheet);
    case 1: return random_phrases(4096, sheet);
    case 2: return quarter(sheet);
    case 3: return with_literals(0, 0, 4, sheet);
    case 4: return with_literals(3, 3, 0, sheet);
    }
    // Further ones, for checks: a few random phrases, the larger k the more; where k is odd, simple ones.
    unsigned count = random_phrases(next_random() % (2 + k / 4), sheet);
    for (unsigned i = 0; k % 2 && i < count; i++)
        sheet[i] &= ~(3 * (sheet[i] & sheet[i] >> 1 & 0x555));
    return count;
}
