// Runs the baseline and the proved library on the same sheets, in one process.
//
//   main agree    both sides must give the same list, and the same cover where the library has `list`, on the five sheets and on small ones
//   main show     the same sheets, three lines each: the codes, the list and the flags by the baseline
//   main count    each call once, on the five sheets, between two calls of getppid, which the emulator's log shows. In order: an empty call; then
//                 for each sheet the list by the baseline and by the library, then with the cover. Prints the sheets
#include "baseline.c"
#include "sheets.c"

int printf(const char *, ...);
int getppid(void);

// A slice of the library is a pointer and a length. The answer is the number of primes, all ones on a refusal.
size_t face_join(const uint16_t *, size_t, const uint16_t *, size_t, uint16_t *, size_t);
#ifdef WITH_LIST
size_t face_list(const uint16_t *, size_t, uint16_t *, size_t, uint8_t *, size_t);
#endif

typedef size_t call(const uint16_t *sheet, size_t m, uint16_t *codes, uint8_t *flags);

static size_t nothing(const uint16_t *sheet, size_t m, uint16_t *codes, uint8_t *flags)
{
    (void)sheet, (void)m, (void)codes, (void)flags;
    return 0;
}

static size_t list_of_baseline(const uint16_t *sheet, size_t m, uint16_t *codes, uint8_t *flags)
{
    (void)flags;
    return base_list(sheet, (unsigned)m, codes);
}

static size_t list_of_library(const uint16_t *sheet, size_t m, uint16_t *codes, uint8_t *flags)
{
    (void)flags;
    return face_join(sheet, m, sheet, 0, codes, MOST);
}

static size_t cover_of_baseline(const uint16_t *sheet, size_t m, uint16_t *codes, uint8_t *flags)
{
    return base_cover(sheet, (unsigned)m, codes, flags);
}

#ifdef WITH_LIST
static size_t cover_of_library(const uint16_t *sheet, size_t m, uint16_t *codes, uint8_t *flags)
{
    return face_list(sheet, m, codes, MOST, flags, MOST);
}
#endif

enum { CALLS = 5 };

// Through a volatile table no call is built into its caller.
static call *volatile calls[CALLS] = {
    nothing,
    list_of_baseline,
    list_of_library,
    cover_of_baseline,
#ifdef WITH_LIST
    cover_of_library,
#endif
};

static uint16_t sheet[MOST], codes[CALLS][MOST];
static uint8_t flags[CALLS][MOST];
static size_t counts[CALLS];

static void counted(int k, size_t m)
{
    call *f = calls[k];
    getppid();
    counts[k] = f(sheet, m, codes[k], flags[k]);
    getppid();
}

// Whether call k gave what the baseline gave, and left the rest alone.
static int same(int k, int with_flags)
{
    const int base = with_flags ? 3 : 1;
    if (counts[k] != counts[1])
        return 0;
    for (size_t i = 0; i < MOST; i++) {
        if (codes[k][i] != codes[1][i])
            return 0;
        if (with_flags && flags[k][i] != flags[base][i])
            return 0;
    }
    return 1;
}

static void clear(void)
{
    for (int k = 0; k < CALLS; k++)
        for (size_t i = 0; i < MOST; i++)
            codes[k][i] = 0xffff, flags[k][i] = 0xff;
}

// Runs every call on sheet k, from buffers that hold no code and no flag. Gives the sheet's length.
static size_t run(unsigned k)
{
    size_t m = make_sheet(k, sheet);
    clear();
    for (int c = 1; c < CALLS; c++)
        if (calls[c])
            counts[c] = calls[c](sheet, m, codes[c], flags[c]);
    return m;
}

static int agree(void)
{
    for (unsigned k = 0; k < CHECKED; k++) {
        run(k);
        if (!same(2, 0) || !same(3, 0) || (calls[4] && !same(4, 1))) {
            printf("DIFFERENT on sheet %u\n", k);
            return 1;
        }
    }
    printf("both sides agree on %u sheets, %s\n", (unsigned)CHECKED, calls[4] ? "list and cover" : "list alone: the library has no cover");
    return 0;
}

static int show(void)
{
    for (unsigned k = 0; k < CHECKED; k++) {
        size_t m = run(k);
        for (size_t i = 0; i < m; i++)
            printf("%u ", sheet[i]);
        printf("\n");
        for (size_t i = 0; i < counts[3]; i++)
            printf("%u ", codes[3][i]);
        printf("\n");
        for (size_t i = 0; i < counts[3]; i++)
            printf("%u ", flags[3][i]);
        printf("\n");
    }
    return 0;
}

static int count(void)
{
    counted(0, 0);
    for (unsigned s = 0; s < SHEETS; s++) {
        size_t m = run(s), kept = 0;
        for (size_t i = 0; i < counts[3]; i++)
            kept += flags[3][i];
        printf("%s|%u|%u|%u\n", sheet_names[s], (unsigned)m, (unsigned)counts[3], (unsigned)kept);
        for (int c = 1; c < CALLS; c++)
            if (calls[c])
                counted(c, m);
    }
    return 0;
}

int main(int argc, char **argv)
{
    switch (argc == 2 ? argv[1][0] : 0) {
    case 'a': return agree();
    case 's': return show();
    case 'c': return count();
    }
    return 2;
}
