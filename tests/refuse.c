// Refuses one request for memory of the program that this library is loaded before.
//
// The variable REFUSED_AT has the number of the request, counted from 1; none is refused where it is 0. Only requests
// that the program's own code makes are counted. Those of the C library's code are neither counted nor refused. A line
// on standard error tells that a request was refused. The program doesn't see the two variables that are set for this
// library, and what it starts doesn't get them. tests/run builds this file and loads it. No program of this repository
// stands on it.
typedef unsigned long word;

extern void *__libc_malloc(word);
extern void *__libc_calloc(word, word);
extern void *__libc_realloc(void *, word);
extern void *__libc_memalign(word, word);
extern word getauxval(word);
extern char *getenv(const char *);
extern int unsetenv(const char *);
extern int *__errno_location(void);
extern long write(int, const void *, word);

enum { LOADED = 1, HEADERS = 6, AT_HEADERS = 3, AT_NUMBER = 5, NO_MEMORY = 12 };

// A program header, as ELF has it.
struct part {
    unsigned kind, rights;
    word offset, address, physical, in_file, in_memory, alignment;
};

// Where the program stands, which request is refused, and how many there were.
static word begin, end, refused, count;

// Takes a variable away and hands on the number that it has. Both names have ten letters. The bytes are cleared too:
// the system lists them where they stand.
static word taken(const char *name) {
    char *value = getenv(name);
    word number = 0;
    if (!value) return 0;
    unsetenv(name);
    for (const char *at = value; '0' <= *at && *at <= '9'; at++) number = number * 10 + (word)(*at - '0');
    for (char *at = value - sizeof "LD_PRELOAD"; *at; at++) *at = 0;
    return number;
}

// Runs before the program does.
__attribute__((constructor)) static void look(void) {
    const struct part *parts = (const struct part *)getauxval(AT_HEADERS);
    word number = getauxval(AT_NUMBER), base = 0;
    for (word i = 0; i < number; i++) {
        word at = base + parts[i].address;
        if (parts[i].kind == HEADERS) base = (word)parts - parts[i].address;
        if (parts[i].kind != LOADED) continue;
        if (!end || at < begin) begin = at;
        if (end < at + parts[i].in_memory) end = at + parts[i].in_memory;
    }
    refused = taken("REFUSED_AT");
    taken("LD_PRELOAD");
}

// Counts a request of the program, and says whether it is the one.
static int is_refused(void *caller) {
    static const char line[] = "one request for memory was refused\n";
    if ((word)caller < begin || end <= (word)caller || ++count != refused) return 0;
    if (write(2, line, sizeof line - 1) < 0) __builtin_trap();
    *__errno_location() = NO_MEMORY;
    return 1;
}

void *malloc(word size) {
    return is_refused(__builtin_return_address(0)) ? 0 : __libc_malloc(size);
}

void *calloc(word number, word size) {
    return is_refused(__builtin_return_address(0)) ? 0 : __libc_calloc(number, size);
}

void *realloc(void *block, word size) {
    return is_refused(__builtin_return_address(0)) ? 0 : __libc_realloc(block, size);
}

void *aligned_alloc(word alignment, word size) {
    return is_refused(__builtin_return_address(0)) ? 0 : __libc_memalign(alignment, size);
}
