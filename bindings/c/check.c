/* check.c: calls cc2_ask as no program would.
 *
 *   check threads        four threads ask different questions at once, and get what one thread gets
 *   check leaks          a call gives back all memory that it takes
 *   check memory         each request for memory of a call is refused in turn
 *   check cells          the cells of a load, cut at each place, and with each byte changed
 *   check fuzz [COUNT]   COUNT changed requests, each with little room, and once more with what its reply takes
 *   check all            all of these
 *
 * Each prints a line with what it did; the status is 1 where something is wrong. It is linked with --wrap=malloc, --wrap=realloc
 * and --wrap=free, so that the library's requests for memory come to check_heap.c.
 */
#define _POSIX_C_SOURCE 200809L
#include "check.h"
#include "cc2.h"

#include <pthread.h>
#include <stdio.h>
#include <stdlib.h>
#include <string.h>
#include <sys/resource.h>

enum { THREADS = 4, ROUNDS = 100, ROOM = 4096, GUARD = 64, MARK = 0xEE, SECONDS = 100, STACK = 8 << 20 };

_Noreturn void fail(const char *what) {
    fprintf(stderr, "FAILED: %s\n", what);
    exit(1);
}

/* ---- questions ---- */

typedef struct {
    uint8_t at[8192];
    size_t length;
} Request;

static void put(Request *request, const void *from, size_t length) {
    if (sizeof request->at - request->length < length) fail("a question is too long");
    memcpy(request->at + request->length, from, length);
    request->length += length;
}

static void put_number(Request *request, size_t number) {
    uint8_t four[4] = {(uint8_t)number, (uint8_t)(number >> 8), (uint8_t)(number >> 16), (uint8_t)(number >> 24)};
    put(request, four, sizeof four);
}

static void put_text(Request *request, const char *text) {
    put_number(request, strlen(text));
    put(request, text, strlen(text));
}

/* A record: its kind, and texts up to NULL. */
static void put_record(Request *request, char kind, const char *const *texts) {
    put(request, &kind, 1);
    for (; *texts; texts++) put_text(request, *texts);
}

#define RECORD(request, kind, ...) put_record(request, kind, (const char *const[]){__VA_ARGS__, NULL})

/* A command that can't be started, or that ended with 0 and wrote this. */
static void put_run(Request *request, const char *program, const char *const *args, const char *output) {
    size_t count = 0;
    while (args[count]) count++;
    RECORD(request, output ? 'P' : 'X', program);
    put_number(request, count);
    for (size_t i = 0; i < count; i++) put_text(request, args[i]);
    if (!output) return;
    put_number(request, 1);
    put(request, "", 1);
    put_text(request, output);
    put_text(request, "");
}

#define NEAR                                                                                             \
    "[build]\njobs = 4\nrustflags = ['a']\n[target.'cfg(all(unix, not(target_os = \"x\")))']\nlinker = 'l/d'\n" \
    "runner = ['r', '-x']\n[target.t.x]\ny = 1\n[env]\nA = { value = 'b', relative = true }\n"
#define FAR                                                                                              \
    "build.rustflags = ['b']\nbuild.target-dir = 't'\n[registries.r]\nindex = 'i'\ntoken = 'k'\n[alias]\n"      \
    "b = 'build --release'\n[net]\nretry = 3\n[http]\nproxy = \"p\\u0000\"\n"

/* A near file in which no table of `target` holds another one, so that its load has a state. */
#define FLAT                                                                                             \
    "[build]\nrustflags = ['a']\n[target.'cfg(all(unix, not(target_os = \"x\")))']\nlinker = 'l/d'\n"     \
    "runner = ['r', '-x']\n[target.t]\nrustflags = 'c  d'\n[env]\nA = { value = 'b', relative = true }\n"     \
    "[registry]\nglobal-credential-providers = ['cargo:token', 'p -x']\n"

/* The questions' words. One is refused, one is none, and two lack what they need: files that the walk looks at, and
 * what rustc prints. The last two are a load, and items by its state. */
enum { QUESTIONS = 10, WALKED = 6, LOAD = 8, BY_STATE = 9 };
static const char *const words[QUESTIONS][5] = {
    {"/p/q", "build"},
    {"/p/q", "rustc", "--config", "build.rustc-wrapper = 'w/x'"},
    {"/p/q", "host"},
    {"/p/q", "target", "t"},
    {"/p/q", "build", "--config", "build.jobs = 'x'"},
    {"/p/q", "builds"},
    {"/p/q", "target", "t"},
    {"/p/q", "target", "u"},
    {"/p/q", "load", "--config", "build.rustc-wrapper = 'w/x'"},
    {"/p/q", "several", "target", "t", "rustc"},
};

/* How the replies begin, after the length of their text. */
static const char *const beginnings[QUESTIONS] = {
    "build.jobs = 4 # /p/q/.cargo/config.toml\nbuild.target-dir = \"t\" # /p/.cargo/config\nbuild.rustflags[0] = \"b\"",
    "rustc[0] = \"/p/q/w/x\"\nrustc[1] = \"rustc\"\n",
    "host = \"t\"\n",
    "linker = \"/p/q/l/d\"\nrunner[0] = \"r\"\nrunner[1] = \"-x\"\nrustflags[0] = \"b\"\nrustflags[1] = \"a\"\nrustdocflags[0] = \"-d\"\n",
    "error: failed to parse",
    "",
    "/.cargo/config",
    "rustc",
    "\2",
    "linker = \"/p/q/l/d\"\nrunner[0] = \"r\"\nrunner[1] = \"-x\"\nrustflags[0] = \"c\"\nrustflags[1] = \"d\"\nrustdocflags[0] = \"-d\"\n",
};
static const char kinds[QUESTIONS] = {'A', 'A', 'A', 'A', 'A', 'A', 'R', 'P', 'L', 'A'};

static Request questions[QUESTIONS];

/* A reply, and what was written of it. */
typedef struct {
    uint8_t *at;
    size_t length, written;
} Reply;

static Reply replies[QUESTIONS];

/* Hands back the state of a load. */
static void put_state(Request *request, const Reply *load) {
    struct cc2_cells cells;
    struct cc2_bytes state;
    if (!cc2_load_read(load->at, load->length, &cells, &state) || state.length == 0) fail("a load has no state");
    put(request, "S", 1);
    put_number(request, state.length);
    put(request, state.at, state.length);
}

static void put_question(Request *request, int number) {
    const char *const version[] = {"-vV", NULL};
    const char *const print[] = {"--print", "cfg", "--target", "t", NULL};
    const char *const wrapped[] = {"rustc", "--print", "cfg", "--target", "t", NULL};
    for (int i = 0; i < 5 && words[number][i]; i++) RECORD(request, 'W', words[number][i]);
    RECORD(request, 'C', "/p/q");
    RECORD(request, 'H', "/h");
    RECORD(request, 'V', "CARGO_BUILD_INCREMENTAL", "true");
    RECORD(request, 'V', "RUSTDOCFLAGS", "-d  -e");
    RECORD(request, 'N', "rustc");
    if (number == BY_STATE) {
        put_state(request, &replies[LOAD]);
    } else {
        RECORD(request, 'N', "/p/q/.cargo/config");
        RECORD(request, 'F', "/p/q/.cargo/config.toml", number == LOAD ? FLAT : NEAR);
        RECORD(request, 'F', "/p/.cargo/config", FAR);
        RECORD(request, 'U', "/p/.cargo/config.toml");
        RECORD(request, 'N', "/h/.cargo/config");
        RECORD(request, 'N', "/h/.cargo/config.toml");
        if (number != WALKED) RECORD(request, 'N', "/.cargo/config");
        if (number != WALKED) RECORD(request, 'N', "/.cargo/config.toml");
    }
    put_run(request, "cargo", version, NULL);
    put_run(request, "rustc", version, "rustc 1.0.0\nhost: t\nrelease: 1.0.0\n");
    put_run(request, "rustc", print, "unix\ntarget_os=\"linux\"\n");
    if (number == BY_STATE) put_run(request, "/p/q/w/x", wrapped, "unix\ntarget_os=\"linux\"\n");
}

/* ---- replies ---- */

/* Calls with so much room, and checks that nothing after it, or after the reply, is written. */
static Reply ask(unsigned long refused, const uint8_t *request, size_t length, size_t room) {
    Reply reply = {malloc(room + GUARD), 0, 0};
    if (!reply.at) fail("no memory");
    memset(reply.at, MARK, room + GUARD);
    reply.length = watched_ask(refused, request, length, reply.at, room);
    reply.written = reply.length < room ? reply.length : room;
    for (size_t i = reply.written; i < room + GUARD; i++)
        if (reply.at[i] != MARK) fail("a call wrote after its reply, or after the room for it");
    return reply;
}

static Reply ask_question(int number, unsigned long refused, size_t room) {
    return ask(refused, questions[number].at, questions[number].length, room);
}

static int is_same(const Reply *reply, const Reply *other) {
    return reply->length == other->length && !memcmp(reply->at, other->at, reply->length);
}

/* Whether these are the two fields of a load, and the first is cells. */
static int is_load(const Reply *reply) {
    struct cc2_cells cells;
    struct cc2_cell cell;
    struct cc2_bytes state;
    int more = 1;
    if (!cc2_load_read(reply->at, reply->length, &cells, &state)) return 0;
    while (more == 1) more = cc2_cells_next(&cells, &cell);
    return more == 0;
}

/* Whether these bytes, written whole, are a reply. */
static int is_reply(const Reply *reply) {
    struct cc2_bytes left = {reply->at, reply->length}, field;
    struct cc2_list args;
    uint8_t kind, status;
    if (reply->written < reply->length || !cc2_take_byte(&left, &kind)) return 0;
    if (kind == 'B') return left.length == 0;
    if (kind == 'A') return cc2_take_byte(&left, &status) && status <= 2 && cc2_take_field(&left, &field) && left.length == 0;
    if (kind == 'L') return is_load(reply);
    do {
        if (kind != 'E' && kind != 'R' && kind != 'P') return 0;
        if (!cc2_take_field(&left, &field) || (kind == 'P' && !cc2_take_texts(&left, &args))) return 0;
    } while (cc2_take_byte(&left, &kind));
    return left.length == 0;
}

/* Asks each question once and looks at the replies. */
static void put_replies(void) {
    for (int i = 0; i < QUESTIONS; i++) {
        put_question(&questions[i], i);
        Reply *reply = &replies[i];
        *reply = ask_question(i, 0, ROOM);
        size_t front = kinds[i] == 'A' ? 6 : 5, begins = strlen(beginnings[i]);
        int is_begun = reply->length >= front + begins && !memcmp(reply->at + front, beginnings[i], begins);
        if (reply->at[0] == kinds[i] && is_begun && is_reply(reply)) continue;
        size_t shown = reply->written > front ? reply->written - front : 0;
        fprintf(stderr, "the reply to question %d: %c %.*s\n", i, reply->at[0], (int)shown, (char *)reply->at + front);
        fail("a reply is otherwise than expected");
    }
}

/* ---- the checks ---- */

static void *ask_around(void *first) {
    for (int i = 0; i < ROUNDS; i++) {
        int number = (*(int *)first + i) % QUESTIONS;
        Reply reply = ask_question(number, 0, ROOM);
        if (!is_same(&reply, &replies[number])) fail("a thread got another reply than one alone");
        free(reply.at);
    }
    return NULL;
}

static void check_threads(void) {
    pthread_t threads[THREADS];
    int firsts[THREADS];
    pthread_attr_t large;
    pthread_attr_init(&large);
    pthread_attr_setstacksize(&large, STACK);
    for (int i = 0; i < THREADS; i++) {
        firsts[i] = i * QUESTIONS / THREADS;
        if (pthread_create(&threads[i], &large, ask_around, &firsts[i])) fail("a thread can't be started");
    }
    for (int i = 0; i < THREADS; i++) pthread_join(threads[i], NULL);
    printf("threads: %d replies to %d threads are those to one\n", THREADS * ROUNDS, THREADS);
}

static void check_leaks(void) {
    unsigned long all = 0;
    for (int i = 0; i < QUESTIONS; i++) {
        free(ask_question(i, 0, 0).at);
        if (!requests) fail("the library's requests for memory aren't counted");
        all += requests;
    }
    printf("leaks: %lu requests for memory, and all is given back\n", all);
}

/* Whether a call in which a request for memory was refused may reply so: 0, the reply as if none had been, or an answer that
 * says so. A reply with needs may have fewer of them. */
static int is_fair(const Reply *reply, const Reply *whole) {
    static const char said[] = "A\1\25\0\0\0error: out of memory\n";
    if (reply->length == 0 || is_same(reply, whole)) return 1;
    if (reply->length == sizeof said - 1 && !memcmp(reply->at, said, sizeof said - 1)) return 1;
    return whole->at[0] == 'R' && reply->at[0] == 'R' && is_reply(reply);
}

static void check_memory(void) {
    long all = 0, nothing = 0, same = 0;
    for (int i = 0; i < QUESTIONS; i++) {
        for (unsigned long refused = 1;; refused++) {
            Reply reply = ask_question(i, refused, ROOM);
            if (!is_fair(&reply, &replies[i])) {
                fprintf(stderr, "question %d, request %lu refused: %.*s\n", i, refused, (int)reply.written, (char *)reply.at);
                fail("with a request for memory refused there is another reply");
            }
            free(reply.at);
            if (requests < refused) break;
            all++;
            nothing += reply.length == 0;
            same += reply.length == replies[i].length;
        }
    }
    printf("memory: %ld requests refused in turn; %ld times there is no reply, and %ld times one as if none was\n", all, nothing, same);
}

static uint64_t state = 7;

static size_t random_below(size_t bound) {
    state ^= state << 13, state ^= state >> 7, state ^= state << 17;
    return (size_t)((state >> 11) % bound);
}

/* Changes a request: other bytes, lost bytes, bytes twice, or the front of one and the end of another. */
static size_t changed(const Request *from, uint8_t *into) {
    size_t length = from->length, at = random_below(length), count = 1 + random_below(length - at < 64 ? length - at : 64);
    memcpy(into, from->at, length);
    for (size_t times = random_below(4); times; times--) {
        size_t place = random_below(length);
        into[place] = random_below(3) ? (uint8_t)random_below(8) : (uint8_t)random_below(256);
    }
    switch (random_below(6)) {
    case 0:
        return random_below(length);
    case 1:
        memmove(into + at, into + at + count, length - at - count);
        return length - count;
    case 2:
        memmove(into + at + count, into + at, length - at);
        return length + count;
    case 3: {
        const Request *other = &questions[random_below(QUESTIONS)];
        size_t rest = random_below(other->length);
        memcpy(into + at, other->at + other->length - rest, rest);
        return at + rest;
    }
    default:
        return length;
    }
}

static void check_fuzz(long count) {
    unsigned long by_kind[256] = {0};
    static uint8_t made[2 * sizeof questions[0].at];
    for (long i = 0; i < count; i++) {
        size_t length = changed(&questions[random_below(QUESTIONS)], made);
        /* A block of just this length, so that a sanitizer sees reads after it. */
        uint8_t *request = malloc(length ? length : 1);
        if (!request) fail("no memory");
        memcpy(request, made, length);
        Reply reply = ask(0, request, length, random_below(2) ? random_below(64) : ROOM);
        Reply again = ask(0, request, length, reply.length);
        if (again.length != reply.length || memcmp(again.at, reply.at, reply.written)) fail("a request has two replies");
        if (!is_reply(&again)) fail("a reply is none");
        by_kind[again.at[0]]++;
        free(request), free(reply.at), free(again.at);
    }
    printf("fuzz: %ld requests: %lu aren't records, %lu are answered, %lu are loads, %lu lack a file and %lu a command\n", count,
           by_kind['B'], by_kind['A'], by_kind['L'], by_kind['E'] + by_kind['R'], by_kind['P']);
    if (count >= 1000 && (!by_kind['A'] || !by_kind['B'] || !by_kind['L'] || !by_kind['R'])) fail("the changes are all of one kind");
}

static int is_one_of(const char *word, const char *const *words) {
    while (*words && strcmp(*words, word)) words++;
    return *words != NULL;
}

int main(int argc, char **argv) {
    const char *what = argc > 1 ? argv[1] : "";
    int all = !strcmp(what, "all");
    /* A call that doesn't end is ended by a signal. */
    setrlimit(RLIMIT_CPU, &(struct rlimit){SECONDS, SECONDS});
    setvbuf(stdout, NULL, _IOLBF, 0);
    put_replies();
    if (all || !strcmp(what, "threads")) check_threads();
    if (all || !strcmp(what, "leaks")) check_leaks();
    if (all || !strcmp(what, "memory")) check_memory();
    if (all || !strcmp(what, "cells")) check_cells(replies[LOAD].at, replies[LOAD].length);
    if (all || !strcmp(what, "fuzz")) check_fuzz(argc > 2 ? atol(argv[2]) : 5000);
    if (!all && !is_one_of(what, (const char *const[]){"threads", "leaks", "memory", "cells", "fuzz", NULL})) {
        fputs("usage: check (threads | leaks | memory | cells | fuzz [COUNT] | all)\n", stderr);
        return 2;
    }
    return 0;
}
