/* get.c: the program cc2_get in C over cc2_ask. It reads the files and starts the programs; the library answers.
 *
 *   get DIR (build | target T | rustc | host) [--config TEXT | --config-file PATH]...
 */
#define _XOPEN_SOURCE 700
#include "cc2.h"

#include <errno.h>
#include <fcntl.h>
#include <limits.h>
#include <poll.h>
#include <pwd.h>
#include <signal.h>
#include <spawn.h>
#include <stdio.h>
#include <stdlib.h>
#include <string.h>
#include <sys/stat.h>
#include <sys/wait.h>
#include <unistd.h>

#define USAGE "usage: cc2_get DIR (build | target T | rustc | host) [--config TEXT | --config-file PATH]...\n"
#define NO_WORDS "error: cannot read the arguments: they must be UTF-8\n"
#define NO_SURROUNDINGS "error: cannot read the current directory or the environment\n"
#define NO_MEMORY "error: out of memory\n"
#define NO_OUTPUT "error: cannot write the output\n"
#define NO_REPLY "error: cannot read the library's reply\n"

extern char **environ;

/* Whether all of a text was written. */
static int wrote(int to, const char *text, size_t length) {
    while (length) {
        ssize_t count = write(to, text, length);
        if (count <= 0) return 0;
        text += count;
        length -= (size_t)count;
    }
    return 1;
}

/* Writes a text to standard output and ends the program. */
static _Noreturn void end(const char *text, size_t length, int status) {
    if (wrote(STDOUT_FILENO, text, length)) exit(status);
    wrote(STDERR_FILENO, NO_OUTPUT, strlen(NO_OUTPUT));
    exit(1);
}

/* Writes on standard error why nothing is answered, and ends the program. */
static _Noreturn void fail(const char *line) {
    wrote(STDERR_FILENO, line, strlen(line));
    exit(1);
}

/* Whether the question was asked: out of memory is then the answer. */
static int is_asked = 0;

static _Noreturn void fail_for_memory(void) {
    if (!is_asked) fail(NO_MEMORY);
    end(NO_MEMORY, strlen(NO_MEMORY), 1);
}

/* ---- bytes that grow, and fields appended to them ---- */

typedef struct {
    uint8_t *at;
    size_t length, room;
} Bytes;

static void reserve(Bytes *bytes, size_t more) {
    size_t needed = bytes->length + more;
    if (needed <= bytes->room) return;
    size_t room = needed < 2 * bytes->room ? 2 * bytes->room : needed;
    uint8_t *at = realloc(bytes->at, room);
    if (!at) fail_for_memory();
    bytes->at = at;
    bytes->room = room;
}

static void put(Bytes *bytes, const void *from, size_t length) {
    if (length == 0) return;
    reserve(bytes, length);
    memcpy(bytes->at + bytes->length, from, length);
    bytes->length += length;
}

static void put_number(Bytes *bytes, size_t number) {
    if (number > UINT32_MAX) fail_for_memory();
    uint8_t four[4] = {(uint8_t)number, (uint8_t)(number >> 8), (uint8_t)(number >> 16), (uint8_t)(number >> 24)};
    put(bytes, four, sizeof four);
}

static void put_field(Bytes *bytes, const void *from, size_t length) {
    put_number(bytes, length);
    put(bytes, from, length);
}

/* A kind and its first field. */
static void put_record(Bytes *bytes, char kind, const void *from, size_t length) {
    put(bytes, &kind, 1);
    put_field(bytes, from, length);
}

/* ---- what the process is given ---- */

/* How many bytes the first character takes in UTF-8; 0 where there is none. */
static size_t character(const uint8_t *at, size_t left) {
    if (at[0] < 0x80) return 1;
    size_t size = at[0] >= 0xf0 ? 4 : at[0] >= 0xe0 ? 3 : 2;
    if (at[0] < 0xc2 || at[0] > 0xf4 || left < size) return 0;
    for (size_t i = 1; i < size; i++)
        if ((at[i] & 0xc0) != 0x80) return 0;
    if ((at[0] == 0xe0 && at[1] < 0xa0) || (at[0] == 0xed && at[1] > 0x9f)) return 0;
    if ((at[0] == 0xf0 && at[1] < 0x90) || (at[0] == 0xf4 && at[1] > 0x8f)) return 0;
    return size;
}

static int is_text(const char *bytes, size_t length) {
    for (size_t at = 0, size; at < length; at += size) {
        size = character((const uint8_t *)bytes + at, length - at);
        if (size == 0) return 0;
    }
    return 1;
}

/* The words of the question. The first is the directory that it is about: its physical path is put, where that is at hand. */
static void put_words(Bytes *request, char **words, const char *physical) {
    for (size_t i = 0; words[i]; i++) {
        if (!is_text(words[i], strlen(words[i]))) fail(NO_WORDS);
        const char *word = i == 0 && physical ? physical : words[i];
        put_record(request, 'W', word, strlen(word));
    }
}

/* The physical path of a directory, without symbolic links, to be freed; NULL, and why not in errno, where there is none. */
static char *physical_path(const char *directory) {
    struct stat found;
    char *path = realpath(directory, NULL);
    if (!path && errno == ENOMEM) fail_for_memory();
    if (!path) return NULL;
    if (stat(path, &found) == 0 && S_ISDIR(found.st_mode)) return path;
    free(path);
    errno = ENOTDIR;
    return NULL;
}

/* Writes on standard error why a directory can't be entered, and ends the program. */
static _Noreturn void fail_for_directory(const char *directory, int why) {
    char reason[64];
    const char *parts[] = {"error: cannot enter the directory `", directory, "`: ", strerror(why), reason};
    snprintf(reason, sizeof reason, " (os error %d)\n", why);
    for (size_t i = 0; i < sizeof parts / sizeof *parts; i++) wrote(STDERR_FILENO, parts[i], strlen(parts[i]));
    exit(1);
}

/* The home directory of the process's user by the system's user database, to be freed; NULL where it has none. */
static char *home_of_user(void) {
    for (size_t room = 1024; room <= 1 << 20; room *= 2) {
        struct passwd user, *found = NULL;
        char *buffer = malloc(room);
        if (!buffer) fail_for_memory();
        int fault = getpwuid_r(getuid(), &user, buffer, room, &found);
        if (fault == ENOMEM) fail_for_memory();
        char *home = fault == 0 && found && user.pw_dir && *user.pw_dir ? strdup(user.pw_dir) : NULL;
        free(buffer);
        if (fault != ERANGE) return home;
    }
    return NULL;
}

/* The directory, the variables and the home: HOME, or where it isn't set or is empty what the user database has, as Cargo looks
 * for it. Variables whose names aren't UTF-8 are left out: no rule reads them. */
static void put_surroundings(Bytes *request) {
    char directory[PATH_MAX];
    const char *home = NULL;
    if (!getcwd(directory, sizeof directory) || !is_text(directory, strlen(directory)))
        fail(NO_SURROUNDINGS);
    put_record(request, 'C', directory, strlen(directory));
    for (char **variable = environ; *variable; variable++) {
        const char *behind = strchr(*variable, '=');
        if (!behind) continue;
        size_t name = (size_t)(behind - *variable);
        if (!is_text(*variable, name)) continue;
        put_record(request, 'V', *variable, name);
        put_field(request, behind + 1, strlen(behind + 1));
        if (name == 4 && !memcmp(*variable, "HOME", 4)) home = behind + 1;
    }
    char *found = home && *home ? NULL : home_of_user();
    if (found || (home && !*home)) home = found;
    if (home && is_text(home, strlen(home))) put_record(request, 'H', home, strlen(home));
    free(found);
}

/* ---- what the library has to know ---- */

/* Appends what one read of a file gives, and answers its count: 0 at the end. */
static ssize_t read_block(int file, Bytes *into) {
    reserve(into, 65536);
    ssize_t count = read(file, into->at + into->length, 65536);
    if (count > 0) into->length += (size_t)count;
    return count;
}

/* Whether the file at a path could be read. */
static int read_whole(const char *path, Bytes *into) {
    int file = open(path, O_RDONLY | O_CLOEXEC);
    if (file < 0) return 0;
    ssize_t count;
    while ((count = read_block(file, into)) > 0) continue;
    close(file);
    return count == 0;
}

/* Whether it is the empty device, by which a file is often switched off. */
static int is_null(const struct stat *found) {
    struct stat device;
    return S_ISCHR(found->st_mode) && stat("/dev/null", &device) == 0 && found->st_rdev == device.st_rdev;
}

/* Appends the content of the file at a path. Only a regular file and /dev/null are read: a pipe or another device may never end. */
static void put_path(Bytes *request, char need, const char *path, size_t length) {
    struct stat found;
    Bytes content = {0};
    char kind = 'N';
    if (strlen(path) == length && stat(path, &found) == 0) {
        kind = need == 'E' ? 'T' : (S_ISREG(found.st_mode) || is_null(&found)) && read_whole(path, &content) ? 'F' : 'U';
    }
    put_record(request, kind, path, length);
    if (kind == 'F') put_field(request, content.at, content.length);
    free(content.at);
}

/* Reads two pipes to their ends, side by side. */
static void drain(const int files[2], Bytes into[2]) {
    struct pollfd polled[2] = {{files[0], POLLIN, 0}, {files[1], POLLIN, 0}};
    for (int left = 2; left > 0 && poll(polled, 2, -1) > 0;) {
        for (int i = 0; i < 2; i++) {
            if (polled[i].fd < 0 || !polled[i].revents || read_block(polled[i].fd, &into[i]) > 0) continue;
            close(polled[i].fd);
            polled[i].fd = -1;
            left--;
        }
    }
}

/* Starts a program with no input and both outputs in pipes; its number, or -1 where it can't be started. */
static pid_t start(char **words, int from[2]) {
    int out[2], err[2];
    if (pipe(out) != 0) return -1;
    if (pipe(err) != 0) return close(out[0]), close(out[1]), -1;
    fcntl(out[0], F_SETFD, FD_CLOEXEC), fcntl(out[1], F_SETFD, FD_CLOEXEC);
    fcntl(err[0], F_SETFD, FD_CLOEXEC), fcntl(err[1], F_SETFD, FD_CLOEXEC);
    posix_spawn_file_actions_t actions;
    posix_spawn_file_actions_init(&actions);
    posix_spawn_file_actions_addopen(&actions, STDIN_FILENO, "/dev/null", O_RDONLY, 0);
    posix_spawn_file_actions_adddup2(&actions, out[1], STDOUT_FILENO);
    posix_spawn_file_actions_adddup2(&actions, err[1], STDERR_FILENO);
    posix_spawnattr_t how;
    sigset_t pipes;
    sigemptyset(&pipes), sigaddset(&pipes, SIGPIPE);
    posix_spawnattr_init(&how);
    posix_spawnattr_setsigdefault(&how, &pipes);
    posix_spawnattr_setflags(&how, POSIX_SPAWN_SETSIGDEF);
    pid_t program;
    int fault = posix_spawnp(&program, words[0], &actions, &how, words, environ);
    posix_spawn_file_actions_destroy(&actions), posix_spawnattr_destroy(&how);
    close(out[1]), close(err[1]);
    from[0] = out[0], from[1] = err[0];
    if (fault) return close(out[0]), close(err[0]), -1;
    return program;
}

/* Appends what a command answers, whose bytes are those of the need: a text and a list. */
static void put_run(Bytes *request, char **words, int is_whole, const uint8_t *command, size_t length) {
    int from[2], status = 0;
    pid_t program = is_whole ? start(words, from) : -1;
    put(request, program < 0 ? "X" : "P", 1);
    put(request, command, length);
    if (program < 0) return;
    Bytes outputs[2] = {{0}, {0}};
    drain(from, outputs);
    waitpid(program, &status, 0);
    uint8_t code = WIFEXITED(status) ? (uint8_t)WEXITSTATUS(status) : 0;
    put_field(request, &code, WIFEXITED(status) ? 1 : 0);
    for (int i = 0; i < 2; i++) {
        put_field(request, outputs[i].at, outputs[i].length);
        free(outputs[i].at);
    }
}

/* ---- replies ---- */

typedef struct {
    const uint8_t *at;
    size_t left;
} Reader;

static const uint8_t *take(Reader *reader, size_t length) {
    if (reader->left < length) fail(NO_REPLY);
    reader->at += length;
    reader->left -= length;
    return reader->at - length;
}

static size_t take_number(Reader *reader) {
    const uint8_t *four = take(reader, 4);
    return four[0] | (size_t)four[1] << 8 | (size_t)four[2] << 16 | (size_t)four[3] << 24;
}

/* Takes a field as a text that ends with a byte 0, to be freed. */
static char *take_text(Reader *reader, size_t *length) {
    *length = take_number(reader);
    const uint8_t *bytes = take(reader, *length);
    char *text = malloc(*length + 1);
    if (!text) fail_for_memory();
    memcpy(text, bytes, *length);
    text[*length] = 0;
    return text;
}

static void answer_run(Bytes *request, Reader *reader) {
    const uint8_t *command = reader->at;
    size_t length;
    char *program = take_text(reader, &length);
    int is_whole = strlen(program) == length;
    size_t count = take_number(reader) + 1;
    if (count > reader->left + 1) fail(NO_REPLY);
    char **words = calloc(count + 1, sizeof *words);
    if (!words) fail_for_memory();
    words[0] = program;
    for (size_t i = 1; i < count; i++) {
        words[i] = take_text(reader, &length);
        is_whole = is_whole && strlen(words[i]) == length;
    }
    put_run(request, words, is_whole, command, (size_t)(reader->at - command));
    for (size_t i = 0; i < count; i++) free(words[i]);
    free(words);
}

/* Finds out all that a reply asks for. */
static void answer_needs(Bytes *request, Reader *reader) {
    while (reader->left) {
        char need = (char)*take(reader, 1);
        if (need == 'P') {
            answer_run(request, reader);
        } else if (need == 'E' || need == 'R') {
            size_t length;
            char *path = take_text(reader, &length);
            put_path(request, need, path, length);
            free(path);
        } else {
            fail(NO_REPLY);
        }
    }
}

/* The whole reply to a request. */
static Reader ask(const Bytes *request, Bytes *reply) {
    for (;;) {
        size_t length = cc2_ask(request->at, request->length, reply->at, reply->room);
        if (length == 0) fail_for_memory();
        if (length <= reply->room) return (Reader){reply->at, length};
        reserve(reply, length);
    }
}

int main(int argc, char **argv) {
    Bytes request = {0}, reply = {0};
    signal(SIGPIPE, SIG_IGN);
    reserve(&request, 64);
    char *physical = argc > 1 ? physical_path(argv[1]) : NULL;
    int why = errno;
    put_words(&request, argv + (argc > 0), physical);
    put_surroundings(&request);
    if (argc < 2) end(USAGE, strlen(USAGE), 0);
    is_asked = physical != NULL;
    /* A reply that doesn't fit is computed twice. */
    reserve(&reply, 65536);
    for (;;) {
        Reader reader = ask(&request, &reply);
        int is_answer = reader.at[0] == 'A', status = is_answer ? take(&reader, 2)[1] : 0;
        if (status == 2) end(USAGE, strlen(USAGE), 2);
        if (!physical) fail_for_directory(argv[1], why);
        if (is_answer) {
            size_t length = take_number(&reader);
            end((const char *)take(&reader, length), length, status);
        }
        answer_needs(&request, &reader);
    }
}
