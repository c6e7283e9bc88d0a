/* cc2.h: questions about Cargo's configuration, as bytes, answered by the rules of the crate cargo-config2 0.1.45.
 *
 * Cargo 1.95 itself answers otherwise in places, which docs/CARGO.md lists: files that `include` names, variables of lists,
 * and others. For Cargo's own rules run the program cargo-config2.
 *
 * cc2_ask answers from its arguments alone. It reads no file, starts no program, reads no variable and keeps nothing
 * between two calls. A request has the question and all that the caller knows. The reply is the answer, or what is
 * needed next. The caller finds that out, appends it to the request and calls again, as get.c does.
 *
 * Numbers and fields
 *   A number is four bytes, the lowest first. A field is a number and so many bytes. A text is a field that is UTF-8.
 *   A list is a number and so many texts.
 *
 * A request is records in any order. Each is a byte and the fields of its kind:
 *   W text                  the next word of the question
 *   C text                  the current directory of the process, an absolute path
 *   H text                  the home directory, if there is one: HOME, where it is set and isn't empty, else what the
 *                           system's user database has (getpwuid_r), which is where Cargo looks for it
 *   V text field            a variable's name and its value
 *   F text field            the path of a file, and its content
 *   U text                  a path with something that can't be read
 *   T text                  a path with something whose content isn't known yet
 *   N text                  a path with nothing there
 *   P text list field field field
 *                           a program, its arguments, its exit status (one byte, or none where a signal ended it),
 *                           and what it wrote to standard output and to standard error
 *   X text list             a program that can't be started, and its arguments
 *   S field                 the state that the reply to a load had, for items of `several`
 * Of two records for the same path or command the later one counts. Words and variables are kept in their order.
 *
 * The question is the words DIR, then `build`, `rustc`, `host`, or `target` and a triple. They are followed by any number
 * of pairs `--config` TEXT and `--config-file` PATH. DIR should be an absolute path without symbolic links, as
 * realpath(3) gives it: the folders above it are those of its text.
 * Or it is DIR, `show` and any of these words, for the configuration: a KEY, for its value alone; `--files`, for the
 * files alone, or `--environment`, for the files under the variables; `--format` and `toml`, `json` or `json-value`;
 * `--merged` and `yes` or `no`; `--show-origin`; `--tokens`, else `[REDACTED]` is in the place of each token; and the same
 * pairs. DIR `show` alone is the resolved configuration, a line of TOML for each value, and DIR `show` `--format` `json` is
 * it as JSON. A KEY, origins, `--files` and `--environment` are of the values as they were set. So DIR `show` `--format` `json`
 * `--show-origin` is the whole configuration, with the origin of each value.
 * Or it is DIR, `load`, and the same pairs: the resolved configuration and the state for later questions. The state is what
 * questions for targets, the host, rustc and versions read of the files, the variables and the pairs. Hand it back as it
 * is, by a record `S`, with the question DIR, `several` and items: no file is then read but that rustc is looked for beside
 * Cargo. The answers are those that the files would give. An item `build`, and pairs, are no question there. The state is
 * empty, and isn't to be handed back, if some table below `target` holds another table, as `[target.thumbv8m.main-none-eabi]`
 * without quotes does.
 * Or it is several questions, answered by one load: DIR, `several`, at least one item, and the same pairs. An item is
 * `build`, `rustc`, `host`, `target` and a triple, `cfg` with a triple and a name, `rustc-version` or `cargo-version`. The
 * table `build` then has its paths resolved, and doesn't say where a value was set. `cfg` has the values that rustc prints of
 * the name for the triple.
 *
 * A reply begins with one of these bytes:
 *   A byte field            the answer: a status and a text. With status 0 it is what cc2_get prints, or what is set. With
 *                           1 it is an error. It begins with `error: ` and may have more lines; if there is a cause, a
 *                           line `cause: ..` follows. A key of `show` that isn't set is such an error. With 2 the words
 *                           are no question. The text for several items is the lines of each in turn, with an empty
 *                           line after each. If items have errors, the first error is the whole text.
 *   L field field           what a load gives: the resolved configuration as cells, and the state
 *   B                       the request isn't such records; nothing follows
 *   E, R, P                 needs, one after the other up to the end of the reply:
 *     E text                is there anything at this path? Answer by T or N, or by F or U at once.
 *     R text                what is at this path? Answer by F, U or N.
 *     P text list           what does this command print? Answer by P or X.
 * No need is one that the request already answers. A path is asked about at most twice, the second time after T. Each path is
 * one of these: `.cargo/config` and `.cargo/config.toml` below DIR and below each folder above it, `config` and `config.toml` in
 * the cargo home, `rustc` in the folder of the program CARGO, and each word after DIR as a path from there.
 * An answer holds for all files and programs that the request says nothing about: they don't matter.
 *
 * Cells are the settings of a resolved configuration, one after the other. cc2_cells_next below gives one at a time. A cell is
 * the number of its keys, each key, and a value. A key is a byte and a text: `f` and a field of a table, or `n` and a name that a
 * file picks, as that of an alias. A value is a byte for its kind, and:
 *   i byte number           an integer: 1 where it is negative, else 0; and its absolute value
 *   b byte                  a truth value: 1 or 0
 *   t text                  a text; a path is resolved
 *   a list                  flags, targets, the words of an alias, or a program and its arguments
 *   p number value..        credential providers: how many, and each as a value `t` or `a`
 *   e                       nothing: a table is here, as a member of `registries` or `source`. Its own cells follow
 *   v text byte byte        a variable of the table `env`: its value, and 1 or 0 for `force` and for `relative`
 * A provider is `t` if it is a name: one that Cargo has, or a key of `credential-alias`. It is `a` if it is a program; before a
 * program that prints the token there is the text `cargo:token-from-stdout`. Tokens are as they were set.
 * The tables come in this order: alias, build, credential-alias, doc, env, future-incompat-report, cargo-new, http, net,
 * registries, registry, source, term. The cells of one table are together. Names are in the order of their bytes. What isn't set
 * has no cell. Skip a cell whose keys you don't know: a newer library may have more. For example, `build.jobs = -2` is:
 *   2 0 0 0  f 5 0 0 0 b u i l d  f 4 0 0 0 j o b s  i 1 2 0 0 0
 *
 * What the caller owes
 *   - `request` points at `length` bytes that can be read, and `reply` at `room` bytes that can be written. Neither is
 *     null, also where its length is 0. The two don't overlap, and nobody changes them during the call.
 *   - The thread has 8 MB of stack. Configurations that nest as deeply as the reader allows need about 5 MB of them.
 *   - Texts are UTF-8: else the reply is `B`. Leave out a home, or a variable, whose name isn't. A value may be any
 *     bytes.
 *   - Variables, files and what programs print are given as they are. The answer is right for what the request says.
 *
 * What the caller may do
 *   - Call from several threads at once, with no lock.
 *   - Give in the first request what will be needed: files of the walk, what `cargo -vV` prints. It saves calls.
 *   - Keep the records of one question for the next.
 *   - Hand back the state of a load with each later question, for the same directory and variables. A state that was changed is
 *     read as what it says, or answered with status 2 and no text.
 *
 * Memory is allocated by malloc and realloc and freed before the call returns. Link libcc2.a; or libcc2_c.a, as
 * crates/cc2_c leaves it, followed by the kit's liblibc_c.a.
 */
#ifndef CC2_H
#define CC2_H

#include <stddef.h>
#include <stdint.h>
#include <string.h>

#ifdef __cplusplus
extern "C" {
#endif

/* Returns the length of the reply to a request, and writes as much of the reply as fits. If the length is greater than
 * `room`, call again with that much room: the reply is the same. 0 means that memory ran out; `reply` is then unchanged. */
size_t cc2_ask(const uint8_t *request, size_t length, uint8_t *reply, size_t room);

/* Readers of what a load gives. They are no part of the library, and no proof covers them. They allocate nothing, and whatever the
 * bytes are they read none outside. What they give points into the reply. Each text of a cell is in the cell's own bytes. */

/* Bytes: a text or a state. No 0 follows them. */
struct cc2_bytes {
    const uint8_t *at;
    size_t length;
};

/* Keys, texts or providers that are left: how many, and their bytes. */
struct cc2_list {
    size_t count;
    struct cc2_bytes rest;
};

/* A key: `f` or `n`, and its text. */
struct cc2_key {
    char kind;
    struct cc2_bytes text;
};

/* A provider: `t` and its name, or `a` and the texts of its list. */
struct cc2_provider {
    char kind;
    struct cc2_bytes text;
    struct cc2_list texts;
};

/* A cell: its keys, its kind, and what a value of the kind has. All else is 0. */
struct cc2_cell {
    struct cc2_list keys;  /* for cc2_keys_next */
    char kind;             /* i, b, t, a, p, e or v */
    int64_t integer;       /* i: the integer; b: 1 or 0 */
    struct cc2_bytes text; /* t: the text; v: the variable's value */
    struct cc2_list list;  /* a: texts, for cc2_texts_next; p: providers, for cc2_providers_next */
    int force, relative;   /* v: 1 or 0 each */
};

/* Cells that are left. */
struct cc2_cells {
    struct cc2_bytes rest;
    int is_malformed;
};

/* Whether bytes are those of a word. */
static inline int cc2_bytes_are(struct cc2_bytes bytes, const char *word) {
    return bytes.length == strlen(word) && (bytes.length == 0 || memcmp(bytes.at, word, bytes.length) == 0);
}

/* The functions cc2_take_.. take something from the front of bytes. They return 0 where it isn't there. */
static inline int cc2_take_byte(struct cc2_bytes *from, uint8_t *byte) {
    if (from->length == 0) return 0;
    *byte = *from->at;
    from->at += 1;
    from->length -= 1;
    return 1;
}

static inline int cc2_take_truth(struct cc2_bytes *from, int *truth) {
    uint8_t byte;
    if (!cc2_take_byte(from, &byte) || byte > 1) return 0;
    *truth = byte;
    return 1;
}

static inline int cc2_take_number(struct cc2_bytes *from, size_t *number) {
    if (from->length < 4) return 0;
    *number = from->at[0] | (size_t)from->at[1] << 8 | (size_t)from->at[2] << 16 | (size_t)from->at[3] << 24;
    from->at += 4;
    from->length -= 4;
    return 1;
}

static inline int cc2_take_field(struct cc2_bytes *from, struct cc2_bytes *field) {
    size_t length;
    if (!cc2_take_number(from, &length) || from->length < length) return 0;
    field->at = from->at;
    field->length = length;
    from->at += length;
    from->length -= length;
    return 1;
}

static inline int cc2_take_key(struct cc2_bytes *from, struct cc2_key *key) {
    uint8_t kind;
    if (!cc2_take_byte(from, &kind) || (kind != 'f' && kind != 'n')) return 0;
    key->kind = (char)kind;
    return cc2_take_field(from, &key->text);
}

/* Takes a number, and so many keys. */
static inline int cc2_take_keys(struct cc2_bytes *from, struct cc2_list *keys) {
    struct cc2_key key;
    size_t left;
    if (!cc2_take_number(from, &keys->count)) return 0;
    keys->rest = *from;
    for (left = keys->count; left > 0; left--)
        if (!cc2_take_key(from, &key)) return 0;
    keys->rest.length -= from->length;
    return 1;
}

/* Takes a number, and so many texts. */
static inline int cc2_take_texts(struct cc2_bytes *from, struct cc2_list *texts) {
    struct cc2_bytes text;
    size_t left;
    if (!cc2_take_number(from, &texts->count)) return 0;
    texts->rest = *from;
    for (left = texts->count; left > 0; left--)
        if (!cc2_take_field(from, &text)) return 0;
    texts->rest.length -= from->length;
    return 1;
}

static inline int cc2_take_provider(struct cc2_bytes *from, struct cc2_provider *provider) {
    uint8_t kind;
    memset(provider, 0, sizeof *provider);
    if (!cc2_take_byte(from, &kind)) return 0;
    provider->kind = (char)kind;
    if (kind == 't') return cc2_take_field(from, &provider->text);
    return kind == 'a' && cc2_take_texts(from, &provider->texts);
}

/* Takes a number, and so many providers. */
static inline int cc2_take_providers(struct cc2_bytes *from, struct cc2_list *providers) {
    struct cc2_provider provider;
    size_t left;
    if (!cc2_take_number(from, &providers->count)) return 0;
    providers->rest = *from;
    for (left = providers->count; left > 0; left--)
        if (!cc2_take_provider(from, &provider)) return 0;
    providers->rest.length -= from->length;
    return 1;
}

static inline int cc2_take_value(struct cc2_bytes *from, struct cc2_cell *cell) {
    uint8_t kind;
    int truth;
    size_t number;
    if (!cc2_take_byte(from, &kind)) return 0;
    cell->kind = (char)kind;
    switch (kind) {
    case 'i':
        if (!cc2_take_truth(from, &truth) || !cc2_take_number(from, &number)) return 0;
        cell->integer = truth ? -(int64_t)number : (int64_t)number;
        return 1;
    case 'b':
        if (!cc2_take_truth(from, &truth)) return 0;
        cell->integer = truth;
        return 1;
    case 't':
        return cc2_take_field(from, &cell->text);
    case 'a':
        return cc2_take_texts(from, &cell->list);
    case 'p':
        return cc2_take_providers(from, &cell->list);
    case 'e':
        return 1;
    case 'v':
        return cc2_take_field(from, &cell->text) && cc2_take_truth(from, &cell->force) && cc2_take_truth(from, &cell->relative);
    default:
        return 0;
    }
}

/* Whether a reply is what a load gives. Its cells and its state are set then. */
static inline int cc2_load_read(const uint8_t *reply, size_t length, struct cc2_cells *cells, struct cc2_bytes *state) {
    struct cc2_bytes left;
    uint8_t kind;
    left.at = reply;
    left.length = length;
    cells->is_malformed = 0;
    return cc2_take_byte(&left, &kind) && kind == 'L' && cc2_take_field(&left, &cells->rest) && cc2_take_field(&left, state) &&
           left.length == 0;
}

/* Takes the next cell. It returns 1 with a cell, 0 at the end, and -1 where what is left is malformed; then the cell says nothing. */
static inline int cc2_cells_next(struct cc2_cells *cells, struct cc2_cell *cell) {
    if (cells->is_malformed) return -1;
    if (cells->rest.length == 0) return 0;
    memset(cell, 0, sizeof *cell);
    cells->is_malformed = !cc2_take_keys(&cells->rest, &cell->keys) || !cc2_take_value(&cells->rest, cell);
    return cells->is_malformed ? -1 : 1;
}

/* Takes the next key of a cell. It returns 1 with a key, and 0 at the end. */
static inline int cc2_keys_next(struct cc2_list *keys, struct cc2_key *key) {
    if (keys->count == 0) return 0;
    keys->count -= 1;
    return cc2_take_key(&keys->rest, key);
}

/* Takes the next text of a list, likewise. */
static inline int cc2_texts_next(struct cc2_list *texts, struct cc2_bytes *text) {
    if (texts->count == 0) return 0;
    texts->count -= 1;
    return cc2_take_field(&texts->rest, text);
}

/* Takes the next provider, likewise. */
static inline int cc2_providers_next(struct cc2_list *providers, struct cc2_provider *provider) {
    if (providers->count == 0) return 0;
    providers->count -= 1;
    return cc2_take_provider(&providers->rest, provider);
}
#ifdef __cplusplus
}
#endif

#endif
