#include "lines.h"
#include "cc2.h"

#include <stdlib.h>

/* A text in quotes. What isn't plain ASCII is in hexadecimal. */
static void print_text(struct cc2_bytes text, FILE *to) {
    size_t i;
    putc('"', to);
    for (i = 0; i < text.length; i++) {
        int is_plain = text.at[i] >= ' ' && text.at[i] < 0x7f && text.at[i] != '"' && text.at[i] != '\\';
        fprintf(to, is_plain ? "%c" : "\\x%02x", text.at[i]);
    }
    putc('"', to);
}

static void print_texts(struct cc2_list texts, FILE *to) {
    struct cc2_bytes text;
    int is_first = 1;
    putc('[', to);
    for (; cc2_texts_next(&texts, &text); is_first = 0) {
        if (!is_first) fputs(", ", to);
        print_text(text, to);
    }
    putc(']', to);
}

static void print_providers(struct cc2_list providers, FILE *to) {
    struct cc2_provider provider;
    int is_first = 1;
    putc('[', to);
    for (; cc2_providers_next(&providers, &provider); is_first = 0) {
        if (!is_first) fputs(", ", to);
        if (provider.kind == 't') print_text(provider.text, to);
        else print_texts(provider.texts, to);
    }
    putc(']', to);
}

/* Keys with dots between them. Names are in quotes. */
static void print_keys(struct cc2_list keys, FILE *to) {
    struct cc2_key key;
    int is_first = 1;
    for (; cc2_keys_next(&keys, &key); is_first = 0) {
        if (!is_first) putc('.', to);
        if (key.kind == 'n') print_text(key.text, to);
        else fwrite(key.text.at, 1, key.text.length, to);
    }
}

static void print_value(const struct cc2_cell *cell, FILE *to) {
    switch (cell->kind) {
    case 'i':
        fprintf(to, "%lld", (long long)cell->integer);
        break;
    case 'b':
        fputs(cell->integer ? "true" : "false", to);
        break;
    case 't':
        print_text(cell->text, to);
        break;
    case 'a':
        print_texts(cell->list, to);
        break;
    case 'p':
        print_providers(cell->list, to);
        break;
    case 'v':
        fputs("{ value = ", to);
        print_text(cell->text, to);
        fprintf(to, ", force = %s, relative = %s }", cell->force ? "true" : "false", cell->relative ? "true" : "false");
        break;
    default: /* e, and there is no other */
        fputs("{}", to);
    }
}

int print_lines(const uint8_t *cells, size_t length, FILE *to) {
    struct cc2_cells left;
    struct cc2_cell cell;
    int more;
    left.rest.at = cells;
    left.rest.length = length;
    left.is_malformed = 0;
    while ((more = cc2_cells_next(&left, &cell)) == 1) {
        print_keys(cell.keys, to);
        fputs(" = ", to);
        print_value(&cell, to);
        putc('\n', to);
    }
    return more;
}

uint8_t *read_all(FILE *from, size_t *length) {
    uint8_t *bytes = NULL;
    size_t room = 0;
    *length = 0;
    for (;;) {
        size_t count;
        if (*length == room) {
            room = room ? 2 * room : 4096;
            bytes = (uint8_t *)realloc(bytes, room);
        }
        if (!bytes) return NULL;
        count = fread(bytes + *length, 1, room - *length, from);
        *length += count;
        if (count == 0) return (uint8_t *)realloc(bytes, *length ? *length : 1);
    }
}
