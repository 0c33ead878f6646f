/* The library's calls by the words of the program's commands, for the programs of tests/library. */
#ifndef CALLS_H
#define CALLS_H

#include <stdbool.h>
#include <stdio.h>
#include <stdlib.h>
#include <string.h>
#include <zxopt.h>

/* What a byte of the room is before a call. */
enum { UNTOUCHED = 0xA5 };

struct text {
    uint8_t *bytes;
    size_t length;
};

static const char *const WORDS[] = {"opt",     "opt --best", "opt --report --scalar", "opt --best --scalar", "teleport",
                                    "same",    "compile",    "reduce",                "flow",                "graph"};
enum { WAYS = sizeof WORDS / sizeof *WORDS };

static inline void fail(const char *why, const char *what) {
    fprintf(stderr, "%s: %s\n", why, what);
    exit(2);
}

static inline void *room_of(size_t size) {
    void *room = malloc(size ? size : 1);
    if (!room) fail("no memory", "for the test itself");
    return room;
}

static inline struct text read_text(const char *name) {
    FILE *file = fopen(name, "rb");
    if (!file || fseek(file, 0, SEEK_END)) fail("not read", name);
    struct text text = {NULL, (size_t)ftell(file)};
    text.bytes = room_of(text.length);
    rewind(file);
    if (fread(text.bytes, 1, text.length, file) != text.length) fail("not read", name);
    fclose(file);
    return text;
}

static inline uint8_t call(const char *words, struct text text, uint8_t *out, size_t room, zxopt_told *told) {
    static const struct {
        const char *word;
        uint8_t (*call)(const uint8_t *, size_t, uint8_t *, size_t, zxopt_told *);
    } plain[] = {{"teleport", zxopt_teleport}, {"same", zxopt_same}, {"compile", zxopt_compile},
                 {"reduce", zxopt_reduce},     {"flow", zxopt_flow}, {"graph", zxopt_graph}};
    memset(told, UNTOUCHED, sizeof *told);
    if (!strncmp(words, "opt", 3))
        return zxopt_optimise(strstr(words, "--best"), strstr(words, "--report"), strstr(words, "--scalar"), text.bytes,
                              text.length, out, room, told);
    for (size_t at = 0; at < sizeof plain / sizeof *plain; at++)
        if (!strcmp(words, plain[at].word)) return plain[at].call(text.bytes, text.length, out, room, told);
    fail("no command", words);
    return 0;
}

/* A room whose bytes are untouched. */
static inline uint8_t *fresh_room(size_t size) { return memset(room_of(size), UNTOUCHED, size); }

static inline bool is_untouched(const uint8_t *bytes, size_t count) {
    for (size_t at = 0; at < count; at++)
        if (bytes[at] != UNTOUCHED) return false;
    return true;
}

static inline bool is_written(uint8_t status) { return status == ZXOPT_DONE || status == ZXOPT_NO; }

#endif
