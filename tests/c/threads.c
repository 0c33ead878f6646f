/* threads COUNT FILE..: so many threads, each with a stack of 64 KiB, make all calls on all files at once. Each answer
   has to be the one that a call alone has. */
#include "calls.h"
#include <pthread.h>

enum { STACK = 65536, ROUNDS = 3 };

struct answer {
    uint8_t status, *out;
    zxopt_told told;
};

static struct text *texts;
static struct answer *alone;
static size_t files;

static struct answer answer_of(const char *words, struct text text) {
    struct answer it = {0};
    size_t room = 4096 + 4 * text.length;
    it.out = fresh_room(room);
    it.status = call(words, text, it.out, room, &it.told);
    if (it.status == ZXOPT_NO_ROOM) fail("a large room doesn't suffice", words);
    return it;
}

static bool is_same(const struct answer *one, const struct answer *other) {
    bool is = one->status == other->status && one->told.length == other->told.length &&
              one->told.fault == other->told.fault && one->told.place == other->told.place;
    return is && !memcmp(one->out, other->out, one->told.length);
}

/* Makes all calls, the first of them another one in each thread, and answers how many differ. */
static void *make_calls(void *first) {
    size_t differ = 0, all = files * WAYS;
    for (size_t at = 0; at < ROUNDS * all; at++) {
        size_t which = (at + (size_t)first) % all;
        struct answer it = answer_of(WORDS[which % WAYS], texts[which / WAYS]);
        differ += !is_same(&it, &alone[which]);
        free(it.out);
    }
    return (void *)differ;
}

int main(int count, char **arguments) {
    if (count < 3) fail("usage", "threads COUNT FILE..");
    size_t threads = strtoul(arguments[1], NULL, 10), differ = 0;
    files = (size_t)count - 2;
    texts = room_of(files * sizeof *texts), alone = room_of(files * WAYS * sizeof *alone);
    for (size_t at = 0; at < files; at++) texts[at] = read_text(arguments[at + 2]);
    size_t calls = files * WAYS;
    for (size_t at = 0; at < calls; at++) alone[at] = answer_of(WORDS[at % WAYS], texts[at / WAYS]);
    pthread_t *all = room_of(threads * sizeof *all);
    pthread_attr_t attributes;
    if (pthread_attr_init(&attributes) || pthread_attr_setstacksize(&attributes, STACK)) fail("no stack", "of 64 KiB");
    for (size_t at = 0; at < threads; at++)
        if (pthread_create(&all[at], &attributes, make_calls, (void *)(at * calls / threads))) fail("no", "thread");
    for (size_t at = 0; at < threads; at++) {
        void *found;
        pthread_join(all[at], &found);
        differ += (size_t)found;
    }
    for (size_t at = 0; at < calls; at++) free(alone[at].out);
    for (size_t at = 0; at < files; at++) free(texts[at].bytes);
    free(all), free(alone), free(texts);
    if (differ) fprintf(stderr, "%zu answers differ from those of calls alone\n", differ);
    return differ != 0;
}
