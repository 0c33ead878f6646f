/* memory WORDS FILE: makes a call, and again while each of its requests for memory is refused in turn, alone and with
   all that follow. It has to answer that there is none, with `out` as it was, or as it did with memory; and no block is
   left. How many requests there are is told, and how often each of both answers came. */
#define _GNU_SOURCE
#include "calls.h"
#include <dlfcn.h>

/* These stand before the C library's own. They count while a call runs. */
static void *(*true_malloc)(size_t), *(*true_realloc)(void *, size_t);
static void (*true_free)(void *);
static bool is_counting, is_only_one;
static long requests, refused, blocks;

__attribute__((constructor)) static void find_heap(void) {
    *(void **)&true_malloc = dlsym(RTLD_NEXT, "malloc");
    *(void **)&true_realloc = dlsym(RTLD_NEXT, "realloc");
    *(void **)&true_free = dlsym(RTLD_NEXT, "free");
}

static bool is_refused(void) {
    if (!is_counting) return false;
    requests++;
    return refused && (is_only_one ? requests == refused : requests >= refused);
}

void *malloc(size_t size) {
    if (!true_malloc) find_heap();
    if (is_refused()) return NULL;
    void *block = true_malloc(size);
    blocks += is_counting && block;
    return block;
}

void *realloc(void *block, size_t size) {
    if (!true_realloc) find_heap();
    if (is_refused()) return NULL;
    void *moved = true_realloc(block, size);
    blocks += is_counting && !block && moved;
    return moved;
}

void free(void *block) {
    if (!true_free) find_heap();
    blocks -= is_counting && block;
    true_free(block);
}

static uint8_t counted_call(const char *words, struct text text, uint8_t *out, size_t room, zxopt_told *told) {
    memset(out, UNTOUCHED, room);
    requests = blocks = 0, is_counting = true;
    uint8_t status = call(words, text, out, room, told);
    is_counting = false;
    if (blocks) fail("blocks are left", words);
    return status;
}

static bool is_zero(const zxopt_told *told) { return !told->length && !told->place && !told->fault; }

int main(int count, char **arguments) {
    if (count != 3) fail("usage", "memory WORDS FILE");
    const char *words = arguments[1];
    struct text text = read_text(arguments[2]);
    size_t room = 4096 + 4 * text.length;
    uint8_t *wanted = room_of(room), *out = room_of(room);
    zxopt_told told, wanted_told;
    uint8_t status, wanted_status = counted_call(words, text, wanted, room, &wanted_told);
    long all = requests, without = 0, as_before = 0;
    for (refused = 1; refused <= all; refused++)
        for (int one = 0; one < 2; one++) {
            is_only_one = one;
            status = counted_call(words, text, out, room, &told);
            bool is_none = status == ZXOPT_NO_MEMORY && is_zero(&told) && is_untouched(out, room);
            bool is_same = status == wanted_status && told.length == wanted_told.length && !memcmp(out, wanted, room);
            if (!is_none && !is_same) fail("a request that is refused leads to another answer", words);
            without += is_none, as_before += is_same;
        }
    printf("%ld requests: %ld answers that there is no memory, %ld as with memory\n", all, without, as_before);
    return 0;
}
