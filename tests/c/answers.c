/* answers WORDS FILE: writes what a call writes, and on standard error its status, length, fault and place. The room is
   none at first, then one byte too few, and then exact: bytes behind it, and all of one that doesn't suffice, stay as
   they were. answers: tells the versions of the library and of its header. */
#include "calls.h"

/* A call whose room doesn't suffice: so it says, with the length that is wanted, and touches nothing. */
static void try_little(const char *words, struct text text, size_t room, size_t wanted) {
    uint8_t *out = fresh_room(wanted);
    zxopt_told told;
    if (call(words, text, out, room, &told) != ZXOPT_NO_ROOM || told.length != wanted || told.fault || told.place)
        fail("it doesn't tell the room that is wanted", words);
    if (!is_untouched(out, wanted)) fail("a room that doesn't suffice is touched", words);
    free(out);
}

int main(int count, char **arguments) {
    if (count == 1) return printf("%u %u\n", (unsigned)zxopt_version(), (unsigned)ZXOPT_VERSION) < 0;
    if (count != 3) fail("usage", "answers WORDS FILE");
    const char *words = arguments[1];
    struct text text = read_text(arguments[2]);
    enum { BEHIND = 16 };
    zxopt_told told;
    uint8_t *out = fresh_room(BEHIND), status = call(words, text, out, 0, &told);
    if (!is_untouched(out, BEHIND)) fail("a room of no bytes is touched", words);
    size_t length = told.length;
    if (status == ZXOPT_NO_ROOM) {
        if (!length) fail("no room for nothing", words);
        try_little(words, text, length - 1, length);
        free(out);
        out = fresh_room(length + BEHIND);
        status = call(words, text, out, length, &told);
        if (told.length != length || !is_written(status)) fail("an exact room doesn't suffice", words);
        if (!is_untouched(out + length, BEHIND)) fail("bytes behind the room are touched", words);
        fwrite(out, 1, length, stdout);
    } else if (length) {
        fail("bytes are told of what isn't written", words);
    }
    fprintf(stderr, "%d %zu %d %zu\n", status, told.length, told.fault, told.place);
    free(out), free(text.bytes);
    return fflush(stdout) != 0;
}
