/* Optimises the circuit on standard input through the library, as `zxopt opt --best` does:

       cc -o optimise optimise.c $(pkg-config --cflags --libs zxopt)
       ./optimise < circuit.qasm */
#include <stdio.h>
#include <stdlib.h>
#include <zxopt.h>

/* Reads a stream to its end. Answers NULL where memory runs out or a read fails. */
static uint8_t *read_all(FILE *stream, size_t *length) {
    size_t room = 1 << 16;
    uint8_t *text = malloc(room);
    *length = 0;
    while (text) {
        *length += fread(text + *length, 1, room - *length, stream);
        if (*length < room) break;
        uint8_t *larger = realloc(text, room *= 2);
        if (!larger) free(text);
        text = larger;
    }
    if (text && ferror(stream)) free(text), text = NULL;
    return text;
}

/* The optimised circuit, in `told->length` bytes that the caller frees, or NULL; `*status` tells which and why. */
static uint8_t *optimised(const uint8_t *text, size_t length, uint8_t *status, zxopt_told *told) {
    for (size_t room = 2 * length + 4096;; room = told->length) {
        uint8_t *out = malloc(room);
        *status = out ? zxopt_optimise(true, false, false, text, length, out, room, told) : ZXOPT_NO_MEMORY;
        if (*status == ZXOPT_DONE) return out;
        free(out);
        if (*status != ZXOPT_NO_ROOM) return NULL;
    }
}

int main(void) {
    size_t length;
    uint8_t *text = read_all(stdin, &length), status;
    if (!text) return fputs("no text\n", stderr), EXIT_FAILURE;
    zxopt_told told;
    uint8_t *circuit = optimised(text, length, &status, &told);
    free(text);
    if (circuit) {
        size_t written = fwrite(circuit, 1, told.length, stdout);
        free(circuit);
        return written == told.length && fflush(stdout) == 0 ? EXIT_SUCCESS : EXIT_FAILURE;
    }
    if (status == ZXOPT_REFUSED)
        fprintf(stderr, "fault %d at %zu\n", told.fault, told.place);
    else
        fputs("no memory\n", stderr);
    return status;
}
