/* zxopt: fewer T gates in circuits of Clifford gates and phases, written in OpenQASM 2.0.

   There is a call for each command of the program `zxopt` but `gen`. It reads the text of `text_length` bytes at
   `text`, and writes what the program writes to its standard output into the room of `out_room` bytes at `out`, where
   that suffices. `*told` tells how many bytes these are, and the first fault of a text that is refused. What is written
   is ASCII, without a zero behind it. A call that answers ZXOPT_NO_ROOM is made again, with as much room as it told:
   examples/c/optimise.c shows how.

   What the caller owes:

   - `text`, `out` and `told` aren't NULL, also where a length is 0. They point to so many bytes, `told` to one
     zxopt_told, and no two of these overlap. A flag is 0 or 1.
   - While a call runs, nobody else writes to `text`, or reads or writes `out` and `*told`.
   - The thread has 64 KiB of stack left.
   - `malloc`, `realloc` and `free` belong together, and align blocks as C asks.
   - No call is made where `malloc` may not be called, as in a handler of signals.

   A call keeps nothing, opens no file, and ends by itself, but may take long, and can't be cut off. Several threads may
   call at once. Memory comes from `malloc` and `realloc`, and all of it goes back to `free`.

   Link with -lzxopt. The library is for Linux on any x86-64 processor. It needs no other library: the C library of the
   process serves, be it glibc or musl. Apache-2.0, see LICENSE. */
#ifndef ZXOPT_H
#define ZXOPT_H

#include <stdbool.h>
#include <stddef.h>
#include <stdint.h>

#ifdef __cplusplus
extern "C" {
#endif

/* The version of this header: 10000 * major + 100 * minor + patch. */
#define ZXOPT_VERSION 10000

/* What a call answers. The numbers are the program's exit statuses, and one more. */
enum {
    ZXOPT_DONE = 0,      /* `out` begins with what was written */
    ZXOPT_REFUSED = 1,   /* the text is refused for the fault in `*told`; `out` is as it was */
    ZXOPT_NO_MEMORY = 5, /* memory ran out; `out` is as it was */
    ZXOPT_NO = 6,        /* the answer is no, of same, compile, reduce or flow, and `out` begins with the reason */
    ZXOPT_NO_ROOM = 8    /* `out` is as it was, and has to have room for `told->length` bytes */
};

/* The faults for which a text is refused. */
enum {
    ZXOPT_FAULT_TOO_LONG = 1,            /* there are more than 16,777,216 bytes */
    ZXOPT_FAULT_BAD_BYTE = 2,            /* no token, space or comment begins */
    ZXOPT_FAULT_SYNTAX = 3,              /* no statement begins, after whole statements */
    ZXOPT_FAULT_VERSION = 4,             /* the first statement isn't OPENQASM 2.0; */
    ZXOPT_FAULT_INCLUDE = 5,             /* a file other than qelib1.inc is included */
    ZXOPT_FAULT_UNSUPPORTED = 6,         /* reset, if, opaque, ^ or a function such as sin stands */
    ZXOPT_FAULT_REDECLARED = 7,          /* a name is declared twice, or two formal names of a gate are equal */
    ZXOPT_FAULT_EMPTY_REGISTER = 8,      /* a register has size 0 */
    ZXOPT_FAULT_TOO_MANY_QUBITS = 9,     /* there are more than 1,024 qubits */
    ZXOPT_FAULT_UNKNOWN = 10,            /* a name isn't declared as what is needed there */
    ZXOPT_FAULT_WRONG_COUNT = 11,        /* angles or qubits differ in number from the gate's declaration */
    ZXOPT_FAULT_INDEX = 12,              /* an index isn't below its register's size */
    ZXOPT_FAULT_SIZES = 13,              /* registers of different sizes stand in one application or measurement, or a
                                            register and a single place in one measurement */
    ZXOPT_FAULT_SAME_QUBIT = 14,         /* a qubit stands twice in one application */
    ZXOPT_FAULT_DIVIDE = 15,             /* a divisor is 0 */
    ZXOPT_FAULT_ANGLE_TOO_LARGE = 16,    /* a number has more than 38 digits, or a part of a fraction is above 2^60 */
    ZXOPT_FAULT_NOT_SIXTEENTH_TURN = 17, /* an angle isn't a whole number of sixteenth turns, or pi is multiplied by pi
                                            or divided by */
    ZXOPT_FAULT_TOO_DEEP = 18,           /* more than 256 parentheses or calls are nested */
    ZXOPT_FAULT_TOO_MANY_GATES = 19,     /* the call would be the 1,000,001st */
    ZXOPT_FAULT_SECOND_VERSION = 20,     /* OPENQASM stands a second time */
    ZXOPT_FAULT_BAD_LINE = 21,           /* a line of a graph's or a diagram's file doesn't fit, or is missing at its
                                            end */
    ZXOPT_FAULT_AFTER_MEASURE = 22,      /* an application or a measurement names a qubit that was measured before */
    ZXOPT_FAULT_BIT_TWICE = 23,          /* a measurement names a bit that an earlier one names */
    ZXOPT_FAULT_TOO_MANY_BITS = 24,      /* there are more than 65,536 bits */
    ZXOPT_FAULT_NOT_SQUARE = 25,         /* a diagram that is to be a circuit has another number of outputs than of
                                            inputs */
    ZXOPT_FAULT_NO_SECOND = 26           /* no line //// second parts two texts */
};

/* What a call tells besides its status. Each call writes all of it. */
typedef struct zxopt_told {
    size_t length; /* how many bytes the command writes, also where there is no room for them */
    size_t place;  /* where the fault is: a byte of the text, from 0, or of ZXOPT_FAULT_BAD_LINE a line, from 1; 0 where
                      there is no fault, and of TOO_LONG, VERSION, NOT_SQUARE and NO_SECOND, which have no place */
    uint8_t fault; /* the first fault of a text that is refused, else 0 */
} zxopt_told;

/* Optimises a circuit: `zxopt opt`. `best` takes the best of several circuits, which takes longer; `report` adds the
   counts of gates as two comment lines, and `scalar` the scalar between both maps as one. */
uint8_t zxopt_optimise(bool best, bool report, bool scalar, const uint8_t *text, size_t text_length, uint8_t *out,
                       size_t out_room, zxopt_told *told);

/* Changes the phases of a circuit alone: `zxopt teleport`. */
uint8_t zxopt_teleport(const uint8_t *text, size_t text_length, uint8_t *out, size_t out_room, zxopt_told *told);

/* Compares two circuits, in one text with the line `//// second` between them: `zxopt same`. ZXOPT_NO means that they
   differ, or that it isn't shown that they are the same. */
uint8_t zxopt_same(const uint8_t *text, size_t text_length, uint8_t *out, size_t out_room, zxopt_told *told);

/* Finds a circuit for a diagram: `zxopt compile`. */
uint8_t zxopt_compile(const uint8_t *text, size_t text_length, uint8_t *out, size_t out_room, zxopt_told *told);

/* Simplifies an open graph along its flow: `zxopt reduce`. */
uint8_t zxopt_reduce(const uint8_t *text, size_t text_length, uint8_t *out, size_t out_room, zxopt_told *told);

/* Says whether the table of a graph file is a flow of the graph: `zxopt flow`. */
uint8_t zxopt_flow(const uint8_t *text, size_t text_length, uint8_t *out, size_t out_room, zxopt_told *told);

/* Finds the graph-like form of a diagram: `zxopt graph`. */
uint8_t zxopt_graph(const uint8_t *text, size_t text_length, uint8_t *out, size_t out_room, zxopt_told *told);

/* The version of the library, as ZXOPT_VERSION is that of the header. */
uint32_t zxopt_version(void);

#ifdef __cplusplus
}
#endif

#endif
