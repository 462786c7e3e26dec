/* The analyser, the checker and the other commands as C functions: ./library builds out/libsynchrony.a and out/libsynchrony.so. */
#ifndef SYNCHRONY_H
#define SYNCHRONY_H

#include <stddef.h>
#include <stdint.h>

#ifdef __cplusplus
extern "C" {
#endif

/* What a call answers: the exit status that the program has in the same case, and SYNCHRONY_NO_ROOM. */
enum {
    SYNCHRONY_DONE = 0,            /* the report is in out */
    SYNCHRONY_YES = 0,             /* of a check: the rows are the report of the trace */
    SYNCHRONY_NO = 1,              /* of a check: they aren't */
    SYNCHRONY_BAD_SET = 2,         /* `correct` has a processor that the trace hasn't */
    SYNCHRONY_BAD_TRACE = 3,       /* the text encodes no trace; the reason is in out */
    SYNCHRONY_BAD_CERTIFICATE = 4, /* the certificate encodes no rows; the reason is in out */
    SYNCHRONY_NO_MEMORY = 5,
    SYNCHRONY_NOT_A_RUN = 7,       /* of `replay`: the steps aren't those of the algorithm */
    SYNCHRONY_NO_ROOM = 9          /* the answer has *size bytes, more than room */
};

/* As `correct`: all processors of the trace, however many there are. */
#define SYNCHRONY_ALL UINT64_MAX

/* The version of these declarations, which is that of the program. */
#define SYNCHRONY_VERSION "0.1.0"

/* The longest text that is read, in bytes. */
#define SYNCHRONY_MAX_TEXT 67108864

/* Writes the report of a trace text over the first bytes of out, and its length into *size. Processor p counts as
   correct if bit p - 1 of `correct` is set; with SYNCHRONY_ALL all of the trace do. */
uint32_t synchrony_report(uint64_t correct, const uint8_t *text, size_t length, uint8_t *out, size_t room, size_t *size);

/* Checks whether the rows of a certificate are the report of a trace text. Writes the line of the verdict over the
   first bytes of out, as "yes\n" or "no DeltaFails 1 1 2\n", and its length into *size. */
uint32_t synchrony_check(uint64_t correct, const uint8_t *text, size_t length, const uint8_t *certificate,
                         size_t certificate_length, uint8_t *out, size_t room, size_t *size);

/* Does what the words of a command line ask for, with texts in place of its files, and answers the exit status that the
   program has. `words` has the words after the program's name, with a line feed between each two and none at the end, as
   in "draw\n-\n--correct\nall". `text` is the text of the file `-`. `second` is the certificate of a `check`, the decisions
   of a `judge`, or the table of a `draw` or `page`, whatever name the words have for it. What the program prints is written over
   the first bytes of out, and its length into *size: with 0 and 1 its standard output (the notes of an `import` are left
   out), else its standard error. Refused, with status 2, are `run`, `simulate` and each file that has another name than
   `-`. With SYNCHRONY_NO_ROOM only *size is written, the length that the answer has, and with SYNCHRONY_NO_MEMORY
   nothing. */
uint32_t synchrony_answer(const uint8_t *words, size_t words_length, const uint8_t *text, size_t length,
                          const uint8_t *second, size_t second_length, uint8_t *out, size_t room, size_t *size);

/* The first two write in out, and in *size, nothing else but this: with SYNCHRONY_NO_ROOM the length that the answer has into
   *size; with SYNCHRONY_BAD_TRACE and SYNCHRONY_BAD_CERTIFICATE the words for the first refusal of the text over the
   first bytes of out, as far as there is room ("step 3: message 1 was received before", with no line feed), and the
   length of all of them into *size.

   That is proved of callers that keep five duties, which nothing checks:

   1. words, text, second and certificate point to as many bytes as is said, which nobody writes during the call; out to
      `room` bytes and size to one size_t, which nobody else reads or writes during the call. out and *size share no byte
      with each other or with a text. No pointer is null, also if there are no bytes. Each length is below 2^63.
   2. malloc, realloc and free are of one allocator, which aligns a block to each power of two up to 16 that divides the
      block's size. (A host may bring a heap of its own in their place: tests/hosts/refused.c does.)
   3. No call comes from a signal handler, nor from the forked child of a process with threads.
   4. The stack has room: 256 KiB are enough by measurement. The proof is about a machine whose stack has no end.
   5. The processor has the features of x86-64-v2. A call doesn't test that.

   Calls may come from several threads at once, each with an out and a size of its own. */

#ifdef __cplusplus
}
#endif

#endif
