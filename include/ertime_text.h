/*
 * ertime_text: the commands of the programs `ertime run` and `ertaudit` over texts in memory, as a library.
 *
 * A program is built with `cc program.c $(pkg-config --cflags --libs ertime_text)`. A call takes the bytes of a
 * scenario or of a history, and returns what the program writes of them, byte for byte: no process, no file, no stream.
 * ertime-scenario(5) and ertime-history(5) describe both formats.
 *
 * Answers. A call returns the status that the program ends with, and two texts: `output` is what the program
 * writes to standard output, and `errors` the message that it writes to standard error. Each is copied to the front of
 * the caller's buffer, as much of it as fits, and `told` gets its whole length; behind it the buffer stays as it was. No
 * zero byte ends a text. So where `told->output` is more than the room, the buffer has the front of the text, and a
 * second call with that much room gets all of it: the same bytes have the same answer each time, as long as there is
 * memory. With a room of 0 a call only asks for the lengths.
 *
 * Memory. A call takes memory by malloc, and has freed all of it when it returns. Without memory for the whole answer
 * the status is ERT_TEXT_NO_MEMORY, and both texts are empty. (The programs may have written the front of an answer then, and
 * leave out the message that explains it.) A message that has too little memory may leave out the piece of the text that
 * it would show, and the name that it would propose; what it says is true.
 *
 * Threads. The calls share nothing and store nothing, so any number of threads may make them at the same time. A signal
 * handler must not make any. No call throws, and none calls back.
 *
 * Undefined, as in C: a null pointer, even with a length or a room of 0; a pointer to less than is said; parameters that
 * overlap. All bytes of a text are answered: no text is undefined.
 */
#ifndef ERTIME_TEXT_H
#define ERTIME_TEXT_H

#include <stddef.h>
#include <stdint.h>

#ifdef __cplusplus
extern "C" {
#endif

/* The statuses. */
#define ERT_TEXT_DONE 0u      /* the scenario was run, or the history is legal */
#define ERT_TEXT_ILLEGAL 1u   /* the text is a history, and an entry of it is not legal */
#define ERT_TEXT_REFUSED 3u   /* the text is no scenario, or no history */
#define ERT_TEXT_NO_MEMORY 7u /* memory ran out */
#define ERT_TEXT_TOO_LONG 8u  /* the text has more than ERT_TEXT_MOST bytes */

/* The most bytes that a scenario or a history may have. */
#define ERT_TEXT_MOST ((size_t)16777216)

/* How many bytes the two texts of an answer have, whether they fitted their buffers or not. */
typedef struct ert_told {
    size_t output; /* of the transcript, the verdict or the refusal */
    size_t errors; /* of the message; 0 if there is none */
} ert_told;

/*
 * Runs a scenario, as `ertime run` does.
 *
 * ERT_TEXT_DONE: `output` is the transcript, a line for each reply; `errors` is empty.
 * ERT_TEXT_REFUSED: the text is no scenario. `output` is the line of the refusal, and `errors` the message that says
 * where in the text it is and why.
 * ERT_TEXT_NO_MEMORY, ERT_TEXT_TOO_LONG: both texts are empty. ERT_TEXT_TOO_LONG is the answer to each text of more
 * than ERT_TEXT_MOST bytes, and to no other.
 */
uint32_t ert_run(const uint8_t *scenario, size_t length, uint8_t *output, size_t room, uint8_t *errors,
                 size_t errors_room, ert_told *told);

/*
 * Judges a history, as `ertaudit` does.
 *
 * ERT_TEXT_DONE: the history is legal; `output` is the line that says so, and `errors` is empty.
 * ERT_TEXT_ILLEGAL: `output` is a line with the number of the line of the first entry that is not legal, and `errors`
 * the message that says which condition it breaks.
 * ERT_TEXT_REFUSED: the text is no history. `output` is a line with the number of the first line that is not spelled as
 * a history is, and `errors` the message that says at which word.
 * ERT_TEXT_NO_MEMORY, ERT_TEXT_TOO_LONG: as of ert_run.
 */
uint32_t ert_judge(const uint8_t *history, size_t length, uint8_t *output, size_t room, uint8_t *errors,
                   size_t errors_room, ert_told *told);

#ifdef __cplusplus
}
#endif

#endif
