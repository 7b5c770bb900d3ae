/* OpenAPI 3.1 and 3.2 documents read, written, merged, nested and checked: the commands of utoipa_doc as functions, and what is found in a
 * document, or dropped where documents are merged.
 *
 * Each function takes a JSON text and the room for its answer, and returns a code. The answer of the first five is a line: JSON and a line feed,
 * with no space between its parts and with the members of each object in the order of their names. That of utoipa_check and of
 * utoipa_conflicts is lines, each with a line feed at its end, or nothing. No zero byte follows an answer.
 *
 * What is promised here is what the clauses of crates/utoipa_c/src/lib.rt say, by the definitions of its specs/, and is proved of
 * every call of a caller that does what it owes.
 *
 * Promised of each call:
 *   - Where the code is UTOIPA_DONE, the answer to the text stands at the front of the room, *needed is its length, and behind it the room
 *     holds what it held.
 *   - Where the code is UTOIPA_ROOM, the text has an answer of the length *needed, and the room is smaller than that.
 *   - Any other code is that of a refusal, for which the text gives cause, or of a base or a name that is not UTF-8. *needed is then what it was.
 *   - Where the code is not UTOIPA_DONE, the room is what it was.
 * So where the base or the name is UTF-8, a text that has an answer is refused for want of memory alone. Of utoipa_check each text has one.
 *
 * Owed by the caller:
 *   - No pointer is null, also where its length is 0, and each length is at most PTRDIFF_MAX.
 *   - The bytes of the text, of the base and of the name are initialized; those of the room may be written. Neither the room nor *needed overlaps anything
 *     else that the call is given.
 *   - Until the call returns, nobody else writes the text, the base or the name, and nobody else reads or writes the room or *needed.
 *   - malloc, realloc and free, which heap.c calls, are of one allocator, and align a block to each power of two up to 16 that divides
 *     its size.
 *   - The call is not made by a signal handler, nor in the forked child of a process with threads.
 *   - The thread has a stack of UTOIPA_STACK bytes. 2230 KiB of it are the most that was measured, of texts that nest as deep as they may,
 *     which is 127 levels of objects and lists. A text that nests deeper is refused as UTOIPA_TEXT.
 * The library keeps nothing from one call to the next, so calls may run side by side on other threads. */
#ifndef UTOIPA_H
#define UTOIPA_H

#include <stddef.h>
#include <stdint.h>

#ifdef __cplusplus
extern "C" {
#endif

/* The stack in bytes that a call may take. */
#define UTOIPA_STACK ((size_t)4 << 20)

enum {
    /* The answer is written to the front of the room, and *needed is its length. */
    UTOIPA_DONE = 0,
    /* The room is smaller than *needed, the length of the answer. Nothing is written to it. */
    UTOIPA_ROOM = 1,
    /* Memory ran out. This says nothing of the text. */
    UTOIPA_MEMORY = 2,
    /* The text is no JSON text, or not UTF-8. */
    UTOIPA_TEXT = 3,
    /* The text is JSON, and a number of it is neither an int64_t nor a uint64_t. */
    UTOIPA_FRACTION = 4,
    /* Each of the next four: the text is JSON with no such number, and no document of the kind that the function reads. Which of the
       four comes tells the first place that does not fit, in the order in which utoipa_check tells them. A required member is absent there; */
    UTOIPA_MISSING = 5,
    /* the value there is of another kind or range, or is no version that is read; */
    UTOIPA_KIND = 6,
    /* the text there is none of the words that may stand there; */
    UTOIPA_WORD = 7,
    /* no alternative of the choice there fits. */
    UTOIPA_ALTERNATIVE = 8,
    /* Of utoipa_merge alone: the text is a list of no documents. */
    UTOIPA_EMPTY = 9,
    /* Of utoipa_nest alone: the text is a list of documents, and not of two. */
    UTOIPA_COUNT = 10,
    /* Of utoipa_nest alone, and exactly where the base is not UTF-8, whatever the text. */
    UTOIPA_BASE = 11,
    /* Of utoipa_check alone, and exactly where the name is not UTF-8, whatever the text. */
    UTOIPA_NAME = 14
};

/* Reads a Server Object (OpenAPI 3.1, section 4.8.5) and writes it. */
uint8_t utoipa_server(const uint8_t *text, size_t text_length, uint8_t *room, size_t room_length, size_t *needed);

/* Reads a Schema Object, or a reference to one (section 4.8.24), and writes it. */
uint8_t utoipa_schema(const uint8_t *text, size_t text_length, uint8_t *room, size_t room_length, size_t *needed);

/* Reads an OpenAPI Object (section 4.8.1) and writes it. */
uint8_t utoipa_document(const uint8_t *text, size_t text_length, uint8_t *room, size_t room_length, size_t *needed);

/* Reads a list of OpenAPI documents and writes what they are merged into. */
uint8_t utoipa_merge(const uint8_t *text, size_t text_length, uint8_t *room, size_t room_length, size_t *needed);

/* Reads a list of two OpenAPI documents and writes the first with the second nested into it, its paths behind the base. */
uint8_t utoipa_nest(const uint8_t *base, size_t base_length, const uint8_t *text, size_t text_length, uint8_t *room, size_t room_length,
                    size_t *needed);

/* Tells what is found in a text that is to be an OpenAPI Object: a line for each place that does not fit, is read otherwise than it was meant, is
   dropped where the text is read and written again, or refers to nothing, or the line that tells that the text is no JSON. Each line is
   NAME: POINTER: WHAT. The answer is empty where nothing is found. */
uint8_t utoipa_check(const uint8_t *name, size_t name_length, const uint8_t *text, size_t text_length, uint8_t *room, size_t room_length,
                     size_t *needed);

/* Reads a list of OpenAPI documents and tells what merging them drops: a line for each value in whose place another document decides, with its
   place, a JSON Pointer, and the numbers of both documents, counted from 0. The answer is empty where nothing is dropped. */
uint8_t utoipa_conflicts(const uint8_t *text, size_t text_length, uint8_t *room, size_t room_length, size_t *needed);

#ifdef __cplusplus
}
#endif

#endif
