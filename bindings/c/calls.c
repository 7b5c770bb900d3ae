/* Calls the library, and ends with status 1 at the first call that does not end as it has to.
 *
 * usage: calls EXAMPLES ANSWERS      EXAMPLES is the folder of that name of the repository; ANSWERS has a file of the same name for each of
 *                                    its files: the answer, compact and with the members in the order of their names
 *
 * To be linked with refusing_heap.c in place of heap.c. C99, and C++ too. */
#include "refusing_heap.h"
#include "utoipa.h"

#include <stdio.h>
#include <stdlib.h>
#include <string.h>

#define HOLDS(fact) ((fact) ? (void)0 : fail(#fact, __LINE__))

typedef uint8_t (*command)(const uint8_t *text, size_t text_length, uint8_t *room, size_t room_length, size_t *needed);

/* Bytes: a text or an answer. */
struct bytes {
    uint8_t *at;
    size_t length;
};

/* The call that is made, for where it fails. */
static const char *said = "";

static void fail(const char *fact, int line) {
    fprintf(stderr, "calls.c:%d: %s: not so: %s\n", line, said, fact);
    exit(1);
}

static struct bytes of(const char *text) {
    struct bytes made = {(uint8_t *)malloc(strlen(text) + 1), strlen(text)};
    HOLDS(made.at);
    memcpy(made.at, text, made.length + 1);
    return made;
}

static struct bytes read_file(const char *folder, const char *name) {
    char path[4096];
    HOLDS(snprintf(path, sizeof path, "%s/%s", folder, name) < (int)sizeof path);
    said = name;
    FILE *file = fopen(path, "rb");
    HOLDS(file && fseek(file, 0, SEEK_END) == 0);
    struct bytes made = {NULL, (size_t)ftell(file)};
    made.at = (uint8_t *)malloc(made.length + 1);
    HOLDS(made.at && fseek(file, 0, SEEK_SET) == 0);
    HOLDS(fread(made.at, 1, made.length, file) == made.length);
    fclose(file);
    return made;
}

static int are_dots(const uint8_t *from, const uint8_t *to) {
    while (from < to && *from == '.') ++from;
    return from == to;
}

/* What `needed` holds before a call. */
#define UNSAID 77

/* Makes a call with so much room, holds it to all that is promised whatever the code, and returns the code. */
static uint8_t call(command made, struct bytes text, size_t room_length, size_t *needed, struct bytes *answer) {
    /* The dots behind the room show what is written past it. */
    size_t behind = 64;
    uint8_t *room = (uint8_t *)malloc(room_length + behind);
    HOLDS(room);
    memset(room, '.', room_length + behind);
    *needed = UNSAID;
    uint8_t code = made(text.at, text.length, room, room_length, needed);
    HOLDS(code <= UTOIPA_NAME);
    HOLDS(code != UTOIPA_DONE || *needed <= room_length);
    HOLDS(code != UTOIPA_ROOM || *needed > room_length);
    HOLDS(code == UTOIPA_DONE || code == UTOIPA_ROOM || *needed == UNSAID);
    HOLDS(are_dots(room + (code == UTOIPA_DONE ? *needed : 0), room + room_length + behind));
    if (answer && code == UTOIPA_DONE) {
        answer->at = room;
        answer->length = *needed;
    } else {
        free(room);
    }
    return code;
}

/* The command answers the text with the wanted bytes, if it has as much room. */
static void answers_to(command made, struct bytes text, struct bytes wanted) {
    size_t rooms[] = {0, wanted.length - 1, wanted.length, wanted.length + 100}, needed;
    for (size_t at = 0; at < sizeof rooms / sizeof *rooms; ++at) {
        struct bytes answer = {NULL, 0};
        uint8_t code = call(made, text, rooms[at], &needed, &answer);
        HOLDS(code == (rooms[at] < wanted.length ? UTOIPA_ROOM : UTOIPA_DONE));
        HOLDS(needed == wanted.length);
        HOLDS(code != UTOIPA_DONE || memcmp(answer.at, wanted.at, wanted.length) == 0);
        free(answer.at);
    }
    HOLDS(blocks_held() == 0);
}

static void answers(command made, const char *text, const char *wanted) {
    struct bytes given = of(text), due = of(wanted);
    answers_to(made, given, due);
    free(given.at);
    free(due.at);
}

/* The command refuses the text so, whatever the room. */
static void refuses_bytes(command made, struct bytes text, uint8_t code) {
    size_t needed;
    HOLDS(call(made, text, 0, &needed, NULL) == code);
    HOLDS(call(made, text, 1000, &needed, NULL) == code);
    HOLDS(blocks_held() == 0);
}

static void refuses(command made, const char *text, uint8_t code) {
    struct bytes given = of(text);
    refuses_bytes(made, given, code);
    free(given.at);
}

/* With each request for memory refused in turn the command tells it, and the next call answers. Returns how many there are. */
static size_t tells_want_of_memory(command made, struct bytes text, struct bytes wanted) {
    size_t number = 0, needed;
    for (;;) {
        refuse_request(++number);
        uint8_t code = call(made, text, wanted.length, &needed, NULL);
        if (!was_refused()) break;
        refuse_request(0);
        HOLDS(code == UTOIPA_MEMORY);
        HOLDS(blocks_held() == 0);
        struct bytes answer = {NULL, 0};
        HOLDS(call(made, text, wanted.length, &needed, &answer) == UTOIPA_DONE);
        HOLDS(answer.length == wanted.length && memcmp(answer.at, wanted.at, wanted.length) == 0);
        free(answer.at);
    }
    refuse_request(0);
    return number - 1;
}

/* ---- The texts, and their answers by docs/FORMAT.md. */

#define DOCUMENT_A "{\"openapi\":\"3.1.0\",\"info\":{\"version\":\"1\",\"title\":\"a\"},\"paths\":{\"/a\":{\"get\":{\"responses\":{}}}}}"
#define DOCUMENT_B "{\"openapi\":\"3.1.0\",\"info\":{\"version\":\"2\",\"title\":\"b\"},\"paths\":{\"/b\":{},\"/a\":{\"post\":{\"responses\":{}}}}}"
#define TWO "[" DOCUMENT_A "," DOCUMENT_B "]"
#define WITH_PATHS(paths) "{\"info\":{\"title\":\"a\",\"version\":\"1\"},\"openapi\":\"3.1.0\",\"paths\":{" paths "}}\n"
#define MERGED WITH_PATHS("\"/a\":{\"get\":{\"responses\":{}},\"post\":{\"responses\":{}}},\"/b\":{}")
#define NESTED WITH_PATHS("\"/a\":{\"get\":{\"responses\":{}}},\"/v1/a\":{\"post\":{\"responses\":{}}},\"/v1/b\":{}")

static uint8_t nest_at_v1(const uint8_t *text, size_t text_length, uint8_t *room, size_t room_length, size_t *needed) {
    return utoipa_nest((const uint8_t *)"/v1", 3, text, text_length, room, room_length, needed);
}

/* Behind the first 0xc3 a second byte is wanting. */
static uint8_t nest_at_no_text(const uint8_t *text, size_t text_length, uint8_t *room, size_t room_length, size_t *needed) {
    return utoipa_nest((const uint8_t *)"/\xc3", 2, text, text_length, room, room_length, needed);
}

static uint8_t check_as_a(const uint8_t *text, size_t text_length, uint8_t *room, size_t room_length, size_t *needed) {
    return utoipa_check((const uint8_t *)"a.json", 6, text, text_length, room, room_length, needed);
}

static uint8_t check_as_no_text(const uint8_t *text, size_t text_length, uint8_t *room, size_t room_length, size_t *needed) {
    return utoipa_check((const uint8_t *)"a\xff", 2, text, text_length, room, room_length, needed);
}

static const struct example {
    const char *name;
    command made;
} examples[] = {
    {"server.json", utoipa_server}, {"schema.json", utoipa_schema}, {"shop.json", utoipa_document}, {"shop-3.2.json", utoipa_document}};

/* ---- The calls. */

static void examples_are_read_and_written(const char *given, const char *due) {
    for (size_t at = 0; at < sizeof examples / sizeof *examples; ++at) {
        struct bytes text = read_file(given, examples[at].name), wanted = read_file(due, examples[at].name);
        said = examples[at].name;
        answers_to(examples[at].made, text, wanted);
        free(text.at);
        free(wanted.at);
    }
}

static void members_are_kept_by_their_tables(void) {
    answers(utoipa_server, " { \"url\" : \"\\u0041\" , \"description\" : null , \"x-a\" : 1 , \"y\" : 2 } ", "{\"url\":\"A\",\"x-a\":1}\n");
    answers(utoipa_schema, "{\"$ref\":\"#/components/schemas/A\"}", "{\"$ref\":\"#/components/schemas/A\"}\n");
}

static void each_refusal_has_its_code(void) {
    refuses(utoipa_server, "", UTOIPA_TEXT);
    refuses(utoipa_server, "{\"url\":", UTOIPA_TEXT);
    refuses(utoipa_server, "{\"url\":\"\xff\"}", UTOIPA_TEXT);
    refuses(utoipa_server, "{\"url\":\"u\",\"x-a\":1.0}", UTOIPA_FRACTION);
    refuses(utoipa_server, "{}", UTOIPA_MISSING);
    refuses(utoipa_server, "{\"url\":5}", UTOIPA_KIND);
    refuses(utoipa_document, "{\"openapi\":\"3.0.3\",\"info\":{\"title\":\"t\",\"version\":\"1\"},\"paths\":{}}", UTOIPA_KIND);
    refuses(utoipa_document, "{\"openapi\":\"3.1.0\",\"info\":{\"title\":\"t\",\"version\":\"1\"},\"paths\":{\"/a\":{\"parameters\":[{\"name\":\"n\",\"in\":\"querry\",\"required\":true}]}}}", UTOIPA_WORD);
    refuses(utoipa_schema, "{\"type\":\"text\"}", UTOIPA_WORD);
    refuses(utoipa_schema, "{\"type\":\"object\",\"propertyNames\":{\"$ref\":\"#/a\"}}", UTOIPA_ALTERNATIVE);
    refuses(utoipa_merge, "[]", UTOIPA_EMPTY);
    /* The first place that does not fit: `info` stands before `openapi` in the table, and the first document before the second. */
    refuses(utoipa_document, "{\"openapi\":5,\"info\":{\"title\":\"t\"},\"paths\":{}}", UTOIPA_MISSING);
    refuses(utoipa_merge, "[" DOCUMENT_A ",{},5]", UTOIPA_MISSING);
    refuses(nest_at_v1, "[5,{}]", UTOIPA_KIND);
    refuses(nest_at_v1, "[" DOCUMENT_A "]", UTOIPA_COUNT);
    refuses(nest_at_v1, "[" DOCUMENT_A "," DOCUMENT_B "," DOCUMENT_A "]", UTOIPA_COUNT);
}

static void room_is_asked_for_and_no_more_is_written(void) {
    struct bytes text = of("{\"url\":\"u\"}"), answer = {NULL, 0};
    size_t needed;
    /* The answer is longer than the text by its line feed. */
    HOLDS(call(utoipa_server, text, text.length, &needed, &answer) == UTOIPA_ROOM);
    HOLDS(needed == text.length + 1);
    HOLDS(call(utoipa_server, text, needed, &needed, &answer) == UTOIPA_DONE);
    HOLDS(answer.length == 12 && memcmp(answer.at, "{\"url\":\"u\"}\n", 12) == 0);
    free(answer.at);
    free(text.at);
}

static void what_needs_no_byte_is_passed_none(void) {
    uint8_t none = '.';
    size_t needed = UNSAID;
    HOLDS(utoipa_merge(&none, 0, &none + 1, 0, &needed) == UTOIPA_TEXT);
    HOLDS(utoipa_nest(&none, 0, (const uint8_t *)"[]", 2, &none, 0, &needed) == UTOIPA_COUNT);
    HOLDS(none == '.' && needed == UNSAID);
}

static void documents_are_merged(void) {
    answers(utoipa_merge, TWO, MERGED);
    answers(utoipa_merge, "[" DOCUMENT_A "]", WITH_PATHS("\"/a\":{\"get\":{\"responses\":{}}}"));
}

static void a_document_is_nested(void) {
    answers(nest_at_v1, TWO, NESTED);
}

static void a_base_that_is_no_text_is_refused(void) {
    refuses(nest_at_no_text, TWO, UTOIPA_BASE);
    refuses(nest_at_no_text, "[", UTOIPA_BASE);
}

#define MISFIT "{\"openapi\":\"3.1.0\",\"info\":{\"title\":\"t\"},\"paths\":{}}"
#define FOUND "a.json: /info: the member `version` is required\n"
#define DROPPED "/info: document 1's value is dropped, since document 0 decides\n"

static void what_is_found_is_told(void) {
    answers(check_as_a, MISFIT, FOUND);
    answers(check_as_a, "[\n1", "a.json:2:1: this is no JSON\n");
    answers(check_as_a, "{\"a\":\"\xff\"}", "a.json:1:7: this is no UTF-8\n");
    refuses(check_as_no_text, MISFIT, UTOIPA_NAME);
}

static void what_merging_drops_is_told(void) {
    answers(utoipa_conflicts, TWO, DROPPED);
    refuses(utoipa_conflicts, "{}", UTOIPA_KIND);
    refuses(utoipa_conflicts, "[{}]", UTOIPA_MISSING);
    refuses(utoipa_conflicts, "[", UTOIPA_TEXT);
    refuses(utoipa_conflicts, "[0.5]", UTOIPA_FRACTION);
}

static void where_there_is_nothing_to_tell_the_answer_is_empty(void) {
    struct bytes one = of(DOCUMENT_A), list = of("[" DOCUMENT_A "," DOCUMENT_A "]"), none = of("[]"), answer = {NULL, 0};
    size_t needed;
    HOLDS(call(check_as_a, one, 0, &needed, &answer) == UTOIPA_DONE && needed == 0);
    free(answer.at);
    HOLDS(call(utoipa_conflicts, list, 0, &needed, &answer) == UTOIPA_DONE && needed == 0);
    free(answer.at);
    HOLDS(call(utoipa_conflicts, none, 0, &needed, &answer) == UTOIPA_DONE && needed == 0);
    free(answer.at);
    free(one.at);
    free(list.at);
    free(none.at);
}

static void texts_nest_127_levels(void) {
    for (size_t levels = 127; levels <= 128; ++levels) {
        const char *begin = "{\"additionalProperties\":";
        struct bytes text = {(uint8_t *)malloc(levels * (strlen(begin) + 1) + 2), 0};
        HOLDS(text.at);
        for (size_t at = 1; at < levels; ++at, text.length += strlen(begin)) memcpy(text.at + text.length, begin, strlen(begin));
        text.at[text.length++] = '{';
        for (size_t at = 0; at < levels; ++at) text.at[text.length++] = '}';
        if (levels == 127) {
            struct bytes wanted = {text.at, text.length + 1};
            text.at[text.length] = '\n';
            answers_to(utoipa_schema, text, wanted);
        } else {
            refuses_bytes(utoipa_schema, text, UTOIPA_TEXT);
        }
        free(text.at);
    }
}

static void each_request_for_memory_refused_is_told(const char *given, const char *due) {
    struct bytes two = of(TWO), merged = of(MERGED), nested = of(NESTED), dropped = of(DROPPED), misfit = of(MISFIT), found = of(FOUND);
    size_t told = tells_want_of_memory(utoipa_merge, two, merged) + tells_want_of_memory(nest_at_v1, two, nested);
    told += tells_want_of_memory(utoipa_conflicts, two, dropped) + tells_want_of_memory(check_as_a, misfit, found);
    free(two.at);
    free(merged.at);
    free(nested.at);
    free(dropped.at);
    free(misfit.at);
    free(found.at);
    for (size_t at = 0; at < sizeof examples / sizeof *examples; ++at) {
        struct bytes text = read_file(given, examples[at].name), wanted = read_file(due, examples[at].name);
        said = examples[at].name;
        told += tells_want_of_memory(examples[at].made, text, wanted);
        free(text.at);
        free(wanted.at);
    }
    printf("%lu requests for memory refused, each told\n", (unsigned long)told);
}

int main(int count, char **words) {
    if (count != 3) {
        fputs("usage: calls EXAMPLES ANSWERS\n", stderr);
        return 2;
    }
#define CALL(name, arguments) (said = #name, name arguments)
    CALL(examples_are_read_and_written, (words[1], words[2]));
    CALL(members_are_kept_by_their_tables, ());
    CALL(each_refusal_has_its_code, ());
    CALL(room_is_asked_for_and_no_more_is_written, ());
    CALL(what_needs_no_byte_is_passed_none, ());
    CALL(documents_are_merged, ());
    CALL(a_document_is_nested, ());
    CALL(a_base_that_is_no_text_is_refused, ());
    CALL(what_is_found_is_told, ());
    CALL(what_merging_drops_is_told, ());
    CALL(where_there_is_nothing_to_tell_the_answer_is_empty, ());
    CALL(texts_nest_127_levels, ());
    CALL(each_request_for_memory_refused_is_told, (words[1], words[2]));
    return 0;
}
