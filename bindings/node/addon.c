/* The library as a module of Node, by Node-API: the functions server, schema, document, merge, nest, check and conflicts.
 *
 * Each takes a JSON text, as a string or as a Uint8Array, nest a base before it and check a name, and returns a string: check and conflicts
 * lines, each with a line feed at its end, the others JSON without one. Where a text has no answer, an Error is thrown whose `code` is the
 * word of the refusal. */
#include "utoipa.h"

#include <node_api.h>
#include <stdlib.h>
#include <string.h>

/* The word of a refusal by its code, and what it says. */
static const struct refusal {
    const char *word, *says;
} refusals[] = {
    [UTOIPA_MEMORY] = {"memory", "memory ran out"},
    [UTOIPA_TEXT] = {"text", "the text is no JSON text, or not UTF-8"},
    [UTOIPA_FRACTION] = {"fraction", "a number is neither an i64 nor a u64"},
    [UTOIPA_MISSING] = {"missing", "a member that is required is absent"},
    [UTOIPA_KIND] = {"kind", "a value is of another kind or range"},
    [UTOIPA_WORD] = {"word", "a text is none of the words that may stand there"},
    [UTOIPA_ALTERNATIVE] = {"alternative", "no alternative of a choice fits"},
    [UTOIPA_EMPTY] = {"empty", "there is no document to merge"},
    [UTOIPA_COUNT] = {"count", "there are not two documents, of which the second is to be nested into the first"},
    [UTOIPA_BASE] = {"base", "the base is not UTF-8"},
    [UTOIPA_NAME] = {"name", "the name is not UTF-8"},
};

/* Bytes that are to be freed. */
struct bytes {
    uint8_t *at;
    size_t length;
};

static void refuse(napi_env env, unsigned code) {
    napi_throw_error(env, refusals[code].word, refusals[code].says);
}

/* Copies the bytes of a string or a Uint8Array, so that they stay as they are while the library reads them. Where that fails, an exception
   is pending. */
static bool take(napi_env env, napi_value given, struct bytes *taken) {
    napi_valuetype type;
    napi_typedarray_type element;
    bool is_array = false;
    void *from = NULL;
    taken->at = NULL;
    taken->length = 0;
    bool is_string = napi_typeof(env, given, &type) == napi_ok && type == napi_string;
    bool is_known = is_string
        ? napi_get_value_string_utf8(env, given, NULL, 0, &taken->length) == napi_ok
        : napi_is_typedarray(env, given, &is_array) == napi_ok && is_array
            && napi_get_typedarray_info(env, given, &element, &taken->length, &from, NULL, NULL) == napi_ok && element == napi_uint8_array;
    if (!is_known) {
        napi_throw_type_error(env, NULL, "a text is a string or a Uint8Array");
        return false;
    }
    /* A string is copied with a zero byte behind it. */
    taken->at = malloc(taken->length + 1);
    if (!taken->at) {
        refuse(env, UTOIPA_MEMORY);
        return false;
    }
    if (!is_string) {
        if (taken->length) memcpy(taken->at, from, taken->length);
        return true;
    }
    return napi_get_value_string_utf8(env, given, (char *)taken->at, taken->length + 1, NULL) == napi_ok;
}

typedef uint8_t (*command)(const uint8_t *text, size_t text_length, uint8_t *room, size_t room_length, size_t *needed);

typedef uint8_t (*command_of_two)(const uint8_t *first, size_t first_length, const uint8_t *text, size_t text_length, uint8_t *room,
                                  size_t room_length, size_t *needed);

/* A function of the module, and the one of the library that it calls: one that is given a text, or one that is given another before it. */
static const struct named {
    const char *name;
    command of_one;
    command_of_two of_two;
    /* How many bytes at the end of an answer are left out: the line feed of a line. */
    size_t left_out;
} functions[] = {
    {"server", utoipa_server, NULL, 1},
    {"schema", utoipa_schema, NULL, 1},
    {"document", utoipa_document, NULL, 1},
    {"merge", utoipa_merge, NULL, 1},
    {"nest", NULL, utoipa_nest, 1},
    {"check", NULL, utoipa_check, 0},
    {"conflicts", utoipa_conflicts, NULL, 0},
};

static uint8_t call(const struct named *function, struct bytes first, struct bytes text, struct bytes *room, size_t *needed) {
    return function->of_one ? function->of_one(text.at, text.length, room->at, room->length, needed)
                            : function->of_two(first.at, first.length, text.at, text.length, room->at, room->length, needed);
}

/* The answer as a string, or NULL where an exception is pending. */
static napi_value answer_of(napi_env env, const struct named *function, struct bytes first, struct bytes text) {
    /* The answer is mostly no longer than the text and its line feed. Where it is, the library says how long. */
    struct bytes room = {NULL, text.length + 1};
    for (;;) {
        size_t needed;
        napi_value answer = NULL;
        room.at = malloc(room.length);
        uint8_t code = room.at ? call(function, first, text, &room, &needed) : UTOIPA_MEMORY;
        /* There may be no memory for a string, too. */
        if (code == UTOIPA_DONE && napi_create_string_utf8(env, (const char *)room.at, needed - function->left_out, &answer) != napi_ok)
            code = UTOIPA_MEMORY;
        free(room.at);
        if (code != UTOIPA_DONE && code != UTOIPA_ROOM) refuse(env, code);
        if (code != UTOIPA_ROOM) return answer;
        room.length = needed;
    }
}

/* What a function of the module does, which is its data. */
static napi_value answer(napi_env env, napi_callback_info info) {
    napi_value given[2], made = NULL;
    size_t count = 2;
    void *data;
    if (napi_get_cb_info(env, info, &count, given, NULL, &data) != napi_ok) return NULL;
    const struct named *function = data;
    size_t wanted = function->of_one ? 1 : 2;
    struct bytes first = {NULL, 0}, text = {NULL, 0};
    /* An argument that is not there is undefined, and so no text. */
    if ((wanted == 1 || take(env, given[0], &first)) && take(env, given[wanted - 1], &text)) made = answer_of(env, function, first, text);
    free(first.at);
    free(text.at);
    return made;
}

NAPI_MODULE_INIT() {
    for (size_t at = 0; at < sizeof functions / sizeof *functions; ++at) {
        napi_value made;
        if (napi_create_function(env, functions[at].name, NAPI_AUTO_LENGTH, answer, (void *)&functions[at], &made) != napi_ok
            || napi_set_named_property(env, exports, functions[at].name, made) != napi_ok)
            return NULL;
    }
    return exports;
}
