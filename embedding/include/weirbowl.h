/* Weirbowl in the process of a C program: a replicated store of Cedar policies and entities, and decisions over it.
 *
 * The library is proved: what is said of a function below holds for any bytes, as long as its caller keeps these rules,
 * which no compiler checks:
 *
 *  - A weirbowl_site is zeroed before its first use (`weirbowl_site site = {0};`). From then on only these functions write
 *    to it. It is not copied: closing one of two copies would leave the other with freed memory. It may be moved.
 *  - One call at a time uses a site, on the thread that opened it.
 *  - A pointer is not null, even to zero bytes, and a length is that of the memory at its pointer. The memory that a call
 *    reads is not written during the call. That memory, `out` and the weirbowl_site share no byte with each other. `out`
 *    need not be initialized.
 *  - The thread has a stack of at least 4 MiB: an expression may be 1,000 nodes high.
 *  - malloc, realloc and free are of one allocator. No call is made from a signal handler, nor in a forked child of a
 *    process with threads.
 *
 * These are safe: a call of a site that is not open, opening a site twice, closing it twice; bytes that are not a schema,
 * JSON, a message or UTF-8; an `out` that is too short, or of zero bytes; out of memory.
 *
 * Requests, entities, messages and the bodies of replies are those of the HTTP routes: docs/formats.md, docs/codes.md.
 */
#ifndef WEIRBOWL_H
#define WEIRBOWL_H

#include <stdbool.h>
#include <stddef.h>
#include <stdint.h>
#include <string.h>

#ifdef __cplusplus
extern "C" {
#endif

/* A site, open or not. */
typedef struct weirbowl_site {
    bool is_open;
    void *address;
} weirbowl_site;

/* What a call returns.
 *
 * `status`: 200; 404, 409 or 422 of an error, whose line is the body; 503 if out of memory; 0 if no site is open.
 * `length`: the bytes of the reply's body. They are in `out` if it is long enough. If it is not, `out` is as it was;
 * weirbowl_last_body then copies the body, until the next call of the site. */
typedef struct weirbowl_result {
    uint32_t status;
    size_t length;
} weirbowl_result;

/* A decision. Everything but WEIRBOWL_ALLOW denies. */
typedef enum weirbowl_decision {
    WEIRBOWL_UNDECIDED = 0,
    WEIRBOWL_ALLOW = 1,
    WEIRBOWL_DENY = 2
} weirbowl_decision;

/* The codes of errors, by name: docs/codes.md. */
typedef enum weirbowl_code {
    WEIRBOWL_NO_CODE = 0,
    WEIRBOWL_OUT_OF_MEMORY = 1,
    WEIRBOWL_BAD_SITE_NAME = 2,
    WEIRBOWL_ALREADY_OPEN = 3,
    WEIRBOWL_POLICY_BAD_TOKEN = 10,
    WEIRBOWL_POLICY_UNEXPECTED = 11,
    WEIRBOWL_POLICY_NUMBER_RANGE = 12,
    WEIRBOWL_POLICY_UNKNOWN_CALL = 13,
    WEIRBOWL_POLICY_ARITY = 14,
    WEIRBOWL_POLICY_REPEATED_KEY = 15,
    WEIRBOWL_POLICY_SLOT = 16,
    WEIRBOWL_POLICY_TOO_DEEP = 17,
    WEIRBOWL_POLICY_TOO_LONG = 18,
    WEIRBOWL_POLICY_BAD_ID = 19,
    WEIRBOWL_SCHEMA_NOT_JSON = 20,
    WEIRBOWL_SCHEMA_BAD_SHAPE = 21,
    WEIRBOWL_SCHEMA_UNKNOWN_NAME = 22,
    WEIRBOWL_SCHEMA_TYPE_CYCLE = 23,
    WEIRBOWL_SCHEMA_ACTION_CYCLE = 24,
    WEIRBOWL_SCHEMA_TYPE_TOO_LARGE = 25,
    WEIRBOWL_ENTITY_BAD_SHAPE = 30,
    WEIRBOWL_ENTITY_UNKNOWN_TYPE = 31,
    WEIRBOWL_ENTITY_ACTION_ENTITY = 32,
    WEIRBOWL_ENTITY_UNDECLARED_ATTRIBUTE = 33,
    WEIRBOWL_ENTITY_MISSING_ATTRIBUTE = 34,
    WEIRBOWL_ENTITY_WRONG_TYPE = 35,
    WEIRBOWL_ENTITY_BAD_PARENT = 36,
    WEIRBOWL_ENTITY_SELF_PARENT = 37,
    WEIRBOWL_ENTITY_TAGS = 38,
    WEIRBOWL_ENTITY_NOT_APPLICABLE = 39,
    WEIRBOWL_VALIDATION_UNKNOWN_ENTITY_TYPE = 40,
    WEIRBOWL_VALIDATION_UNKNOWN_ACTION = 41,
    WEIRBOWL_VALIDATION_WRONG_TYPE = 42,
    WEIRBOWL_VALIDATION_NO_COMMON_TYPE = 43,
    WEIRBOWL_VALIDATION_ATTRIBUTE = 44,
    WEIRBOWL_VALIDATION_EMPTY_SET = 45,
    WEIRBOWL_VALIDATION_EXTENSION_TEXT = 46,
    WEIRBOWL_MESSAGE_NOT_JSON = 50,
    WEIRBOWL_MESSAGE_BAD_SHAPE = 51,
    WEIRBOWL_MESSAGE_ANOTHER_SCHEMA = 52,
    WEIRBOWL_MESSAGE_ANOTHER_VERSION = 53,
    WEIRBOWL_MESSAGE_BAD_COUNT = 54,
    WEIRBOWL_MESSAGE_BAD_ENTRY = 55,
    WEIRBOWL_MESSAGE_ANOTHER_NAME = 56,
    WEIRBOWL_MESSAGE_NOT_CANONICAL = 57,
    WEIRBOWL_SITE_NOT_THERE = 60,
    WEIRBOWL_SITE_WOULD_CYCLE = 61,
    WEIRBOWL_SITE_CLOCK_FULL = 62,
    WEIRBOWL_SITE_NOT_A_REQUEST = 63
} weirbowl_code;

/* The next three read a reply, of which at most `out_length` bytes are in `out`, the memory that its call was given. They
 * are C, tested and not proved. */

/* Returns whether the whole body is in `out`: only then may its `length` bytes be read there. */
static inline bool weirbowl_fits(weirbowl_result result, size_t out_length) { return result.length <= out_length; }

/* Returns the decision of weirbowl_authorize, weirbowl_decide or weirbowl_decide_under, also if weirbowl_last_body copied
 * it. It is WEIRBOWL_UNDECIDED if the body is not whole in `out`, or is that of an error. */
static inline weirbowl_decision weirbowl_decision_of(weirbowl_result result, const uint8_t *out, size_t out_length) {
    /* an answer begins so, and an answer with a cycle denies */
    static const char allows[] = "{\"cycle\":[],\"decision\":\"Allow\",", answers[] = "{\"cycle\":[";
    size_t length = result.length;
    if (result.status != 200 || !weirbowl_fits(result, out_length)) return WEIRBOWL_UNDECIDED;
    if (length >= sizeof allows - 1 && memcmp(out, allows, sizeof allows - 1) == 0) return WEIRBOWL_ALLOW;
    if (length >= sizeof answers - 1 && memcmp(out, answers, sizeof answers - 1) == 0) return WEIRBOWL_DENY;
    return WEIRBOWL_UNDECIDED;
}

/* Returns the code of an error: WEIRBOWL_NO_CODE if the reply is no error, or its body is not whole in `out`. */
static inline weirbowl_code weirbowl_code_of(weirbowl_result result, const uint8_t *out, size_t out_length) {
    static const char begins[] = "{\"error\":{\"code\":";
    size_t at = sizeof begins - 1;
    int code = 0;
    if (result.status == 503) return WEIRBOWL_OUT_OF_MEMORY;
    if (!weirbowl_fits(result, out_length) || result.length < at || memcmp(out, begins, at) != 0) return WEIRBOWL_NO_CODE;
    for (; at < result.length && out[at] >= '0' && out[at] <= '9' && code < 100; at++) code = 10 * code + (out[at] - '0');
    return (weirbowl_code)code;
}

/* Opens a site with nothing stored, under a schema. `name` goes into its stamps: 1 to 32 ASCII letters, digits, `-`, `_`
 * or `.`; no site that exchanges with it, directly or not, has or had this name.
 * Returns 0; 1 if out of memory; 2 if the name is not a site name; 3 if the site is open already; 20 to 25 if the bytes are
 * not a schema. */
uint32_t weirbowl_open(weirbowl_site *site, const uint8_t *schema, size_t schema_length, const uint8_t *name,
                       size_t name_length);

/* Closes a site and frees its memory. Returns whether it was open. */
bool weirbowl_close(weirbowl_site *site);

/* Copies the body of the last reply again, whatever its status was; it is empty before the first call. Returns the status
 * 200, or 0 if no site is open. */
weirbowl_result weirbowl_last_body(weirbowl_site *site, uint8_t *out, size_t out_length);

/* Decides a request: POST /v1/authorize. */
weirbowl_result weirbowl_authorize(weirbowl_site *site, const uint8_t *request, size_t request_length, uint8_t *out,
                                   size_t out_length);

/* Puts a policy: PUT /v1/policies/ID. */
weirbowl_result weirbowl_put_policy(weirbowl_site *site, const uint8_t *id, size_t id_length, const uint8_t *text,
                                    size_t text_length, uint8_t *out, size_t out_length);

/* Looks up a policy: GET /v1/policies/ID. */
weirbowl_result weirbowl_get_policy(weirbowl_site *site, const uint8_t *id, size_t id_length, uint8_t *out,
                                    size_t out_length);

/* Deletes a policy: DELETE /v1/policies/ID. */
weirbowl_result weirbowl_delete_policy(weirbowl_site *site, const uint8_t *id, size_t id_length, uint8_t *out,
                                       size_t out_length);

/* Puts an entity: PUT /v1/entities. */
weirbowl_result weirbowl_put_entity(weirbowl_site *site, const uint8_t *entity, size_t entity_length, uint8_t *out,
                                    size_t out_length);

/* Deletes the entity of a uid: POST /v1/entities/delete. */
weirbowl_result weirbowl_delete_entity(weirbowl_site *site, const uint8_t *uid, size_t uid_length, uint8_t *out,
                                       size_t out_length);

/* Writes the state, a message to other sites: GET /v1/state. */
weirbowl_result weirbowl_state(weirbowl_site *site, uint8_t *out, size_t out_length);

/* Writes the summary, the stamps of the store: GET /v1/summary. */
weirbowl_result weirbowl_summary(weirbowl_site *site, uint8_t *out, size_t out_length);

/* Writes a delta, the entries that the site of a summary is missing: POST /v1/delta. */
weirbowl_result weirbowl_delta(weirbowl_site *site, const uint8_t *summary, size_t summary_length, uint8_t *out,
                               size_t out_length);

/* Applies the updates of a state or a delta: POST /v1/merge. */
weirbowl_result weirbowl_merge(weirbowl_site *site, const uint8_t *message, size_t message_length, uint8_t *out,
                               size_t out_length);

/* Decides over texts, without a site and without a schema, as `cedar_site decide` does. The status is 200 with the line of
 * the answer, 422 with the line of an error, or 503 without a body. If `out` is too short, call again with `length` bytes. */
weirbowl_result weirbowl_decide(const uint8_t *policies, size_t policies_length, const uint8_t *entities,
                                size_t entities_length, const uint8_t *request, size_t request_length, uint8_t *out,
                                size_t out_length);

/* The same under a schema. */
weirbowl_result weirbowl_decide_under(const uint8_t *schema, size_t schema_length, const uint8_t *policies,
                                      size_t policies_length, const uint8_t *entities, size_t entities_length,
                                      const uint8_t *request, size_t request_length, uint8_t *out, size_t out_length);

/* Checks policies under a schema, as `cedar_site check` does: a line for each policy. The status is 200 if all pass; 422 if
 * one does not, or with the line of an error (it begins `{"error"`); or 503 without a body. */
weirbowl_result weirbowl_check(const uint8_t *schema, size_t schema_length, const uint8_t *policies,
                               size_t policies_length, uint8_t *out, size_t out_length);

/* Explains what is rejected in these texts, as `cedar_site explain` does of files with the names schema, policies, entities
 * and request. The status is 200 with the explanation, which has no bytes if and only if nothing is rejected; or 503 without
 * a body. */
weirbowl_result weirbowl_explain(const uint8_t *schema, size_t schema_length, const uint8_t *policies,
                                 size_t policies_length, const uint8_t *entities, size_t entities_length,
                                 const uint8_t *request, size_t request_length, uint8_t *out, size_t out_length);

#ifdef __cplusplus
}
#endif

#endif
