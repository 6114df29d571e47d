/* Fails each allocation in turn (linked with --wrap of malloc and realloc). A call then returns out of memory, and made
 * again it returns what it does otherwise; after the site is closed nothing is allocated. */
#include "weirbowl.h"
#include <stdio.h>
#include <stdlib.h>
#include <string.h>

#define BYTES(text) (const uint8_t *)(text), strlen(text)

void *__real_malloc(size_t), *__real_realloc(void *, size_t);
void __real_free(void *);

/* how many allocations go well before one fails, or -1; how many failed; how many blocks are allocated */
static long left = -1, failures, blocks;

static bool fails(void) { return left >= 0 && left-- == 0 && ++failures; }

void *__wrap_malloc(size_t size) {
    void *block = fails() ? NULL : __real_malloc(size);
    blocks += block != NULL;
    return block;
}

void *__wrap_realloc(void *block, size_t size) {
    if (fails()) return NULL;
    blocks += block == NULL;
    return __real_realloc(block, size);
}

void __wrap_free(void *block) {
    blocks -= block != NULL;
    __real_free(block);
}

static const char SCHEMA[] = "{\"\":{\"entityTypes\":{\"User\":{\"memberOfTypes\":[\"Team\"]},\"Team\":{},\"Photo\":{}},"
                             "\"actions\":{\"view\":{\"appliesTo\":"
                             "{\"principalTypes\":[\"User\"],\"resourceTypes\":[\"Photo\"]}}}}}";
static const char REQUEST[] = "{\"principal\":\"User::\\\"ann\\\"\",\"action\":\"Action::\\\"view\\\"\","
                              "\"resource\":\"Photo::\\\"p1\\\"\"}";
static const char TEAM[] = "permit(principal in Team::\"t\", action, resource);";
static const char ANN_OF_T[] = "{\"uid\":{\"type\":\"User\",\"id\":\"ann\"},\"parents\":[{\"type\":\"Team\",\"id\":\"t\"}]}";
static uint8_t out[4096], message[4096];

/* the result of a call that is made until it is not out of memory */
#define AGAIN(result, call)                                                                                              \
    do result = (call);                                                                                                  \
    while (result.status == 503)

static void expect(bool holds, int line) {
    if (holds) return;
    printf("refused.c:%d: not as without a failure: %.*s\n", line, (int)sizeof out, out);
    exit(1);
}
#define EXPECT(condition) expect(condition, __LINE__)

/* One run, in which the allocation with this number fails. Returns whether there was one. */
static bool run(long number) {
    weirbowl_site one = {0}, two = {0};
    weirbowl_result r;
    uint32_t code;
    left = number, failures = 0;
    while ((code = weirbowl_open(&one, BYTES(SCHEMA), BYTES("one"))) != 0) EXPECT(code == 1);
    while ((code = weirbowl_open(&two, BYTES(SCHEMA), BYTES("two"))) != 0) EXPECT(code == 1);
    AGAIN(r, weirbowl_put_policy(&one, BYTES("p"), BYTES(TEAM), out, sizeof out));
    EXPECT(r.status == 200 && !memcmp(out, "{\"count\":1,", 11));
    AGAIN(r, weirbowl_put_entity(&one, BYTES(ANN_OF_T), out, sizeof out));
    EXPECT(r.status == 200 && !memcmp(out, "{\"count\":2,", 11));
    AGAIN(r, weirbowl_authorize(&one, BYTES(REQUEST), out, sizeof out));
    EXPECT(weirbowl_decision_of(r, out, sizeof out) == WEIRBOWL_ALLOW);
    AGAIN(r, weirbowl_get_policy(&one, BYTES("p"), out, sizeof out));
    EXPECT(r.status == 200);
    AGAIN(r, weirbowl_summary(&two, message, sizeof message));
    size_t length = r.length;
    EXPECT(weirbowl_fits(r, sizeof message));
    AGAIN(r, weirbowl_delta(&one, message, length, out, sizeof out));
    EXPECT(r.status == 200 && r.length <= sizeof message);
    memcpy(message, out, length = r.length);
    AGAIN(r, weirbowl_merge(&two, message, length, out, sizeof out));
    EXPECT(r.status == 200 && !memcmp(out, "{\"taken\":2}", 11));
    AGAIN(r, weirbowl_authorize(&two, BYTES(REQUEST), out, sizeof out));
    EXPECT(weirbowl_decision_of(r, out, sizeof out) == WEIRBOWL_ALLOW);
    AGAIN(r, weirbowl_delete_policy(&two, BYTES("p"), out, sizeof out));
    AGAIN(r, weirbowl_state(&two, out, sizeof out));
    EXPECT(r.status == 200);
    AGAIN(r, weirbowl_decide(BYTES(TEAM), BYTES("[]"), BYTES(REQUEST), out, sizeof out));
    EXPECT(weirbowl_decision_of(r, out, sizeof out) == WEIRBOWL_DENY);
    AGAIN(r, weirbowl_decide_under(BYTES(SCHEMA), BYTES(TEAM), BYTES("[]"), BYTES(REQUEST), out, sizeof out));
    EXPECT(weirbowl_decision_of(r, out, sizeof out) == WEIRBOWL_DENY);
    AGAIN(r, weirbowl_check(BYTES(SCHEMA), BYTES("permit(principal, action, resource) when { 1 };"), out, sizeof out));
    EXPECT(r.status == 422);
    AGAIN(r, weirbowl_explain(BYTES(SCHEMA), BYTES("#"), BYTES("[]"), BYTES(REQUEST), out, sizeof out));
    EXPECT(r.status == 200 && !memcmp(out, "error 10: ", 10));
    EXPECT(weirbowl_close(&one) && weirbowl_close(&two));
    left = -1;
    EXPECT(blocks == 0);
    return failures != 0;
}

int main(void) {
    long number = 0;
    while (run(number)) number++;
    printf("refused.c: each of %ld allocations failed once\n%ld passed, 0 failed\n", number, number);
    return number == 0;
}
