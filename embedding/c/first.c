/* Two sites in one process: a policy is put at one, a request is decided there, and the other takes the update. */
#include "weirbowl.h"
#include <stdio.h>
#include <string.h>

#define BYTES(text) (const uint8_t *)(text), strlen(text)

static const char SCHEMA[] = "{\"\":{\"entityTypes\":{\"User\":{},\"Photo\":{}},\"actions\":{\"view\":{\"appliesTo\":"
                             "{\"principalTypes\":[\"User\"],\"resourceTypes\":[\"Photo\"]}}}}}";
static const char REQUEST[] = "{\"principal\":\"User::\\\"ann\\\"\",\"action\":\"Action::\\\"view\\\"\","
                              "\"resource\":\"Photo::\\\"p1\\\"\"}";

/* a body that is longer than its memory is not there: weirbowl_last_body copies it to a longer one */
static uint8_t body[4096], summary[4096], delta[4096];

static void show(const char *what, weirbowl_result result) {
    printf("%s: %u %.*s\n", what, result.status, weirbowl_fits(result, sizeof body) ? (int)result.length : 0, body);
}

static void decide(const char *what, weirbowl_site *site) {
    weirbowl_result result = weirbowl_authorize(site, BYTES(REQUEST), body, sizeof body);
    show(what, result);
    printf("%s\n", weirbowl_decision_of(result, body, sizeof body) == WEIRBOWL_ALLOW ? "allowed" : "not allowed");
}

int main(void) {
    weirbowl_site one = {0}, two = {0};
    if (weirbowl_open(&one, BYTES(SCHEMA), BYTES("one")) || weirbowl_open(&two, BYTES(SCHEMA), BYTES("two"))) return 1;

    show("put", weirbowl_put_policy(&one, BYTES("ann"), BYTES("permit(principal == User::\"ann\", action, resource);"),
                                    body, sizeof body));
    decide("decide at one", &one);

    /* what two is missing goes from one to two */
    weirbowl_result has = weirbowl_summary(&two, summary, sizeof summary);
    if (!weirbowl_fits(has, sizeof summary)) return 1;
    weirbowl_result news = weirbowl_delta(&one, summary, has.length, delta, sizeof delta);
    if (!weirbowl_fits(news, sizeof delta)) return 1;
    show("merge", weirbowl_merge(&two, delta, news.length, body, sizeof body));
    decide("decide at two", &two);

    weirbowl_close(&one);
    weirbowl_close(&two);
    return 0;
}
