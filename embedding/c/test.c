/* Tries the calls of the header, also with mistakes that its rules allow: a closed site, invalid bytes, a short `out`. */
#include "weirbowl.h"
#include <stdio.h>
#include <stdlib.h>
#include <string.h>

#define BYTES(text) (const uint8_t *)(text), strlen(text)

static int passed, failed;

static void check(bool holds, int line, const char *what) {
    if (holds) {
        passed++;
        return;
    }
    failed++;
    printf("test.c:%d: expected %s\n", line, what);
}
#define EXPECT(condition) check(condition, __LINE__, #condition)

static const char SCHEMA[] = "{\"\":{\"entityTypes\":{\"User\":{\"memberOfTypes\":[\"Team\"]},\"Team\":{},\"Photo\":{}},"
                             "\"actions\":{\"view\":{\"appliesTo\":"
                             "{\"principalTypes\":[\"User\"],\"resourceTypes\":[\"Photo\"]}}}}}";
static const char REQUEST[] = "{\"principal\":\"User::\\\"ann\\\"\",\"action\":\"Action::\\\"view\\\"\","
                              "\"resource\":\"Photo::\\\"p1\\\"\"}";
static const char ALL[] = "permit(principal, action, resource);";
static const char TEAM[] = "permit(principal in Team::\"t\", action, resource);";
static const char ANN_OF_T[] = "{\"uid\":{\"type\":\"User\",\"id\":\"ann\"},\"parents\":[{\"type\":\"Team\",\"id\":\"t\"}]}";
static uint8_t out[1 << 20], other[1 << 20];

static bool is(weirbowl_result r, uint32_t status, const char *body) {
    bool same = r.status == status && r.length == strlen(body) && memcmp(out, body, r.length) == 0;
    if (!same) printf("  got %u %.*s\n", r.status, weirbowl_fits(r, sizeof out) ? (int)r.length : 0, out);
    return same;
}

static void decides_and_changes(void) {
    weirbowl_site site = {0};
    EXPECT(weirbowl_open(&site, BYTES(SCHEMA), BYTES("a")) == 0);
    EXPECT(is(weirbowl_authorize(&site, BYTES(REQUEST), out, sizeof out), 200,
              "{\"cycle\":[],\"decision\":\"Deny\",\"errors\":[],\"reason\":[]}"));
    EXPECT(is(weirbowl_put_policy(&site, BYTES("p"), BYTES(TEAM), out, sizeof out), 200,
              "{\"count\":1,\"impossible\":false,\"site\":\"a\"}"));
    EXPECT(is(weirbowl_put_entity(&site, BYTES(ANN_OF_T), out, sizeof out), 200, "{\"count\":2,\"site\":\"a\"}"));
    weirbowl_result r = weirbowl_authorize(&site, BYTES(REQUEST), out, sizeof out);
    EXPECT(is(r, 200, "{\"cycle\":[],\"decision\":\"Allow\",\"errors\":[],\"reason\":[\"p\"]}"));
    EXPECT(weirbowl_decision_of(r, out, sizeof out) == WEIRBOWL_ALLOW);
    EXPECT(is(weirbowl_get_policy(&site, BYTES("p"), out, sizeof out), 200,
              "{\"count\":1,\"site\":\"a\",\"text\":\"permit(principal in Team::\\\"t\\\", action, resource);\"}"));
    EXPECT(is(weirbowl_delete_entity(&site, BYTES("{\"type\":\"User\",\"id\":\"ann\"}"), out, sizeof out), 200,
              "{\"count\":3,\"site\":\"a\"}"));
    EXPECT(is(weirbowl_authorize(&site, BYTES(REQUEST), out, sizeof out), 200,
              "{\"cycle\":[],\"decision\":\"Deny\",\"errors\":[],\"reason\":[]}"));
    EXPECT(is(weirbowl_delete_policy(&site, BYTES("p"), out, sizeof out), 200, "{\"count\":4,\"site\":\"a\"}"));
    r = weirbowl_get_policy(&site, BYTES("p"), out, sizeof out);
    EXPECT(is(r, 404, "{\"error\":{\"code\":60,\"place\":null,\"within\":null}}"));
    EXPECT(weirbowl_code_of(r, out, sizeof out) == WEIRBOWL_SITE_NOT_THERE);
    EXPECT(weirbowl_close(&site));
}

static void exchanges(void) {
    weirbowl_site one = {0}, two = {0};
    EXPECT(weirbowl_open(&one, BYTES(SCHEMA), BYTES("one")) == 0 && weirbowl_open(&two, BYTES(SCHEMA), BYTES("two")) == 0);
    weirbowl_put_policy(&one, BYTES("p"), BYTES(ALL), out, sizeof out);
    weirbowl_put_policy(&two, BYTES("q"), BYTES(TEAM), out, sizeof out);
    weirbowl_result has = weirbowl_summary(&two, other, sizeof other);
    weirbowl_result news = weirbowl_delta(&one, other, has.length, out, sizeof out);
    EXPECT(weirbowl_fits(has, sizeof other) && weirbowl_fits(news, sizeof out));
    memcpy(other, out, news.length);
    EXPECT(is(weirbowl_merge(&two, other, news.length, out, sizeof out), 200, "{\"taken\":1}"));
    weirbowl_result whole = weirbowl_state(&two, other, sizeof other);
    EXPECT(is(weirbowl_merge(&one, other, whole.length, out, sizeof out), 200, "{\"taken\":2}"));
    weirbowl_result same = weirbowl_state(&one, out, sizeof out);
    EXPECT(same.status == 200 && same.length == whole.length && memcmp(out, other, same.length) == 0);
    weirbowl_close(&one);
    weirbowl_close(&two);
}

static void rejects(void) {
    weirbowl_site site = {0};
    EXPECT(weirbowl_open(&site, BYTES("{"), BYTES("a")) == 20 && !site.is_open);
    EXPECT(weirbowl_open(&site, BYTES("{\"\":{\"actions\":true}}"), BYTES("a")) == 21);
    EXPECT(weirbowl_open(&site, BYTES(SCHEMA), BYTES("no name!")) == 2);
    EXPECT(weirbowl_open(&site, BYTES(SCHEMA), BYTES("")) == 2);
    EXPECT(weirbowl_open(&site, BYTES(SCHEMA), BYTES("\xff")) == 2);
    EXPECT(weirbowl_open(&site, BYTES(SCHEMA), BYTES("a")) == 0);
    EXPECT(is(weirbowl_authorize(&site, BYTES("{"), out, sizeof out), 422,
              "{\"error\":{\"code\":63,\"place\":null,\"within\":30}}"));
    EXPECT(is(weirbowl_put_policy(&site, BYTES(""), BYTES(ALL), out, sizeof out), 422,
              "{\"error\":{\"code\":19,\"place\":0,\"within\":null}}"));
    EXPECT(is(weirbowl_put_policy(&site, BYTES("\xff"), BYTES(ALL), out, sizeof out), 422,
              "{\"error\":{\"code\":19,\"place\":0,\"within\":null}}"));
    EXPECT(is(weirbowl_put_policy(&site, BYTES("p"), BYTES("permit\xff"), out, sizeof out), 422,
              "{\"error\":{\"code\":10,\"place\":0,\"within\":null}}"));
    EXPECT(is(weirbowl_get_policy(&site, BYTES("\xff"), out, sizeof out), 422,
              "{\"error\":{\"code\":19,\"place\":0,\"within\":null}}"));
    EXPECT(is(weirbowl_delete_entity(&site, BYTES("[]"), out, sizeof out), 422,
              "{\"error\":{\"code\":30,\"place\":null,\"within\":null}}"));
    EXPECT(is(weirbowl_put_entity(&site, BYTES("{}"), out, sizeof out), 422,
              "{\"error\":{\"code\":30,\"place\":null,\"within\":null}}"));
    EXPECT(is(weirbowl_merge(&site, BYTES("\xff\x00"), out, sizeof out), 422,
              "{\"error\":{\"code\":50,\"place\":null,\"within\":null}}"));
    EXPECT(is(weirbowl_delta(&site, BYTES("{}"), out, sizeof out), 422,
              "{\"error\":{\"code\":51,\"place\":null,\"within\":null}}"));
    weirbowl_close(&site);
}

static void closes_and_opens(void) {
    weirbowl_site site = {0};
    memset(out, 7, 8);
    EXPECT(!weirbowl_close(&site));
    weirbowl_result none = weirbowl_authorize(&site, BYTES(REQUEST), out, sizeof out);
    EXPECT(none.status == 0 && none.length == 0 && out[0] == 7);
    EXPECT(weirbowl_last_body(&site, out, sizeof out).status == 0);
    for (int round = 0; round < 3; round++) {
        EXPECT(weirbowl_open(&site, BYTES(SCHEMA), BYTES("a")) == 0 && site.is_open);
        EXPECT(weirbowl_open(&site, BYTES(SCHEMA), BYTES("a")) == 3);
        EXPECT(weirbowl_open(&site, BYTES("{"), BYTES("")) == 3);
        EXPECT(weirbowl_put_policy(&site, BYTES("p"), BYTES(ALL), out, sizeof out).status == 200);
        EXPECT(weirbowl_close(&site) && !site.is_open);
        EXPECT(!weirbowl_close(&site));
        EXPECT(weirbowl_state(&site, out, sizeof out).status == 0);
    }
}

static void short_memory(void) {
    weirbowl_site site = {0};
    EXPECT(weirbowl_open(&site, BYTES(SCHEMA), BYTES("a")) == 0);
    for (size_t room = 0; room < 70; room++) {
        memset(out, 7, 80);
        weirbowl_result r = weirbowl_authorize(&site, BYTES(REQUEST), out, room);
        size_t written = r.length <= room ? r.length : 0;
        EXPECT(r.status == 200 && r.length == 54 && out[written] == 7 && (written == 0 || out[written - 1] == '}'));
        EXPECT(weirbowl_decision_of(r, out, room) == (written ? WEIRBOWL_DENY : WEIRBOWL_UNDECIDED));
    }
    EXPECT(is(weirbowl_last_body(&site, out, sizeof out), 200,
              "{\"cycle\":[],\"decision\":\"Deny\",\"errors\":[],\"reason\":[]}"));
    weirbowl_close(&site);
}

static void texts(void) {
    EXPECT(is(weirbowl_decide(BYTES(ALL), BYTES("[]"), BYTES(REQUEST), out, sizeof out), 200,
              "{\"cycle\":[],\"decision\":\"Allow\",\"errors\":[],\"reason\":[\"policy0\"]}"));
    EXPECT(is(weirbowl_decide(BYTES("permit"), BYTES("[]"), BYTES(REQUEST), out, sizeof out), 422,
              "{\"error\":{\"code\":11,\"place\":6,\"within\":null}}"));
    EXPECT(is(weirbowl_decide_under(BYTES(SCHEMA), BYTES(TEAM), BYTES("[]"), BYTES(REQUEST), out, sizeof out), 200,
              "{\"cycle\":[],\"decision\":\"Deny\",\"errors\":[],\"reason\":[]}"));
    EXPECT(is(weirbowl_decide_under(BYTES("{"), BYTES(TEAM), BYTES("[]"), BYTES(REQUEST), out, sizeof out), 422,
              "{\"error\":{\"code\":20,\"place\":null,\"within\":null}}"));
    EXPECT(is(weirbowl_check(BYTES(SCHEMA), BYTES(ALL), out, sizeof out), 200,
              "{\"id\":\"policy0\",\"verdict\":\"accepted\"}"));
    EXPECT(is(weirbowl_check(BYTES(SCHEMA), BYTES("permit(principal, action, resource) when { principal.x };"), out,
                             sizeof out), 422, "{\"code\":44,\"id\":\"policy0\",\"verdict\":\"refused\"}"));
    EXPECT(is(weirbowl_check(BYTES(SCHEMA), BYTES("#"), out, sizeof out), 422,
              "{\"error\":{\"code\":10,\"place\":0,\"within\":null}}"));
    EXPECT(is(weirbowl_explain(BYTES(SCHEMA), BYTES(ALL), BYTES("[]"), BYTES(REQUEST), out, sizeof out), 200, ""));
    weirbowl_result e = weirbowl_explain(BYTES(SCHEMA), BYTES("#"), BYTES("[]"), BYTES(REQUEST), out, sizeof out);
    EXPECT(e.status == 200 && weirbowl_fits(e, sizeof out) && memcmp(out, "error 10: ", 10) == 0);
    weirbowl_result r = weirbowl_decide(BYTES(ALL), BYTES("[]"), BYTES(REQUEST), out, 3);
    EXPECT(r.status == 200 && r.length > 3);
}

int main(void) {
    decides_and_changes();
    exchanges();
    rejects();
    closes_and_opens();
    short_memory();
    texts();
    printf("%d passed, %d failed\n", passed, failed);
    return failed != 0;
}
