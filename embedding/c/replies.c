/* Reads replies with the functions of the header that read them, without the library. Each reply lies at the end of a page
 * that no readable page follows, so that a read beyond its memory ends the program. */
#define _GNU_SOURCE
#include "weirbowl.h"
#include <stdio.h>
#include <sys/mman.h>
#include <unistd.h>

static int passed, failed;

static void check(bool holds, int line, const char *what) {
    passed += holds, failed += !holds;
    if (!holds) printf("replies.c:%d: expected %s\n", line, what);
}
#define EXPECT(condition) check(condition, __LINE__, #condition)

/* the last bytes of a page before one that cannot be read: the first `held` of a body */
static const uint8_t *at_end(const char *body, size_t held) {
    static uint8_t *pages;
    size_t page = (size_t)sysconf(_SC_PAGESIZE);
    if (!pages) {
        pages = mmap(NULL, 2 * page, PROT_READ | PROT_WRITE, MAP_PRIVATE | MAP_ANONYMOUS, -1, 0);
        if (pages == MAP_FAILED || mprotect(pages + page, page, PROT_NONE)) return NULL;
    }
    memcpy(pages + page - held, body, held);
    return pages + page - held;
}

static weirbowl_result reply(uint32_t status, const char *body) { return (weirbowl_result){status, strlen(body)}; }

static weirbowl_decision decision(uint32_t status, const char *body) {
    return weirbowl_decision_of(reply(status, body), at_end(body, strlen(body)), strlen(body));
}

static weirbowl_code code(uint32_t status, const char *body) {
    return weirbowl_code_of(reply(status, body), at_end(body, strlen(body)), strlen(body));
}

int main(void) {
    static const char allows[] = "{\"cycle\":[],\"decision\":\"Allow\",\"errors\":[],\"reason\":[\"p\"]}";
    static const char denies[] = "{\"cycle\":[],\"decision\":\"Deny\",\"errors\":[],\"reason\":[]}";
    /* an id may have any bytes: in JSON its quotes are escaped */
    static const char cyclic[] = "{\"cycle\":[{\"id\":\"],\\\"decision\\\":\\\"Allow\\\",\",\"type\":\"T\"}],\"decision\":\"Deny\","
                                 "\"errors\":[],\"reason\":[]}";
    static const char error[] = "{\"error\":{\"code\":60,\"place\":null,\"within\":null}}";
    if (!at_end("", 0)) return 2;
    EXPECT(decision(200, allows) == WEIRBOWL_ALLOW && decision(200, denies) == WEIRBOWL_DENY);
    EXPECT(decision(200, cyclic) == WEIRBOWL_DENY);
    EXPECT(decision(0, allows) == WEIRBOWL_UNDECIDED && decision(422, allows) == WEIRBOWL_UNDECIDED);
    EXPECT(decision(200, "{\"taken\":1}") == WEIRBOWL_UNDECIDED && decision(404, error) == WEIRBOWL_UNDECIDED);
    EXPECT(decision(200, "") == WEIRBOWL_UNDECIDED && decision(200, "{\"cycle\":[],\"decision\":\"All") == WEIRBOWL_DENY);
    EXPECT(code(404, error) == WEIRBOWL_SITE_NOT_THERE && code(503, "") == WEIRBOWL_OUT_OF_MEMORY);
    EXPECT(code(200, allows) == WEIRBOWL_NO_CODE && code(0, "") == WEIRBOWL_NO_CODE);
    EXPECT(code(422, "{\"error\":{\"code\":1") == WEIRBOWL_OUT_OF_MEMORY);
    /* each shorter memory: nothing of the reply is there */
    for (size_t held = 0; held < sizeof allows - 1; held++)
        EXPECT(weirbowl_decision_of(reply(200, allows), at_end(allows, held), held) == WEIRBOWL_UNDECIDED);
    for (size_t held = 0; held < sizeof error - 1; held++)
        EXPECT(weirbowl_code_of(reply(404, error), at_end(error, held), held) == WEIRBOWL_NO_CODE);
    printf("%d passed, %d failed\n", passed, failed);
    return failed != 0;
}
