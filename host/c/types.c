/* include/dfsc_host.h and the macros of dfsc.h, tried: a walk over structs, each kind of result, text, statuses. Compiled as C and as C++; with EXCHANGED or
 * MIXED it must not compile. */
#define DFSCH_PLACES 4
#include "dfsc_host.h"
#include <stdio.h>
#include <stdlib.h>

static int bad;
#define CHECK(holds) ((holds) ? (void)0 : (void)(bad++, printf("types.c:%d: %s\n", __LINE__, #holds)))

static dfsch_referrals refs;
static dfsch_domains doms;
static dfsch_walk walk;
static uint16_t listing[DFSC_LISTING_UNITS];

static uint16_t path_units[600], boot_units[300];

static dfsch_text text(const char *s, uint16_t *room, size_t most) {
    dfsch_text t = {room, dfsch_units_of_utf8(s, strlen(s), room, most)};
    CHECK(t.units <= most);
    return t;
}

static int named(const dfsch_name *name, const char *s) {
    char utf8[769];
    dfsch_utf8_of_units(name->at, name->units, utf8, sizeof utf8);
    return !strcmp(utf8, s);
}

static uint8_t reply[1024];

static size_t put(size_t at, const char *s) {
    uint16_t u[256];
    size_t n = dfsch_units_of_utf8(s, strlen(s), u, 256);
    for (size_t i = 0; i <= n; i++) {
        reply[at++] = (uint8_t)(i < n ? u[i] & 0xFF : 0);
        reply[at++] = (uint8_t)(i < n ? u[i] >> 8 : 0);
    }
    return at;
}

/* A reply of version 3 with one entry. */
static dfsch_bytes referral(int root, const char *prefix, const char *target) {
    static const uint8_t fixed[] = {0, 0, 1, 0, 2, 0, 0, 0, 3, 0, 34, 0, 0, 0, 0, 0, 44, 1, 0, 0, 34, 0, 34, 0};
    dfsch_bytes all = {reply, 0};
    memset(reply, 0, sizeof reply);
    memcpy(reply, fixed, sizeof fixed);
    reply[12] = (uint8_t)root;
    size_t at = put(42, prefix);
    reply[24] = (uint8_t)(at - 8);
    all.bytes = put(at, target);
    return all;
}

/* A DC reply, or with no DC a domain reply of one name. */
static dfsch_bytes names(const char *special, const char *dc1, const char *dc2) {
    static const uint8_t fixed[] = {0, 0, 1, 0, 0, 0, 0, 0, 3, 0, 18, 0, 0, 0, 2, 0, 44, 1, 0, 0, 18, 0};
    dfsch_bytes all = {reply, 0};
    memset(reply, 0, sizeof reply);
    memcpy(reply, fixed, sizeof fixed);
    size_t at = put(26, special);
    reply[22] = (uint8_t)(dc1 ? 2 : 0);
    reply[24] = (uint8_t)(at - 8);
    all.bytes = dc1 ? put(put(at, dc1), dc2) : at;
    return all;
}

static void walks(void) {
    dfsch_question q;
    dfsch_end end;
    dfsch_text path = text("\\\\files\\s\xC3\xA9jour\\a", path_units, 600);
    dfsch_settings settings = {text("dc1", boot_units, 300), 16, 8192};
    CHECK(dfsch_start(&refs, &doms, &walk, path, settings, 100) == 0);
    CHECK(dfsch_waits(&walk) && dfsch_ask(&refs, &doms, &walk, &q) == 0 && dfsch_ended(&walk, &end) == DFSC_OUT_OF_FORM);
    CHECK(q.kind == DFSC_ASK_ROOT && q.size == 8192 && q.moves == 1 && named(&q.party, "files") && named(&q.name, "\\files\\s\xC3\xA9jour"));
    CHECK(q.request.bytes == 4 + 2 * q.name.units && q.request.at[0] == 4 && q.request.at[2] == '\\');
    CHECK(dfsch_answer_io(&refs, &doms, &walk, 0, 100) == DFSC_OUT_OF_FORM);
    CHECK(dfsch_answer_referral(&refs, &doms, &walk, 0, referral(1, "\\files\\s\xC3\xA9jour", "\\nas1\\s1"), 100) == 0);
    CHECK(dfsch_ask(&refs, &doms, &walk, &q) == 0 && q.kind == DFSC_ASK_IO && q.request.bytes == 0 && named(&q.name, "\\nas1\\s1\\a"));
    CHECK(dfsch_answer_io(&refs, &doms, &walk, 0, 101) == 0 && !dfsch_waits(&walk));
    CHECK(dfsch_ended(&walk, &end) == 0 && end.number == DFSC_END_DONE && end.status == 0 && end.moves == 2 && named(&end.path, "\\nas1\\s1\\a"));

    /* a fresh entry is used, an expired one asked for again */
    CHECK(dfsch_start(&refs, &doms, &walk, path, settings, 102) == 0 && dfsch_ask(&refs, &doms, &walk, &q) == 0 && q.kind == DFSC_ASK_IO);
    static dfsch_referrals kept;
    kept = refs;
    CHECK(dfsch_expire_all(&refs) == 0);
    CHECK(dfsch_start(&refs, &doms, &walk, path, settings, 102) == 0 && dfsch_ask(&refs, &doms, &walk, &q) == 0 && q.kind == DFSC_ASK_ROOT);
    uint16_t prefix[16];
    refs = kept;
    CHECK(dfsch_expire(&refs, path) == DFSC_NO_ENTRY && dfsch_expire(&refs, text("\\files", prefix, 16)) == DFSC_NO_ENTRY);
    CHECK(dfsch_expire(&refs, text("files", prefix, 16)) == DFSC_BAD_PATH && !memcmp(&refs, &kept, sizeof refs));
    CHECK(dfsch_expire(&refs, text("\\\\FILES\\s\xC3\xA9jour\\", prefix, 16)) == 0);
    CHECK(dfsch_start(&refs, &doms, &walk, path, settings, 102) == 0 && dfsch_ask(&refs, &doms, &walk, &q) == 0 && q.kind == DFSC_ASK_ROOT);

    /* a domain, and its next DC */
    CHECK(dfsch_read_domains(&doms, names("\\corp", NULL, NULL), 8192) == 0);
    path = text("\\corp\\sysvol\\x", path_units, 600);
    CHECK(dfsch_start(&refs, &doms, &walk, path, settings, 102) == 0 && dfsch_ask(&refs, &doms, &walk, &q) == 0 && q.kind == DFSC_ASK_DC);
    uint16_t corp[8];
    CHECK(dfsch_next_dc(&doms, text("corp", corp, 8)) == DFSC_NO_ENTRY);
    CHECK(dfsch_answer_referral(&refs, &doms, &walk, 0, names("\\corp", "dc2", "dc3"), 102) == 0);
    CHECK(dfsch_ask(&refs, &doms, &walk, &q) == 0 && q.kind == DFSC_ASK_SYSVOL && named(&q.party, "dc2"));
    dfsch_bytes none = {NULL, 0};
    CHECK(dfsch_answer_referral(&refs, &doms, &walk, DFSC_STATUS_IO_TIMEOUT, none, 102) == 0);
    CHECK(dfsch_ended(&walk, &end) == 0 && end.number == DFSC_END_NO_DC && end.status == DFSC_STATUS_IO_TIMEOUT);
    CHECK(dfsch_next_dc(&doms, text("CORP", corp, 8)) == 0);
    CHECK(dfsch_next_dc(&doms, text("corpo", corp, 8)) == DFSC_NO_ENTRY && dfsch_next_dc(&doms, text("cor", corp, 8)) == DFSC_NO_ENTRY);
    CHECK(dfsch_start(&refs, &doms, &walk, path, settings, 103) == 0 && dfsch_ask(&refs, &doms, &walk, &q) == 0 && named(&q.party, "dc3"));
    CHECK(dfsch_next_dc(&doms, text("corp", corp, 8)) == 0);
    CHECK(dfsch_start(&refs, &doms, &walk, path, settings, 103) == 0 && dfsch_ask(&refs, &doms, &walk, &q) == 0 && named(&q.party, "dc2"));

    /* the listing, and back */
    size_t n;
    CHECK(dfsch_list(&refs, listing, DFSC_LISTING_UNITS, &n) == 0 && n > 50);
    dfsch_text listed = {listing, n};
    memset(&refs, 0, sizeof refs);
    CHECK(dfsch_read(&refs, listed) == 0 && dfsch_list(&refs, listing, n - 1, &n) == DFSC_SHORT_BUFFER && n == 0);

    /* refusals by their numbers */
    dfsch_text empty = {NULL, 0};
    CHECK(dfsch_start(&refs, &doms, &walk, empty, settings, 1) == DFSC_BAD_PATH && dfsch_read(&refs, empty) == 0);
    settings.limit = 65;
    CHECK(dfsch_start(&refs, &doms, &walk, path, settings, 1) == DFSC_BAD_SETTINGS);
    CHECK(dfsch_read_domains(&doms, none, 8192) == DFSC_BAD_DOMAIN_REPLY);
    memset(&doms, 0, sizeof doms);
    CHECK(dfsch_ask(&refs, &doms, &walk, &q) == DFSC_END_GONE);
    refs.units[5] = 1;
    CHECK(dfsch_ask(&refs, &doms, &walk, &q) == DFSC_NOT_IN_ORDER && dfsch_list(&refs, listing, 9, &n) == DFSC_NOT_IN_ORDER);
    CHECK(dfsch_expire_all(&refs) == DFSC_NOT_IN_ORDER && dfsch_expire(&refs, empty) == DFSC_NOT_IN_ORDER && dfsch_next_dc(&doms, empty) == DFSC_NO_ENTRY);
#ifdef EXCHANGED
    dfsch_expire_all(&doms);
#endif
#ifdef MIXED
    dfsch_read(&refs, none);
#endif
}

static void results(void) {
    uint32_t numbers[3];
    uint16_t units[4];
    uint8_t request[4];
    memset(&refs, 0, sizeof refs);
    memset(&walk, 0, sizeof walk);
    CHECK(DFSC_REFUSAL(SHOWS, dfsc_question(walk.units, DFSC_WALK_UNITS, numbers, 3)) == DFSC_OUT_OF_FORM);
    CHECK(DFSC_IS_REFUSED(SHOWS, DFSC_REFUSED(27)) && DFSC_REFUSAL(SHOWS, DFSC_REFUSED(27)) == 27 && !DFSC_IS_REFUSED(SHOWS, 256));
    CHECK(!DFSC_IS_REFUSED(TAKES, dfsc_domain_request(request, 4)) && DFSC_REFUSAL(TAKES, dfsc_domain_request(request, 3)) == DFSC_SHORT_BUFFER);
    CHECK(!DFSC_IS_REFUSED(LISTS, DFSC_LISTING_UNITS) && DFSC_REFUSAL(LISTS, DFSC_LIST_REFUSED(10)) == 10);
    CHECK(!DFSC_IS_REFUSED(LISTS, dfsc_list(refs.units, DFSCH_PLACES * DFSC_PLACE_UNITS, units, 0)));
    CHECK(dfsc_version() == DFSC_VERSION && DFSC_VERSION == 100 && !strcmp(DFSC_VERSION_TEXT, "0.1.0"));
}

static void texts(void) {
    static const struct { const char *utf8; size_t units; uint16_t last; } good[] = {
        {"", 0, 0}, {"a", 1, 'a'}, {"\x7F", 1, 0x7F}, {"\xC2\x80", 1, 0x80}, {"s\xC3\xA9jour", 6, 'r'}, {"e\xCC\x81", 2, 0x301}, {"\xDF\xBF", 1, 0x7FF},
        {"\xE0\xA0\x80", 1, 0x800}, {"\xEB\xB0\x94", 1, 0xBC14}, {"\xED\x9F\xBF", 1, 0xD7FF}, {"\xEE\x80\x80", 1, 0xE000}, {"\xEF\xBF\xBF", 1, 0xFFFF},
        {"\xF0\x90\x80\x80", 2, 0xDC00}, {"\xF0\x9F\x92\xA7", 2, 0xDCA7}, {"\xF4\x8F\xBF\xBF", 2, 0xDFFF},
    };
    static const char *const not_utf8[] = {"\x80", "\xBF", "a\xC3", "\xC3z", "\xC0\x80", "\xC1\xBF", "\xE0\x9F\xBF", "\xE2\x82", "\xE2\x82z", "\xED\xA0\x80",
        "\xED\xBF\xBF", "\xF0\x8F\xBF\xBF", "\xF0\x9F\x92", "\xF4\x90\x80\x80", "\xF5\x80\x80\x80", "\xF8\x88\x80\x80\x80", "\xFE", "\xFF"};
    uint16_t units[16];
    char back[32];
    for (size_t i = 0; i < sizeof good / sizeof *good; i++) {
        size_t n = strlen(good[i].utf8);
        CHECK(dfsch_units_of_utf8(good[i].utf8, n, units, 16) == good[i].units);
        CHECK(good[i].units == 0 || units[good[i].units - 1] == good[i].last);
        CHECK(dfsch_utf8_of_units(units, good[i].units, back, sizeof back) == n && !strcmp(back, good[i].utf8));
    }
    for (size_t i = 0; i < sizeof not_utf8 / sizeof *not_utf8; i++)
        CHECK(dfsch_units_of_utf8(not_utf8[i], strlen(not_utf8[i]), units, 16) == DFSCH_BAD_UTF8);
    /* a surrogate alone, at the end, and the two halves in the wrong order */
    static const uint16_t alone[] = {'a', 0xD83D, 'b', 0xDC00, 0xD800};
    CHECK(dfsch_utf8_of_units(alone, 5, back, sizeof back) == 11 && !strcmp(back, "a\xEF\xBF\xBD" "b\xEF\xBF\xBD\xEF\xBF\xBD"));
    /* room: what is needed is told, and no more is written */
    memset(units, 0xEE, sizeof units);
    CHECK(dfsch_units_of_utf8("a\xF0\x9F\x92\xA7", 5, units, 2) == 3 && units[1] == 0xD83D && units[2] == 0xEEEE);
    memset(back, 'x', sizeof back);
    CHECK(dfsch_utf8_of_units(alone, 3, back, 4) == 5 && back[3] == 0 && back[4] == 'x');
}

static void statuses(void) {
    static const struct { int error; uint32_t status; } said[] = {
        {ECONNREFUSED, 0xC0000236}, {EHOSTUNREACH, 0xC000023D}, {ENETUNREACH, 0xC000023D}, {ENETDOWN, 0xC000023D}, {ETIMEDOUT, 0xC00000B5},
        {ECONNRESET, 0xC00000C9}, {ECONNABORTED, 0xC00000C9}, {EPIPE, 0xC00000C9}, {EIO, 0xC00000BE},
    };
    for (size_t i = 0; i < sizeof said / sizeof *said; i++)
        CHECK(dfsch_status_of_errno(said[i].error) == said[i].status);
}

int main(void) {
    walks();
    results();
    texts();
    statuses();
    printf("dfsc_host.h: %d failed\n", bad);
    return bad != 0;
}
