/* The moved link. "train" is exchanged from two old servers to two new ones while its entry stands in the cache; two walks over that cache, the
 * clock past the link's TTL between them. Two targets are as many as two others, and are not the same: the second walk reads from a new server. */
#include "example.h"
#include <string.h>

enum { ROOT = 1, LINK = 0 };

static uint16_t refs[4 * DFSC_PLACE_UNITS], doms[4 * DFSC_PLACE_UNITS], walk[DFSC_WALK_UNITS];
static uint8_t request[DFSC_REQUEST_BYTES], reply[1024];

static size_t put(size_t at, uint32_t value, size_t bytes) {
    for (size_t i = 0; i < bytes; i++, value >>= 8)
        reply[at + i] = (uint8_t)value;
    return at + bytes;
}

static size_t put_text(size_t at, const char *s) {
    for (; *s; s++)
        at = put(at, (uint8_t)*s, 2);
    return put(at, 0, 2);
}

/* A version 3 reply as servers write it: a header, an entry of 34 bytes for each target, and their texts. */
static size_t referral(int kind, uint32_t ttl, const char *prefix, const char *const *targets, size_t count) {
    size_t text = 8 + 34 * count, path = text, at = put(put(put(0, 2 * strlen(prefix), 2), count, 2), kind == ROOT ? 3 : 2, 4);
    text = put_text(text, prefix);
    for (size_t i = 0; i < count; i++) {
        size_t entry = at;
        at = put(put(put(put(put(at, 3, 2), 34, 2), kind, 2), 0, 2), ttl, 4);
        at = put(put(put(at, path - entry, 2), path - entry, 2), text - entry, 2);
        at = put(put(put(put(at, 0, 4), 0, 4), 0, 4), 0, 4);
        text = put_text(text, targets[i]);
    }
    return text;
}

/* One walk to \\files\rec\train\feb.wav. The servers as they stand: the namespace's root at files, and the targets of "train". */
static uint32_t resolve(uint32_t clock, const char *const *train, size_t count) {
    static const char *const root[] = {"\\files\\rec"};
    uint16_t path[256], boot[256], text[256];
    uint32_t q[3], end[3];
    size_t n = units("\\\\files\\rec\\train\\feb.wav", path), boot_len = units("dc1", boot);
    uint32_t refused = dfsc_start(refs, LEN(refs), doms, LEN(doms), walk, LEN(walk), path, n, boot, boot_len, 16, 8192, clock, request, LEN(request));

    printf("clock=%u\n", (unsigned)clock);
    while (!refused && dfsc_question(walk, LEN(walk), q, 3) == 3) {
        uint32_t to = dfsc_question_party(refs, LEN(refs), doms, LEN(doms), walk, LEN(walk), text, LEN(text));
        printf("  ask=%s\n", kinds[q[0]]);
        print("  to", text, to);
        if (q[0] == DFSC_ASK_IO) {
            int at_root = to == 10 && text[1] == 'f'; /* the root's server does not hold the link */
            refused = dfsc_answer_io(refs, LEN(refs), doms, LEN(doms), walk, LEN(walk), at_root ? 0xC0000257 : 0, clock, request, LEN(request));
            continue;
        }
        n = q[0] == DFSC_ASK_ROOT ? referral(ROOT, 600, "\\files\\rec", root, 1) : referral(LINK, 300, "\\files\\rec\\train", train, count);
        refused = dfsc_answer_referral(refs, LEN(refs), doms, LEN(doms), walk, LEN(walk), 0, reply, n, clock, request, LEN(request));
    }
    if (refused || dfsc_end(walk, LEN(walk), end, 3) != 3)
        return refused;
    printf("  end=%u\n", (unsigned)end[0]);
    print("  path", text, dfsc_end_path(walk, LEN(walk), text, LEN(text)));
    return end[0];
}

int main(void) {
    static const char *const old[] = {"\\old1\\train", "\\old2\\train"}, *const moved[] = {"\\new1\\train", "\\new2\\train"};
    uint32_t first = resolve(100, old, LEN(old)), second = resolve(500, moved, LEN(moved));
    return first == DFSC_END_DONE && second == DFSC_END_DONE ? 0 : 1;
}
