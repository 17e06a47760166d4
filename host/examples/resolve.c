/* Resolves \\PEERHOST\dfs\link2\docs\a.txt against answers recorded here, and prints the questions and the end. A host would send them to servers. */
#include "example.h"

/* Replies of a Samba 4.17 server: vectors/captures/samba-root-host-l4.json and samba-dfstree-link2.json. */
static const char root_reply[] =
    "1a0001000300000003002200010000005802000022003e005a00000000000000000000000000000000005c00500045004500520048004f00530054005c00640066007300"
    "00005c00500045004500520048004f00530054005c0064006600730000005c00500045004500520048004f00530054005c006400660073000000";
static const char link_reply[] =
    "260002000200000003002200000000005802000044006c009400000000000000000000000000000000000300220000000000580200009200ba00e2000000000000000000"
    "00000000000000005c00500045004500520048004f00530054005c006400660073005c006c0069006e006b00320000005c00500045004500520048004f00530054005c00"
    "6400660073005c006c0069006e006b00320000005c0073006500720076006500720031005c0073006800610072006500310000005c00500045004500520048004f005300"
    "54005c006400660073005c006c0069006e006b00320000005c00500045004500520048004f00530054005c006400660073005c006c0069006e006b00320000005c007300"
    "6500720076006500720032005c007300680061007200650032000000";

/* The answers in order; I/O has no reply. The root target does not hold the link, the link's first target is not to be reached. */
static const struct { uint32_t status; const char *reply; } answers[] = {
    {0, root_reply}, {0xC0000257, ""}, {0, link_reply}, {0xC00000CC, ""}, {0, ""},
};

/* Caches of 4 places each, a walk, and the buffer for its requests. */
static uint16_t refs[4 * DFSC_PLACE_UNITS], doms[4 * DFSC_PLACE_UNITS], walk[DFSC_WALK_UNITS];
static uint8_t request[DFSC_REQUEST_BYTES];

static size_t bytes(const char *hex, uint8_t *out) {
    size_t n = 0;
    for (unsigned b; sscanf(hex + 2 * n, "%2x", &b) == 1; n++)
        out[n] = (uint8_t)b;
    return n;
}

int main(void) {
    uint16_t path[256], boot[256], text[256];
    uint8_t reply[1024];
    uint32_t q[3], end[3], clock = 100;
    size_t path_len = units("\\\\PEERHOST\\dfs\\link2\\docs\\a.txt", path), boot_len = units("dc1", boot);
    uint32_t refused = dfsc_start(refs, LEN(refs), doms, LEN(doms), walk, LEN(walk), path, path_len, boot, boot_len, 16, 8192, clock, request, LEN(request));

    for (size_t i = 0; i < LEN(answers) && !refused && dfsc_question(walk, LEN(walk), q, 3) == 3; i++, clock++) {
        printf("ask=%s\n", kinds[q[0]]);
        print("to", text, dfsc_question_party(refs, LEN(refs), doms, LEN(doms), walk, LEN(walk), text, LEN(text)));
        uint32_t name_len = dfsc_question_name(walk, LEN(walk), text, LEN(text));
        print("name", text, name_len);
        if (q[0] == DFSC_ASK_IO) {
            refused = dfsc_answer_io(refs, LEN(refs), doms, LEN(doms), walk, LEN(walk), answers[i].status, clock, request, LEN(request));
            continue;
        }
        printf("size=%u request=%u bytes\n", (unsigned)q[1], (unsigned)(4 + 2 * name_len));
        size_t n = bytes(answers[i].reply, reply);
        refused = dfsc_answer_referral(refs, LEN(refs), doms, LEN(doms), walk, LEN(walk), answers[i].status, reply, n, clock, request, LEN(request));
    }
    if (refused || dfsc_end(walk, LEN(walk), end, 3) != 3) {
        printf("refused=%u\n", (unsigned)refused);
        return 1;
    }
    printf("end=%u status=%08X moves=%u\n", (unsigned)end[0], (unsigned)end[1], (unsigned)end[2]);
    print("path", text, dfsc_end_path(walk, LEN(walk), text, LEN(text)));
    return 0;
}
