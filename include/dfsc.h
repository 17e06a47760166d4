/*
 * dfsc.h - a DFS client's path resolution (MS-DFSC), as functions over memory that the caller lends.
 *
 * The library does no I/O. A host starts a walk with a UNC path and is given a question: a referral request to send to a server, or an I/O
 * operation to try on a path. It asks the question over its own network and brings the status and the reply back, until the walk ends:
 *
 *     uint16_t refs[8 * DFSC_PLACE_UNITS] = {0}, doms[8 * DFSC_PLACE_UNITS] = {0}, walk[DFSC_WALK_UNITS];
 *     uint8_t request[DFSC_REQUEST_BYTES];
 *     uint32_t q[3], end[3];
 *     uint32_t r = dfsc_start(refs, LEN(refs), doms, LEN(doms), walk, LEN(walk), path, path_len, dc, dc_len, 16, 8192, now(), request, sizeof request);
 *     while (r == 0 && dfsc_question(walk, LEN(walk), q, 3) == 3) {
 *         uint16_t to[256], name[256];
 *         uint32_t to_len = dfsc_question_party(refs, LEN(refs), doms, LEN(doms), walk, LEN(walk), to, 256);
 *         uint32_t name_len = dfsc_question_name(walk, LEN(walk), name, 256);
 *         if (q[0] == DFSC_ASK_IO) {
 *             status = open_on(to, to_len, name, name_len);
 *             r = dfsc_answer_io(refs, LEN(refs), doms, LEN(doms), walk, LEN(walk), status, now(), request, sizeof request);
 *         } else {
 *             status = get_referral(to, to_len, request, 4 + 2 * name_len, reply, q[1], &reply_len);
 *             r = dfsc_answer_referral(refs, LEN(refs), doms, LEN(doms), walk, LEN(walk), status, reply, reply_len, now(), request, sizeof request);
 *         }
 *     }
 *     if (r == 0 && dfsc_end(walk, LEN(walk), end, 3) == 3) ... end[0] is the end's number, end[1] its status, end[2] the moves made
 *
 * (A host whose caches others change between calls tests to_len: it is DFSC_REFUSED(27) where the entry in use is gone. Whatever it then
 * answers ends the walk with 27.) host/examples/resolve.c is a whole program. include/dfsc_host.h has these calls over structs, so that caches, units
 * and bytes cannot be taken for each other. docs/HOST.md says which status to answer and what to do at each end.
 *
 * MEMORY. Everything lent belongs to the caller. The library allocates nothing, keeps no pointer after a call and has no state of its own, so
 * that calls on memory that they do not share may run at once. A pointer and the length after it are one slice; lengths count elements
 * (units of 16 bits, bytes, or numbers of 32 bits), not bytes. Pointers are valid and aligned for their type, also where the length is 0;
 * a slice that a call may write (no const) overlaps no other slice of that call. Every content and every length is safe to lend: what is not
 * as it should be is refused by a number. A call that is refused changes nothing that was lent. Elements past what a call writes stay.
 *
 * STACK. Each call takes under 16,384 bytes, and under 8,192 with a limit of 32 at most and an output buffer of 516 bytes or more; a test measures it.
 * Figures on x86-64: dfsc_answer_referral 15,200 at most, 7,500 in that box; dfsc_start 2,100, and with 64 moves round by interlinks in a warm cache
 * 6,700; dfsc_answer_io and dfsc_read_domains 1,700; every other call under 1,000.
 *
 * TEXT is UTF-16 code units without a terminator. A path has one or two leading backslashes and at most 256 units once it is normalised to
 * one. Names are equal where they differ in the case of A to Z only.
 *
 * A CACHE is 1 to 32 places of DFSC_PLACE_UNITS units; all zero is an empty cache. Both caches have one layout, so that hosts may
 * save, inspect or change entries. In a place:
 *
 *     unit       referral cache                                domain cache
 *     0          length of the prefix; 0: the place is free    length of the domain's name; 0: the place is free
 *     1 .. 8     lengths of the targets                        lengths of the DCs' names
 *     9          number of targets, 1 to 8                     number of DCs, 0 to 8
 *     10         the target hinted at, from 0                  the DC hinted at, from 0 (0 where there are none)
 *     11 .. 18   1: a target set begins with this target       0
 *                (0 for the first target)
 *     19         1 root, 0 link                                0
 *     20         1: Interlink                                  0
 *     21         1: TargetFailback                             0
 *     22, 23     TTL in seconds: low unit, high unit           0
 *     24, 25     clock when the entry was taken: low, high     0
 *     26 .. 31   0                                             0
 *     32 ..      nine rooms of 256 units: the prefix, then     nine rooms of 256 units: the name, then the DCs' names
 *                the targets
 *
 * Prefix and targets are normalised paths of 2 components or more; names are single components of at most 255 units. All that is not in use is
 * zero, and no two prefixes (or names) are equal. A cache that is not so is "not in order". Walks that share caches are called one at a time.
 *
 * A WALK is DFSC_WALK_UNITS units of any content before the start. After it they hold all of the walk: 32 units of numbers, then three rooms
 * of 256 units (the path, the path that an I/O tries, the bootstrap DC). They may be copied or saved, and are not for others to change: what
 * is not of the form is refused with 5.
 */
#ifndef DFSC_H
#define DFSC_H

#include <stddef.h>
#include <stdint.h>

#ifdef __cplusplus
extern "C" {
#endif

/* The version of this header: 10000 * major + 100 * minor + patch, and as text. dfsc_version gives that of the library. */
#define DFSC_VERSION 100
#define DFSC_VERSION_TEXT "0.1.0"

#define DFSC_PLACE_UNITS 2336   /* units of one place of a cache */
#define DFSC_MOST_PLACES 32     /* places of a cache */
#define DFSC_WALK_UNITS 800     /* units of a walk */
#define DFSC_REQUEST_BYTES 516  /* the longest request; with a buffer of so many bytes DFSC_SHORT_BUFFER never comes of a walk */
#define DFSC_LISTING_UNITS 373248 /* a buffer of so many units holds every listing */
#define DFSC_MOST_LIMIT 64      /* a walk's limit is 1 to 64 moves */
#define DFSC_LEAST_SIZE 1024    /* bytes that a referral reply may have: the size given at the start, */
#define DFSC_MOST_SIZE 57344    /* doubled up to this when a server says 0x80000005 */

/* Refusals: what the calls that move a walk or change a cache give back, 0 where they are taken. If several hold, 4 comes first, then the lowest. */
enum {
    DFSC_TAKEN = 0,
    DFSC_BAD_PATH = 1,
    DFSC_LONG_PATH = 2,        /* good, but over 256 units */
    DFSC_BAD_SETTINGS = 3,     /* limit, size or bootstrap DC */
    DFSC_NOT_IN_ORDER = 4,     /* either cache */
    DFSC_OUT_OF_FORM = 5,      /* the walk has ended, is out of form, or waits for another kind of answer */
    DFSC_TOO_MANY_NAMES = 6,   /* a domain reply has more different names than the cache has places */
    DFSC_BAD_DOMAIN_REPLY = 7, /* malformed or empty */
    DFSC_BAD_LISTING = 8,      /* a text is no listing, or its entries are not in order */
    DFSC_TOO_MANY_ENTRIES = 9, /* a listing has more entries than the cache has places */
    DFSC_SHORT_BUFFER = 10,    /* the request, text or numbers are longer than the buffer */
    DFSC_NO_ENTRY = 27         /* no entry has this prefix or name, or it has no DC; DFSC_END_GONE has this number too */
};

/* What the calls that show something give back: the elements written, or one of these. */
#define DFSC_REFUSED(number) ((uint32_t)(number) << 16)

/* What dfsc_list gives back where it is refused: a listing may have more than 65,535 units. */
#define DFSC_LIST_REFUSED(number) ((uint64_t)(number) << 32)

/*
 * Whether a result is a refusal, and its number (0 where it is none). Results are of three kinds, and the first argument says which:
 *
 *     DFSC_IS_REFUSED(TAKES, r)   0 or the number        dfsc_start, both answers, dfsc_domain_request, dfsc_read_domains, dfsc_read, dfsc_expire_all,
 *                                                        dfsc_expire, dfsc_next_dc
 *     DFSC_IS_REFUSED(SHOWS, r)   as DFSC_REFUSED        dfsc_question, dfsc_question_party, dfsc_question_name, dfsc_end, dfsc_end_path
 *     DFSC_IS_REFUSED(LISTS, r)   as DFSC_LIST_REFUSED   dfsc_list
 */
#define DFSC_REFUSAL(kind, result) DFSC_REFUSAL_##kind(result)
#define DFSC_IS_REFUSED(kind, result) (DFSC_REFUSAL(kind, result) != 0)
#define DFSC_REFUSAL_TAKES(result) ((uint32_t)(result))
#define DFSC_REFUSAL_SHOWS(result) ((uint32_t)(result) >> 16)
#define DFSC_REFUSAL_LISTS(result) ((uint32_t)((uint64_t)(result) >> 32))

/* Statuses (NTSTATUS). To an I/O try these six, and no other, lead to the next target. */
#define DFSC_STATUS_IO_TIMEOUT UINT32_C(0xC00000B5)           /* timed out */
#define DFSC_STATUS_BAD_NETWORK_PATH UINT32_C(0xC00000BE)     /* no such host, and any failure of the network that has no other name here */
#define DFSC_STATUS_NETWORK_NAME_DELETED UINT32_C(0xC00000C9) /* reset or broken */
#define DFSC_STATUS_BAD_NETWORK_NAME UINT32_C(0xC00000CC)     /* no such share */
#define DFSC_STATUS_CONNECTION_REFUSED UINT32_C(0xC0000236)
#define DFSC_STATUS_HOST_UNREACHABLE UINT32_C(0xC000023D)     /* no route to the host or to its network */
/* Others that a walk tells apart. */
#define DFSC_STATUS_SUCCESS UINT32_C(0)
#define DFSC_STATUS_BUFFER_OVERFLOW UINT32_C(0x80000005)      /* a referral reply was cut: the same party is asked with the size doubled */
#define DFSC_STATUS_PATH_NOT_COVERED UINT32_C(0xC0000257)     /* a link lies below the target of an I/O try */
#define DFSC_STATUS_OBJECT_PATH_NOT_FOUND UINT32_C(0xC000003A) /* at ends 22 and 23: all DCs failed, or a reply without an entry */

/* Kinds of question. */
enum {
    DFSC_ASK_DC = 1,     /* a DC referral request, to the bootstrap DC */
    DFSC_ASK_ROOT = 2,   /* a root referral request, to a DC or to the path's host */
    DFSC_ASK_LINK = 3,   /* a link referral request, to a root target */
    DFSC_ASK_SYSVOL = 4, /* a SYSVOL referral request, to a DC */
    DFSC_ASK_IO = 5      /* the I/O operation itself, on a target */
};

/* Ends. The status is 0 but for 20, 22 and 23. The path is the one tried for 20, else the one that was being resolved. */
enum {
    DFSC_END_DONE = 20,          /* the I/O was done, with this status */
    DFSC_END_NOT_DFS = 21,       /* no DFS path: the host goes on with the path as it is */
    DFSC_END_NO_DC = 22,         /* no DC of the domain could be asked */
    DFSC_END_FAILED = 23,        /* a DFS path, and it failed */
    DFSC_END_LIMIT_REACHED = 24,
    DFSC_END_MALFORMED = 25,     /* a reply was malformed, and nothing of it stored */
    DFSC_END_TOO_LONG = 26,      /* a path with a target in place of its prefix has over 256 units */
    DFSC_END_GONE = 27           /* the entry in use is gone from its cache, or has lost the target or DC that was asked */
};

/*
 * A new walk for a path. boot is the name of the DC to ask where a domain's DCs are not known; limit the most questions and replacements of the path
 * by interlinks; size the bytes that a referral reply may have at first; clock a count of seconds that may roll over. If a referral request follows,
 * out begins with its bytes (4 + twice the units of the name asked). The caches are read only.
 * 0, or a refusal: 4, 1, 2, 3, 5 (the walk has not DFSC_WALK_UNITS units), 10.
 */
uint32_t dfsc_start(const uint16_t *refs, size_t refs_len, const uint16_t *doms, size_t doms_len, uint16_t *walk, size_t walk_len,
                    const uint16_t *path, size_t path_len, const uint16_t *boot, size_t boot_len, uint32_t limit, uint32_t size, uint32_t clock,
                    uint8_t *out, size_t out_len);

/*
 * The answer to a referral request (kinds 1 to 4): the NTSTATUS with which it came back and the bytes of RESP_GET_DFS_REFERRAL; of a failing status the
 * bytes are not read. What it says is stored in the caches. 0, or a refusal: 4, 5, 10.
 */
uint32_t dfsc_answer_referral(uint16_t *refs, size_t refs_len, uint16_t *doms, size_t doms_len, uint16_t *walk, size_t walk_len, uint32_t status,
                              const uint8_t *reply, size_t reply_len, uint32_t clock, uint8_t *out, size_t out_len);

/* The answer to an I/O try (kind 5): its NTSTATUS. 0, or a refusal: 4, 5, 10. */
uint32_t dfsc_answer_io(uint16_t *refs, size_t refs_len, const uint16_t *doms, size_t doms_len, uint16_t *walk, size_t walk_len, uint32_t status,
                        uint32_t clock, uint8_t *out, size_t out_len);

/*
 * Whom the question is for: the path of a target (kinds 3 and 5), the name of a DC or of a host. At most 256 units.
 * Its units, or DFSC_REFUSED of 4, 5, 27 (as the end of that number) or 10.
 */
uint32_t dfsc_question_party(const uint16_t *refs, size_t refs_len, const uint16_t *doms, size_t doms_len, const uint16_t *walk, size_t walk_len,
                             uint16_t *out, size_t out_len);

/* The name that is asked for, or the path that the I/O tries. At most 256 units. Its units, or DFSC_REFUSED of 5 or 10. */
uint32_t dfsc_question_name(const uint16_t *walk, size_t walk_len, uint16_t *out, size_t out_len);

/* The question's kind, the bytes that its reply may have (0 for I/O) and the moves made with it. 3, or DFSC_REFUSED of 5 (none waits) or 10. */
uint32_t dfsc_question(const uint16_t *walk, size_t walk_len, uint32_t *out, size_t out_len);

/* The end's path. At most 256 units. Its units, or DFSC_REFUSED of 5 (the walk has not ended) or 10. */
uint32_t dfsc_end_path(const uint16_t *walk, size_t walk_len, uint16_t *out, size_t out_len);

/* The end's number, its status and the moves made. 3, or DFSC_REFUSED of 5 (the walk has not ended) or 10. */
uint32_t dfsc_end(const uint16_t *walk, size_t walk_len, uint32_t *out, size_t out_len);

/* The request for a domain reply, 4 bytes. 0, or the refusal 10. */
uint32_t dfsc_domain_request(uint8_t *out, size_t out_len);

/*
 * A domain reply, asked for with this size, in place of all that the domain cache holds; of the cache only the number of places matters.
 * 0, or a refusal: 4, 3 (the size), 6, 7.
 */
uint32_t dfsc_read_domains(const uint8_t *reply, size_t reply_len, uint32_t size, uint16_t *doms, size_t doms_len);

/*
 * The referral cache as text, to save or to show: for each entry, in place order, lines "key=value", each ended by a unit 0A hex:
 *
 *     prefix=\corp\dfs
 *     kind=root            (or link)
 *     interlink=0          (or 1)
 *     failback=1
 *     ttl=300
 *     taken=1700000000
 *     hint=0               (the target hinted at, from 0)
 *     target=\nas1\dfs     (one line for each target; sets are not listed)
 *
 * Numbers are decimal, without leading zeros. In paths the units 21 to 7E hex but "~" stand as they are, any other as "~" and four upper-case hex
 * digits. The units of the text, or DFSC_LIST_REFUSED of 4 or 10.
 */
uint64_t dfsc_list(const uint16_t *refs, size_t refs_len, uint16_t *out, size_t out_len);

/*
 * Such a text in place of all that the referral cache holds: its entries go into the first places, each with one target set; of the cache only the
 * number of places matters. No other spelling, order or key is read, and an empty text empties the cache. What was read is listed as the same text.
 * 0, or a refusal: 4, 8, 9.
 */
uint32_t dfsc_read(const uint16_t *text, size_t text_len, uint16_t *refs, size_t refs_len);

/*
 * Expires every entry of the referral cache: its TTL becomes 0, so that it is expired at every clock and the next walk that uses it asks for it anew. The
 * time taken and all else stay. 0, or the refusal 4.
 */
uint32_t dfsc_expire_all(uint16_t *refs, size_t refs_len);

/*
 * Expires the entry whose prefix is equal to this path, in any spelling that a start takes (one or two leading backslashes, a trailing one). All else stays.
 * 0, or a refusal: 4, 1, 2, 27 (no entry has that prefix; a longer or shorter one does not count).
 */
uint32_t dfsc_expire(uint16_t *refs, size_t refs_len, const uint16_t *path, size_t path_len);

/*
 * Moves the DCHint of the domain with this name to its next DC, from the last to the first. All else stays.
 * 0, or a refusal: 4, 27 (no entry has that name, or it has no DC).
 */
uint32_t dfsc_next_dc(uint16_t *doms, size_t doms_len, const uint16_t *name, size_t name_len);

/* The version of the library, as DFSC_VERSION counts it. */
uint32_t dfsc_version(void);

#ifdef __cplusplus
}
#endif

#endif
