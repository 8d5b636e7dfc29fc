/* `drawn SEED CALLS`: draws calls of cookie.h, with good arguments and with bad ones that the header allows, on handles
 * of each kind, in two threads of which each has handles of its own. It looks at what the header says of each call:
 * which statuses it returns, that a handle with nothing is refused, that what is written lies within the buffer, and
 * that a buffer of the length that it needs fits. In some calls a request for memory is refused.
 *
 * Each argument ends or begins where its memory does, so that a byte beyond it is a fault. With -DEXACT it is a block
 * of malloc instead, for valgrind. The same seed makes the same calls. */
#define _GNU_SOURCE
#include "memory.h"
#include <pthread.h>
#include <stdio.h>

enum { SLOTS = 24, KEPT = 4, MARGIN = 64, LONGEST = 6000, STATUSES = 33, PAIR = 2 };

typedef enum kind { KEYS, JAR, SITE, OPENED, SESSION, LIST, AGENT, KINDS, NONE = KINDS } kind;
/* What is said of a handle with nothing. */
static const uint32_t NOTHING[] = {COOKIE_NO_KEYS,    COOKIE_NO_JAR,      COOKIE_NO_SESSIONS, COOKIE_NO_SESSION,
                                   COOKIE_NO_SESSION, COOKIE_NO_SUFFIXES, COOKIE_NO_AGENT};

typedef struct text {
    const uint8_t *bytes;
    size_t length;
} text;

typedef struct drawing {
    uint64_t state;
    size_t number, count, faults;
    uint8_t *slots[SLOTS], *room, *out;
    int slot;
    size_t length, margin_before, margin_after;
    bool was_starved;
    cookie_keys keys[PAIR];
    cookie_jar jars[PAIR];
    cookie_sessions sites[PAIR];
    cookie_opened opened[PAIR];
    cookie_session sessions[PAIR];
    cookie_suffixes lists[PAIR];
    cookie_agent agents[PAIR];
    bool has[KINDS][PAIR];
    char kept[KEPT][LONGEST];
    size_t met[80][STATUSES];
} drawing;

/* The calls: the statuses that the header has for each, beside COOKIE_DONE and COOKIE_OUT_OF_MEMORY; the handles whose
 * having nothing is refused, each with the refusals that come before; and the handle that has something then. */
#define S(status) ((uint64_t)1 << COOKIE_##status)
#define PLAIN NONE, 0, NONE, 0
#define ON(kind) kind, 0, NONE, 0
#define SHORT S(BUFFER_TOO_SHORT)
#define PAIRS (S(NOT_UTF8) | S(MISSING_PAIR) | S(EMPTY_NAME))
#define READS (S(NOT_UTF8) | S(NO_DATE))
#define CALLS(X) \
    X(derive_key, SHORT | S(MASTER_TOO_SHORT), PLAIN, NONE) \
    X(read_date, READS, PLAIN, NONE) \
    X(print_date, SHORT | S(NO_DATE), PLAIN, NONE) \
    X(run, SHORT | S(BAD_MOMENT) | S(NOT_UTF8) | S(BAD_LINE), PLAIN, NONE) \
    X(print, SHORT | READS | S(BAD_ATTRIBUTE) | S(INVALID_VALUE), PLAIN, NONE) \
    X(refusal_sentence, SHORT | S(NOT_FOUND), PLAIN, NONE) \
    X(refusal_section, SHORT | S(NOT_FOUND), PLAIN, NONE) \
    X(read_url, SHORT | S(NOT_UTF8) | S(NO_URL), PLAIN, NONE) \
    X(version, 0, PLAIN, NONE) \
    X(next_pair, PAIRS | S(NO_PAIR), PLAIN, NONE) \
    X(next_pair_decoded, SHORT | PAIRS | S(NO_PAIR) | S(BAD_ESCAPE), PLAIN, NONE) \
    X(read, PAIRS, PLAIN, NONE) \
    X(read_decoded, SHORT | PAIRS | S(BAD_ESCAPE), PLAIN, NONE) \
    X(read_pairs, SHORT, PLAIN, NONE) \
    X(keys_new, S(KEY_TOO_SHORT), PLAIN, KEYS) \
    X(keys_free, 0, PLAIN, NONE) \
    X(sign, SHORT | S(NO_KEYS) | S(NOT_UTF8), ON(KEYS), NONE) \
    X(verify, SHORT | S(NO_KEYS) | S(NOT_UTF8) | S(NOT_SIGNED), ON(KEYS), NONE) \
    X(seal, SHORT | S(NO_KEYS) | S(NOT_UTF8) | S(BAD_NONCE) | S(TOO_LONG), ON(KEYS), NONE) \
    X(open, SHORT | S(NO_KEYS) | S(NOT_UTF8) | S(NOT_SEALED), ON(KEYS), NONE) \
    X(token_make, SHORT | READS | S(BAD_NONCE) | S(NO_KEYS) | S(TOO_LONG), KEYS, S(BAD_NONCE), NONE, 0, NONE) \
    X(token_read, SHORT | READS | S(NO_KEYS) | S(TOO_LONG) | S(NOT_SEALED), ON(KEYS), NONE) \
    X(jar_new, 0, PLAIN, JAR) \
    X(jar_free, 0, PLAIN, NONE) \
    X(jar_add_originals, S(NO_JAR), ON(JAR), NONE) \
    X(jar_add, S(NO_JAR) | PAIRS | S(BAD_ESCAPE) | S(INVALID_VALUE), ON(JAR), NONE) \
    X(jar_remove, S(NO_JAR) | READS, ON(JAR), NONE) \
    X(jar_remove_scoped, S(NO_JAR) | READS | S(INVALID_VALUE), ON(JAR), NONE) \
    X(jar_get, SHORT | S(NO_JAR) | S(NOT_UTF8) | S(NOT_FOUND), ON(JAR), NONE) \
    X(jar_delta, SHORT | S(NO_JAR), ON(JAR), NONE) \
    X(jar_cookies, SHORT | S(NO_JAR), ON(JAR), NONE) \
    X(sessions_new, S(KEY_TOO_SHORT) | PAIRS | S(BAD_ESCAPE) | S(INVALID_VALUE), PLAIN, SITE) \
    X(sessions_free, 0, PLAIN, NONE) \
    X(session_end, SHORT | S(NO_SESSIONS) | S(NO_DATE), ON(SITE), NONE) \
    X(opened_new, S(NO_SESSIONS) | S(NO_DATE), ON(SITE), OPENED) \
    X(opened_free, 0, PLAIN, NONE) \
    X(opened_ids, SHORT | S(NO_SESSION), ON(OPENED), NONE) \
    X(opened_take, S(BAD_IDS) | S(NO_SESSION), PLAIN, SESSION) \
    X(session_open, S(NO_SESSIONS) | S(NO_DATE) | S(NO_SESSION), ON(SITE), SESSION) \
    X(session_start, S(BAD_NONCE) | S(NO_SESSIONS) | S(NO_DATE), SITE, S(BAD_NONCE), NONE, 0, SESSION) \
    X(session_free, 0, PLAIN, NONE) \
    X(session_describe, S(NO_SESSION), ON(SESSION), NONE) \
    X(session_given, S(NO_SESSION) | S(NOT_FOUND), ON(SESSION), NONE) \
    X(session_replace, S(NO_DATE) | S(NO_SESSION) | S(NOT_FOUND) | S(GONE), SESSION, S(NO_DATE), NONE, 0, NONE) \
    X(session_log_out, S(NO_DATE) | S(NO_SESSION) | S(NOT_FOUND) | S(GONE), SESSION, S(NO_DATE), NONE, 0, NONE) \
    X(session_set_generation, S(NO_SESSION), ON(SESSION), NONE) \
    X(session_is_since, 0, PLAIN, NONE) \
    X(session_get, SHORT | S(NO_SESSION) | S(NOT_UTF8) | S(NOT_FOUND), ON(SESSION), NONE) \
    X(session_set, S(NO_SESSION) | S(NOT_UTF8), ON(SESSION), NONE) \
    X(session_remove, S(NO_SESSION) | S(NOT_UTF8), ON(SESSION), NONE) \
    X(session_texts, SHORT | S(NO_SESSION), ON(SESSION), NONE) \
    X(session_list, SHORT | S(NO_SESSION), ON(SESSION), NONE) \
    X(session_set_texts, S(NO_SESSION), ON(SESSION), NONE) \
    X(session_renew, S(BAD_NONCE) | S(NO_SESSIONS) | S(NO_DATE) | S(NO_SESSION), \
      SITE, S(BAD_NONCE), SESSION, S(BAD_NONCE) | S(NO_SESSIONS) | S(NO_DATE), NONE) \
    X(session_must_save, S(NO_SESSIONS) | S(NO_DATE) | S(NO_SESSION), \
      SITE, 0, SESSION, S(NO_SESSIONS) | S(NO_DATE), NONE) \
    X(session_save, SHORT | S(BAD_NONCE) | S(BAD_ATTRIBUTE) | S(NO_SESSIONS) | S(NO_DATE) | S(NO_SESSION) | S(BAD_PREFIX) \
                        | S(OVER) | S(TOO_LONG) | S(TOO_LARGE) | S(REPLACES), \
      SITE, S(BAD_NONCE) | S(BAD_ATTRIBUTE), \
      SESSION, S(BAD_NONCE) | S(BAD_ATTRIBUTE) | S(NO_SESSIONS) | S(NO_DATE), NONE) \
    X(suffixes_new, 0, PLAIN, LIST) \
    X(suffixes_free, 0, PLAIN, NONE) \
    X(explain, SHORT | S(NO_SUFFIXES) | S(NO_DATE), ON(LIST), NONE) \
    X(explain_lines, SHORT | S(NO_SUFFIXES) | READS | S(NO_URL), ON(LIST), NONE) \
    X(agent_new, 0, PLAIN, AGENT) \
    X(agent_free, 0, PLAIN, NONE) \
    X(agent_read, S(NO_SUFFIXES) | S(NO_AGENT) | READS, LIST, 0, AGENT, S(NO_SUFFIXES), NONE) \
    X(agent_header, SHORT | S(NO_AGENT) | READS, ON(AGENT), NONE) \
    X(agent_retrieve, SHORT | S(NO_AGENT) | READS, ON(AGENT), NONE) \
    X(agent_evict, S(NO_AGENT) | S(NO_DATE), ON(AGENT), NONE) \
    X(agent_trim, S(NO_SUFFIXES) | S(NO_AGENT) | S(NO_DATE), LIST, 0, AGENT, S(NO_SUFFIXES), NONE) \
    X(agent_remove, S(NO_AGENT) | S(NOT_FOUND), ON(AGENT), NONE) \
    X(agent_clear, S(NO_AGENT), ON(AGENT), NONE) \
    X(agent_count, S(NO_AGENT), ON(AGENT), NONE) \
    X(agent_cookie, SHORT | S(NO_AGENT) | S(NO_DATE) | S(NOT_FOUND), ON(AGENT), NONE) \
    X(agent_obstacles, S(NO_AGENT) | READS | S(NOT_FOUND), ON(AGENT), NONE) \
    X(agent_save, SHORT | S(NO_AGENT) | S(BAD_ATTRIBUTE) | S(NO_DATE), ON(AGENT), NONE) \
    X(agent_load, S(NO_SUFFIXES) | S(NO_AGENT) | S(BAD_ATTRIBUTE) | S(NO_DATE), LIST, 0, AGENT, S(NO_SUFFIXES), NONE)

typedef struct call {
    const char *name;
    uint64_t statuses;
    kind on;
    uint64_t first;
    kind on_too;
    uint64_t first_too;
    kind made;
} call;

#define NUMBER(name, ...) name##_call,
#define FACTS(name, ...) {#name, __VA_ARGS__},
enum { CALLS(NUMBER) COUNT };
static const call FACTS_OF[] = {CALLS(FACTS)};

static uint64_t draw(drawing *d) {
    uint64_t z = (d->state += 0x9e3779b97f4a7c15);
    z = (z ^ (z >> 30)) * 0xbf58476d1ce4e5b9;
    z = (z ^ (z >> 27)) * 0x94d049bb133111eb;
    return z ^ (z >> 31);
}

static size_t below(drawing *d, size_t most) { return (size_t)(draw(d) % most); }
static bool one_in(drawing *d, size_t most) { return below(d, most) == 0; }
/* One below a bound, or in a few draws any. */
static size_t any_below(drawing *d, size_t most) { return one_in(d, 9) ? (size_t)draw(d) : below(d, most); }

static void fault(drawing *d, int call, const char *what) {
    if (d->faults++ < 20)
        fprintf(stderr, "thread %zu, call %zu, cookie_%s: %s\n", d->number, d->count, FACTS_OF[call].name, what);
}

/* Memory of that length: the region's first bytes, or its last ones; or a block of its own. */
static uint8_t *place(drawing *d, uint8_t **at, size_t length) {
#ifdef EXACT
    free(*at);
    d->margin_before = d->margin_after = 0;
    return *at = length > 0 ? __real_malloc(length) : NULL;
#else
    bool is_first = one_in(d, 2);
    size_t margin = ROOM - length < MARGIN ? ROOM - length : MARGIN;
    d->margin_before = is_first ? 0 : margin;
    d->margin_after = is_first ? margin : 0;
    return *at + (is_first ? 0 : ROOM - length);
#endif
}

/* The bytes in the next slot. An empty text may be a null pointer. */
static text text_of(drawing *d, const void *bytes, size_t length) {
    uint8_t *at = place(d, &d->slots[d->slot++ % SLOTS], length);
    if (length > 0)
        memcpy(at, bytes, length);
    return (text){length == 0 && one_in(d, 2) ? NULL : at, length};
}

/* The text, whose pointer isn't null. */
static text there(text made) {
    static const uint8_t nothing = 0;
    return made.bytes == NULL ? (text){&nothing, 0} : made;
}

static const char *const NAME_TEXTS[] = {"a",          "b",     "n",        "session",   "__Host-a",
                                         "__Secure-b", "a%20b", "\xc3\xa9", "%5F_Host-a"};
static const char *const VALUES[] = {"",    "1",    "two", "x%20y", "\"q\"",        "a b",
                                     "%ff", "\xff", "\t",  "=",     "\xe2\x98\x83", "1,2"};
static const char *const ATTRIBUTES[] = {
    "Path=/",
    "Path=/a/b",
    "Path=x",
    "path=",
    "Domain=example.com",
    "Domain=.www.example.com",
    "Domain=com",
    "Domain=co.uk",
    "Domain=10.0.0.1",
    "Max-Age=60",
    "Max-Age=0",
    "Max-Age=99999999999999999999",
    "Max-Age=x",
    "Secure",
    "HttpOnly",
    "SameSite=Strict",
    "SameSite=Lax",
    "SameSite=None",
    "Partitioned",
    "Expires=Wed, 21 Oct 2015 07:28:50 GMT",
    "Expires=Thu, 1 Jan 70 0:00:00",
    "Path=/\x01",
    "Domain=b\xff",
    "x",
    "",
};
static const char *const HOSTS[] = {"example.com", "www.example.com", "EXAMPLE.com", "a.co.uk", "co.uk",
                                    "com",         "10.0.0.1",        "[::1]",       "b\xff",   ""};
static const char *const PATHS[] = {"/", "/a", "/a/b", "/a/b/c", "x", "", "/\xff", "/a b"};
static const char *const DATES[] = {
    "Wed, 21 Oct 2015 07:28:00 GMT", "Thu, 1 Jan 70 0:00:00", "21 Oct 2015", "yesterday", "", "\xff",
    "Sun Nov  6 08:49:37 1994"};
static const char *const LISTS[] = {"com\nco.uk\n*.ck\n!www.ck\n", "", "// a comment\ncom\n\n", "\xff\n*\n",
                                    "github.io"};
static const char *const LINES[] = {"add a=1; Path=/", "remove a",        "force b",   "reset", "", "add",
                                    "nonsense",        "remove \xc3\xa9", "add n=\xff"};

static const char *const SAVED[] = {
    "# Netscape HTTP Cookie File",
    "example.com\tFALSE\t/\tFALSE\t1445412600\ta\t1",
    "#HttpOnly_.example.com\tTRUE\t/a\tTRUE\t1445419999\t__Secure-b\tx\r",
    "www.example.com\tTRUE\t/\tFALSE\t0\ta",
    "10.0.0.1\tFALSE\tx\tMAYBE\t\xff\t=\t;",
    "{\"domain\":\"example.com\",\"expiry\":1445412600000000000,\"host_only\":true,\"http_only\":true,"
    "\"last_access\":1445412480000000000,\"name\":\"id\",\"path\":\"/"
    "\",\"same_site\":\"lax\",\"secure\":true,\"value\":\"1\"}",
    "{\"domain\":\"a.co.uk\",\"expiry\":1445412600000000000,\"host_only\":false,\"http_only\":false,"
    "\"last_access\":1445412480000000000,\"name\":\"\",\"path\":\"/a\",\"same_site\":\"default\",\"secure\":false,"
    "\"value\":\"\\u00e9\"}",
    "{\"domain\":[[[[{",
    "",
};

#define ONE_OF(d, list) list[below(d, sizeof list / sizeof *list)]

typedef enum sort {
    A_NAME, A_VALUE, A_PATH, A_COOKIE, A_HEADER, A_FORM, A_DATE, A_HOST, A_URL, A_LIST, A_PASTE, A_RUN, A_FILE
} sort;

static void append(char *made, const char *piece) { strncat(made, piece, LONGEST - 1 - strlen(made)); }

static void append_pair(drawing *d, char *made) {
    append(made, ONE_OF(d, NAME_TEXTS));
    append(made, one_in(d, 20) ? "" : "=");
    append(made, ONE_OF(d, VALUES));
}

/* A text of that kind; of one in twenty any bytes, and of one in two hundred a long one. */
static text draw_text(drawing *d, sort it) {
    static _Thread_local char made[LONGEST];
    made[0] = '\0';
    if (one_in(d, 20)) {
        size_t length = below(d, 24);
        for (size_t i = 0; i < length; i++)
            made[i] = one_in(d, 3) ? (char)draw(d) : "a=;, %2\n&\0"[below(d, 10)];
        return text_of(d, made, length);
    }
    switch (it) {
    case A_NAME:
        append(made, ONE_OF(d, NAME_TEXTS));
        break;
    case A_VALUE:
        append(made, ONE_OF(d, VALUES));
        break;
    case A_PATH:
        append(made, ONE_OF(d, PATHS));
        break;
    case A_DATE:
        append(made, one_in(d, 3) ? ONE_OF(d, DATES) : DATES[0]);
        break;
    case A_HOST:
        append(made, ONE_OF(d, HOSTS));
        break;
    case A_URL:
        append(made, one_in(d, 3) ? "http://" : "https://");
        append(made, ONE_OF(d, HOSTS));
        append(made, ONE_OF(d, PATHS));
        break;
    case A_LIST:
        append(made, ONE_OF(d, LISTS));
        break;
    case A_PASTE:
        for (size_t left = below(d, 6); left > 0; left--) {
            append(made, one_in(d, 3) ? "GET https://" : one_in(d, 9) ? "NOW " : "Set-Cookie: ");
            append(made, one_in(d, 9) ? DATES[0] : ONE_OF(d, NAME_TEXTS));
            append(made, "=1\n");
        }
        break;
    case A_COOKIE:
        append_pair(d, made);
        for (size_t left = below(d, 5); left > 0; left--) {
            append(made, one_in(d, 9) ? ";" : "; ");
            append(made, ONE_OF(d, ATTRIBUTES));
        }
        break;
    case A_FILE:
        for (size_t left = below(d, 6); left > 0; left--) {
            append(made, ONE_OF(d, SAVED));
            append(made, one_in(d, 9) ? "" : "\n");
        }
        break;
    case A_RUN:
        append_pair(d, made);
        for (size_t left = below(d, 5); left > 0; left--) {
            append(made, "\n");
            append(made, ONE_OF(d, LINES));
        }
        break;
    default:
        for (size_t left = below(d, 5); left > 0; left--) {
            append(made, it == A_HEADER && one_in(d, 2) ? ONE_OF(d, d->kept) : "");
            append(made, it == A_FORM ? "&" : "; ");
            append_pair(d, made);
        }
    }
    if (one_in(d, 100))
        for (size_t left = below(d, 500); left > 0; left--)
            append(made, one_in(d, 50) ? "%20" : "xxxxxxxxxx");
    return text_of(d, made, strlen(made));
}

/* Bytes whose length is this one, but for one in eight. */
static text draw_bytes(drawing *d, size_t length) {
    uint8_t made[200];
    size_t drawn = one_in(d, 8) ? below(d, sizeof made) : length;
    for (size_t i = 0; i < drawn; i++)
        made[i] = (uint8_t)draw(d);
    return text_of(d, made, drawn);
}

/* One to three keys of the same three. */
static text draw_keys(drawing *d) {
    uint8_t made[3 * 64];
    for (size_t i = 0; i < 3; i++)
        memset(made + 64 * i, 1 + (int)below(d, 3), 64);
    return text_of(d, made, one_in(d, 8) ? below(d, sizeof made) : 64 * (1 + below(d, 3)));
}

static uint64_t draw_now(drawing *d) {
    static const uint64_t far[] = {0, 253402207200, 253402207201, (uint64_t)1 << 40, UINT64_MAX, (uint64_t)1 << 63};
    return one_in(d, 20) ? ONE_OF(d, far) : 1445412480 + below(d, 120);
}

static cookie_request draw_request(drawing *d) {
    text host = there(draw_text(d, A_HOST)), path = there(draw_text(d, A_PATH));
    return (cookie_request){host.bytes,   host.length,     path.bytes,   path.length, one_in(d, 4),
                            one_in(d, 2), !one_in(d, 4), one_in(d, 2), one_in(d, 2)};
}

static cookie_attributes draw_attributes(drawing *d) {
    uint32_t n[8];
    for (size_t i = 0; i < 8; i++)
        n[i] = one_in(d, 30) ? (uint32_t)draw(d) : (uint32_t)below(d, i < 4 ? 3 : 2);
    cookie_moment date = {COOKIE_NO_DATE,       (int16_t)(one_in(d, 5) ? draw(d) : 2015),
                          (int8_t)below(d, 14), (int8_t)below(d, 33),
                          (int8_t)below(d, 25), (int8_t)below(d, 61),
                          (int8_t)below(d, 61)};
    int64_t age = (int64_t)draw(d) >> below(d, 64);
    return (cookie_attributes){n[0], n[1], n[2], n[3], n[4], n[5], n[6], n[7], age, date};
}

static cookie_session_settings draw_site(drawing *d) {
    static const char *const sites[] = {"session=; Path=/",
                                        "__Host-s=; Path=/; Secure; HttpOnly; SameSite=Lax",
                                        "s=; Domain=example.com", "__Host-s=", "=", "s", "s\xff=", "s%ff=", "s=; Path=/\x01"};
    const char *chosen = ONE_OF(d, sites);
    text keys = there(draw_keys(d)), cookie = there(text_of(d, chosen, strlen(chosen)));
    return (cookie_session_settings){keys.bytes,    keys.length,          cookie.bytes,
                                     cookie.length, (uint32_t)(one_in(d, 9) ? draw(d) : 600), one_in(d, 9) ? 0 : 300};
}

/* A buffer of that length, filled, with what is around it. */
static void take_room(drawing *d, size_t length) {
    d->out = place(d, &d->room, length);
    d->length = length;
    if (d->out != NULL)
        memset(d->out - d->margin_before, 0xa5, d->margin_before + length + d->margin_after);
}

/* Looks at a status, and at the rest of a buffer of which `written` bytes may be others. */
static void look(drawing *d, int call, uint32_t status, size_t written) {
    refuse(0);
    d->met[call][status < STATUSES ? status : 0]++;
    bool is_known = status == COOKIE_DONE || (status < STATUSES && (FACTS_OF[call].statuses >> status & 1) == 1);
    if (!is_known && !(status == COOKIE_OUT_OF_MEMORY && d->was_starved))
        fault(d, call, "a status that the header doesn't have");
    if (written > d->length) {
        fault(d, call, "more was written than the buffer has");
        return;
    }
    const uint8_t *start = d->out == NULL ? NULL : d->out - d->margin_before;
    for (size_t i = 0; start != NULL && i < d->margin_before + d->length + d->margin_after; i++)
        if ((i < d->margin_before || i >= d->margin_before + written) && start[i] != 0xa5) {
            fault(d, call, "a byte beyond the text has changed");
            return;
        }
}

/* Begins a call. In one of 32 one of its next requests for memory is refused. */
static void begin(drawing *d, size_t length) {
    take_room(d, length);
    refuse(one_in(d, 32) ? 1 + below(d, 12) : 0);
    d->was_starved = refused_at > 0;
}

static size_t draw_room(drawing *d) {
    static const size_t lengths[] = {0, 1, 43, 44, 300, 5000};
    return one_in(d, 2) ? ONE_OF(d, lengths) : below(d, 80);
}

#define IN(text) text.bytes, text.length
#define OUT d->out, d->length

/* The case of a call that returns a status. */
#define TELLS(it, expression) \
    case it##_call: \
        begin(d, 0); \
        status = (expression); \
        look(d, call, status, 0); \
        break;

/* The case of a call that returns nothing. */
#define ENDS(it, expression) \
    case it##_call: \
        expression; \
        d->met[call][0]++; \
        return COOKIE_DONE;

/* The case of a call that writes a text. It is made again with a buffer of the length that it needs. */
#define WRITES(it, expression) \
    case it##_call: \
        begin(d, draw_room(d)); \
        answer = (expression); \
        status = answer.status; \
        look(d, call, status, status == COOKIE_DONE ? answer.length : 0); \
        if (status == COOKIE_BUFFER_TOO_SHORT && answer.length <= d->length) \
            fault(d, call, "a buffer that fits is too short"); \
        if (status == COOKIE_BUFFER_TOO_SHORT && answer.length <= ROOM) { \
            size_t needed = answer.length; \
            d->was_starved = false; \
            take_room(d, needed); \
            answer = (expression); \
            look(d, call, answer.status, answer.length); \
            if (answer.status != COOKIE_DONE || answer.length != needed) \
                fault(d, call, "a buffer of the length that it needs doesn't fit"); \
        } \
        break;

static bool is_within(cookie_span at, size_t length) { return at.start <= length && at.length <= length - at.start; }

/* What a call has told, if its parts are in what they may be. */
static cookie_explanation looked_at(drawing *d, int call, cookie_explanation why) {
    const cookie_span spans[] = {why.sentence,     why.section,       why.stored.name,
                                 why.stored.value, why.stored.domain, why.stored.path};
    for (size_t i = 0; i < 6; i++)
        if (!is_within(spans[i], why.status == COOKIE_DONE ? d->length : SIZE_MAX))
            fault(d, call, "a span isn't in the buffer");
    return why;
}

/* How an agent is saved: which cookies are left out is one of the cookies that it has. */
static cookie_answer saved(drawing *d, cookie_agent_saving saving) {
    if (saving.left_out == 0 && saving.first_left_out != 0)
        fault(d, agent_save_call, "none is left out, and one is named");
    return of_saving(saving);
}

/* How a text is loaded. The bad lines are some that it has, in their order, and no more are told than have room. */
static uint32_t load(drawing *d, cookie_agent *agent, cookie_suffixes *list, uint32_t form, text from, uint64_t now) {
    size_t bad[3] = {0}, room = below(d, 3), lines = 1, last = 0;
    size_t most[3] = {below(d, 9), below(d, 20), below(d, 40)};
    for (size_t i = 0; i < 3; i++)
        most[i] = one_in(d, 4) ? most[i] : SIZE_MAX;
    cookie_agent_loading loading = cookie_agent_load(agent, list, form, IN(from), most[0], most[1], most[2], now, bad, room);
    if (loading.status == COOKIE_DONE && cookie_agent_count(agent).length > most[2])
        fault(d, agent_load_call, "more cookies than the limit");
    for (size_t i = 0; i < from.length; i++)
        lines += from.bytes[i] == '\n';
    for (size_t i = 0; i < 3; i++) {
        bool is_told = i < room && i < loading.bad_lines;
        if (is_told ? bad[i] <= last : bad[i] != 0)
            fault(d, agent_load_call, "a bad line in another place");
        last = bad[i];
    }
    if (loading.bad_lines > lines || last > lines)
        fault(d, agent_load_call, "a bad line that there isn't");
    return loading.status;
}

/* Keeps the pair of a cookie that was saved, for headers. */
static void keep(drawing *d, size_t length) {
    char *kept = ONE_OF(d, d->kept);
    const uint8_t *end = memchr(d->out, ';', length);
    size_t pair = end == NULL ? length : (size_t)(end - d->out);
    if (pair < LONGEST) {
        memcpy(kept, d->out, pair);
        kept[pair] = '\0';
    }
}

/* The ids that a handle has, as the list of revoked ones; or others. */
static text draw_revoked(drawing *d, cookie_opened *opened) {
    uint8_t ids[300];
    cookie_answer told = cookie_opened_ids(opened, ids, sizeof ids);
    return told.status == COOKIE_DONE && one_in(d, 2) ? text_of(d, ids, told.length) : draw_bytes(d, 16 * below(d, 3));
}

/* A call that reads a pair or a cookie. */
static uint32_t read_one(drawing *d, int call) {
    bool is_pair = call == next_pair_call || call == next_pair_decoded_call;
    bool is_decoded = call == next_pair_decoded_call || call == read_decoded_call;
    text from = draw_text(d, is_pair ? A_HEADER : A_COOKIE);
    size_t at = one_in(d, 4) ? (size_t)draw(d) >> below(d, 64) : below(d, from.length + 2);
    cookie_reading it = {0};
    begin(d, draw_room(d));
    if (is_pair) {
        cookie_pair pair = is_decoded ? cookie_next_pair_decoded(IN(from), at, OUT) : cookie_next_pair(IN(from), at);
        it.status = pair.status, it.name = pair.name, it.value = pair.value;
        bool goes_on = pair.next > at && pair.next <= from.length + 1;
        if (it.status == COOKIE_NO_PAIR ? pair.next != 0 : it.status != COOKIE_OUT_OF_MEMORY && !goes_on)
            fault(d, call, "it goes on elsewhere");
    } else {
        it = is_decoded ? cookie_read_decoded(IN(from), OUT) : cookie_read(IN(from));
    }
    look(d, call, it.status, is_decoded && it.status == COOKIE_DONE ? of_reading(it).length : 0);
    size_t bound = it.status > COOKIE_BUFFER_TOO_SHORT ? 0 : from.length, decoded = bound;
    if (is_decoded && bound > 0)
        decoded = it.status == COOKIE_DONE ? d->length : SIZE_MAX;
    if (!is_within(it.path, bound) || !is_within(it.domain, bound) || !is_within(it.name, decoded)
        || !is_within(it.value, decoded))
        fault(d, call, "a span isn't in the text");
    return it.status;
}

static uint32_t read_pairs(drawing *d, int call) {
    static _Thread_local cookie_pair pairs[60];
    text from = draw_text(d, A_HEADER);
    size_t room = below(d, 61);
    begin(d, draw_room(d));
    cookie_pair_count read = cookie_read_pairs(IN(from), pairs, room, OUT);
    look(d, call, read.status, read.status == COOKIE_DONE ? read.length : 0);
    bool has_room = read.count <= room && read.length <= d->length;
    if (read.status <= COOKIE_BUFFER_TOO_SHORT && has_room != (read.status == COOKIE_DONE))
        fault(d, call, "it has room and isn't written, or the other way round");
    for (size_t i = 0; read.status == COOKIE_DONE && i < read.count; i++)
        if (!is_within(pairs[i].name, read.length) || !is_within(pairs[i].value, read.length)
            || pairs[i].next > from.length + 1 || (i > 0 && pairs[i].next <= pairs[i - 1].next))
            fault(d, call, "a span isn't in the text");
    return read.status;
}

static uint32_t make_plain(drawing *d, int call) {
    cookie_answer answer;
    uint32_t status, number = (uint32_t)any_below(d, 16);
    text name = draw_text(d, A_NAME), value = draw_text(d, A_VALUE), path = draw_text(d, A_PATH), host = draw_text(d, A_HOST);
    text date = draw_text(d, A_DATE), input = draw_text(d, A_RUN), url = draw_text(d, A_URL), master = draw_bytes(d, 32);
    cookie_attributes it = draw_attributes(d);
    cookie_moment at = it.expires;
    bool is_escaped = one_in(d, 2);
    switch (call) {
        WRITES(derive_key, cookie_derive_key(IN(master), OUT))
        TELLS(read_date, cookie_read_date(IN(date)).status)
        WRITES(print_date, cookie_print_date(at.year, at.month, at.day, at.hour, at.minute, at.second, OUT))
        WRITES(run, cookie_run(number, 2, IN(date), IN(input), OUT))
        WRITES(print, cookie_print(IN(name), IN(value), IN(path), IN(host), &it, is_escaped, OUT))
        WRITES(refusal_sentence, cookie_refusal_sentence(number, OUT))
        WRITES(refusal_section, cookie_refusal_section(number, OUT))
        WRITES(read_url, of_url(cookie_read_url(IN(url), OUT)))
        TELLS(version, cookie_version() == COOKIE_VERSION ? COOKIE_DONE : COOKIE_BAD_LINE)
    case read_pairs_call:
        return read_pairs(d, call);
    default:
        return read_one(d, call);
    }
    return status;
}

/* A call with keys. Of those that verify, open or read the text is mostly what was made just before. */
static uint32_t make_with_keys(drawing *d, int call, cookie_keys *keys) {
    cookie_answer answer;
    uint32_t status;
    text name = draw_text(d, A_NAME), value = draw_text(d, A_VALUE), nonce = draw_bytes(d, 12), bytes = draw_keys(d);
    text purpose = there(name);
    uint64_t now = draw_now(d), later = one_in(d, 4) ? draw_now(d) : now + below(d, 90);
    cookie_token_settings settings = {IN(purpose), one_in(d, 9) ? (uint32_t)draw(d) : 60};
    uint8_t room[1000];
    if (call == verify_call || call == open_call || call == token_read_call) {
        answer = call == verify_call ? cookie_sign(keys, IN(name), IN(value), room, sizeof room)
            : call == open_call     ? cookie_seal(keys, IN(nonce), IN(name), IN(value), room, sizeof room)
                                    : cookie_token_make(keys, &settings, IN(value), IN(nonce), now, room, sizeof room);
        value = answer.status == COOKIE_DONE && !one_in(d, 4) ? text_of(d, room, answer.length) : value;
    }
    switch (call) {
        TELLS(keys_new, cookie_keys_new(IN(bytes), keys))
        ENDS(keys_free, cookie_keys_free(keys))
        WRITES(sign, cookie_sign(keys, IN(name), IN(value), OUT))
        WRITES(verify, cookie_verify(keys, IN(name), IN(value), OUT))
        WRITES(seal, cookie_seal(keys, IN(nonce), IN(name), IN(value), OUT))
        WRITES(open, cookie_open(keys, IN(name), IN(value), OUT))
        WRITES(token_make, cookie_token_make(keys, &settings, IN(value), IN(nonce), now, OUT))
    default:
        WRITES(token_read, of_token(cookie_token_read(keys, &settings, IN(value), later, OUT)))
    }
    return status;
}

static uint32_t make_with_jar(drawing *d, int call, cookie_jar *jar) {
    cookie_answer answer;
    uint32_t status;
    text name = draw_text(d, A_NAME), date = draw_text(d, A_DATE), path = draw_text(d, A_PATH), host = draw_text(d, A_HOST);
    text header = draw_text(d, A_HEADER), made = draw_text(d, A_COOKIE);
    switch (call) {
        TELLS(jar_new, cookie_jar_new(1, 2, jar))
        ENDS(jar_free, cookie_jar_free(jar))
        TELLS(jar_add_originals, cookie_jar_add_originals(jar, IN(header)))
        TELLS(jar_add, cookie_jar_add(jar, IN(made)))
        TELLS(jar_remove, cookie_jar_remove(jar, IN(date), IN(name)))
        TELLS(jar_remove_scoped, cookie_jar_remove_scoped(jar, IN(date), IN(name), IN(path), IN(host)))
        WRITES(jar_get, cookie_jar_get(jar, IN(name), OUT))
        WRITES(jar_delta, cookie_jar_delta(jar, OUT))
    default:
        WRITES(jar_cookies, cookie_jar_cookies(jar, OUT))
    }
    return status;
}

static uint32_t make_with_session(drawing *d, int call, cookie_sessions *site, cookie_opened *opened,
                                  cookie_session *session) {
    cookie_answer answer;
    cookie_need need = {COOKIE_DONE, false};
    uint32_t status, lasting = (uint32_t)any_below(d, 3);
    uint64_t now = draw_now(d), number = draw(d) >> below(d, 64);
    text name = draw_text(d, A_NAME), value = draw_text(d, A_VALUE), form = draw_text(d, A_FORM);
    text header = draw_text(d, A_HEADER), id = draw_bytes(d, 16), nonce = draw_bytes(d, 12), revoked = draw_revoked(d, opened);
    cookie_session_settings settings = draw_site(d);
    bool was_revoked = one_in(d, 3);
    switch (call) {
        TELLS(sessions_new, cookie_sessions_new(&settings, site))
        ENDS(sessions_free, cookie_sessions_free(site))
        WRITES(session_end, cookie_session_end(site, now, OUT))
        TELLS(opened_new, cookie_opened_new(site, IN(header), now, opened))
        ENDS(opened_free, cookie_opened_free(opened))
        WRITES(opened_ids, cookie_opened_ids(opened, OUT))
        TELLS(opened_take, cookie_opened_take(opened, IN(revoked), session))
        TELLS(session_open, cookie_session_open(site, IN(header), now, session))
        TELLS(session_start, cookie_session_start(site, IN(id), now, session))
        ENDS(session_free, cookie_session_free(session))
        TELLS(session_describe, cookie_session_describe(session).status)
        TELLS(session_given, cookie_session_given(session).status)
        TELLS(session_replace, cookie_session_replace(session, now, was_revoked))
        TELLS(session_log_out, cookie_session_log_out(session, now, was_revoked))
        TELLS(session_set_generation, cookie_session_set_generation(session, number))
        ENDS(session_is_since, need.must_save = cookie_session_is_since(session, number);
             if (need.must_save && cookie_session_describe(session).status != COOKIE_DONE)
                 fault(d, call, "a handle without a session keeps a generation"))
        WRITES(session_get, cookie_session_get(session, IN(name), OUT))
        TELLS(session_set, cookie_session_set(session, IN(name), IN(value)))
        TELLS(session_remove, cookie_session_remove(session, IN(name)))
        WRITES(session_texts, cookie_session_texts(session, OUT))
        WRITES(session_list, cookie_session_list(session, OUT))
        TELLS(session_set_texts, cookie_session_set_texts(session, IN(form)))
        TELLS(session_renew, cookie_session_renew(site, session, IN(id), now))
        TELLS(session_must_save, (need = cookie_session_must_save(site, session, now)).status)
    default:
        WRITES(session_save, cookie_session_save(site, session, lasting, IN(nonce), now, OUT))
    }
    if (call == session_save_call && answer.status == COOKIE_DONE)
        keep(d, answer.length);
    if (need.must_save && status != COOKIE_DONE)
        fault(d, call, "a refused session must be saved");
    return status;
}

static uint32_t make_with_agent(drawing *d, int call, cookie_agent *agent, cookie_suffixes *list) {
    cookie_answer answer;
    cookie_agent_reading reading = {0};
    cookie_obstacles why = {0};
    uint32_t status, form = (uint32_t)(one_in(d, 20) ? draw(d) : below(d, 2));
    size_t index = any_below(d, 12), most = any_below(d, 9), most_of_site = any_below(d, 20), total = below(d, 40);
    uint64_t now = draw_now(d);
    cookie_request request = draw_request(d);
    text made = draw_text(d, A_COOKIE), name = draw_text(d, A_NAME), host = draw_text(d, A_HOST), path = draw_text(d, A_PATH);
    text rules = draw_text(d, A_LIST), url = draw_text(d, A_URL), paste = draw_text(d, A_PASTE), file = draw_text(d, A_FILE);
    bool is_so = one_in(d, 2);
    switch (call) {
        TELLS(suffixes_new, cookie_suffixes_new(IN(rules), list))
        ENDS(suffixes_free, cookie_suffixes_free(list))
        WRITES(explain, of_explanation(looked_at(d, call, cookie_explain(list, &request, IN(made), now, OUT))))
        WRITES(explain_lines, cookie_explain_lines(list, IN(url), is_so, now, IN(paste), OUT))
        TELLS(agent_new, cookie_agent_new(agent))
        ENDS(agent_free, cookie_agent_free(agent))
        TELLS(agent_read, (reading = cookie_agent_read(agent, list, &request, IN(made), now)).status)
        WRITES(agent_header, cookie_agent_header(agent, &request, now, OUT))
        WRITES(agent_retrieve, cookie_agent_retrieve(agent, &request, now, OUT))
        TELLS(agent_evict, cookie_agent_evict(agent, now))
        TELLS(agent_trim, cookie_agent_trim(agent, list, most, most_of_site, total, now))
        TELLS(agent_remove, cookie_agent_remove(agent, IN(name), IN(host), is_so, IN(path)))
        TELLS(agent_clear, cookie_agent_clear(agent, IN(host)))
        TELLS(agent_count, cookie_agent_count(agent).status)
        TELLS(agent_obstacles, (why = cookie_agent_obstacles(agent, index, &request, now)).status)
        WRITES(agent_cookie, of_explanation(looked_at(d, call, cookie_agent_cookie(agent, index, now, OUT))))
        TELLS(agent_load, load(d, agent, list, form, file, now))
    default:
        WRITES(agent_save, saved(d, cookie_agent_save(agent, form, now, OUT)))
    }
    if (reading.refusal > 14 || (status != COOKIE_DONE && reading.refusal != 0))
        fault(d, call, "a step that there isn't");
    if (why.obstacles > 31 || (status != COOKIE_DONE && why.obstacles != 0))
        fault(d, call, "an obstacle that there isn't");
    return status;
}

/* Whether a handle with nothing, and only that, is refused as having nothing, if no other refusal comes first. */
static void look_at_handle(drawing *d, int call, uint32_t status, kind on, const size_t at[KINDS], uint64_t first) {
    bool has = on != NONE && d->has[on][at[on]];
    if (on != NONE && (has ? status == NOTHING[on] : status != NOTHING[on] && (first >> status & 1) == 0))
        fault(d, call, has ? "a handle with something is refused" : "a handle with nothing is taken");
}

/* What handles have after a call that is done. */
static void note(drawing *d, int call, const size_t at[KINDS]) {
    static const struct { int call; kind ends; } ending[] = {
        {keys_free_call, KEYS},         {jar_free_call, JAR},       {sessions_free_call, SITE},
        {opened_free_call, OPENED},     {opened_take_call, OPENED}, {session_free_call, SESSION},
        {session_log_out_call, SESSION}, {suffixes_free_call, LIST}, {agent_free_call, AGENT}};
    if (FACTS_OF[call].made != NONE)
        d->has[FACTS_OF[call].made][at[FACTS_OF[call].made]] = true;
    for (size_t i = 0; i < sizeof ending / sizeof *ending; i++)
        if (ending[i].call == call)
            d->has[ending[i].ends][at[ending[i].ends]] = false;
}

static void play(drawing *d) {
    static const int fills[] = {agent_read_call, agent_read_call,  agent_read_call,
                                jar_add_call,    session_set_call, session_set_texts_call};
    int call = one_in(d, 4) ? ONE_OF(d, fills) : (int)below(d, COUNT);
    const struct call *facts = &FACTS_OF[call];
    bool ends = strstr(facts->name, "_free") != NULL || strstr(facts->name, "_new") != NULL || call == session_start_call;
    size_t at[KINDS];
    uint32_t status;
    if (ends && !one_in(d, 4))
        return;
    d->count++;
    for (size_t i = 0; i < KINDS; i++)
        at[i] = below(d, PAIR);
    if (call < keys_new_call)
        status = make_plain(d, call);
    else if (call < jar_new_call)
        status = make_with_keys(d, call, &d->keys[at[KEYS]]);
    else if (call < sessions_new_call)
        status = make_with_jar(d, call, &d->jars[at[JAR]]);
    else if (call < suffixes_new_call)
        status = make_with_session(d, call, &d->sites[at[SITE]], &d->opened[at[OPENED]], &d->sessions[at[SESSION]]);
    else
        status = make_with_agent(d, call, &d->agents[at[AGENT]], &d->lists[at[LIST]]);
    look_at_handle(d, call, status, facts->on, at, facts->first);
    look_at_handle(d, call, status, facts->on_too, at, facts->first_too);
    if (call == opened_take_call && status == COOKIE_DONE && !d->has[OPENED][at[OPENED]])
        fault(d, call, "a handle with nothing is taken");
    if (status == COOKIE_DONE)
        note(d, call, at);
}

static size_t wanted;

static void *play_all(void *at) {
    drawing *d = at;
#ifndef EXACT
    for (int i = 0; i < SLOTS; i++)
        d->slots[i] = region();
    d->room = region();
#endif
    while (d->count < wanted)
        play(d);
    for (int i = 0; i < PAIR; i++) {
        cookie_keys_free(&d->keys[i]);
        cookie_jar_free(&d->jars[i]);
        cookie_sessions_free(&d->sites[i]);
        cookie_opened_free(&d->opened[i]);
        cookie_session_free(&d->sessions[i]);
        cookie_suffixes_free(&d->lists[i]);
        cookie_agent_free(&d->agents[i]);
    }
#ifdef EXACT
    for (int i = 0; i < SLOTS; i++)
        place(d, &d->slots[i], 0);
    place(d, &d->room, 0);
#endif
    return NULL;
}

/* Says which statuses no call of the two returned. Returns how many of all were met. */
static size_t say_unmet(const drawing *one, const drawing *other, size_t *all) {
    size_t met = 0;
    for (int call = 0; call < COUNT; call++)
        for (uint32_t status = 0; status < STATUSES; status++) {
            if (status != COOKIE_DONE && (FACTS_OF[call].statuses >> status & 1) == 0)
                continue;
            bool is_met = one->met[call][status] + other->met[call][status] > 0;
            ++*all, met += is_met;
            if (!is_met)
                printf("not met: cookie_%s, status %u\n", FACTS_OF[call].name, status);
        }
    return met;
}

int main(int count, char **words) {
    static drawing drawings[2];
    pthread_t threads[2];
    if (count != 3)
        return 2;
    wanted = strtoull(words[2], NULL, 10) / 2;
    for (size_t i = 0; i < 2; i++) {
        drawings[i].number = i;
        drawings[i].state = strtoull(words[1], NULL, 10) * 2 + i;
        if (pthread_create(&threads[i], NULL, play_all, &drawings[i]) != 0)
            return 2;
    }
    for (size_t i = 0; i < 2; i++)
        pthread_join(threads[i], NULL);
    size_t all = 0, met = say_unmet(&drawings[0], &drawings[1], &all), faults = drawings[0].faults + drawings[1].faults;
    size_t made = drawings[0].count + drawings[1].count;
    printf("%zu calls of %d, %zu of %zu statuses met, %zu faults\n", made, COUNT, met, all, faults);
    return faults != 0;
}
