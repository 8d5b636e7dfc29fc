/* What only C can do: buffers of each size, handles with nothing in them, bytes and numbers that no text has, settings
 * that are no site's, times out of range, buffers that overlap, and memory that runs out. Each export of cookie.h is
 * called. Each expected value is by cookie.h. What is signed or sealed is by Python's `hmac`, `cryptography` and
 * `urllib.parse`. */
#define _GNU_SOURCE
#include "memory.h"
#include <stdio.h>

/* A text's two arguments. */
#define T(text) (const uint8_t *)(text), sizeof(text) - 1
/* The two arguments of the whole buffer, and of its first bytes. */
#define OUT out, sizeof out
#define FIRST(length) out, (length)

static int faults = 0;
static uint8_t out[64];
static uint8_t KEY[64]; /* bytes of 7 */
#define NOW UINT64_C(1445412480) /* Wed, 21 Oct 2015 07:28:00 GMT */
#define LAST UINT64_C(253402207200) /* the last second that a call takes */

static void must(bool is_so, int line, const char *what) {
    if (!is_so) {
        fprintf(stderr, "cases.c:%d: %s\n", line, what);
        faults++;
    }
}
#define MUST(fact) must(fact, __LINE__, #fact)

/* Whether the text is at the start of the buffer, and nothing after it has changed. The buffer is fresh after that. */
static bool holds(const char *text) {
    size_t length = strlen(text);
    bool is_held = memcmp(out, text, length) == 0;
    for (size_t i = length; i < sizeof out; i++)
        is_held = is_held && out[i] == 0xa5;
    memset(out, 0xa5, sizeof out);
    return is_held;
}

static bool is(cookie_answer answer, uint32_t status, size_t length) {
    return answer.status == status && answer.length == length;
}

static bool lies(cookie_span span, size_t start, size_t length) {
    return span.start == start && span.length == length;
}

/* The buffer of a call that gives a text. It ends where its memory ends. */
static uint8_t *edge, *memory;
static size_t room;
#define EDGE edge, room

static void take_room(int size, size_t length) {
    const size_t rooms[] = {length, length + 7, 0, length - 1};
    room = rooms[size];
    edge = room > 0 ? memory + ROOM - room : NULL;
    memset(memory + ROOM - length - 7, 0xa5, length + 7);
}

/* Whether the text is given, if the buffer fits; and no other byte has changed. */
static bool gives(cookie_answer answer, const char *wanted, size_t length) {
    bool fits = room >= length, is_given = is(answer, fits ? COOKIE_DONE : COOKIE_BUFFER_TOO_SHORT, length);
    is_given = is_given && (!fits || memcmp(edge, wanted, length) == 0);
    for (size_t i = fits ? length : 0; i < room; i++)
        is_given = is_given && edge[i] == 0xa5;
    return is_given;
}

/* A call gives this text, with a buffer that fits, with a longer one, with none, and with one that is a byte too short. */
#define GIVES(wanted, answer) \
    for (int size = 0; size < 4; size++) { \
        take_room(size, sizeof(wanted) - 1); \
        must(gives((answer), (wanted), sizeof(wanted) - 1), __LINE__, #answer); \
    }

#define NOW_TEXT "Wed, 21 Oct 2015 07:28:00 GMT"
#define DERIVED \
    "\xa0\x59\x57\x3e\xb7\xf8\xf0\x8a\xef\x6b\x47\x6f\x70\x7c\x2f\x17\xcb\xe9\xbb\x11\x94\xa4\x8c\xbd" \
    "\x56\x9e\x46\x07\x17\x65\xdf\x12\xd2\x07\xb5\x7c\x35\x53\x10\x44\xac\xbb\x96\xe4\xb8\x79\x46\x16" \
    "\xe2\xd6\x56\x83\x50\xca\xe0\xaa\xe4\xff\xa4\x45\xf7\x0c\xf5\xb1"
#define SIGNED "Ot85Fd2rKtsLH46etPtG9d9H1HUCWYuiQaunHIOkkuI=v"
#define SEALED "BwcHBwcHBwcHBwcHuPj0fgpHRBXtskgXZicbrLU="
#define TOKEN "BwcHBwcHBwcHBwcH_69-CjLXjVF02aELC-2TQH2WsSjJXgUPAAoxQk2EmZveTDVzYTMgamk"

static void texts_of_keys(void) {
    uint8_t master[32];
    cookie_keys keys = {0};
    cookie_token_settings resets = {T("password reset"), 1200};
    for (uint8_t i = 0; i < sizeof master; i++)
        master[i] = i;
    GIVES(DERIVED, cookie_derive_key(master, sizeof master, EDGE));
    MUST(cookie_keys_new(KEY, sizeof KEY, &keys) == COOKIE_DONE);
    GIVES(SIGNED, cookie_sign(&keys, T("n"), T("v"), EDGE));
    GIVES("v", cookie_verify(&keys, T("n"), T(SIGNED), EDGE));
    GIVES(SEALED, cookie_seal(&keys, KEY, 12, T("n"), T("v"), EDGE));
    GIVES("v", cookie_open(&keys, T("n"), T(SEALED), EDGE));
    GIVES(TOKEN, cookie_token_make(&keys, &resets, T("ann"), KEY, 12, NOW, EDGE));
    GIVES("ann", of_token(cookie_token_read(&keys, &resets, T(TOKEN), NOW, EDGE)));
    cookie_keys_free(&keys);
}

static void texts_of_cookies(void) {
    cookie_jar jar = {0};
    cookie_attributes none;
    memset(&none, 0, sizeof none);
    GIVES(NOW_TEXT, cookie_print_date(2015, 10, 21, 7, 28, 0, EDGE));
    GIVES("a%20b=1", cookie_print(T("a b"), T("1"), NULL, 0, NULL, 0, &none, true, EDGE));
    GIVES("a bc=", of_pair(cookie_next_pair_decoded(T("a%20b=c%3D; Secure"), 0, EDGE)));
    GIVES("a bc=", of_reading(cookie_read_decoded(T("a%20b=c%3D; Secure"), EDGE)));
    GIVES("Set-Cookie: a=1\nCookie: a=1; n=v\n", cookie_run(1, 2, T(NOW_TEXT), T("n=v\nadd a=1\n"), EDGE));
    MUST(cookie_jar_new(1, 2, &jar) == COOKIE_DONE && cookie_jar_add(&jar, T("a=1; Path=/")) == COOKIE_DONE);
    GIVES("1", cookie_jar_get(&jar, T("a"), EDGE));
    GIVES("Set-Cookie: a=1; Path=/\n", cookie_jar_delta(&jar, EDGE));
    GIVES("\1\0\0\0\0\0\0\0\1\0\0\0\0\0\0\0a1", cookie_jar_cookies(&jar, EDGE));
    cookie_jar_free(&jar);
}

/* The keys are looked at before the texts, and the texts before the nonce. Nothing is written then. */
static void keys_and_nonces(void) {
    uint8_t both[128] = {1};
    cookie_keys none = {0}, keys = {0};
    for (size_t length = 0; length < 128; length += length < 63 ? 63 : 64)
        MUST(cookie_keys_new(both, length, &keys) == COOKIE_KEY_TOO_SHORT);
    MUST(cookie_keys_new(NULL, 0, &keys) == COOKIE_KEY_TOO_SHORT);
    MUST(is(cookie_sign(&keys, T("n"), T("v"), OUT), COOKIE_NO_KEYS, 0));
    MUST(cookie_keys_new(both, 128, &keys) == COOKIE_DONE);
    MUST(cookie_keys_new(both, 65, &keys) == COOKIE_KEY_TOO_SHORT);
    MUST(is(cookie_sign(&none, T("\xff"), T("\xff"), OUT), COOKIE_NO_KEYS, 0));
    MUST(is(cookie_verify(&none, T("\xff"), T("\xff"), OUT), COOKIE_NO_KEYS, 0));
    MUST(is(cookie_open(&none, T("\xff"), T("\xff"), OUT), COOKIE_NO_KEYS, 0));
    MUST(is(cookie_seal(&none, KEY, 0, T("\xff"), T("v"), OUT), COOKIE_NO_KEYS, 0));
    MUST(is(cookie_seal(&keys, KEY, 0, T("n"), T("\xff"), OUT), COOKIE_NOT_UTF8, 0));
    MUST(is(cookie_seal(&keys, KEY, 0, T("n"), T("v"), OUT), COOKIE_BAD_NONCE, 0));
    MUST(is(cookie_seal(&keys, KEY, 11, T("n"), T("v"), OUT), COOKIE_BAD_NONCE, 0));
    MUST(is(cookie_seal(&keys, KEY, 13, T("n"), T("v"), OUT), COOKIE_BAD_NONCE, 0));
    MUST(is(cookie_verify(&keys, T("n"), T("\xff"), OUT), COOKIE_NOT_UTF8, 0));
    MUST(is(cookie_derive_key(KEY, 31, OUT), COOKIE_MASTER_TOO_SHORT, 0));
    MUST(holds(""));
    cookie_keys_free(&keys);
    cookie_keys_free(&keys);
    MUST(is(cookie_sign(&keys, T("n"), T("v"), OUT), COOKIE_NO_KEYS, 0) && holds(""));
}

static void dates_out_of_range(void) {
    static const int dates[][4] = {{10000, 1, 1, 0}, {-10000, 1, 1, 0}, {2015, -1, 1, 0}, {2015, 1, 1, -1},
                                   {2015, 2, 29, 0}, {32767, 127, 127, 127}, {-32768, -128, -128, -128}};
    for (size_t i = 0; i < sizeof dates / sizeof *dates; i++) {
        const int *date = dates[i];
        int16_t year = (int16_t)date[0];
        int8_t month = (int8_t)date[1], day = (int8_t)date[2], second = (int8_t)date[3];
        MUST(is(cookie_print_date(year, month, day, 0, 0, second, OUT), COOKIE_NO_DATE, 0) && holds(""));
    }
    cookie_moment read = cookie_read_date(T("caf\xe9"));
    MUST(read.status == COOKIE_NOT_UTF8 && read.year == 0 && read.month == 0);
}

/* The attributes with one number that is undefined, or with a date that isn't one. */
static cookie_attributes undefined(int index) {
    cookie_attributes numbers;
    memset(&numbers, 0, sizeof numbers);
    uint32_t *fields[] = {&numbers.http_only, &numbers.secure, &numbers.partitioned, &numbers.same_site,
                          &numbers.has_path, &numbers.has_domain, &numbers.has_max_age, &numbers.has_expires};
    static const uint32_t values[] = {3, 3, UINT32_MAX, 4, 2, 2, 2, 2};
    if (index < 8)
        *fields[index] = values[index];
    else
        numbers.has_expires = 1, numbers.expires.month = 13;
    return numbers;
}

/* Attributes are looked at first, then the date, then the texts that count, for UTF-8 and then for control characters. */
static void attributes_and_texts(void) {
    for (int index = 0; index < 9; index++) {
        cookie_attributes numbers = undefined(index);
        uint32_t status = index < 8 ? COOKIE_BAD_ATTRIBUTE : COOKIE_NO_DATE;
        MUST(is(cookie_print(T("\xff"), T("1"), T("/\n"), T(";"), &numbers, false, OUT), status, 0));
    }
    cookie_attributes set;
    memset(&set, 0, sizeof set);
    set.has_path = 1;
    MUST(is(cookie_print(T("\xff"), T("1"), T("/\n"), T(";"), &set, false, OUT), COOKIE_NOT_UTF8, 0));
    MUST(is(cookie_print(T("a"), T("1"), T("\xff"), T(";"), &set, false, OUT), COOKIE_NOT_UTF8, 0));
    MUST(is(cookie_print(T("a"), T("1"), T("/\n"), T(";"), &set, false, OUT), COOKIE_INVALID_VALUE, 0) && holds(""));
    set.has_path = 0, set.max_age = 5, set.expires.month = 13;
    MUST(is(cookie_print(T("a"), T("1"), T("\xff"), T(";"), &set, false, OUT), COOKIE_DONE, 3) && holds("a=1"));
}

/* A header is read from any offset. */
static void offsets_of_a_header(void) {
    static const struct { size_t from; uint32_t status; size_t next; } cases[] = {
        {1, COOKIE_EMPTY_NAME, 4}, {2, COOKIE_MISSING_PAIR, 4}, {3, COOKIE_DONE, 9}, {4, COOKIE_DONE, 9},
        {9, COOKIE_DONE, 15}, {11, COOKIE_NOT_UTF8, 15}, {12, COOKIE_EMPTY_NAME, 15}, {15, COOKIE_NO_PAIR, 0},
        {16, COOKIE_NO_PAIR, 0}, {(size_t)1 << 63, COOKIE_NO_PAIR, 0}, {SIZE_MAX, COOKIE_NO_PAIR, 0}};
    for (size_t i = 0; i < sizeof cases / sizeof *cases; i++) {
        cookie_pair pair = cookie_next_pair(T("a=1; b=2;;\xc3\xa9=3"), cases[i].from);
        MUST(pair.status == cases[i].status && pair.next == cases[i].next);
        pair = cookie_next_pair_decoded(T("a=1; b=2;;\xc3\xa9=3"), cases[i].from, FIRST(4));
        MUST(pair.status == cases[i].status && pair.next == cases[i].next);
    }
    MUST(cookie_next_pair(NULL, 0, 1).status == COOKIE_NO_PAIR);
    holds("");
}

/* Where the parts would be is told without room for them. */
static void readings_without_room(void) {
    cookie_reading read = cookie_read_decoded(T("a%20b=c%3D; Secure"), NULL, 0);
    MUST(read.status == COOKIE_BUFFER_TOO_SHORT && read.attributes.secure == 1);
    MUST(lies(read.name, 0, 3) && lies(read.value, 3, 2));
    cookie_pair pair = cookie_next_pair_decoded(T("a%20b=c%3D; Secure"), 0, NULL, 0);
    MUST(pair.status == COOKIE_BUFFER_TOO_SHORT && pair.next == 11 && lies(pair.name, 0, 3) && lies(pair.value, 3, 2));
    MUST(cookie_read(T("a=b; Path=/; Secure")).attributes.secure == 1);
}

static bool counts(cookie_pair_count read, uint32_t status, size_t count, size_t length) {
    return read.status == status && read.count == count && read.length == length;
}

/* All pairs of a header: four pieces count, of which two are refused, and two are skipped. Nothing is written if one of
 * the two buffers is too short. */
static void pairs_of_a_header(void) {
    static const uint8_t header[] = "a%20=1; b;\xff=2; ; %5F_Host-c=3;d=%3D%3d";
    static const struct { uint32_t status; size_t next, name, name_length, value, value_length; } wanted[] = {
        {COOKIE_DONE, 7, 0, 2, 2, 1}, {COOKIE_MISSING_PAIR, 10, 0, 0, 0, 0}, {COOKIE_NOT_UTF8, 14, 0, 0, 0, 0},
        {COOKIE_DONE, 39, 3, 1, 4, 2}};
    cookie_pair pairs[5];
    memset(pairs, 0xa5, sizeof pairs);
    for (size_t room = 0; room < 4; room++)
        MUST(counts(cookie_read_pairs(T(header), pairs, room, OUT), COOKIE_BUFFER_TOO_SHORT, 4, 6) && holds(""));
    for (size_t room = 0; room < 6; room++)
        MUST(counts(cookie_read_pairs(T(header), pairs, 5, FIRST(room)), COOKIE_BUFFER_TOO_SHORT, 4, 6) && holds(""));
    MUST(counts(cookie_read_pairs(T(header), NULL, 0, NULL, 0), COOKIE_BUFFER_TOO_SHORT, 4, 6));
    MUST(((uint8_t *)pairs)[0] == 0xa5);
    MUST(counts(cookie_read_pairs(T(header), pairs, 4, FIRST(6)), COOKIE_DONE, 4, 6) && holds("a 1d=="));
    for (size_t i = 0; i < 4; i++)
        MUST(pairs[i].status == wanted[i].status && pairs[i].next == wanted[i].next
             && lies(pairs[i].name, wanted[i].name, wanted[i].name_length)
             && lies(pairs[i].value, wanted[i].value, wanted[i].value_length));
    MUST(((uint8_t *)pairs)[4 * sizeof *pairs] == 0xa5);
    MUST(counts(cookie_read_pairs(NULL, 0, NULL, 0, NULL, 0), COOKIE_DONE, 0, 0));
    MUST(counts(cookie_read_pairs(T(" ;; "), NULL, 0, NULL, 0), COOKIE_DONE, 0, 0));
}

/* A handle without a jar is refused, before its first jar and after its last. */
static void handles_without_a_jar(void) {
    cookie_jar jar = {0};
    for (int turn = 0; turn < 2; turn++) {
        MUST(cookie_jar_add_originals(&jar, T("a=1")) == COOKIE_NO_JAR);
        MUST(cookie_jar_add(&jar, T("\xff")) == COOKIE_NO_JAR);
        MUST(cookie_jar_remove(&jar, T(NOW_TEXT), T("a")) == COOKIE_NO_JAR);
        MUST(cookie_jar_remove_scoped(&jar, T(NOW_TEXT), T("a"), T("/"), T("b.c")) == COOKIE_NO_JAR);
        MUST(is(cookie_jar_get(&jar, T("a"), OUT), COOKIE_NO_JAR, 0));
        MUST(is(cookie_jar_cookies(&jar, OUT), COOKIE_NO_JAR, 0));
        MUST(is(cookie_jar_delta(&jar, OUT), COOKIE_NO_JAR, 0) && holds(""));
        MUST(cookie_jar_new(1, 2, &jar) == COOKIE_DONE);
        cookie_jar_free(&jar);
        cookie_jar_free(&jar);
    }
}

static void jars(void) {
    cookie_jar jar = {0};
    MUST(cookie_jar_new(1, 2, &jar) == COOKIE_DONE);
    MUST(cookie_jar_add_originals(&jar, T("a=1;\xff=2; b=x%20y")) == COOKIE_DONE);
    MUST(is(cookie_jar_get(&jar, T("b"), OUT), COOKIE_DONE, 3) && holds("x y"));
    MUST(cookie_jar_new(1, 2, &jar) == COOKIE_DONE);
    MUST(is(cookie_jar_get(&jar, T("a"), OUT), COOKIE_NOT_FOUND, 0));
    /* A text that isn't UTF-8 comes first, then a domain that would split a header, then a date that isn't one. */
    MUST(cookie_jar_remove_scoped(&jar, T("\xff"), T("a"), T("/"), T("b\x01" "c")) == COOKIE_NOT_UTF8);
    MUST(cookie_jar_remove_scoped(&jar, T("yesterday"), T("a"), T("/"), T("b\x01" "c")) == COOKIE_INVALID_VALUE);
    MUST(cookie_jar_remove_scoped(&jar, T("yesterday"), T("a"), T("/"), T("b.c")) == COOKIE_NO_DATE);
    MUST(cookie_jar_remove_scoped(&jar, NULL, 0, T("a"), T("/"), NULL, 0) == COOKIE_NO_DATE);
    MUST(cookie_jar_remove(&jar, T("\xff"), T("a")) == COOKIE_NOT_UTF8);
    MUST(cookie_jar_remove(&jar, T("Wed, 32 Oct 2015 07:28:00 GMT"), T("a")) == COOKIE_NO_DATE);
    cookie_jar_free(&jar);
}

/* The session of ann, with the id of bytes 7, and of bob, with the id of bytes 8, under the key of bytes 1. */
#define ANN \
    "__Host-session=BwcHBwcHBwcHBwcH-87egmbKjONu-Uxy0aMviNDKyZsTCEcbfEF7_5EyIdktW7bnpeCI2ZBoCu2FBUCJvi72QqNIUahD6S8Od-" \
    "NbhNYqxtGbvTK1EBy9lPxrBMWYUJwJda0FX674kjr_FGIo412NE3tnKw4mNyqNTRjg_CM"
#define BOB \
    "__Host-session=CAgICAgICAgICAgI7EMxzWi746gPm_6LgfrSxZPYplbzzOwx2GCzDVZBicB8yxc48qiXUTd1RbGOZM3_6eTX5gSBh6TBUCan54" \
    "HBgu5IiEfqdNNUVHGznyBDznky0szdkSuxS_v953Ipn_8-794KpaFpfrQjFXok_RYuIUU"
#define ANN_ID "\7\7\7\7\7\7\7\7\7\7\7\7\7\7\7\7"
#define BOB_ID "\10\10\10\10\10\10\10\10\10\10\10\10\10\10\10\10"

static cookie_session_settings settings(const uint8_t *keys, size_t length, const char *cookie) {
    cookie_session_settings made = {keys, length, (const uint8_t *)cookie, strlen(cookie), 1200, 600};
    return made;
}

static bool needs(cookie_need need, uint32_t status, bool must_save) {
    return need.status == status && need.must_save == must_save;
}

static void settings_that_are_no_sites(void) {
    cookie_sessions sessions = {0};
    cookie_opened opened = {0};
    cookie_session session = {0};
    cookie_session_settings site = settings(KEY, 63, "\xff");
    MUST(cookie_sessions_new(&site, &sessions) == COOKIE_KEY_TOO_SHORT);
    site = settings(KEY, 64, "s=\xff");
    MUST(cookie_sessions_new(&site, &sessions) == COOKIE_NOT_UTF8);
    MUST(is(cookie_session_end(&sessions, LAST + 1, NULL, 0), COOKIE_NO_SESSIONS, 0));
    MUST(cookie_opened_new(&sessions, NULL, 0, LAST + 1, &opened) == COOKIE_NO_SESSIONS);
    MUST(cookie_session_open(&sessions, NULL, 0, LAST + 1, &session) == COOKIE_NO_SESSIONS);
    MUST(cookie_session_start(&sessions, KEY, 15, LAST + 1, &session) == COOKIE_BAD_NONCE);
    MUST(cookie_session_start(&sessions, KEY, 16, LAST + 1, &session) == COOKIE_NO_SESSIONS);
    MUST(cookie_session_renew(&sessions, &session, KEY, 17, LAST + 1) == COOKIE_BAD_NONCE);
    MUST(cookie_session_renew(&sessions, &session, KEY, 16, LAST + 1) == COOKIE_NO_SESSIONS);
    MUST(needs(cookie_session_must_save(&sessions, &session, LAST + 1), COOKIE_NO_SESSIONS, false));
    site = settings(KEY, 64, "s=");
    MUST(cookie_sessions_new(&site, &sessions) == COOKIE_DONE);
    MUST(cookie_opened_new(&sessions, NULL, 0, LAST + 1, &opened) == COOKIE_NO_DATE);
    MUST(cookie_session_open(&sessions, NULL, 0, LAST + 1, &session) == COOKIE_NO_DATE);
    MUST(cookie_session_start(&sessions, KEY, 16, LAST + 1, &session) == COOKIE_NO_DATE);
    MUST(cookie_session_renew(&sessions, &session, KEY, 16, LAST + 1) == COOKIE_NO_DATE);
    MUST(needs(cookie_session_must_save(&sessions, &session, LAST + 1), COOKIE_NO_DATE, false));
    MUST(needs(cookie_session_must_save(&sessions, &session, NOW), COOKIE_NO_SESSION, false));
    MUST(cookie_session_renew(&sessions, &session, KEY, 16, NOW) == COOKIE_NO_SESSION);
    MUST(is(cookie_session_save(&sessions, &session, 0, KEY, 12, NOW, NULL, 0), COOKIE_NO_SESSION, 0));
    MUST(is(cookie_session_save(&sessions, &session, 3, KEY, 11, NOW, NULL, 0), COOKIE_BAD_NONCE, 0));
    MUST(is(cookie_session_save(&sessions, &session, 3, KEY, 12, NOW, NULL, 0), COOKIE_BAD_ATTRIBUTE, 0));
    MUST(cookie_session_describe(&session).status == COOKIE_NO_SESSION);
    MUST(cookie_session_given(&session).status == COOKIE_NO_SESSION);
    MUST(cookie_session_replace(&session, LAST + 1, true) == COOKIE_NO_DATE);
    MUST(cookie_session_replace(&session, NOW, true) == COOKIE_NO_SESSION);
    MUST(cookie_session_log_out(&session, LAST + 1, true) == COOKIE_NO_DATE);
    MUST(cookie_session_log_out(&session, NOW, true) == COOKIE_NO_SESSION);
    MUST(cookie_session_set_generation(&session, 0) == COOKIE_NO_SESSION);
    MUST(!cookie_session_is_since(&session, 0));
    cookie_sessions_free(&sessions);
}

static bool has_limits(const cookie_session_facts *facts, uint64_t started, uint64_t end, uint64_t idle) {
    return facts->started == started && facts->seen == started && facts->end == end && facts->idle == idle;
}

/* The session of ann, as texts, and as it was saved; and what is told of it. */
static void texts_of_sessions(void) {
    uint8_t keys[64];
    memset(keys, 1, sizeof keys);
    cookie_sessions sessions = {0};
    cookie_session session = {0};
    cookie_opened opened = {0};
    cookie_session_settings site = settings(keys, 64, "__Host-session=; Path=/; Secure");
    MUST(cookie_sessions_new(&site, &sessions) == COOKIE_DONE);
    MUST(cookie_session_start(&sessions, KEY, 16, NOW, &session) == COOKIE_DONE);
    MUST(cookie_session_set_texts(&session, T("user=ann")) == COOKIE_DONE);
    GIVES(ANN "; Secure; Path=/; Max-Age=600", cookie_session_save(&sessions, &session, 0, KEY, 12, NOW, EDGE));
    GIVES(ANN "; Secure; Path=/; Max-Age=600; Expires=Wed, 21 Oct 2015 07:38:00 GMT",
          cookie_session_save(&sessions, &session, COOKIE_MAX_AGE_AND_EXPIRES, KEY, 12, NOW, EDGE));
    GIVES(ANN "; Secure; Path=/", cookie_session_save(&sessions, &session, COOKIE_UNTIL_CLOSED, KEY, 12, NOW, EDGE));
    MUST(cookie_opened_new(&sessions, T(BOB "; " ANN), NOW, &opened) == COOKIE_DONE);
    GIVES(BOB_ID ANN_ID, cookie_opened_ids(&opened, EDGE));
    MUST(cookie_session_open(&sessions, T(ANN), NOW, &session) == COOKIE_DONE);
    cookie_session_facts facts = cookie_session_describe(&session);
    MUST(facts.status == COOKIE_DONE && facts.is_opened && facts.index == 0);
    MUST(has_limits(&facts, NOW, NOW + 1200, 600) && memcmp(facts.id, ANN_ID, 16) == 0);
    GIVES("user=ann", cookie_session_texts(&session, EDGE));
    GIVES("\4\0\0\0\0\0\0\0\3\0\0\0\0\0\0\0userann", cookie_session_list(&session, EDGE));
    GIVES("ann", cookie_session_get(&session, T("user"), EDGE));
    GIVES("__Host-session=; Secure; Path=/; Max-Age=0; Expires=Tue, 21 Oct 2014 07:28:00 GMT",
          cookie_session_end(&sessions, NOW, EDGE));
    cookie_opened_free(&opened);
    cookie_session_free(&session);
    cookie_sessions_free(&sessions);
}

/* What the browser has is another pass than that of a handle's session. */
static bool is_given(cookie_session *session, uint32_t status, const char *id, uint64_t end) {
    cookie_pass given = cookie_session_given(session);
    return given.status == status && given.end == end && memcmp(given.id, id, 16) == 0;
}

/* A renewed session replaces what the browser has. A refusal of a larger one comes first, and nothing is replaced then. */
static void renewals(void) {
    static const char NONE[16] = {0};
    uint8_t keys[64], large[4000];
    memset(keys, 1, sizeof keys);
    memset(large, 'a', sizeof large);
    cookie_sessions sessions = {0};
    cookie_session session = {0}, other = {0};
    cookie_session_settings site = settings(keys, 64, "__Host-session=; Path=/; Secure");
    MUST(cookie_sessions_new(&site, &sessions) == COOKIE_DONE);
    MUST(cookie_session_start(&sessions, KEY, 16, NOW, &other) == COOKIE_DONE);
    MUST(is_given(&other, COOKIE_NOT_FOUND, NONE, 0));
    MUST(cookie_session_replace(&other, NOW, false) == COOKIE_NOT_FOUND);
    MUST(cookie_session_log_out(&other, NOW, true) == COOKIE_NOT_FOUND);
    MUST(cookie_session_open(&sessions, T(ANN), NOW, &session) == COOKIE_DONE);
    MUST(is_given(&session, COOKIE_DONE, ANN_ID, NOW + 1200));
    MUST(cookie_session_renew(&sessions, &session, (const uint8_t *)BOB_ID, 16, NOW + 5) == COOKIE_DONE);
    MUST(is_given(&session, COOKIE_DONE, ANN_ID, NOW + 1200));
    MUST(cookie_session_set(&session, T("a"), large, sizeof large) == COOKIE_DONE);
    MUST(cookie_session_save(&sessions, &session, 0, KEY, 12, NOW + 5, NULL, 0).status == COOKIE_TOO_LARGE);
    MUST(cookie_session_remove(&session, T("a")) == COOKIE_DONE);
    MUST(is(cookie_session_save(&sessions, &session, 0, KEY, 12, NOW + 5, NULL, 0), COOKIE_REPLACES, 0));
    MUST(cookie_session_replace(&session, NOW + 1200, false) == COOKIE_GONE);
    MUST(cookie_session_log_out(&session, NOW + 1200, false) == COOKIE_GONE);
    MUST(cookie_session_replace(&session, NOW + 1199, true) == COOKIE_GONE);
    MUST(is_given(&session, COOKIE_DONE, ANN_ID, NOW + 1200));
    MUST(cookie_session_replace(&session, NOW + 1199, false) == COOKIE_DONE);
    MUST(is_given(&session, COOKIE_NOT_FOUND, NONE, 0));
    MUST(cookie_session_save(&sessions, &session, 0, KEY, 12, NOW + 5, NULL, 0).status == COOKIE_BUFFER_TOO_SHORT);
    MUST(is_given(&session, COOKIE_NOT_FOUND, NONE, 0));
    MUST(cookie_session_save(&sessions, &session, 0, KEY, 12, NOW + 5, large, sizeof large).status == COOKIE_DONE);
    MUST(is_given(&session, COOKIE_DONE, BOB_ID, NOW + 1205));
    MUST(cookie_session_set_generation(&session, 18446744073709551615u) == COOKIE_DONE);
    MUST(cookie_session_is_since(&session, 18446744073709551615u));
    MUST(is(cookie_session_get(&session, T("generation"), OUT), COOKIE_DONE, 20) && holds("18446744073709551615"));
    MUST(cookie_session_log_out(&session, NOW + 5, false) == COOKIE_DONE);
    MUST(cookie_session_describe(&session).status == COOKIE_NO_SESSION);
    cookie_sessions_free(&sessions);
    cookie_session_free(&session);
    cookie_session_free(&other);
}

/* A handle without opened sessions is refused, also after it was freed. Ids that are cut come first. */
static void handles_without_opened_sessions(void) {
    cookie_opened opened = {0};
    cookie_session session = {0};
    for (int turn = 0; turn < 2; turn++) {
        MUST(is(cookie_opened_ids(&opened, OUT), COOKIE_NO_SESSION, 0) && holds(""));
        MUST(cookie_opened_take(&opened, KEY, 15, &session) == COOKIE_BAD_IDS);
        MUST(cookie_opened_take(&opened, NULL, 0, &session) == COOKIE_NO_SESSION);
        MUST(cookie_session_describe(&session).status == COOKIE_NO_SESSION);
        cookie_opened_free(&opened);
    }
}

/* Two sessions in one header: the first that isn't revoked is taken, and a refusal leaves both. */
static void opened_sessions(void) {
    uint8_t keys[64];
    memset(keys, 1, sizeof keys);
    cookie_sessions sessions = {0};
    cookie_opened opened = {0};
    cookie_session session = {0};
    cookie_session_settings site = settings(keys, 64, "__Host-session=; Path=/; Secure");
    MUST(cookie_sessions_new(&site, &sessions) == COOKIE_DONE);
    MUST(cookie_opened_new(&sessions, T("a=1; __Host-session=x; b=2"), NOW, &opened) == COOKIE_DONE);
    MUST(is(cookie_opened_ids(&opened, OUT), COOKIE_DONE, 0) && holds(""));
    MUST(cookie_opened_take(&opened, NULL, 0, &session) == COOKIE_NO_SESSION);
    MUST(cookie_opened_new(&sessions, T(BOB "; " ANN), NOW, &opened) == COOKIE_DONE);
    MUST(cookie_opened_take(&opened, T(ANN_ID "\7"), &session) == COOKIE_BAD_IDS);
    MUST(cookie_opened_take(&opened, T(ANN_ID BOB_ID), &session) == COOKIE_NO_SESSION);
    MUST(cookie_session_describe(&session).status == COOKIE_NO_SESSION);
    MUST(is(cookie_opened_ids(&opened, OUT), COOKIE_DONE, 32) && holds(BOB_ID ANN_ID));
    MUST(cookie_opened_take(&opened, T(BOB_ID), &session) == COOKIE_DONE);
    MUST(is(cookie_session_texts(&session, OUT), COOKIE_DONE, 8) && holds("user=ann"));
    MUST(is(cookie_opened_ids(&opened, OUT), COOKIE_NO_SESSION, 0) && holds(""));
    cookie_sessions_free(&sessions);
    cookie_opened_free(&opened);
    cookie_session_free(&session);
}

static cookie_request request_to(const char *host, const char *path) {
    const uint8_t *at = (const uint8_t *)host, *path_at = (const uint8_t *)path;
    return (cookie_request){at, strlen(host), path_at, strlen(path), false, true, true, true, true};
}

static void texts_of_browsers(void) {
    cookie_request request = request_to("github.io", "/dir/page");
    cookie_suffixes suffixes = {0};
    MUST(cookie_suffixes_new(NULL, 0, &suffixes) == COOKIE_DONE);
    GIVES("nvgithub.io/dir", of_explanation(cookie_explain(&suffixes, &request, T("n=v; Max-Age=9"), NOW, EDGE)));
    GIVES("SameSite=None needs Secure: set Secure over httpsStorage Model",
          of_explanation(cookie_explain(&suffixes, &request, T("n=v; SameSite=None"), NOW, EDGE)));
    GIVES("SameSite=None needs Secure: set Secure over https", cookie_refusal_sentence(10, EDGE));
    GIVES("Storage Model", cookie_refusal_section(10, EDGE));
    GIVES("no Cookie header\n", cookie_explain_lines(&suffixes, T("https://a.b/"), false, NOW, NULL, 0, EDGE));
    GIVES("xn--bcher-kva.example/b", of_url(cookie_read_url(T("HTTPS://B\xc3\xbc" "cher.example:81/a/../b?c"), EDGE)));
    MUST(is(cookie_refusal_sentence(15, OUT), COOKIE_NOT_FOUND, 0) && holds(""));
    MUST(is(cookie_refusal_section(UINT32_MAX, OUT), COOKIE_NOT_FOUND, 0) && holds(""));
    cookie_suffixes_free(&suffixes);
}

/* What would be stored is told without room for it. With an empty list a domain of two labels is no public suffix. A path
 * without a slash at its start counts as the root. The last time is 9999-12-30 22:00:00. */
static void explanations(void) {
    const uint64_t late[] = {LAST + 1, (uint64_t)1 << 63, UINT64_MAX};
    cookie_request request = request_to("github.io", "page");
    cookie_suffixes suffixes = {0};
    MUST(cookie_suffixes_new(NULL, 0, &suffixes) == COOKIE_DONE);
    cookie_explanation why = cookie_explain(&suffixes, &request, T("n=v; Max-Age=9; Domain=github.io"), LAST, NULL, 0);
    MUST(why.status == COOKIE_BUFFER_TOO_SHORT && why.refusal == 0 && why.stored.lifetime == 9 && !why.stored.is_host_only);
    MUST(lies(why.stored.domain, 2, 9) && lies(why.stored.path, 11, 1));
    for (size_t i = 0; i < sizeof late / sizeof *late; i++) {
        why = cookie_explain(&suffixes, &request, T("n=v"), late[i], OUT);
        MUST(why.status == COOKIE_NO_DATE && why.refusal == 0 && why.stored.path.length == 0 && holds(""));
    }
    cookie_suffixes_free(&suffixes);
}

/* What is told of a URL without room for its parts (URL Standard), and what is none. */
static void urls(void) {
    static const char *const others[] = {"", "ftp://a.example/", "https://", "https://a b/", "a.example"};
    cookie_url_reading reading = cookie_read_url(T("HTTPS://A.example:81/a/../b?c"), OUT);
    MUST(reading.status == COOKIE_DONE && lies(reading.host, 0, 9) && lies(reading.path, 9, 2));
    MUST(reading.is_https && !reading.is_address && !reading.is_local && holds("a.example/b"));
    reading = cookie_read_url(T("http://0x7f.1"), NULL, 0);
    MUST(reading.status == COOKIE_BUFFER_TOO_SHORT && lies(reading.path, 9, 1));
    MUST(!reading.is_https && reading.is_address && reading.is_local);
    for (size_t i = 0; i < sizeof others / sizeof *others; i++)
        MUST(cookie_read_url((const uint8_t *)others[i], strlen(others[i]), OUT).status == COOKIE_NO_URL && holds(""));
    MUST(cookie_read_url(T("https://\xff/"), OUT).status == COOKIE_NOT_UTF8 && holds(""));
}

/* What is said of lines, or why nothing is. */
static void reports(void) {
    cookie_suffixes none = {0}, suffixes = {0};
    MUST(is(cookie_explain_lines(&none, T("x"), false, LAST + 1, T(""), OUT), COOKIE_NO_SUFFIXES, 0));
    MUST(cookie_suffixes_new(NULL, 0, &suffixes) == COOKIE_DONE);
    MUST(is(cookie_explain_lines(&suffixes, T("\xff"), false, LAST + 1, T(""), OUT), COOKIE_NO_DATE, 0));
    MUST(is(cookie_explain_lines(&suffixes, T("\xff"), false, LAST, T(""), OUT), COOKIE_NOT_UTF8, 0));
    MUST(is(cookie_explain_lines(&suffixes, T("x"), false, LAST, T(""), OUT), COOKIE_NO_URL, 0));
    MUST(is(cookie_explain_lines(&suffixes, T("https://a.b/"), true, NOW, T("GET http://a.b/ x"), OUT), COOKIE_NO_URL, 0));
    MUST(is(cookie_explain_lines(&suffixes, T("https://a.b/"), true, NOW, T("NOW then"), OUT), COOKIE_NO_DATE, 0));
    MUST(holds(""));
    cookie_suffixes_free(&suffixes);
}

/* A token's times and its id are told, also where its value has no room, and of no other text. */
static void tokens(void) {
    cookie_token_settings settings = {T("password reset"), 1200};
    cookie_keys keys = {0};
    uint8_t text[128];
    holds("");
    MUST(is(cookie_token_make(&keys, &settings, T("ann"), KEY, 11, NOW, OUT), COOKIE_BAD_NONCE, 0));
    MUST(is(cookie_token_make(&keys, &settings, T("ann"), KEY, 12, NOW, OUT), COOKIE_NO_KEYS, 0));
    MUST(cookie_token_read(&keys, &settings, T("ann"), NOW, OUT).status == COOKIE_NO_KEYS && holds(""));
    MUST(cookie_keys_new(KEY, sizeof KEY, &keys) == COOKIE_DONE);
    cookie_answer made = cookie_token_make(&keys, &settings, T("ann"), KEY, 12, NOW, text, sizeof text);
    MUST(made.status == COOKIE_DONE && made.length > 16);
    cookie_token_reading token = cookie_token_read(&keys, &settings, text, made.length, NOW + 1199, NULL, 0);
    MUST(token.status == COOKIE_BUFFER_TOO_SHORT && token.length == 3);
    MUST(token.made == NOW && token.end == NOW + 1200 && memcmp(token.id, text, 16) == 0);
    cookie_token_reading over = cookie_token_read(&keys, &settings, text, made.length, NOW + 1200, OUT), none = {0};
    none.status = COOKIE_NOT_SEALED;
    MUST(over.status == none.status && over.length == 0 && over.made == 0 && over.end == 0);
    MUST(memcmp(over.id, none.id, 16) == 0);
    cookie_keys_free(&keys);
}

static const char FILE_OF_LINES[] = "a.example\tFALSE\t/\tFALSE\t1445500000\tn\tv\nbad\n\nworse\n"
                                   "b.example\tFALSE\t/\tFALSE\t1445500000\tn\tv\nworst\n";

/* An agent that reads a cookie, sends it, tells it, saves it, and drops it again. */
static void texts_of_agents(void) {
    cookie_agent agent = {0};
    cookie_suffixes suffixes = {0};
    cookie_request request = request_to("a.example", "/");
    MUST(cookie_suffixes_new(NULL, 0, &suffixes) == COOKIE_DONE && cookie_agent_new(&agent) == COOKIE_DONE);
    cookie_agent_reading reading = cookie_agent_read(&agent, &suffixes, &request, T("n=v; Max-Age=87520"), NOW);
    MUST(reading.status == COOKIE_DONE && reading.refusal == 0);
    GIVES("n=v", cookie_agent_header(&agent, &request, NOW, EDGE));
    GIVES("n=v", cookie_agent_retrieve(&agent, &request, NOW, EDGE));
    GIVES("nva.example/", of_explanation(cookie_agent_cookie(&agent, 0, NOW, EDGE)));
    GIVES("# Netscape HTTP Cookie File\na.example\tFALSE\t/\tFALSE\t1445500000\tn\tv\n",
          of_saving(cookie_agent_save(&agent, 0, NOW, EDGE)));
    MUST(cookie_agent_remove(&agent, T("n"), T("a.example"), true, T("/")) == COOKIE_DONE);
    MUST(cookie_agent_remove(&agent, T("n"), T("a.example"), true, T("/")) == COOKIE_NOT_FOUND);
    MUST(cookie_agent_clear(&agent, T("\xff")) == COOKIE_DONE && cookie_agent_clear(&agent, NULL, 0) == COOKIE_DONE);
    MUST(cookie_agent_evict(&agent, NOW) == COOKIE_DONE);
    MUST(cookie_agent_trim(&agent, &suffixes, 50, 150, 3000, NOW) == COOKIE_DONE);
    cookie_agent_free(&agent);
    cookie_suffixes_free(&suffixes);
}

/* Why a request doesn't send a cookie; the refusals are in their order. */
static void obstacles(void) {
    size_t lines[1] = {0};
    cookie_agent agent = {0};
    cookie_suffixes suffixes = {0};
    cookie_request request = {(const uint8_t *)"\xff", 1, (const uint8_t *)"/x", 2, false, false, false, false, true};
    MUST(cookie_agent_obstacles(&agent, 9, &request, LAST + 1).status == COOKIE_NO_AGENT);
    MUST(cookie_suffixes_new(NULL, 0, &suffixes) == COOKIE_DONE && cookie_agent_new(&agent) == COOKIE_DONE);
    MUST(cookie_agent_load(&agent, &suffixes, 0, T(FILE_OF_LINES), 50, 150, 3000, NOW, lines, 1).status == COOKIE_DONE);
    MUST(cookie_agent_obstacles(&agent, 9, &request, LAST + 1).status == COOKIE_NO_DATE);
    MUST(cookie_agent_obstacles(&agent, 9, &request, NOW).status == COOKIE_NOT_UTF8);
    request.host = (const uint8_t *)"A.EXAMPLE", request.host_length = 9;
    cookie_obstacles why = cookie_agent_obstacles(&agent, 2, &request, NOW);
    MUST(why.status == COOKIE_NOT_FOUND && why.obstacles == 0);
    why = cookie_agent_obstacles(&agent, 0, &request, NOW);
    MUST(why.status == COOKIE_DONE && why.obstacles == COOKIE_OBSTACLE_SAME_SITE);
    request.is_same_site = true;
    MUST(cookie_agent_obstacles(&agent, 0, &request, NOW).obstacles == 0);
    why = cookie_agent_obstacles(&agent, 1, &request, 1445500000);
    MUST(why.obstacles == (COOKIE_OBSTACLE_EXPIRED | COOKIE_OBSTACLE_HOST));
    cookie_agent_free(&agent);
    cookie_suffixes_free(&suffixes);
}

/* How many cookies are stored, and which lines of a text are bad: as many as the array has room for. */
static void agents(void) {
    size_t lines[4] = {7, 7, 7, 7};
    cookie_agent agent = {0};
    cookie_suffixes suffixes = {0};
    MUST(is(cookie_agent_count(&agent), COOKIE_NO_AGENT, 0));
    cookie_agent_loading loading = cookie_agent_load(&agent, &suffixes, 2, NULL, 0, 50, 150, 3000, LAST + 1, lines, 4);
    MUST(loading.status == COOKIE_NO_SUFFIXES && loading.bad_lines == 0 && lines[0] == 7);
    MUST(cookie_suffixes_new(NULL, 0, &suffixes) == COOKIE_DONE && cookie_agent_new(&agent) == COOKIE_DONE);
    MUST(is(cookie_agent_count(&agent), COOKIE_DONE, 0));
    loading = cookie_agent_load(&agent, &suffixes, 2, T(FILE_OF_LINES), 50, 150, 3000, LAST + 1, lines, 4);
    MUST(loading.status == COOKIE_BAD_ATTRIBUTE && loading.bad_lines == 0);
    loading = cookie_agent_load(&agent, &suffixes, 0, T(FILE_OF_LINES), 50, 150, 3000, LAST + 1, lines, 4);
    MUST(loading.status == COOKIE_NO_DATE && loading.bad_lines == 0 && lines[0] == 7);
    loading = cookie_agent_load(&agent, &suffixes, 0, T(FILE_OF_LINES), 50, 150, 3000, NOW, lines, 2);
    MUST(loading.status == COOKIE_DONE && loading.bad_lines == 3 && lines[0] == 2 && lines[1] == 4 && lines[2] == 7);
    MUST(is(cookie_agent_count(&agent), COOKIE_DONE, 2));
    loading = cookie_agent_load(&agent, &suffixes, 0, T(FILE_OF_LINES), 50, 150, 3000, NOW, lines, 4);
    MUST(loading.bad_lines == 3 && lines[0] == 2 && lines[1] == 4 && lines[2] == 6 && lines[3] == 7);
    loading = cookie_agent_load(&agent, &suffixes, 0, T(FILE_OF_LINES), 50, 150, 3000, NOW, NULL, 0);
    MUST(loading.status == COOKIE_DONE && loading.bad_lines == 3);
    MUST(is(cookie_agent_count(&agent), COOKIE_DONE, 2));
    loading = cookie_agent_load(&agent, &suffixes, 0, T(FILE_OF_LINES), 50, 150, 1, NOW, NULL, 0);
    MUST(loading.status == COOKIE_DONE && loading.bad_lines == 3);
    MUST(is(cookie_agent_count(&agent), COOKIE_DONE, 1));
    cookie_agent_free(&agent);
    MUST(is(cookie_agent_count(&agent), COOKIE_NO_AGENT, 0));
    cookie_suffixes_free(&suffixes);
}

/* A text signed and verified, and a jar's value, in a buffer that the inputs lie in too. The header forbids it. The answers
 * are right, and nothing beyond the buffer changes. */
static void overlaps(void) {
    cookie_keys keys = {0};
    cookie_jar jar = {0};
    MUST(cookie_keys_new(KEY, sizeof KEY, &keys) == COOKIE_DONE && cookie_jar_new(1, 2, &jar) == COOKIE_DONE);
    MUST(cookie_jar_add(&jar, T("session=v")) == COOKIE_DONE);
    for (size_t at = 0; at < 60; at++) {
        uint8_t bytes[180];
        memset(bytes, 0xa5, sizeof bytes);
        bytes[60 + at] = 'v';
        MUST(is(cookie_sign(&keys, T("n"), bytes + 60 + at, 1, bytes + 60, 60), COOKIE_DONE, 45));
        MUST(memcmp(bytes + 60, SIGNED, 45) == 0);
        memcpy(bytes + 60 + at, SIGNED, 45);
        MUST(is(cookie_verify(&keys, T("n"), bytes + 60 + at, 45, bytes + 60, 60), COOKIE_DONE, 1) && bytes[60] == 'v');
        memcpy(bytes + 60 + at, "session", 7);
        MUST(is(cookie_jar_get(&jar, bytes + 60 + at, 7, bytes + 60, 60), COOKIE_DONE, 1) && bytes[60] == 'v');
        for (size_t i = 0; i < 60; i++)
            MUST(bytes[i] == 0xa5 && (i < 45 || 120 + i < 60 + at + 45 || bytes[120 + i] == 0xa5));
    }
    cookie_keys_free(&keys);
    cookie_jar_free(&jar);
}

/* What is made of calls on handles, one after the other. */
typedef struct handles {
    cookie_jar jar;
    cookie_sessions sessions;
    cookie_opened opened;
    cookie_session session;
} handles;

/* The call of this number. What it writes isn't looked at. */
static uint32_t call(int number, handles *on) {
    static uint8_t text[1000];
    const cookie_session_settings site = settings(KEY, sizeof KEY, "s=; Path=/");
    switch (number) {
    case 0: return cookie_jar_new(1, 2, &on->jar);
    case 1: return cookie_jar_add_originals(&on->jar, T("name=val; n=x%20y"));
    case 2: return cookie_jar_add(&on->jar, T("a=1; Path=/"));
    case 3: return cookie_jar_remove(&on->jar, T(NOW_TEXT), T("name"));
    case 4: return cookie_jar_remove_scoped(&on->jar, T(NOW_TEXT), T("n"), T("/p"), T(".b.c"));
    case 5: return cookie_jar_delta(&on->jar, text, sizeof text).status;
    case 6: return cookie_jar_cookies(&on->jar, text, sizeof text).status;
    case 7: return cookie_sessions_new(&site, &on->sessions);
    case 8: return cookie_session_start(&on->sessions, KEY, 16, NOW, &on->session);
    case 9: return cookie_session_set(&on->session, T("b"), T("2"));
    case 10: return cookie_session_set_texts(&on->session, T("a=1&b=%20"));
    case 11: return cookie_session_set_generation(&on->session, 7);
    case 12: return cookie_session_save(&on->sessions, &on->session, 0, KEY, 12, NOW, text, sizeof text).status;
    case 13: return cookie_session_open(&on->sessions, text, strcspn((const char *)text, ";"), NOW, &on->session);
    case 14: return cookie_opened_new(&on->sessions, text, strcspn((const char *)text, ";"), NOW, &on->opened);
    case 15: return cookie_opened_ids(&on->opened, text, sizeof text).status;
    case 16: return cookie_opened_take(&on->opened, NULL, 0, &on->session);
    case 17: return cookie_read_decoded(T("a%20b=c%3D; Path=/"), text, sizeof text).status;
    default: return cookie_next_pair_decoded(T("a%20b=c%3D"), 0, text, sizeof text).status;
    }
}

/* What the handles have: a jar's values, and a session's texts with its id. */
static size_t state_of(handles *on, uint8_t *state, size_t length) {
    static const char *const names[] = {"a", "n", "name"};
    size_t used = 16;
    memcpy(state, cookie_session_describe(&on->session).id, used);
    for (size_t i = 0; i < 3; i++)
        used += cookie_jar_get(&on->jar, (const uint8_t *)names[i], strlen(names[i]), state + used, length - used).length;
    return used + cookie_session_texts(&on->session, state + used, length - used).length;
}

/* Calls of which each has each of its requests for memory refused in turn. It says so, and leaves the handles as they were;
 * and once none is refused, it is done. */
static void starve(void) {
    handles on;
    memset(&on, 0, sizeof on);
    for (int number = 0; number < 19; number++) {
        uint8_t before[300] = {0}, after[300] = {0};
        uint32_t status = COOKIE_OUT_OF_MEMORY;
        size_t length = state_of(&on, before, sizeof before), refused = 0;
        while (status == COOKIE_OUT_OF_MEMORY && refused < 1000) {
            refuse(++refused);
            status = call(number, &on);
            bool was_refused = asked >= refused;
            refuse(0);
            if (status == COOKIE_OUT_OF_MEMORY)
                MUST(was_refused && state_of(&on, after, sizeof after) == length && memcmp(before, after, length) == 0);
        }
        MUST(status == COOKIE_DONE);
    }
    refuse(0);
    MUST(cookie_read_decoded(T("a=b; Path=/%20"), OUT).status == COOKIE_DONE && asked == 0 && holds("ab"));
    cookie_jar_free(&on.jar);
    cookie_session_free(&on.session);
    cookie_opened_free(&on.opened);
    cookie_sessions_free(&on.sessions);
}

int main(void) {
    memset(KEY, 7, sizeof KEY);
    memory = region();
    holds("");
    MUST(cookie_version() == COOKIE_VERSION);
    texts_of_keys();
    texts_of_cookies();
    keys_and_nonces();
    dates_out_of_range();
    attributes_and_texts();
    offsets_of_a_header();
    readings_without_room();
    pairs_of_a_header();
    handles_without_a_jar();
    jars();
    settings_that_are_no_sites();
    texts_of_sessions();
    renewals();
    handles_without_opened_sessions();
    opened_sessions();
    texts_of_browsers();
    explanations();
    urls();
    reports();
    tokens();
    agents();
    obstacles();
    texts_of_agents();
    overlaps();
    starve();
    printf("cases: %d faults\n", faults);
    return faults != 0;
}
