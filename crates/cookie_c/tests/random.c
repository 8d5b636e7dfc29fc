/* Plays cookie_random.h, as C and as C++. The system's generator is replaced by one that fails, and by one that gives
 * known bytes, a few at a time between signals. Then each call makes what the one of cookie.h makes of these bytes. */
#include "cookie_random.h"
#include <stdio.h>
#include <string.h>

enum generator { OF_THE_SYSTEM, IN_PIECES, FAILS, FAILS_LATER, GIVES_NOTHING };

static enum generator generator = OF_THE_SYSTEM;
/* How often it was called, and how many bytes it gave, since it was chosen. */
static size_t calls = 0, given = 0;
static int faults = 0;

#ifdef __cplusplus
extern "C" {
#endif
ssize_t __real_getrandom(void *out, size_t length, unsigned int flags);
ssize_t __wrap_getrandom(void *out, size_t length, unsigned int flags);
#ifdef __cplusplus
}
#endif

static ssize_t fail_with(int error) {
    errno = error;
    return -1;
}

/* Gives the bytes 1, 2, 3 and so on, but no more than five at once. */
static ssize_t give(uint8_t *out, size_t length) {
    size_t count = length < 5 ? length : 5;
    for (size_t i = 0; i < count; i++)
        out[i] = (uint8_t)++given;
    return (ssize_t)count;
}

ssize_t __wrap_getrandom(void *out, size_t length, unsigned int flags) {
    calls++;
    switch (generator) {
    case IN_PIECES:
        return calls % 3 == 2 ? give((uint8_t *)out, length) : fail_with(EINTR);
    case FAILS:
        return fail_with(ENOSYS);
    case FAILS_LATER:
        return calls == 1 ? give((uint8_t *)out, length) : fail_with(EAGAIN);
    case GIVES_NOTHING:
        return 0;
    default:
        return __real_getrandom(out, length, flags);
    }
}

static void choose(enum generator chosen) {
    generator = chosen;
    calls = given = 0;
}

static void check(bool is_right, const char *what) {
    if (is_right)
        return;
    fprintf(stderr, "WRONG with the generator %d: %s\n", (int)generator, what);
    faults++;
}

#define TEXT(s) (const uint8_t *)(s), strlen(s)
#define IN(text) (text).bytes, (text).answer.length

enum { ROOM = 500, NOW = 1445412480 };

typedef struct text {
    cookie_answer answer;
    uint8_t bytes[ROOM];
} text;

static cookie_keys keys;
static cookie_sessions sessions;
static cookie_session session;
static cookie_jar jar;
static cookie_token_settings settings;

/* The calls that write a text, by number: with bytes that are drawn, or with these. */
enum { WRITERS = 4 };
static const char *const WRITER_NAMES[] = {"seal", "run", "session_save", "token_make"};

static text write_drawn(int writer) {
    text made;
    memset(&made, 0xa5, sizeof made);
    const char *date = "Wed, 21 Oct 2015 07:28:00 GMT", *input = "a=1; b=2\nadd c=3\nremove a";
    if (writer == 0)
        made.answer = cookie_seal_drawn(&keys, TEXT("name"), TEXT("value"), made.bytes, ROOM);
    else if (writer == 1)
        made.answer = cookie_run_drawn(TEXT(date), TEXT(input), made.bytes, ROOM);
    else if (writer == 2)
        made.answer = cookie_session_save_drawn(&sessions, &session, COOKIE_MAX_AGE, NOW, made.bytes, ROOM);
    else
        made.answer = cookie_token_make_drawn(&keys, &settings, TEXT("value"), NOW, made.bytes, ROOM);
    return made;
}

static text write_with(int writer, const uint8_t *bytes) {
    text made;
    memset(&made, 0xa5, sizeof made);
    uint64_t seeds[2];
    memcpy(seeds, bytes, sizeof seeds);
    const char *date = "Wed, 21 Oct 2015 07:28:00 GMT", *input = "a=1; b=2\nadd c=3\nremove a";
    if (writer == 0)
        made.answer = cookie_seal(&keys, bytes, 12, TEXT("name"), TEXT("value"), made.bytes, ROOM);
    else if (writer == 1)
        made.answer = cookie_run(seeds[0], seeds[1], TEXT(date), TEXT(input), made.bytes, ROOM);
    else if (writer == 2)
        made.answer = cookie_session_save(&sessions, &session, COOKIE_MAX_AGE, bytes, 12, NOW, made.bytes, ROOM);
    else
        made.answer = cookie_token_make(&keys, &settings, TEXT("value"), bytes, 12, NOW, made.bytes, ROOM);
    return made;
}

static bool are_same(const text *one, const text *other) {
    return one->answer.status == other->answer.status && one->answer.length == other->answer.length
        && memcmp(one->bytes, other->bytes, ROOM) == 0;
}

static bool is(const uint8_t *bytes, size_t length, const char *wanted) {
    return length == strlen(wanted) && memcmp(bytes, wanted, length) == 0;
}

/* What is sealed opens, and so on. */
static void play_round(void) {
    uint8_t value[100];
    text sealed = write_drawn(0), saved = write_drawn(2), token = write_drawn(3);
    cookie_answer opened = cookie_open(&keys, TEXT("name"), IN(sealed), value, sizeof value);
    check(opened.status == COOKIE_DONE && is(value, opened.length, "value"), "what is sealed doesn't open");
    cookie_token_reading read = cookie_token_read(&keys, &settings, IN(token), NOW, value, sizeof value);
    check(read.status == COOKIE_DONE && is(value, read.length, "value"), "a token isn't read");
    cookie_session found;
    memset(&found, 0, sizeof found);
    const uint8_t *end = (const uint8_t *)memchr(saved.bytes, ';', saved.answer.length);
    check(end != NULL && cookie_session_open(&sessions, saved.bytes, (size_t)(end - saved.bytes), NOW, &found)
              == COOKIE_DONE,
          "a saved session doesn't open");
    opened = cookie_session_get(&found, TEXT("user"), value, sizeof value);
    check(opened.status == COOKIE_DONE && is(value, opened.length, "ann"), "a saved session lacks its text");
    cookie_session_free(&found);
}

/* Two draws differ. */
static void play_twice(void) {
    for (int writer = 0; writer < WRITERS; writer++) {
        text one = write_drawn(writer), other = write_drawn(writer);
        check(one.answer.status == COOKIE_DONE && other.answer.status == COOKIE_DONE, WRITER_NAMES[writer]);
        /* The seeds only say how names are hashed. */
        check(writer == 1 || !are_same(&one, &other), WRITER_NAMES[writer]);
    }
    uint8_t ids[3][COOKIE_ID_LENGTH];
    for (int i = 0; i < 3; i++) {
        uint32_t status =
            i < 2 ? cookie_session_start_drawn(&sessions, NOW, &session) : cookie_session_renew_drawn(&sessions, &session, NOW);
        check(status == COOKIE_DONE, "a session doesn't start");
        memcpy(ids[i], cookie_session_describe(&session).id, COOKIE_ID_LENGTH);
    }
    check(memcmp(ids[0], ids[1], 16) != 0 && memcmp(ids[1], ids[2], 16) != 0, "two sessions have one id");
    cookie_session_set(&session, TEXT("user"), TEXT("ann"));
}

/* Each call uses all bytes that are drawn, in their order. */
static void play_pieces(void) {
    uint8_t wanted[300], drawn[300];
    for (size_t i = 0; i < sizeof wanted; i++)
        wanted[i] = (uint8_t)(i + 1);
    for (int writer = 0; writer < WRITERS; writer++) {
        text with = write_with(writer, wanted);
        choose(IN_PIECES);
        text made = write_drawn(writer);
        check(are_same(&made, &with), WRITER_NAMES[writer]);
        check(given == (writer == 1 ? 16 : 12), "another number of bytes is drawn");
    }
    for (int i = 0; i < 2; i++) {
        choose(IN_PIECES);
        uint32_t status =
            i == 0 ? cookie_session_start_drawn(&sessions, NOW, &session) : cookie_session_renew_drawn(&sessions, &session, NOW);
        check(status == COOKIE_DONE, "a session doesn't start");
        check(memcmp(cookie_session_describe(&session).id, wanted, 16) == 0, "the id isn't what was drawn");
    }
    cookie_session_set(&session, TEXT("user"), TEXT("ann"));
    choose(IN_PIECES);
    check(cookie_jar_new_drawn(&jar) == COOKIE_DONE && given == 16, "a jar isn't made");
    choose(IN_PIECES);
    check(cookie_draw(drawn, sizeof drawn) == COOKIE_DONE && memcmp(drawn, wanted, sizeof drawn) == 0,
          "the bytes aren't what was drawn");
    choose(IN_PIECES);
    check(cookie_draw(NULL, 0) == COOKIE_DONE && calls == 0, "no bytes are drawn");
}

/* Without random bytes nothing is written and nothing changes. */
static void play_failure(enum generator chosen) {
    text untouched;
    memset(&untouched, 0xa5, sizeof untouched);
    untouched.answer.status = COOKIE_NO_RANDOM;
    untouched.answer.length = 0;
    for (int writer = 0; writer < WRITERS; writer++) {
        choose(chosen);
        text made = write_drawn(writer);
        check(are_same(&made, &untouched), WRITER_NAMES[writer]);
    }
    cookie_session_facts facts = cookie_session_describe(&session);
    cookie_session held = session;
    cookie_jar kept = jar;
    choose(chosen);
    check(cookie_session_start_drawn(&sessions, NOW + 1, &session) == COOKIE_NO_RANDOM, "a session starts");
    choose(chosen);
    check(cookie_session_renew_drawn(&sessions, &session, NOW + 1) == COOKIE_NO_RANDOM, "a session is renewed");
    choose(chosen);
    check(cookie_jar_new_drawn(&jar) == COOKIE_NO_RANDOM, "a jar is made");
    cookie_session_facts after = cookie_session_describe(&session);
    check(held.handle.held.at == session.handle.held.at && kept.handle.held.at == jar.handle.held.at
              && memcmp(facts.id, after.id, sizeof facts.id) == 0 && facts.started == after.started,
          "a handle has changed");
    uint8_t byte;
    choose(chosen);
    check(cookie_draw(&byte, 1) == (chosen == FAILS_LATER ? (uint32_t)COOKIE_DONE : (uint32_t)COOKIE_NO_RANDOM),
          "a byte is drawn");
    check(cookie_status_text(COOKIE_NO_RANDOM)[0] == '\0', "a status of cookie.h has the number");
}

int main(void) {
    cookie_session_settings site;
    uint8_t key[COOKIE_KEY_LENGTH];
    const char *cookie = "session=; Path=/; Secure";
    if (cookie_draw(key, sizeof key) != COOKIE_DONE || cookie_keys_new(key, sizeof key, &keys) != COOKIE_DONE)
        return 2;
    memset(&site, 0, sizeof site);
    site.keys = key;
    site.keys_length = sizeof key;
    site.cookie = (const uint8_t *)cookie;
    site.cookie_length = strlen(cookie);
    site.lifetime = site.idle = 600;
    settings.purpose = (const uint8_t *)"password reset";
    settings.purpose_length = strlen("password reset");
    settings.lifetime = 600;
    if (cookie_sessions_new(&site, &sessions) != COOKIE_DONE || cookie_jar_new_drawn(&jar) != COOKIE_DONE
        || cookie_session_start_drawn(&sessions, NOW, &session) != COOKIE_DONE)
        return 2;
    play_twice();
    play_round();
    play_pieces();
    play_round();
    play_failure(FAILS);
    play_failure(FAILS_LATER);
    play_failure(GIVES_NOTHING);
    cookie_jar_free(&jar);
    cookie_session_free(&session);
    cookie_sessions_free(&sessions);
    cookie_keys_free(&keys);
    printf("cookie_random.h: %d faults\n", faults);
    return faults != 0;
}
