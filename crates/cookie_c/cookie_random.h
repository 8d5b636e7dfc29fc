/* Cookies for C, with the system's random bytes. Each call of cookie.h that takes a nonce, an id or seeds has one here
 * that draws them by getrandom(2) and takes its other arguments.
 *
 * This file is C that your program compiles: it is tested, and not proved. It needs Linux, and glibc 2.25 or musl.
 *
 * Each call returns what the one of cookie.h returns. If the system gives no random bytes, it returns COOKIE_NO_RANDOM,
 * with a length of 0, and `out` and the handles are as they were. It waits until the system's generator is ready, which
 * it is soon after the start of the machine. A signal doesn't end a draw. */
#ifndef COOKIE_RANDOM_H
#define COOKIE_RANDOM_H

#include "cookie.h"
#include <errno.h>
#include <sys/random.h>

/* A status beside those of cookie_status, which never has this number. cookie_status_text says nothing of it. */
enum cookie_random_status { COOKIE_NO_RANDOM = 1000 /* the system gives no random bytes */ };

/* Fills `out` with random bytes, such as those of a new key. Refusal: COOKIE_NO_RANDOM. Don't use the bytes then. */
static inline uint32_t cookie_draw(uint8_t *out, size_t out_length) {
    while (out_length > 0) {
        ssize_t count = getrandom(out, out_length, 0);
        if (count < 0 && errno == EINTR)
            continue;
        if (count <= 0)
            return COOKIE_NO_RANDOM;
        out += count;
        out_length -= (size_t)count;
    }
    return COOKIE_DONE;
}

/* What a call that writes a text returns without random bytes. */
static inline cookie_answer cookie_undrawn(void) {
    cookie_answer answer = {COOKIE_NO_RANDOM, 0};
    return answer;
}

/* cookie_seal with a nonce that is drawn. */
static inline cookie_answer cookie_seal_drawn(cookie_keys *keys, const uint8_t *name, size_t name_length,
                                              const uint8_t *value, size_t value_length, uint8_t *out,
                                              size_t out_length) {
    uint8_t nonce[COOKIE_NONCE_LENGTH];
    if (cookie_draw(nonce, sizeof nonce) != COOKIE_DONE)
        return cookie_undrawn();
    return cookie_seal(keys, nonce, sizeof nonce, name, name_length, value, value_length, out, out_length);
}

/* cookie_run with seeds that are drawn. */
static inline cookie_answer cookie_run_drawn(const uint8_t *moment, size_t moment_length, const uint8_t *input,
                                             size_t input_length, uint8_t *out, size_t out_length) {
    uint64_t seeds[2];
    if (cookie_draw((uint8_t *)seeds, sizeof seeds) != COOKIE_DONE)
        return cookie_undrawn();
    return cookie_run(seeds[0], seeds[1], moment, moment_length, input, input_length, out, out_length);
}

/* cookie_jar_new with seeds that are drawn. */
static inline uint32_t cookie_jar_new_drawn(cookie_jar *jar) {
    uint64_t seeds[2];
    if (cookie_draw((uint8_t *)seeds, sizeof seeds) != COOKIE_DONE)
        return COOKIE_NO_RANDOM;
    return cookie_jar_new(seeds[0], seeds[1], jar);
}

/* cookie_session_start with an id that is drawn. */
static inline uint32_t cookie_session_start_drawn(cookie_sessions *sessions, uint64_t now, cookie_session *session) {
    uint8_t id[COOKIE_ID_LENGTH];
    if (cookie_draw(id, sizeof id) != COOKIE_DONE)
        return COOKIE_NO_RANDOM;
    return cookie_session_start(sessions, id, sizeof id, now, session);
}

/* cookie_session_renew with an id that is drawn. */
static inline uint32_t cookie_session_renew_drawn(cookie_sessions *sessions, cookie_session *session, uint64_t now) {
    uint8_t id[COOKIE_ID_LENGTH];
    if (cookie_draw(id, sizeof id) != COOKIE_DONE)
        return COOKIE_NO_RANDOM;
    return cookie_session_renew(sessions, session, id, sizeof id, now);
}

/* cookie_session_save with a nonce that is drawn. */
static inline cookie_answer cookie_session_save_drawn(cookie_sessions *sessions, cookie_session *session,
                                                      uint32_t lasting, uint64_t now, uint8_t *out,
                                                      size_t out_length) {
    uint8_t nonce[COOKIE_NONCE_LENGTH];
    if (cookie_draw(nonce, sizeof nonce) != COOKIE_DONE)
        return cookie_undrawn();
    return cookie_session_save(sessions, session, lasting, nonce, sizeof nonce, now, out, out_length);
}

/* cookie_token_make with a nonce that is drawn. */
static inline cookie_answer cookie_token_make_drawn(cookie_keys *keys, const cookie_token_settings *settings,
                                                    const uint8_t *value, size_t value_length, uint64_t now,
                                                    uint8_t *out, size_t out_length) {
    uint8_t nonce[COOKIE_NONCE_LENGTH];
    if (cookie_draw(nonce, sizeof nonce) != COOKIE_DONE)
        return cookie_undrawn();
    return cookie_token_make(keys, settings, value, value_length, nonce, sizeof nonce, now, out, out_length);
}

#endif
