/* The library's functions on a machine that is not x86-64: each call goes through a pipe to serve.c, which runs with the real
 * library under the toolchain's emulator. EMULATOR, LOADER, LIBRARIES and SERVER are given by the build. */
#include <stddef.h>
#include <stdio.h>
#include <stdlib.h>
#include <string.h>
#include <unistd.h>
#include "calls.h"

/* What stands where nothing is lent. */
enum { UNLENT = 0x5A };

static int to_server = -1;
static int from_server = -1;

static void stop(const char *why)
{
    fprintf(stderr, "the library under the emulator: %s\n", why);
    exit(1);
}

static void start_server(void)
{
    int calls[2], replies[2];
    if (pipe(calls) != 0 || pipe(replies) != 0)
        stop("no pipe");
    pid_t child = fork();
    if (child < 0)
        stop("no process");
    if (child == 0) {
        dup2(calls[0], 0);
        dup2(replies[1], 1);
        close(calls[1]);
        close(replies[0]);
        execl(EMULATOR, EMULATOR, LOADER, "--library-path", LIBRARIES, SERVER, (char *)NULL);
        stop("the emulator does not start");
    }
    close(calls[0]);
    close(replies[1]);
    to_server = calls[1];
    from_server = replies[0];
}

static void exchange(const void *call, size_t call_length, void *reply, size_t reply_length)
{
    if (to_server < 0)
        start_server();
    for (size_t had = 0; had < call_length;) {
        ssize_t put = write(to_server, (const char *)call + had, call_length - had);
        if (put <= 0)
            stop("it takes no call");
        had += (size_t)put;
    }
    for (size_t had = 0; had < reply_length;) {
        ssize_t got = read(from_server, (char *)reply + had, reply_length - had);
        if (got <= 0)
            stop("it gives no reply");
        had += (size_t)got;
    }
}

static struct reply ask(const struct call *c)
{
    struct reply r;
    exchange(c, sizeof *c, &r, sizeof r);
    return r;
}

/* A call that lends only what stands in struct lent from one place up to another: the rest must come back as it went. */
static struct reply ask_within(const struct call *c, size_t from, size_t to)
{
    struct reply r = ask(c);
    const char *went = (const char *)&c->lent, *came = (const char *)&r.lent;
    if (memcmp(went, came, from) != 0 || memcmp(went + to, came + to, sizeof r.lent - to) != 0)
        stop("it wrote beside what was lent");
    return r;
}

/* Bytes past the first MOST_BYTES stay here: of a record that is too long the library reads none. */
static void put_bytes(struct call *c, const uint8_t *bytes, size_t length)
{
    c->length = length;
    memcpy(c->bytes, bytes, sent(length, MOST_BYTES));
}

static uint32_t ask_with_out(struct call *c, uint32_t *out, size_t count)
{
    memcpy(c->lent.out, out, count * sizeof *out);
    struct reply r = ask(c);
    memcpy(out, r.lent.out, count * sizeof *out);
    return r.answer;
}

uint32_t woolturret_search(uint32_t input, bool p, uint32_t pmin, uint32_t pmax, bool q, uint32_t qmin, uint32_t qmax,
                           uint32_t out[WOOLTURRET_SEARCH])
{
    struct call c = {.function = SEARCH, .numbers = {input, p, pmin, pmax, q, qmin, qmax}};
    return ask_with_out(&c, out, WOOLTURRET_SEARCH);
}

uint32_t woolturret_output(uint32_t input, uint32_t m, uint32_t n, uint32_t d, uint64_t *out)
{
    struct call c = {.function = OUTPUT, .numbers = {input, m, n, d}, .lent.hertz = *out};
    struct reply r = ask(&c);
    *out = r.lent.hertz;
    return r.answer;
}

uint32_t woolturret_check(const uint8_t *bytes, size_t length)
{
    struct call c = {.function = CHECK};
    put_bytes(&c, bytes, length);
    return ask(&c).answer;
}

uint32_t woolturret_set(const uint8_t *bytes, size_t length, uint32_t setter, uint32_t a, uint32_t b,
                        uint32_t out[WOOLTURRET_CONFIG])
{
    struct call c = {.function = SET, .numbers = {setter, a, b}};
    put_bytes(&c, bytes, length);
    return ask_with_out(&c, out, WOOLTURRET_CONFIG);
}

/* A call with a record and those of the three lent buffers that its function has; the others are null. */
static uint32_t ask_with_lent(uint32_t function, const uint8_t *bytes, size_t length, uint32_t *config, uint32_t *clocks, uint32_t *passes)
{
    struct call c = {.function = function};
    put_bytes(&c, bytes, length);
    memset(&c.lent, UNLENT, sizeof c.lent);
    if (config) memcpy(c.lent.out, config, sizeof c.lent.out);
    if (clocks) memcpy(c.lent.clocks, clocks, sizeof c.lent.clocks);
    if (passes) c.lent.passes = *passes;
    struct reply r = ask_within(&c, offsetof(struct lent, out), offsetof(struct lent, text));
    if (config) memcpy(config, r.lent.out, sizeof r.lent.out);
    if (clocks) memcpy(clocks, r.lent.clocks, sizeof r.lent.clocks);
    if (passes) *passes = r.lent.passes;
    return r.answer;
}

uint32_t woolturret_configure(const uint8_t *bytes, size_t length, uint32_t config[WOOLTURRET_CONFIG], uint32_t *passes)
{
    return ask_with_lent(CONFIGURE, bytes, length, config, NULL, passes);
}

uint32_t woolturret_derive(const uint8_t *bytes, size_t length, uint32_t clocks[WOOLTURRET_CLOCKS])
{
    return ask_with_lent(DERIVE, bytes, length, NULL, clocks, NULL);
}

uint32_t woolturret_plan(const uint8_t *bytes, size_t length, uint32_t config[WOOLTURRET_CONFIG],
                         uint32_t clocks[WOOLTURRET_CLOCKS], uint32_t *passes)
{
    return ask_with_lent(PLAN, bytes, length, config, clocks, passes);
}

uint32_t woolturret_line(const uint8_t *bytes, size_t length, uint8_t out[WOOLTURRET_LINE])
{
    struct call c = {.function = LINE};
    put_bytes(&c, bytes, length);
    memset(&c.lent, UNLENT, sizeof c.lent);
    memcpy(c.lent.text, out, sizeof c.lent.text);
    struct reply r = ask_within(&c, offsetof(struct lent, text), offsetof(struct lent, beyond));
    memcpy(out, r.lent.text, sizeof r.lent.text);
    return r.answer;
}

/* Places past MOST_PLACES stay here too: a file of a wrong length is neither read nor written. So do answers past MOST_ANSWERS:
 * no start polls more often. The library is told the true lengths. */
struct woolturret_started woolturret_start(const uint8_t *bytes, size_t length, uint32_t *file, size_t places,
                                           const uint8_t *answers, size_t answered, uint32_t limit, uint8_t cut,
                                           uint32_t clocks[WOOLTURRET_CLOCKS])
{
    static struct start_call c; /* too large for a stack */
    struct start_reply r;
    c.call.function = START;
    c.start = (struct start){.limit = limit, .cut = cut, .places = places, .answered = answered};
    put_bytes(&c.call, bytes, length);
    memcpy(c.call.lent.clocks, clocks, sizeof c.call.lent.clocks);
    memcpy(c.start.file, file, sent(places, MOST_PLACES) * sizeof *file);
    memcpy(c.answers, answers, sent(answered, MOST_ANSWERS));
    exchange(&c, offsetof(struct start_call, answers) + sent(answered, MOST_ANSWERS), &r, sizeof r);
    memcpy(clocks, r.reply.lent.clocks, sizeof r.reply.lent.clocks);
    memcpy(file, r.start.file, sent(places, MOST_PLACES) * sizeof *file);
    return r.start.started;
}
