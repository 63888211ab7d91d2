/* Runs the library's functions for proxy.c: calls from standard input, replies to standard output. It is compiled for x86-64,
 * as the library is, with no header but the compiler's own, so that no C library for x86-64 has to be installed. */
#include "calls.h"

extern long read(int file, void *to, size_t count);
extern long write(int file, const void *from, size_t count);

static bool take(void *to, size_t count)
{
    for (size_t had = 0; had < count;) {
        long got = read(0, (char *)to + had, count - had);
        if (got <= 0)
            return false;
        had += (size_t)got;
    }
    return true;
}

/* A reply is shorter than what a pipe takes at once. */
static bool give(const void *from, size_t count)
{
    return write(1, from, count) == (long)count;
}

static uint32_t answer(struct call *c)
{
    const uint32_t *n = c->numbers;
    struct lent *l = &c->lent;
    switch (c->function) {
    case SEARCH:
        return woolturret_search(n[0], n[1] != 0, n[2], n[3], n[4] != 0, n[5], n[6], l->out);
    case CHECK:
        return woolturret_check(c->bytes, c->length);
    case OUTPUT:
        return woolturret_output(n[0], n[1], n[2], n[3], &l->hertz);
    case CONFIGURE:
        return woolturret_configure(c->bytes, c->length, l->out, &l->passes);
    case DERIVE:
        return woolturret_derive(c->bytes, c->length, l->clocks);
    case PLAN:
        return woolturret_plan(c->bytes, c->length, l->out, l->clocks, &l->passes);
    case LINE:
        return woolturret_line(c->bytes, c->length, l->text);
    default:
        return woolturret_set(c->bytes, c->length, n[0], n[1], n[2], l->out);
    }
}

static bool reply_to(struct call *c)
{
    static struct reply r;
    r.answer = answer(c);
    r.lent = c->lent;
    return give(&r, sizeof r);
}

/* Takes the rest of a start's call and replies to it. */
static bool reply_to_start(struct start_call *c)
{
    static struct start_reply r;
    struct start *s = &c->start;
    if (!take(s, sizeof *s) || !take(c->answers, sent(s->answered, MOST_ANSWERS)))
        return false;
    s->started = woolturret_start(c->call.bytes, c->call.length, s->file, s->places, c->answers, s->answered, s->limit,
                                  (uint8_t)s->cut, c->call.lent.clocks);
    r.reply.lent = c->call.lent;
    r.start = *s;
    return give(&r, sizeof r);
}

int main(void)
{
    static struct start_call c;
    while (take(&c.call, sizeof c.call)) {
        if (!(c.call.function == START ? reply_to_start(&c) : reply_to(&c.call)))
            return 1;
    }
    return 0;
}
