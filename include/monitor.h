/* The label monitor and the plan judge, for a program that links libembed.a (`tools/build staticlib embed`).
 *
 * Memory. The library keeps nothing and allocates nothing: every function works on memory that the caller owns and
 * lends for the time of the call. No pointer may be null, and memory that one call may write must not overlap with any
 * other that it is lent. A text of no bytes still needs a pointer that is not null. Words are uint32_t of the machine's
 * own byte order. No function keeps state between calls, so calls on different memory may run at the same time; two
 * calls on the same memory may not.
 *
 * Each function of the library is proved to do what is said here whatever the memory holds (crates/embed): it reads and
 * writes nothing else, it ends, and no value of any word makes it go wrong. monitor_step, send, raise and lower are inline
 * functions of this header: monitor_call with their kind.
 *
 * Stack, as measured on x86-64 with plans of up to 64 templates (it is not part of what is proved): judge and locate
 * need less than 18 KB, start less than 46 KB, replay less than 65 KB, each other call less than 1 KB.
 */
#ifndef MONITOR_H
#define MONITOR_H

#include <stddef.h>
#include <stdint.h>

#ifdef __cplusplus
extern "C" {
#endif

/* How many elements each lent array has. Those of a state, its row among them, are 4,996 words: 19,984 bytes. */
enum {
    MONITOR_VERDICT_WORDS = 5,
    MONITOR_PART_WORDS = 3,
    MONITOR_ROW_WORDS = 514,
    MONITOR_PLACE_WORDS = 2,
    MONITOR_PROCESSES = 128,
    MONITOR_TAGS = 4096
};

/* A verdict: five words.
 *   accepted: 0, 0, 0, 0, 0
 *   broken:   1, rule (11 to 19), first, second, identifier (255 for rule 17)
 *   unread:   2, text, number (1 to 6), line (from 1; 0 where the whole text is too long), 0                        */
enum monitor_verdict { MONITOR_ACCEPTED = 0, MONITOR_BROKEN = 1, MONITOR_UNREAD = 2 };

/* Which text: in an unread verdict and in a part. */
enum monitor_text { MONITOR_PLAN_TEXT = 0, MONITOR_POLICY_TEXT = 1 };

/* A plan row: 514 words. row[0] is N, the number of templates, row[1] is M, the number of identifiers; then template X
 * has eight words from 2 + 8*X on: form, first successor, second successor, lab, pos, neg, creates, risk (0 or 1).
 * monitor_start writes 0 for a successor that the form lacks, and for every word past the templates.
 * A row means no plan where N > 64, or where a template X < N has a form above 3, a successor word above 255 (also one
 * that its form does not use), or a risk above 1. Words of the templates from N on carry no meaning.                  */
enum monitor_form { MONITOR_END = 0, MONITOR_GO = 1, MONITOR_EITHER = 2, MONITOR_BOTH = 3 };

/* A state is a row and the lent memory beside it:
 *   place[0]: the next serial; place[1]: how many processes live
 *   serials, templates, labels: of the process at each place below place[1], by rising serial; a template is a number
 *     below N, and the whole word counts: 256 is not 0
 *   tags: tag i of the process at place p stands at p * M + i
 * What stands past the live places carries no meaning.                                                               */

/* What a call answers. From 20 on the call is refused, and then neither place nor array has changed. Each call is lent
 * the memory beside the row for writing, also where it is said to leave it as it was.                                 */
enum monitor_answer {
    MONITOR_DONE = 0,           /* step, raise, lower: accepted                                                       */
    MONITOR_DELIVERED = 1,      /* send: the message may pass                                                         */
    MONITOR_HELD = 2,           /* send: it may not, and is lost                                                      */
    MONITOR_BAD_STATE = 20,     /* the row means no plan, or the state is not well formed                             */
    MONITOR_NOT_LIVE = 21,      /* no live process has that serial                                                    */
    MONITOR_NO_BRANCH = 22,     /* step: the branch is not 0, or for `either` not 0 or 1                              */
    MONITOR_NO_ROOM = 23,       /* step: `both` with 128 live                                                         */
    MONITOR_NO_SERIAL = 24,     /* step: the next serial would pass 4,294,967,295                                     */
    MONITOR_BAD_LABEL = 25,     /* step: the label is not one that the child's template allows                        */
    MONITOR_TO_ITSELF = 26,     /* send: sender and receiver are the same                                             */
    MONITOR_NO_IDENTIFIER = 27, /* raise, lower: the identifier is not below M                                        */
    MONITOR_NOT_AT_RISK = 28,   /* raise, lower: the template is not at risk                                          */
    MONITOR_NOT_ALLOWED = 29    /* raise, lower: the identifier is not in pos, or not in neg                          */
};

/* The kind of a call, also its first word in a list; any other number is a lower. */
enum monitor_kind { MONITOR_STEP = 0, MONITOR_SEND = 1, MONITOR_RAISE = 2, MONITOR_LOWER = 3 };

/* Judges the two texts. */
void monitor_judge(const uint8_t *plan, size_t plan_len, const uint8_t *policy, size_t policy_len,
                   uint32_t verdict[MONITOR_VERDICT_WORDS]);

/* Judges the two texts; part[0] is the text that the verdict points into, and the bytes from part[1] up to part[2] are
 * the part shown: the faulty line, the name of template first, or the assertion's `kind=` line. They lie in that text,
 * part[1] <= part[2] <= its length; no bytes at the end of the text for a missing line and for line 0, and at the plan's
 * start where accepted.                                                                                               */
void monitor_locate(const uint8_t *plan, size_t plan_len, const uint8_t *policy, size_t policy_len,
                    size_t part[MONITOR_PART_WORDS]);

/* Judges the two texts and writes the verdict. Accepted: the row of that plan, and the state in which serial 0 lives at
 * template 0. Else the row and the state are all zero, and every call on them is answered 20.                         */
void monitor_start(const uint8_t *plan, size_t plan_len, const uint8_t *policy, size_t policy_len,
                   uint32_t verdict[MONITOR_VERDICT_WORDS], uint32_t row[MONITOR_ROW_WORDS],
                   uint32_t place[MONITOR_PLACE_WORDS], uint32_t serials[MONITOR_PROCESSES],
                   uint32_t templates[MONITOR_PROCESSES], uint32_t labels[MONITOR_PROCESSES],
                   uint32_t tags[MONITOR_TAGS]);

/* One call: its kind and its two numbers, those of the functions below. A send leaves the memory as it was; a raise and a
 * lower change only labels.                                                                                           */
uint32_t monitor_call(const uint32_t row[MONITOR_ROW_WORDS], uint32_t place[MONITOR_PLACE_WORDS],
                      uint32_t serials[MONITOR_PROCESSES], uint32_t templates[MONITOR_PROCESSES],
                      uint32_t labels[MONITOR_PROCESSES], uint32_t tags[MONITOR_TAGS], uint32_t kind, uint32_t x,
                      uint32_t y);

/* The process ends; `go` and `either` make one child, `both` two, `end` none. branch chooses for `either`. */
static inline uint32_t monitor_step(const uint32_t row[MONITOR_ROW_WORDS], uint32_t place[MONITOR_PLACE_WORDS],
                                    uint32_t serials[MONITOR_PROCESSES], uint32_t templates[MONITOR_PROCESSES],
                                    uint32_t labels[MONITOR_PROCESSES], uint32_t tags[MONITOR_TAGS], uint32_t serial,
                                    uint32_t branch)
{
    return monitor_call(row, place, serials, templates, labels, tags, MONITOR_STEP, serial, branch);
}

/* Whether a message may pass. The memory is left as it was. */
static inline uint32_t monitor_send(const uint32_t row[MONITOR_ROW_WORDS], uint32_t place[MONITOR_PLACE_WORDS],
                                    uint32_t serials[MONITOR_PROCESSES], uint32_t templates[MONITOR_PROCESSES],
                                    uint32_t labels[MONITOR_PROCESSES], uint32_t tags[MONITOR_TAGS], uint32_t from,
                                    uint32_t to)
{
    return monitor_call(row, place, serials, templates, labels, tags, MONITOR_SEND, from, to);
}

/* The process's label has that identifier from now on. Only labels changes. */
static inline uint32_t monitor_raise(const uint32_t row[MONITOR_ROW_WORDS], uint32_t place[MONITOR_PLACE_WORDS],
                                     uint32_t serials[MONITOR_PROCESSES], uint32_t templates[MONITOR_PROCESSES],
                                     uint32_t labels[MONITOR_PROCESSES], uint32_t tags[MONITOR_TAGS], uint32_t serial,
                                     uint32_t identifier)
{
    return monitor_call(row, place, serials, templates, labels, tags, MONITOR_RAISE, serial, identifier);
}

/* The process's label lacks that identifier from now on. Only labels changes. */
static inline uint32_t monitor_lower(const uint32_t row[MONITOR_ROW_WORDS], uint32_t place[MONITOR_PLACE_WORDS],
                                     uint32_t serials[MONITOR_PROCESSES], uint32_t templates[MONITOR_PROCESSES],
                                     uint32_t labels[MONITOR_PROCESSES], uint32_t tags[MONITOR_TAGS], uint32_t serial,
                                     uint32_t identifier)
{
    return monitor_call(row, place, serials, templates, labels, tags, MONITOR_LOWER, serial, identifier);
}

/* Runs a list of calls, three words each (kind, then its two numbers), through the state, and writes one answer to a
 * byte. It plays min(words / 3, places) calls and returns that number; answers past them stay as they were. A refused call
 * and a send leave neither place nor array other than they met them, and the list goes on. Where the row means no plan each
 * of those answers is 20, and nothing else is changed.                                                                */
size_t monitor_run(const uint32_t row[MONITOR_ROW_WORDS], uint32_t place[MONITOR_PLACE_WORDS],
                   uint32_t serials[MONITOR_PROCESSES], uint32_t templates[MONITOR_PROCESSES],
                   uint32_t labels[MONITOR_PROCESSES], uint32_t tags[MONITOR_TAGS], const uint32_t *calls,
                   size_t words, uint8_t *answers, size_t places);

/* Judges the two texts, starts the box and runs the calls through it; writes the verdict and the answers, and returns how
 * many calls were played: 0 where not accepted, and then no answer is written. The box promise holds after them, of the
 * very run that gave the answers.                                                                                     */
size_t monitor_replay(const uint8_t *plan, size_t plan_len, const uint8_t *policy, size_t policy_len,
                      const uint32_t *calls, size_t words, uint8_t *answers, size_t places,
                      uint32_t verdict[MONITOR_VERDICT_WORDS]);

#ifdef __cplusplus
}
#endif

#endif
