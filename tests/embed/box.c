/* Calls every function of the library on the base plan of document 01 and on damaged memory, and compares with the
 * answers that the document gives. Run by tools/test-embed. */
#include <stdio.h>
#include <string.h>

#include "monitor.h"

#define TEXT(lines) (const uint8_t *)(lines), sizeof(lines) - 1
#define COUNT(array) (sizeof(array) / sizeof((array)[0]))

static const char plan[] = "templates=4\nidentifiers=1\n"
                           "name=boot\nform=go:1\nlab=00000000\npos=00000000\nneg=00000001\ncreates=00000000\nrisk=0\n"
                           "name=hub\nform=go:2\nlab=00000000\npos=00000000\nneg=00000001\ncreates=00000000\nrisk=0\n"
                           "name=split\nform=both:1,3\nlab=00000001\npos=00000001\nneg=00000001\ncreates=00000001\nrisk=0\n"
                           "name=reader\nform=end\nlab=00000001\npos=00000000\nneg=00000000\ncreates=00000000\nrisk=1\n";
static const char policy[] = "assertions=1\nkind=secrecy\nsource=3\nsink=3\nanc=3\ndeclass=0000000000000007\n";
/* Case c: lab of 3 zero. */
static const char plan_c[] = "templates=4\nidentifiers=1\n"
                             "name=boot\nform=go:1\nlab=00000000\npos=00000000\nneg=00000001\ncreates=00000000\nrisk=0\n"
                             "name=hub\nform=go:2\nlab=00000000\npos=00000000\nneg=00000001\ncreates=00000000\nrisk=0\n"
                             "name=split\nform=both:1,3\nlab=00000001\npos=00000001\nneg=00000001\ncreates=00000001\nrisk=0\n"
                             "name=reader\nform=end\nlab=00000000\npos=00000000\nneg=00000000\ncreates=00000000\nrisk=1\n";
/* Case b: declass 6. */
static const char policy_b[] = "assertions=1\nkind=secrecy\nsource=3\nsink=3\nanc=3\ndeclass=0000000000000006\n";

struct box {
    uint32_t row[MONITOR_ROW_WORDS];
    uint32_t place[MONITOR_PLACE_WORDS];
    uint32_t serials[MONITOR_PROCESSES];
    uint32_t templates[MONITOR_PROCESSES];
    uint32_t labels[MONITOR_PROCESSES];
    uint32_t tags[MONITOR_TAGS];
};

static unsigned passed, failed;

static void expect(int holds, const char *what) {
    if (holds) {
        passed++;
    } else {
        failed++;
        printf("failed: %s\n", what);
    }
}

static uint32_t step(struct box *b, uint32_t serial, uint32_t branch) {
    return monitor_step(b->row, b->place, b->serials, b->templates, b->labels, b->tags, serial, branch);
}

static uint32_t send(struct box *b, uint32_t from, uint32_t to) {
    return monitor_send(b->row, b->place, b->serials, b->templates, b->labels, b->tags, from, to);
}

static uint32_t raise(struct box *b, uint32_t serial, uint32_t identifier) {
    return monitor_raise(b->row, b->place, b->serials, b->templates, b->labels, b->tags, serial, identifier);
}

static uint32_t lower(struct box *b, uint32_t serial, uint32_t identifier) {
    return monitor_lower(b->row, b->place, b->serials, b->templates, b->labels, b->tags, serial, identifier);
}

static size_t run(struct box *b, const uint32_t *calls, size_t words, uint8_t *answers, size_t places) {
    return monitor_run(b->row, b->place, b->serials, b->templates, b->labels, b->tags, calls, words, answers, places);
}

/* Every word is written before start, so that one that start leaves out is seen. */
static void start(struct box *b, const uint8_t *p, size_t p_len, const uint8_t *q, size_t q_len, uint32_t verdict[5]) {
    memset(b, 0xA5, sizeof *b);
    memset(verdict, 0xA5, 5 * sizeof verdict[0]);
    monitor_start(p, p_len, q, q_len, verdict, b->row, b->place, b->serials, b->templates, b->labels, b->tags);
}

/* Case a's run: steps of 0, 1, 2, 3, 5. */
static void run_of_a(struct box *b) {
    static const uint32_t serials[] = {0, 1, 2, 3, 5};
    uint32_t verdict[5];
    start(b, TEXT(plan), TEXT(policy), verdict);
    for (size_t i = 0; i < COUNT(serials); i++)
        expect(step(b, serials[i], 0) == MONITOR_DONE, "a step of case a's run");
}

static void verdicts(void) {
    static const uint32_t accepted[5] = {MONITOR_ACCEPTED, 0, 0, 0, 0};
    static const uint32_t case_b[5] = {MONITOR_BROKEN, 17, 0, 3, 255};
    static const uint32_t no_template[5] = {MONITOR_UNREAD, MONITOR_PLAN_TEXT, 3, 1, 0};
    uint32_t verdict[5];
    monitor_judge(TEXT(plan), TEXT(policy), verdict);
    expect(memcmp(verdict, accepted, sizeof verdict) == 0, "case a is accepted");
    monitor_judge(TEXT(plan), TEXT(policy_b), verdict);
    expect(memcmp(verdict, case_b, sizeof verdict) == 0, "case b is broken 17, 0, 3, 255");
    monitor_judge(TEXT("templates=0\n"), TEXT(policy), verdict);
    expect(memcmp(verdict, no_template, sizeof verdict) == 0, "templates=0 is unread 3, line 1");
}

/* The part shown lies in that text from start on, and has these bytes. */
static void shows(const uint8_t *p, size_t p_len, const uint8_t *q, size_t q_len, size_t text, size_t start,
                  const char *bytes, const char *what) {
    const uint8_t *texts[2] = {p, q};
    const size_t lengths[2] = {p_len, q_len};
    size_t part[3] = {9, 9, 9};
    monitor_locate(p, p_len, q, q_len, part);
    expect(part[0] == text && part[1] == start && part[2] == start + strlen(bytes), what);
    expect(part[0] < 2 && part[1] <= part[2] && part[2] <= lengths[text], "the part lies in its text");
    expect(memcmp(texts[text] + start, bytes, strlen(bytes)) == 0, "and has its bytes");
}

static void parts(void) {
    static const char header[] = "templates=4\nidentifiers=1\n";
    static uint8_t too_long[16385];
    memset(too_long, 'x', sizeof too_long);
    shows(TEXT(plan), TEXT(policy), MONITOR_PLAN_TEXT, 0, "", "accepted: the empty part at the plan's start");
    shows(TEXT(plan), TEXT(policy_b), MONITOR_POLICY_TEXT, 13, "kind=secrecy", "case b shows its kind= line");
    shows(TEXT(plan_c), TEXT(policy), MONITOR_PLAN_TEXT, 196, "split", "case c shows the name of template 2");
    shows(TEXT("templates=0\n"), TEXT(policy), MONITOR_PLAN_TEXT, 0, "templates=0", "a faulty line");
    shows(TEXT(header), TEXT(policy), MONITOR_PLAN_TEXT, sizeof header - 1, "", "a missing line is at the text's end");
    shows(TEXT(plan), TEXT(""), MONITOR_POLICY_TEXT, 0, "", "and so in an empty text");
    shows(too_long, sizeof too_long, TEXT(policy), MONITOR_PLAN_TEXT, sizeof too_long, "", "line 0 is at the text's end");
    shows(TEXT(plan), too_long, sizeof too_long, MONITOR_POLICY_TEXT, sizeof too_long, "", "and so of the policy");
}

static void started(void) {
    static const uint32_t split[8] = {MONITOR_BOTH, 1, 3, 1, 1, 1, 1, 0};
    static const uint32_t reader[8] = {MONITOR_END, 0, 0, 1, 0, 0, 0, 1};
    uint32_t verdict[5];
    struct box b, zero;
    start(&b, TEXT(plan), TEXT(policy), verdict);
    expect(verdict[0] == MONITOR_ACCEPTED, "the base box starts");
    expect(b.row[0] == 4 && b.row[1] == 1, "4 templates, 1 identifier");
    expect(memcmp(b.row + 2 + 8 * 2, split, sizeof split) == 0, "the words of split");
    expect(memcmp(b.row + 2 + 8 * 3, reader, sizeof reader) == 0, "the words of reader");
    expect(b.place[0] == 1 && b.place[1] == 1, "next serial 1, one live");
    expect(b.serials[0] == 0 && b.templates[0] == 0 && b.labels[0] == 0 && b.tags[0] == 0, "serial 0 at the root");
    start(&b, TEXT(plan), TEXT(policy_b), verdict);
    memset(&zero, 0, sizeof zero);
    expect(verdict[0] == MONITOR_BROKEN && verdict[1] == 17, "a broken pair is not started");
    expect(memcmp(&b, &zero, sizeof b) == 0, "and leaves the blank state");
    expect(step(&b, 0, 0) == MONITOR_BAD_STATE, "on which every call is 20");
    expect(memcmp(&b, &zero, sizeof b) == 0, "and touches nothing");
}

static void case_a(void) {
    struct box b, before;
    run_of_a(&b);
    expect(b.place[0] == 8 && b.place[1] == 3, "next 8, three live");
    expect(b.serials[0] == 4 && b.serials[1] == 6 && b.serials[2] == 7, "4, 6 and 7 live");
    expect(b.templates[0] == 3 && b.templates[1] == 1 && b.templates[2] == 3, "readers 4 and 7, hub 6");
    before = b;
    expect(send(&b, 4, 7) == MONITOR_HELD, "h: send 4 to 7 is held");
    expect(send(&b, 6, 4) == MONITOR_DELIVERED, "i: send 6 to 4 is delivered");
    expect(send(&b, 4, 6) == MONITOR_HELD, "j: send 4 to 6 is held");
    expect(raise(&b, 4, 0) == MONITOR_NOT_ALLOWED, "k: raise 4, 0 is 29");
    expect(raise(&b, 6, 0) == MONITOR_NOT_AT_RISK, "l: raise 6, 0 is 28");
    expect(lower(&b, 4, 0) == MONITOR_NOT_ALLOWED, "lower 4, 0 is 29");
    expect(step(&b, 6, 1) == MONITOR_NO_BRANCH, "step 6 branch 1 is 22");
    expect(send(&b, 7, 7) == MONITOR_TO_ITSELF, "send 7 to 7 is 26");
    expect(raise(&b, 7, 1) == MONITOR_NO_IDENTIFIER, "raise 7, 1 is 27");
    expect(memcmp(&b, &before, sizeof b) == 0, "none of these touched anything");
    expect(step(&b, 4, 0) == MONITOR_DONE, "m: step 4 is done");
    expect(step(&b, 4, 0) == MONITOR_NOT_LIVE, "m: and then 21");
    expect(b.place[0] == 8 && b.place[1] == 2 && b.serials[0] == 6 && b.serials[1] == 7, "6 and 7 live");
}

/* The four inline functions are monitor_call with their kinds: a raise and a lower of the reader 4 told apart. */
static void moves(void) {
    enum { READER = 2 + 8 * 3, POS = READER + 4, NEG = READER + 5 };
    struct box b;
    run_of_a(&b);
    b.row[POS] = 1;
    expect(lower(&b, 4, 0) == MONITOR_NOT_ALLOWED, "in pos alone: lower is 29");
    b.labels[0] = 0;
    expect(raise(&b, 4, 0) == MONITOR_DONE && b.labels[0] == 1, "and raise is done");
    run_of_a(&b);
    b.row[NEG] = 1;
    expect(raise(&b, 4, 0) == MONITOR_NOT_ALLOWED, "in neg alone: raise is 29");
    expect(lower(&b, 4, 0) == MONITOR_DONE && b.labels[0] == 0, "and lower is done");
    run_of_a(&b);
    b.row[NEG] = 1;
    expect(monitor_call(b.row, b.place, b.serials, b.templates, b.labels, b.tags, 4, 4, 0) == MONITOR_DONE,
           "a call of any other kind is a lower");
    expect(b.labels[0] == 0, "and does what it does");
}

/* After case a's run and what was then done to the memory. */
static void all_refused(struct box *b, const char *why) {
    static const uint32_t calls[] = {MONITOR_STEP, 4, 0, MONITOR_SEND, 6, 4, MONITOR_RAISE, 4, 0, MONITOR_LOWER, 4, 0};
    static const uint8_t refused[] = {20, 20, 20, 20};
    uint8_t given[4];
    struct box before = *b;
    expect(step(b, 4, 0) == MONITOR_BAD_STATE, why);
    expect(send(b, 6, 4) == MONITOR_BAD_STATE, "send is 20");
    expect(raise(b, 4, 0) == MONITOR_BAD_STATE, "raise is 20");
    expect(lower(b, 4, 0) == MONITOR_BAD_STATE, "lower is 20");
    expect(run(b, calls, COUNT(calls), given, sizeof given) == 4, "a list of four is played");
    expect(memcmp(given, refused, sizeof given) == 0, "and each answer is 20");
    expect(memcmp(b, &before, sizeof before) == 0, "and nothing is touched");
}

static void bad_memory(void) {
    static const size_t damage[][2] = {{0, 65}, {2, 4}, {3, 256}, {4, 256}, {9, 2}};
    static const uint32_t high[] = {1u << 8, 1u << 16, 1u << 31, 0xFFFFFF00u};
    struct box b;
    for (size_t i = 0; i < COUNT(damage); i++) {
        run_of_a(&b);
        b.row[damage[i][0]] = (uint32_t)damage[i][1];
        all_refused(&b, "a row that means no plan: step is 20");
    }
    for (size_t i = 0; i < COUNT(high); i++) {
        for (size_t p = 0; p < 3; p++) {
            run_of_a(&b);
            b.templates[p] |= high[i];
            all_refused(&b, "a template of 256 and above whose low byte is below N: step is 20");
        }
    }
    run_of_a(&b);
    b.templates[3] = 4294967295u;
    expect(send(&b, 6, 4) == MONITOR_DELIVERED, "templates past the live places carry no meaning");
    run_of_a(&b);
    b.row[1] = 33;
    expect(send(&b, 6, 4) == MONITOR_BAD_STATE, "33 identifiers are 20");
    run_of_a(&b);
    b.place[1] = 4294967295u;
    expect(send(&b, 6, 4) == MONITOR_BAD_STATE, "more than 128 live are 20");
    run_of_a(&b);
    b.row[2 + 8 * 63] = 99;
    expect(send(&b, 6, 4) == MONITOR_DELIVERED, "words past the templates carry no meaning");
}

static void lists(void) {
    static const uint32_t calls[] = {
        MONITOR_STEP, 0, 0, MONITOR_STEP, 1, 0, MONITOR_STEP, 2, 0, MONITOR_STEP, 3, 0, MONITOR_STEP, 5, 0,
        MONITOR_SEND, 4, 7, MONITOR_SEND, 6, 4, MONITOR_RAISE, 4, 0, MONITOR_LOWER, 6, 0, MONITOR_STEP, 4, 0,
        MONITOR_STEP, 4, 0, 9 /* a word too many */};
    static const uint8_t answers[] = {0, 0, 0, 0, 0, 2, 1, 29, 28, 0, 21};
    static const uint8_t refused[] = {20, 20, 20, 0xEE};
    static const uint32_t none_done[] = {MONITOR_STEP, 4, 0, MONITOR_SEND, 7, 6, MONITOR_SEND, 6, 7, MONITOR_SEND, 6, 6,
                                         MONITOR_STEP, 6, 1, MONITOR_RAISE, 6, 0, MONITOR_LOWER, 7, 0, MONITOR_RAISE, 7, 1};
    static const uint8_t none_answers[] = {21, 2, 1, 26, 22, 28, 29, 27};
    uint8_t given[16];
    uint32_t verdict[5];
    struct box b, whole;
    start(&b, TEXT(plan), TEXT(policy), verdict);
    memset(given, 0xEE, sizeof given);
    size_t n = run(&b, calls, COUNT(calls), given, sizeof given);
    expect(n == COUNT(answers) && memcmp(given, answers, n) == 0 && given[n] == 0xEE, "a list of calls");
    expect(b.place[0] == 8 && b.place[1] == 2 && b.serials[0] == 6 && b.serials[1] == 7, "and what it leaves");
    start(&whole, TEXT(plan), TEXT(policy), verdict);
    memset(given, 0xEE, sizeof given);
    n = run(&whole, calls, COUNT(calls), given, 3);
    expect(n == 3 && given[2] == 0 && given[3] == 0xEE && whole.place[0] == 5, "no more calls than places");
    memset(given, 0xEE, sizeof given);
    n = monitor_replay(TEXT(plan), TEXT(policy), calls, COUNT(calls), given, sizeof given, verdict);
    expect(n == COUNT(answers) && memcmp(given, answers, n) == 0 && verdict[0] == MONITOR_ACCEPTED, "the same from the texts");
    memset(given, 0xEE, sizeof given);
    n = monitor_replay(TEXT(plan), TEXT(policy_b), calls, COUNT(calls), given, sizeof given, verdict);
    expect(n == 0 && given[0] == 0xEE && verdict[0] == MONITOR_BROKEN, "nothing is played where not accepted");
    b.serials[2] = b.templates[64] = b.labels[127] = 77;
    b.tags[4095] = 77;
    whole = b;
    n = run(&b, none_done, COUNT(none_done), given, sizeof given);
    expect(n == COUNT(none_answers) && memcmp(given, none_answers, n) == 0, "a list of calls of which none is done");
    expect(memcmp(&b, &whole, sizeof b) == 0, "leaves every word as it was, of unused places too");
    b.row[0] = whole.row[0] = 65;
    memset(given, 0xEE, sizeof given);
    n = run(&b, calls, 9, given, sizeof given);
    expect(n == 3 && memcmp(given, refused, sizeof refused) == 0, "a row that means no plan: each answer is 20");
    expect(memcmp(&b, &whole, sizeof b) == 0, "and nothing else is touched");
}

int main(void) {
    verdicts();
    parts();
    started();
    case_a();
    moves();
    bad_memory();
    lists();
    printf("%u passed, %u failed\n", passed, failed);
    return failed != 0;
}
