/* Calls each function of the library, rightly and wrongly, and exits with 0, or tells the line of the first check that fails. */
#include "gachuswi.h"

#include <stdio.h>
#include <stdlib.h>

#define CHECK(x) do { if (!(x)) { printf("calls.c:%d: not so: %s\n", __LINE__, #x); exit(1); } } while (0)

static const char script[] =
    "repo system 0 testtags <inline>\n#>=Pkg: lib 1 1 x86_64\n"
    "repo available 0 testtags there.repo\nsystem x86_64 rpm system\njob install name vim\n";
static const char there[] = "=Pkg: vim 9 1 x86_64\n=Req: lib >= 2\n=Pkg: lib 2 1 x86_64\n";
static const char changes[] = "install vim-9-1.x86_64@available\nupgrade lib-1-1.x86_64@system lib-2-1.x86_64@available\n";
static const char stuck[] = "repo system 0 empty\nsystem x86_64 rpm system\njob install name nosuch\n";
static const char problems[] =
    "problem 1 info nothing provides requested nosuch\nproblem 1 solution 1 deljob install name nosuch\n";

static uint8_t text[4096];

typedef size_t text_call(gachuswi_answer *, uint8_t *, size_t);

/* Whether a text is this one, with any room: what fits is copied, and nothing behind it is touched. */
static void check_text(gachuswi_answer *answer, text_call *call, const char *wanted) {
    size_t len = strlen(wanted);
    CHECK(call(answer, NULL, 0) == len);
    for (size_t room = 0; room <= len + 2; room++) {
        uint8_t *into = malloc(room + 1);
        memset(into, '.', room + 1);
        size_t copied = room < len ? room : len;
        CHECK(call(answer, into, room) == len);
        CHECK(!memcmp(into, wanted, copied));
        for (size_t i = copied; i <= room; i++) CHECK(into[i] == '.');
        free(into);
    }
}

static int32_t ask(gachuswi_answer *answer, const gachuswi_file *files, size_t count, const char *name, gachuswi_options options) {
    return gachuswi_run(answer, files, count, (const uint8_t *)name, strlen(name), &options);
}

static void nothing_is_kept(gachuswi_answer *answer) {
    CHECK(answer->held == NULL);
    CHECK(gachuswi_status(answer) == GACHUSWI_MISUSE);
    check_text(answer, gachuswi_out, "");
    check_text(answer, gachuswi_err, "");
}

static void changes_are_kept(gachuswi_answer *answer) {
    CHECK(answer->held != NULL);
    CHECK(gachuswi_status(answer) == GACHUSWI_DONE);
    check_text(answer, gachuswi_out, changes);
    check_text(answer, gachuswi_err, "");
}

/* Calls that may not be made so leave what was kept. */
static void misuse(gachuswi_answer *answer, const gachuswi_file *files, void (*as_before)(gachuswi_answer *)) {
    gachuswi_options greedy = {1000001, false, false, false}, greediest = {UINT32_MAX, true, true, false}, both = {1, false, true, true};
    gachuswi_options plain = {GACHUSWI_BUDGET, false, false, false};
    static const char *const no_texts[] = {"\xff", "s.t\x80", "\xc0\xaf", "\xed\xa0\x80", "\xf4\x90\x80\x80", "\xe2\x82"};
    CHECK(ask(answer, files, 2, "s.t", greedy) == GACHUSWI_MISUSE);
    as_before(answer);
    CHECK(ask(answer, files, 2, "s.t", greediest) == GACHUSWI_MISUSE);
    CHECK(ask(answer, files, 2, "s.t", both) == GACHUSWI_MISUSE);
    for (size_t i = 0; i < sizeof no_texts / sizeof *no_texts; i++) CHECK(ask(answer, files, 2, no_texts[i], plain) == GACHUSWI_MISUSE);
    as_before(answer);
}

static void runs(void) {
    gachuswi_answer answer = GACHUSWI_NONE;
    gachuswi_file files[] = {gachuswi_lend("s.t", script, sizeof script - 1), gachuswi_lend("there.repo", there, sizeof there - 1)};
    nothing_is_kept(&answer);
    misuse(&answer, files, nothing_is_kept);
    gachuswi_close(&answer);
    nothing_is_kept(&answer);
    /* a transaction */
    CHECK(gachuswi_solve(&answer, files, 2, "s.t") == GACHUSWI_DONE);
    changes_are_kept(&answer);
    misuse(&answer, files, changes_are_kept);
    /* a file that is not lent: its answer takes the place of what was kept */
    CHECK(gachuswi_solve(&answer, files, 1, "s.t") == GACHUSWI_READ_FAULT);
    CHECK(gachuswi_status(&answer) == GACHUSWI_READ_FAULT);
    check_text(&answer, gachuswi_out, "");
    check_text(&answer, gachuswi_err, "testsolv: cannot read there.repo\n");
    CHECK(gachuswi_solve(&answer, NULL, 0, "s.t") == GACHUSWI_READ_FAULT);
    check_text(&answer, gachuswi_err, "testsolv: cannot read s.t\n");
    CHECK(ask(&answer, NULL, 0, "", (gachuswi_options){0, false, false, false}) == GACHUSWI_READ_FAULT);
    CHECK(gachuswi_run(&answer, NULL, 0, NULL, 0, &(gachuswi_options){0, false, false, false}) == GACHUSWI_READ_FAULT);
    /* and again an answer */
    CHECK(gachuswi_solve(&answer, files, 2, "s.t") == GACHUSWI_DONE);
    changes_are_kept(&answer);
    gachuswi_close(&answer);
    nothing_is_kept(&answer);
    gachuswi_close(&answer);
    nothing_is_kept(&answer);
}

/* Of two files with one name the first counts, and names are compared whole. */
static void names(void) {
    gachuswi_answer answer = GACHUSWI_NONE;
    gachuswi_file files[] = {gachuswi_lend("t", stuck, sizeof stuck - 1), gachuswi_lend("s.tt", "x", 1), gachuswi_lend("", NULL, 0),
                             gachuswi_lend("s.u", "y", 1), gachuswi_lend("s.t", stuck, sizeof stuck - 1), gachuswi_lend("s.t", script, sizeof script - 1)};
    CHECK(gachuswi_solve(&answer, files, 6, "s.t") == GACHUSWI_DONE);
    check_text(&answer, gachuswi_out, problems);
    CHECK(gachuswi_solve(&answer, files, 6, "s") == GACHUSWI_READ_FAULT);
    CHECK(gachuswi_solve(&answer, files, 6, "s.u") == GACHUSWI_REFUSED);
    check_text(&answer, gachuswi_out, "");
    CHECK(gachuswi_err(&answer, NULL, 0) > 0);
    gachuswi_close(&answer);
}

/* What the options ask for. */
static void options(void) {
    gachuswi_answer answer = GACHUSWI_NONE;
    static const char expects[] = "repo system 0 empty\nsystem x86_64 rpm system\njob install name nosuch\nresult problems <inline>\n#>problem 2 info x\n";
    gachuswi_file files[] = {gachuswi_lend("s.t", expects, sizeof expects - 1)};
    CHECK(ask(&answer, files, 1, "s.t", (gachuswi_options){1000000, true, false, false}) == GACHUSWI_DIFFERS);
    size_t all = gachuswi_out(&answer, NULL, 0);
    CHECK(ask(&answer, files, 1, "s.t", (gachuswi_options){1000000, false, false, false}) == GACHUSWI_DIFFERS);
    CHECK(gachuswi_out(&answer, NULL, 0) < all);
    CHECK(ask(&answer, files, 1, "s.t", (gachuswi_options){0, false, true, false}) == GACHUSWI_DONE);
    CHECK(gachuswi_out(&answer, text, sizeof text) > 8 && !memcmp(text, "proof 1\n", 8));
    CHECK(ask(&answer, files, 1, "s.t", (gachuswi_options){0, true, false, true}) == GACHUSWI_DONE);
    size_t len = gachuswi_out(&answer, text, sizeof text);
    CHECK(len > 0 && len < sizeof text);
    /* what was written is a script, which has the same answer */
    static uint8_t again[4096];
    memcpy(again, text, len);
    gachuswi_file written[] = {gachuswi_lend("s.t", again, len)};
    CHECK(ask(&answer, written, 1, "s.t", (gachuswi_options){1000000, true, false, false}) == GACHUSWI_DIFFERS);
    CHECK(gachuswi_out(&answer, NULL, 0) == all);
    gachuswi_close(&answer);
}

static int32_t compare(const char *a, const char *b) {
    return gachuswi_evr_compare((const uint8_t *)a, strlen(a), (const uint8_t *)b, strlen(b));
}

static void versions(void) {
    CHECK(compare("1:2-1", "2-1") == 1 && compare("2-1", "1:2-1") == -1);
    CHECK(compare("1.0~rc1-1", "1.0-1") == -1 && compare("1.0^git1-1", "1.0-1") == 1);
    CHECK(compare("1.05", "1.5") == 0 && compare("", "") == 0);
    CHECK(gachuswi_evr_compare(NULL, 0, NULL, 0) == 0 && gachuswi_evr_compare(NULL, 0, (const uint8_t *)"1", 1) == -1);
}

int main(void) {
    CHECK(gachuswi_abi() == GACHUSWI_ABI);
    runs();
    names();
    options();
    versions();
    return 0;
}
