/* beside_libsolv: asks libsolv and this library the same, from one pool of libsolv's, and tells where the answers differ. It shows how a program that
 * has such a pool makes a script of it in memory. It is linked with libsolv and libsolvext. */
#define _GNU_SOURCE
#include "gachuswi.h"

#include <solv/pool.h>
#include <solv/poolarch.h>
#include <solv/repo.h>
#include <solv/solver.h>
#include <solv/testcase.h>
#include <stdio.h>
#include <stdlib.h>

enum { MOST = 8 };

/* What is lent: the script first, then the repositories. */
static gachuswi_file files[MOST + 1];
static size_t count;

/* Lends what `write` writes under a name that ends in `behind`. */
static void lend_written(const char *name, const char *behind, void (*write)(void *, FILE *), void *what) {
    char *bytes, *whole;
    size_t len;
    FILE *to = open_memstream(&bytes, &len);
    write(what, to);
    fclose(to);
    if (asprintf(&whole, "%s%s", name, behind) < 0) exit(2);
    files[count++] = gachuswi_lend(whole, bytes, len);
}

static void write_repo(void *repo, FILE *to) {
    testcase_write_testtags(repo, to);
}

struct question {
    Solver *solver;
    Queue *jobs;
    const char *arch;
};

/* The flags of libsolv that a script may have. */
static const struct { int flag; const char *name; } flags[] = {
    {SOLVER_FLAG_ALLOW_DOWNGRADE, "allowdowngrade"}, {SOLVER_FLAG_ALLOW_NAMECHANGE, "allownamechange"},
    {SOLVER_FLAG_ALLOW_ARCHCHANGE, "allowarchchange"}, {SOLVER_FLAG_ALLOW_VENDORCHANGE, "allowvendorchange"},
    {SOLVER_FLAG_ALLOW_UNINSTALL, "allowuninstall"}, {SOLVER_FLAG_IGNORE_RECOMMENDED, "ignorerecommended"},
    {SOLVER_FLAG_NO_INFARCHCHECK, "noinfarchcheck"}};

static void write_script(void *asked, FILE *to) {
    struct question *question = asked;
    Pool *pool = question->solver->pool;
    Id id;
    Repo *repo;
    FOR_REPOS(id, repo) fprintf(to, "repo %s %d testtags %s.repo\n", repo->name, repo->priority, repo->name);
    fprintf(to, "system %s rpm %s\n", question->arch, pool->installed->name);
    for (size_t i = 0; i < sizeof flags / sizeof *flags; i++)
        fprintf(to, "solverflags %s%s\n", solver_get_flag(question->solver, flags[i].flag) ? "" : "!", flags[i].name);
    for (int i = 0; i < question->jobs->count; i += 2)
        fprintf(to, "job %s\n", testcase_job2str(pool, question->jobs->elements[i], question->jobs->elements[i + 1]));
}

/* Lends the script and all repositories of a question. */
static void lend_question(struct question *question) {
    Pool *pool = question->solver->pool;
    Id id;
    Repo *repo;
    lend_written("libsolv.t", "", write_script, question);
    FOR_REPOS(id, repo) lend_written(repo->name, ".repo", write_repo, repo);
}

static void take_back_all(void) {
    while (count > 0) {
        count--;
        free((void *)files[count].name);
        free((void *)files[count].bytes);
    }
}

/* The text of an answer, or its line on what is wrong, with a 0 byte behind it. */
static char *text_of(gachuswi_answer *answer) {
    size_t (*call)(gachuswi_answer *, uint8_t *, size_t) = gachuswi_status(answer) == GACHUSWI_DONE ? gachuswi_out : gachuswi_err;
    size_t len = call(answer, NULL, 0);
    char *text = malloc(len + 1);
    call(answer, (uint8_t *)text, len);
    text[len] = 0;
    return text;
}

/* Whether both solvers have the same transaction for these jobs, line for line, or both have problems, which each tells in its own words. */
static int is_same(Pool *pool, const char *arch, Queue *jobs) {
    gachuswi_answer answer = GACHUSWI_NONE;
    struct question question = {solver_create(pool), jobs, arch};
    int problems = solver_solve(question.solver, jobs);
    char *theirs = testcase_solverresult(question.solver, TESTCASE_RESULT_TRANSACTION);
    lend_question(&question);
    int32_t status = gachuswi_solve(&answer, files, count, "libsolv.t");
    char *ours = text_of(&answer);
    int same = status == GACHUSWI_DONE && (problems ? !strncmp(ours, "problem ", 8) : !strcmp(ours, theirs));
    if (!same) printf("status %d\nlibsolv:\n%sgachuswi:\n%s", (int)status, theirs, ours);
    gachuswi_close(&answer);
    take_back_all();
    free(ours);
    free(theirs);
    solver_free(question.solver);
    return same;
}

static Repo *read_repo(Pool *pool, const char *name, const char *testtags) {
    Repo *repo = repo_create(pool, name);
    FILE *from = fmemopen((void *)testtags, strlen(testtags), "r");
    testcase_add_testtags(repo, from, 0);
    fclose(from);
    return repo;
}

int main(void) {
    static const char installed[] =
        "=Pkg: lib 1 1 x86_64\n=Pkg: tool 1 1 noarch\n=Req: lib < 2\n=Pkg: shell 5.1 1 x86_64\n=Prv: sh = 5.1\n";
    static const char there[] =
        "=Pkg: lib 2 1 x86_64\n=Pkg: tool 2 1 noarch\n=Req: lib >= 2\n=Pkg: vim 9 1 x86_64\n=Req: lib >= 2\n=Req: sh\n"
        "=Pkg: shell 5.2 1 x86_64\n=Prv: sh = 5.2\n=Pkg: broken 1 1 noarch\n=Req: nothing\n";
    Pool *pool = pool_create();
    pool_setdisttype(pool, DISTTYPE_RPM);
    pool_setarch(pool, "x86_64");
    pool_set_installed(pool, read_repo(pool, "system", installed));
    read_repo(pool, "available", there);
    pool_addfileprovides(pool);
    pool_createwhatprovides(pool);
    const struct { Id action; const char *name; } asked[] = {
        {SOLVER_INSTALL | SOLVER_SOLVABLE_NAME, "vim"}, {SOLVER_UPDATE | SOLVER_SOLVABLE_NAME, "lib"},
        {SOLVER_UPDATE | SOLVER_SOLVABLE_NAME, "shell"}, {SOLVER_ERASE | SOLVER_SOLVABLE_NAME, "tool"},
        {SOLVER_INSTALL | SOLVER_SOLVABLE_PROVIDES, "sh"}, {SOLVER_INSTALL | SOLVER_SOLVABLE_NAME, "broken"}};
    int wrong = 0;
    for (size_t i = 0; i < sizeof asked / sizeof *asked; i++) {
        Queue jobs;
        queue_init(&jobs);
        queue_push2(&jobs, asked[i].action, pool_str2id(pool, asked[i].name, 1));
        wrong += !is_same(pool, "x86_64", &jobs);
        queue_free(&jobs);
    }
    pool_free(pool);
    return wrong != 0;
}
