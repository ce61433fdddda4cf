/* Builds small tasks by calls, and reads from each answer exactly what was worked out for it by hand from what docs/FORMATS.md says of rules, policy,
 * changes and order: no value here was taken from an answer. A proof is checked by unit propagation over clauses that were written by hand.
 * Exits with 0, or tells the line of the first check that fails. */
#include "gachuswi_task.h"

#include <stdio.h>
#include <stdlib.h>

#define CHECK(x) do { if (!(x)) { printf("worked.c:%d: not so: %s\n", __LINE__, #x); exit(1); } } while (0)
#define TEXT(text) (const uint8_t *)(text), strlen(text)
#define COUNT(list) (sizeof(list) / sizeof *(list))

static gachuswi_task task = GACHUSWI_NONE;
static size_t repos[2];

/* A task with what is installed and what is available, for a system of x86_64. */
static void frame(const char *installed, const char *available) {
    uint32_t above = 4711, last = 4711, count = 0;
    CHECK(gachuswi_task_open(&task) == GACHUSWI_DONE && gachuswi_task_status(&task) == GACHUSWI_OPEN);
    CHECK(gachuswi_task_repos(&task) == 0 && gachuswi_task_packages(&task) == 0);
    CHECK(gachuswi_repo_add(&task, TEXT("system"), 0, &repos[0]) == GACHUSWI_DONE && repos[0] == 0);
    CHECK(gachuswi_packages_add(&task, repos[0], TEXT(installed), &above, &last) == GACHUSWI_DONE && above == 0);
    count = last;
    CHECK(gachuswi_repo_add(&task, TEXT("available"), 0, &repos[1]) == GACHUSWI_DONE && repos[1] == 1);
    CHECK(gachuswi_packages_add(&task, repos[1], TEXT(available), &above, &last) == GACHUSWI_DONE && above == count);
    CHECK(gachuswi_system_set(&task, GACHUSWI_X86_64, true, repos[0]) == GACHUSWI_DONE);
    CHECK(gachuswi_task_repos(&task) == 2 && gachuswi_task_packages(&task) == last);
}

static gachuswi_job job_of(uint32_t action, const char *text) {
    gachuswi_job job = {action, false, false, false, NULL, 0, TEXT(text)};
    return job;
}

/* A job that selects by a name, with or without a comparison; its text is the line's behind `job`. */
static void by_name(uint32_t action, const char *dep, bool forcebest, const char *text) {
    gachuswi_job job = job_of(action, text);
    job.forcebest = forcebest;
    CHECK(gachuswi_job_add_by(&task, &job, false, TEXT(dep)) == GACHUSWI_DONE);
}

/* A job that selects one package, or all where it is 0. */
static void by_number(uint32_t action, uint32_t pack, bool forcebest, const char *text) {
    gachuswi_job job = job_of(action, text);
    job.all = pack == 0, job.forcebest = forcebest;
    job.packs = &pack, job.packs_len = pack != 0;
    CHECK(gachuswi_job_add(&task, &job) == GACHUSWI_DONE);
}

static void answer(int32_t code) { CHECK(gachuswi_task_answer(&task, GACHUSWI_BUDGET) == code && gachuswi_task_status(&task) == code); }

/* ---- what is read */

static bool are_changes(const gachuswi_change *wanted, size_t count) {
    gachuswi_change changes[9];
    return gachuswi_task_changes(&task, changes, 9) == count && !memcmp(changes, wanted, count * sizeof *changes);
}

static bool are(size_t (*call)(gachuswi_task *, uint32_t *, size_t), const uint32_t *wanted, size_t count) {
    uint32_t packs[9];
    return call(&task, packs, 9) == count && !memcmp(packs, wanted, count * sizeof *packs);
}

static bool are_cycle(bool pre, size_t cycle, const uint32_t *wanted, size_t count) {
    uint32_t packs[9];
    size_t told = 4711;
    return gachuswi_cycle_packages(&task, pre, cycle, packs, 9, &told) == 0 && told == count && !memcmp(packs, wanted, count * sizeof *packs);
}

/* The rule of this number, and the packages that it carries. */
static bool is_rule(size_t rule, gachuswi_rule wanted, const uint32_t *packs, size_t count) {
    gachuswi_rule is = {4711, 4711, 4711, 4711, 4711};
    uint32_t carried[9];
    size_t told = 4711;
    if (gachuswi_rule_get(&task, rule, &is) != 0 || gachuswi_rule_packages(&task, rule, carried, 9, &told) != 0) return false;
    /* which number a dependency has is not said, but that of its text */
    wanted.dep = is.dep;
    return !memcmp(&is, &wanted, sizeof is) && told == count && !memcmp(carried, packs, count * sizeof *carried);
}

/* the packages that a rule carries are ended by a 0 */
#define IS_RULE(rule, kind, pack, other, job, ...) \
    is_rule(rule, (gachuswi_rule){kind, pack, 0, other, job}, (const uint32_t[]){__VA_ARGS__}, COUNT(((const uint32_t[]){__VA_ARGS__})) - 1)
#define ARE_CHANGES(...) are_changes((const gachuswi_change[]){__VA_ARGS__}, COUNT(((const gachuswi_change[]){__VA_ARGS__})))
#define ARE(call, ...) are(call, (const uint32_t[]){__VA_ARGS__}, COUNT(((const uint32_t[]){__VA_ARGS__})))
#define ARE_CYCLE(pre, cycle, ...) are_cycle(pre, cycle, (const uint32_t[]){__VA_ARGS__}, COUNT(((const uint32_t[]){__VA_ARGS__})))

static uint8_t text[4096];

static bool is_text(int32_t code, size_t len, const char *wanted) { return code == 0 && len == strlen(wanted) && !memcmp(text, wanted, len); }

static bool is_dep(size_t rule, const char *wanted) {
    gachuswi_rule is;
    size_t len = 0;
    if (gachuswi_rule_get(&task, rule, &is) != 0) return false;
    int32_t code = gachuswi_dep_text(&task, is.dep, text, sizeof text, &len);
    return is_text(code, len, wanted);
}

static bool says_rule(size_t rule, const char *wanted) {
    size_t len = 0;
    int32_t code = gachuswi_rule_text(&task, rule, text, sizeof text, &len);
    return is_text(code, len, wanted);
}

static bool are_rules(int32_t code, const size_t *is, size_t told, const size_t *wanted, size_t count) { return code == 0 && told == count && !memcmp(is, wanted, count * sizeof *is); }

static bool are_problem_rules(size_t problem, const size_t *wanted, size_t count) {
    size_t rules[9], told = 4711;
    int32_t code = gachuswi_problem_rules(&task, problem, rules, 9, &told);
    return are_rules(code, rules, told, wanted, count);
}

#define ARE_PROBLEM_RULES(problem, ...) are_problem_rules(problem, (const size_t[]){__VA_ARGS__}, COUNT(((const size_t[]){__VA_ARGS__})))

/* A solution drops these rules, of which there is one more where `also` is not 0; it has this set, with the system; and says this. */
static bool is_solution(size_t problem, size_t solution, size_t dropped, size_t also, const uint32_t *set, size_t set_len, const char *says) {
    size_t rules[9], wanted[2] = {dropped, also}, told = 4711, len = 0;
    uint32_t packs[9];
    int32_t code = gachuswi_solution_rules(&task, problem, solution, rules, 9, &told);
    if (!are_rules(code, rules, told, wanted, 1 + (also != 0))) return false;
    code = gachuswi_solution_set(&task, problem, solution, packs, 9, &told);
    if (code != 0 || told != set_len || memcmp(packs, set, set_len * sizeof *set)) return false;
    code = gachuswi_solution_text(&task, problem, solution, text, sizeof text, &len);
    return is_text(code, len, says);
}

#define IS_SOLUTION(solution, dropped, also, says, ...) \
    is_solution(0, solution, dropped, also, (const uint32_t[]){__VA_ARGS__}, COUNT(((const uint32_t[]){__VA_ARGS__})), says)

static size_t solutions(void) {
    size_t count = 4711;
    CHECK(gachuswi_problem_solutions(&task, 0, &count) == 0);
    return count;
}

/* ---- a checker of proofs, of its own */

/* The clauses of all rules, in their order, each ended by a 0, and the whole by another. */
static const int *clauses;
/* the clauses of steps, likewise */
static int steps[9][9];

static const int *clause_of(const char *hint) {
    long at = strtol(hint + 1, NULL, 10);
    if (hint[0] == 's') return steps[at];
    const int *clause = clauses;
    for (; at > 0; at--, clause++)
        while (*clause) clause++;
    return clause;
}

/* Whether the proof of the first problem lists these rules, and each of its steps follows along its hints, the last without a literal. */
static bool is_proved(const char *begin) {
    size_t len = 0, step = 0;
    bool is_empty = false;
    if (gachuswi_problem_proof(&task, 0, text, sizeof text - 1, &len) != 0 || len >= sizeof text) return false;
    text[len] = 0;
    if (strncmp((const char *)text, begin, strlen(begin))) return false;
    char *line = strtok((char *)text + strlen(begin), "\n");
    for (; line && strcmp(line, "end"); line = strtok(NULL, "\n"), step++) {
        /* known[p + 9] is whether a literal is known to be true; first those that the clause says are false */
        bool known[19] = {false}, clashes = false;
        char *word = line + 4;
        size_t literals = 0;
        if (strncmp(line, "step ", 5) || step == 9) return false;
        for (long literal; (literal = strtol(word, &word, 10)) != 0; steps[step][literals++] = (int)literal) known[9 - literal] = true;
        steps[step][literals] = 0;
        while (*word == ' ' && !clashes) {
            const int *clause = clause_of(word + 1);
            int left = 0, last = 0;
            for (; *clause; clause++)
                if (!known[9 - *clause]) left++, last = *clause;
            if (left > 1) return false;
            if (left == 1) known[9 + last] = true;
            clashes = left == 0;
            word += 1 + strcspn(word + 1, " ");
        }
        if (!clashes) return false;
        is_empty = literals == 0;
    }
    return line && is_empty;
}

/* ---- tasks that some set meets */

/* The name that comes first wins over another that provides it, and what is required comes before what requires it. */
static void requirement(void) {
    frame("", "=Pkg: A 1 1 noarch\n=Req: lib >= 2\n=Pkg: lib 1 1 noarch\n=Pkg: lib 2 1 noarch\n=Pkg: other 1 1 noarch\n=Prv: lib\n");
    by_name(GACHUSWI_JOB_INSTALL, "A", false, "install name A");
    answer(GACHUSWI_TRANSACTION);
    CHECK(ARE_CHANGES({GACHUSWI_INSTALL, 1, 0}, {GACHUSWI_INSTALL, 3, 0}));
    CHECK(ARE(gachuswi_task_order, 3, 1) && ARE(gachuswi_task_set, 0, 1, 3));
    CHECK(gachuswi_task_cycles(&task, false) == 0 && gachuswi_task_cycles(&task, true) == 0 && gachuswi_task_problems(&task) == 0);
    CHECK(gachuswi_task_rules(&task) == 3 && IS_RULE(0, GACHUSWI_RULE_REQUIRES, 1, 0, 0, 0) && is_dep(0, "lib >= 2"));
    CHECK(IS_RULE(1, GACHUSWI_RULE_SAME_NAME, 2, 3, 0, 0) && IS_RULE(2, GACHUSWI_RULE_JOB_INSTALL, 0, 0, 0, 1, 0));
    CHECK(says_rule(1, "cannot install both lib-1-1.noarch@available and lib-2-1.noarch@available"));
}

/* Two packages that require each other before they are installed, and one that requires one of them. */
static void cycles(void) {
    frame("", "=Pkg: A 1 1 noarch\n=Prq: B\n=Pkg: B 1 1 noarch\n=Prq: A\n=Pkg: C 1 1 noarch\n=Req: A\n");
    by_name(GACHUSWI_JOB_INSTALL, "C", false, "install name C");
    answer(GACHUSWI_TRANSACTION);
    CHECK(ARE(gachuswi_task_order, 1, 2, 3) && ARE(gachuswi_task_set, 0, 1, 2, 3));
    CHECK(gachuswi_task_cycles(&task, true) == 1 && ARE_CYCLE(true, 0, 1, 2));
    CHECK(gachuswi_task_cycles(&task, false) == 1 && ARE_CYCLE(false, 0, 1, 2));
    /* one of all requirements alone, beside one of pre-requirements */
    frame("", "=Pkg: A 1 1 noarch\n=Req: B\n=Pkg: B 1 1 noarch\n=Req: A\n=Pkg: C 1 1 noarch\n=Prq: D\n=Pkg: D 1 1 noarch\n=Prq: C\n=Req: A\n");
    by_name(GACHUSWI_JOB_INSTALL, "D", false, "install name D");
    answer(GACHUSWI_TRANSACTION);
    CHECK(gachuswi_task_cycles(&task, true) == 1 && ARE_CYCLE(true, 0, 3, 4));
    CHECK(gachuswi_task_cycles(&task, false) == 2 && ARE_CYCLE(false, 0, 1, 2) && ARE_CYCLE(false, 1, 3, 4));
    uint32_t room[3] = {4711, 4711, 4711};
    size_t told = 4711;
    CHECK(gachuswi_cycle_packages(&task, false, 2, room, 3, &told) == GACHUSWI_MISUSE && told == 4711 && room[0] == 4711);
    CHECK(gachuswi_cycle_packages(&task, true, 0, room, 1, &told) == 0 && told == 2 && room[0] == 3 && room[1] == 4711);
}

/* What becomes of installed packages. */
static void changes(void) {
    frame("=Pkg: A 2 1 noarch\n", "=Pkg: A 1 1 noarch\n");
    by_name(GACHUSWI_JOB_INSTALL, "A = 1", false, "install name A = 1");
    answer(GACHUSWI_TRANSACTION);
    CHECK(ARE_CHANGES({GACHUSWI_DOWNGRADE, 1, 2}) && ARE(gachuswi_task_order, 2) && ARE(gachuswi_task_set, 0, 2));
    frame("=Pkg: old 1 1 noarch\n", "=Pkg: new 1 1 noarch\n=Obs: old\n");
    by_number(GACHUSWI_JOB_UPDATE, 0, false, "update all packages");
    answer(GACHUSWI_TRANSACTION);
    CHECK(ARE_CHANGES({GACHUSWI_OBSOLETE, 1, 2}, {GACHUSWI_INSTALL, 2, 0}) && ARE(gachuswi_task_order, 2, 1) && ARE(gachuswi_task_set, 0, 2));
    CHECK(gachuswi_task_rules(&task) == 3 && IS_RULE(0, GACHUSWI_RULE_OBSOLETES, 2, 1, 0, 0) && is_dep(0, "old"));
    CHECK(IS_RULE(1, GACHUSWI_RULE_UPDATE, 1, 0, 0, 1, 2, 0) && IS_RULE(2, GACHUSWI_RULE_FEATURE, 1, 0, 0, 1, 2, 0));
    /* a broken requirement of what is installed does not count */
    frame("=Pkg: A 1 1 noarch\n", "=Pkg: A 2 1 noarch\n=Req: missing\n");
    by_name(GACHUSWI_JOB_UPDATE, "A", false, "update name A");
    answer(GACHUSWI_TRANSACTION);
    CHECK(gachuswi_task_changes(&task, NULL, 0) == 0 && gachuswi_task_order(&task, NULL, 0) == 0 && ARE(gachuswi_task_set, 0, 1));
}

/* The kinds of rules that no other task here has. */
static void kinds(void) {
    frame("=Pkg: up 1 1 noarch\n", "=Pkg: up 2 1 noarch\n=Pkg: off 1 1 noarch\n=Pkg: x 1 1 noarch\n=Con: y\n=Pkg: y 1 1 noarch\n");
    CHECK(gachuswi_package_disable(&task, 3) == GACHUSWI_DONE);
    by_number(GACHUSWI_JOB_DISTUPGRADE, 0, false, "distupgrade all packages");
    by_number(GACHUSWI_JOB_UPDATE, 1, true, "update pkg up-1-1.noarch@system [forcebest]");
    by_number(GACHUSWI_JOB_LOCK, 3, false, "lock pkg off-1-1.noarch@available");
    answer(GACHUSWI_TRANSACTION);
    CHECK(ARE_CHANGES({GACHUSWI_UPGRADE, 1, 2}) && ARE(gachuswi_task_set, 0, 2));
    CHECK(gachuswi_task_rules(&task) == 7);
    CHECK(IS_RULE(0, GACHUSWI_RULE_SAME_NAME, 1, 2, 0, 0) && IS_RULE(1, GACHUSWI_RULE_NOT_INSTALLABLE, 3, 0, 0, 0));
    CHECK(IS_RULE(2, GACHUSWI_RULE_CONFLICTS, 4, 5, 0, 0) && is_dep(2, "y"));
    CHECK(IS_RULE(3, GACHUSWI_RULE_DISTUPGRADE, 1, 0, 0, 2, 0) && IS_RULE(4, GACHUSWI_RULE_FEATURE, 1, 0, 0, 1, 2, 0));
    CHECK(IS_RULE(5, GACHUSWI_RULE_JOB_LOCK, 0, 0, 2, 3, 0) && IS_RULE(6, GACHUSWI_RULE_BEST_UPDATE, 1, 0, 1, 2, 0));
    gachuswi_rule none = {4711, 4711, 4711, 4711, 4711};
    uint32_t room = 4711;
    size_t told = 4711;
    CHECK(gachuswi_rule_get(&task, 7, &none) == GACHUSWI_MISUSE && none.kind == 4711 && none.job == 4711);
    CHECK(gachuswi_rule_packages(&task, 7, &room, 1, &told) == GACHUSWI_MISUSE && told == 4711 && room == 4711);
    CHECK(gachuswi_rule_packages(&task, 4, &room, 1, &told) == 0 && told == 2 && room == 1);
    CHECK(gachuswi_dep_text(&task, 4294967295u, text, sizeof text, &told) == GACHUSWI_MISUSE && told == 2);
}

/* A language that the system has, and flags. */
static void system_and_flags(void) {
    const uint32_t system = 0;
    frame("", "=Pkg: lang-de 1 1 noarch\n=Sup: namespace:language(de)\n");
    answer(GACHUSWI_TRANSACTION);
    CHECK(gachuswi_task_changes(&task, NULL, 0) == 0);
    CHECK(gachuswi_namespace_add(&task, TEXT("namespace:language(de)"), &system, 1) == GACHUSWI_DONE);
    CHECK(gachuswi_task_status(&task) == GACHUSWI_OPEN);
    answer(GACHUSWI_TRANSACTION);
    CHECK(ARE_CHANGES({GACHUSWI_INSTALL, 1, 0}));
    frame("", "=Pkg: A 1 1 i686\n=Pkg: A 1 1 x86_64\n");
    gachuswi_flags flags = GACHUSWI_FLAGS;
    flags.no_infarch_check = true;
    CHECK(gachuswi_flags_set(&task, &flags) == GACHUSWI_DONE);
    by_number(GACHUSWI_JOB_INSTALL, 1, false, "install pkg A-1-1.i686@available");
    answer(GACHUSWI_TRANSACTION);
    CHECK(ARE_CHANGES({GACHUSWI_INSTALL, 1, 0}) && gachuswi_task_rules(&task) == 2);
}

/* Nothing can be learnt with a budget of 0; with one of 1 the one rule is learnt that is needed, that la is out. */
static void budgets(void) {
    frame("", "=Pkg: P 1 1 noarch\n=Req: lib\n=Pkg: la 1 1 noarch\n=Prv: lib\n=Req: x\n=Req: y\n=Pkg: lb 1 1 noarch\n=Prv: lib\n=Pkg: x 1 1 noarch\n=Con: y\n=Pkg: y 1 1 noarch\n");
    by_name(GACHUSWI_JOB_INSTALL, "P", false, "install name P");
    CHECK(gachuswi_task_answer(&task, 0) == GACHUSWI_SPENT && gachuswi_task_status(&task) == GACHUSWI_SPENT);
    CHECK(gachuswi_task_changes(&task, NULL, 0) == 0 && gachuswi_task_set(&task, NULL, 0) == 0 && gachuswi_task_problems(&task) == 0);
    CHECK(gachuswi_task_answer(&task, 1000001) == GACHUSWI_MISUSE && gachuswi_task_status(&task) == GACHUSWI_SPENT);
    CHECK(gachuswi_task_answer(&task, 1) == GACHUSWI_TRANSACTION && ARE_CHANGES({GACHUSWI_INSTALL, 1, 0}, {GACHUSWI_INSTALL, 3, 0}));
}

/* ---- tasks that none meets */

/* An install of what nobody provides: its rule has the empty clause, by which alone the proof goes. */
static void nothing_there(void) {
    size_t len = 0;
    frame("", "");
    by_name(GACHUSWI_JOB_INSTALL, "nosuch", false, "install name nosuch");
    answer(GACHUSWI_PROBLEMS);
    CHECK(gachuswi_task_rules(&task) == 1 && IS_RULE(0, GACHUSWI_RULE_JOB_INSTALL, 0, 0, 0, 0));
    CHECK(gachuswi_task_problems(&task) == 1 && ARE_PROBLEM_RULES(0, 0) && says_rule(0, "nothing provides requested nosuch"));
    CHECK(solutions() == 1 && IS_SOLUTION(0, 0, 0, "deljob install name nosuch\n", 0));
    int32_t code = gachuswi_problem_proof(&task, 0, text, sizeof text, &len);
    CHECK(is_text(code, len, "proof 1\nproblem 1 1\nrules 0\nstep 0 b0\nend\n"));
    CHECK(gachuswi_problem_proof(&task, 1, text, sizeof text, &len) == GACHUSWI_MISUSE && len == 42);
    CHECK(gachuswi_jobs_clear(&task) == GACHUSWI_DONE && gachuswi_task_problems(&task) == 0 && gachuswi_task_rules(&task) == 0);
    CHECK(gachuswi_problem_proof(&task, 0, text, sizeof text, &len) == GACHUSWI_MISUSE && len == 42);
}

/* A package of a worse architecture than another of its name. */
static void architecture(void) {
    static const int of_rules[] = {-1, -2, 0, -1, 0, 1, 0, 0};
    frame("", "=Pkg: A 1 1 i686\n=Pkg: A 1 1 x86_64\n");
    by_number(GACHUSWI_JOB_INSTALL, 1, false, "install pkg A-1-1.i686@available");
    answer(GACHUSWI_PROBLEMS);
    CHECK(gachuswi_task_rules(&task) == 3 && IS_RULE(0, GACHUSWI_RULE_SAME_NAME, 1, 2, 0, 0));
    CHECK(IS_RULE(1, GACHUSWI_RULE_INFARCH, 1, 0, 0, 0) && IS_RULE(2, GACHUSWI_RULE_JOB_INSTALL, 0, 0, 0, 1, 0));
    CHECK(gachuswi_task_problems(&task) == 1 && ARE_PROBLEM_RULES(0, 1, 2));
    CHECK(says_rule(1, "A-1-1.i686@available has inferior architecture") && says_rule(2, "conflicting requests"));
    CHECK(solutions() == 2 && IS_SOLUTION(0, 1, 0, "allow A-1-1.i686@available\n", 0, 1));
    CHECK(IS_SOLUTION(1, 2, 0, "deljob install pkg A-1-1.i686@available\n", 0));
    clauses = of_rules;
    CHECK(is_proved("proof 1\nproblem 1 1\nrules 1 2\n"));
}

/* The best candidate of a job cannot be installed. */
static void best(void) {
    static const int of_rules[] = {-1, -2, 0, -2, 0, 1, 2, 0, 2, 0, 0};
    frame("", "=Pkg: A 1 1 noarch\n=Pkg: A 2 1 noarch\n=Req: missing\n");
    by_name(GACHUSWI_JOB_INSTALL, "A", true, "install name A [forcebest]");
    answer(GACHUSWI_PROBLEMS);
    CHECK(gachuswi_task_rules(&task) == 4 && IS_RULE(1, GACHUSWI_RULE_REQUIRES, 2, 0, 0, 0) && is_dep(1, "missing"));
    CHECK(IS_RULE(2, GACHUSWI_RULE_JOB_INSTALL, 0, 0, 0, 1, 2, 0) && IS_RULE(3, GACHUSWI_RULE_BEST_JOB, 0, 0, 0, 2, 0));
    CHECK(gachuswi_task_problems(&task) == 1 && ARE_PROBLEM_RULES(0, 1, 3) && says_rule(3, "cannot install the best candidate for the job"));
    CHECK(solutions() == 1 && IS_SOLUTION(0, 3, 0, "dropbest install name A [forcebest]\n", 0, 1));
    clauses = of_rules;
    CHECK(is_proved("proof 1\nproblem 1 1\nrules 1 3\n"));
}

/* Three jobs of which any two can be done. */
static void rich_conflict(void) {
    static const int of_rules[] = {-1, -2, -3, 0, 1, 0, 2, 0, 3, 0, 0};
    frame("", "=Pkg: A 1 1 noarch\n=Pkg: B 1 1 noarch\n=Pkg: C 1 1 noarch\n=Con: A & B\n");
    by_name(GACHUSWI_JOB_INSTALL, "A", false, "install name A");
    by_name(GACHUSWI_JOB_INSTALL, "B", false, "install name B");
    by_name(GACHUSWI_JOB_INSTALL, "C", false, "install name C");
    answer(GACHUSWI_PROBLEMS);
    CHECK(gachuswi_task_rules(&task) == 4 && IS_RULE(0, GACHUSWI_RULE_RICH_CONFLICT, 3, 0, 0, 0) && is_dep(0, "A & B"));
    CHECK(IS_RULE(3, GACHUSWI_RULE_JOB_INSTALL, 0, 0, 2, 3, 0) && gachuswi_task_problems(&task) == 1 && ARE_PROBLEM_RULES(0, 0, 1, 2, 3));
    CHECK(says_rule(0, "package C-1-1.noarch@available conflicts with A & B"));
    CHECK(solutions() == 3 && IS_SOLUTION(0, 1, 0, "deljob install name A\n", 0, 2, 3));
    CHECK(IS_SOLUTION(1, 2, 0, "deljob install name B\n", 0, 1, 3) && IS_SOLUTION(2, 3, 0, "deljob install name C\n", 0, 1, 2));
    clauses = of_rules;
    CHECK(is_proved("proof 1\nproblem 1 1\nrules 0 1 2 3\n"));
}

/* An erase of what an installed package requires. That package is held by two rules that say the same, of which the problem lists one. */
static void erase(void) {
    static const int of_rules[] = {-2, 1, 0, 2, 0, 2, 0, -1, 0, 0};
    size_t rules[9], told = 0;
    frame("=Pkg: A 1 1 noarch\n=Pkg: B 1 1 noarch\n=Req: A\n", "");
    by_name(GACHUSWI_JOB_ERASE, "A", false, "erase name A");
    answer(GACHUSWI_PROBLEMS);
    CHECK(gachuswi_task_rules(&task) == 4 && IS_RULE(0, GACHUSWI_RULE_REQUIRES, 2, 0, 0, 0) && is_dep(0, "A"));
    CHECK(IS_RULE(1, GACHUSWI_RULE_UPDATE, 2, 0, 0, 2, 0) && IS_RULE(2, GACHUSWI_RULE_FEATURE, 2, 0, 0, 2, 0) && IS_RULE(3, GACHUSWI_RULE_JOB_ERASE, 0, 0, 0, 1, 0));
    CHECK(gachuswi_task_problems(&task) == 1 && gachuswi_problem_rules(&task, 0, rules, 9, &told) == 0 && told == 3);
    CHECK(rules[0] == 0 && (rules[1] == 1 || rules[1] == 2) && rules[2] == 3);
    CHECK(says_rule(0, "package B-1-1.noarch@system requires A, but none of the providers can be installed"));
    CHECK(solutions() == 2 && IS_SOLUTION(0, 1, 2, "erase B-1-1.noarch@system\n", 0));
    CHECK(IS_SOLUTION(1, 3, 0, "deljob erase name A\n", 0, 1, 2));
    clauses = of_rules;
    CHECK(is_proved(rules[1] == 1 ? "proof 1\nproblem 1 1\nrules 0 1 3\n" : "proof 1\nproblem 1 1\nrules 0 2 3\n"));
}

/* ---- a script, and its task answered anew */

static void script(void) {
    static const char lines[] = "repo system 0 testtags <inline>\n#>=Pkg: A 1 1 noarch\n#>=Pkg: B 1 1 noarch\n#>=Req: A\nrepo available 0 empty\n"
                                "system x86_64 rpm system\njob erase name A\n";
    gachuswi_file file = gachuswi_lend("s.t", lines, sizeof lines - 1);
    gachuswi_flags flags = GACHUSWI_FLAGS;
    const uint32_t second = 2;
    gachuswi_job job = {GACHUSWI_JOB_ERASE, false, false, false, &second, 1, TEXT("erase pkg B-1-1.noarch@system")};
    uint32_t found = 4711;
    size_t len = 4711;
    CHECK(gachuswi_task_solve(&task, &file, 1, TEXT("s.t"), GACHUSWI_BUDGET) == GACHUSWI_PROBLEMS);
    CHECK(gachuswi_task_packages(&task) == 2 && gachuswi_task_repos(&task) == 2 && gachuswi_task_problems(&task) == 1);
    CHECK(solutions() == 2 && IS_SOLUTION(1, 3, 0, "deljob erase name A\n", 0, 1, 2));
    CHECK(gachuswi_package_find(&task, TEXT("B-1-1.noarch@system"), &found) == 0 && found == 2);
    CHECK(gachuswi_package_find(&task, TEXT("C-1-1.noarch@system"), &found) == GACHUSWI_MISUSE && found == 2);
    int32_t code = gachuswi_package_text(&task, 2, text, sizeof text, &len);
    CHECK(is_text(code, len, "B-1-1.noarch@system"));
    code = gachuswi_package_text(&task, 0, text, sizeof text, &len);
    CHECK(is_text(code, len, "@SYSTEM"));
    /* what requires the other may go alone */
    CHECK(gachuswi_task_solve_again(&task, &flags, &job, 1, 0) == GACHUSWI_TRANSACTION);
    CHECK(ARE_CHANGES({GACHUSWI_ERASE, 2, 0}) && ARE(gachuswi_task_order, 2) && ARE(gachuswi_task_set, 0, 1));
    CHECK(gachuswi_task_rules(&task) == 4 && IS_RULE(1, GACHUSWI_RULE_UPDATE, 1, 0, 0, 1, 0) && IS_RULE(3, GACHUSWI_RULE_JOB_ERASE, 0, 0, 0, 2, 0));
    CHECK(gachuswi_task_err(&task, text, sizeof text) == 0);
    gachuswi_task_close(&task);
    CHECK(gachuswi_task_status(&task) == GACHUSWI_MISUSE && gachuswi_task_rules(&task) == 0 && gachuswi_task_cycles(&task, false) == 0);
    CHECK(gachuswi_rule_get(&task, 0, &(gachuswi_rule){0, 0, 0, 0, 0}) == GACHUSWI_MISUSE && gachuswi_rule_packages(&task, 0, NULL, 0, &len) == GACHUSWI_MISUSE);
    CHECK(gachuswi_cycle_packages(&task, false, 0, NULL, 0, &len) == GACHUSWI_MISUSE && gachuswi_problem_proof(&task, 0, NULL, 0, &len) == GACHUSWI_MISUSE);
    CHECK(gachuswi_dep_text(&task, 0, NULL, 0, &len) == GACHUSWI_MISUSE && len == 7);
}

/* The line on a text that is refused: the call, the number of the bad line, and its cause. */
static void refusals(void) {
    uint32_t above = 4711, last = 4711;
    frame("", "");
    CHECK(gachuswi_packages_add(&task, 1, TEXT("=Pkg: A 1 1 noarch\n+Req:\nB\n"), &above, &last) == GACHUSWI_REFUSED && above == 4711 && last == 4711);
    size_t len = gachuswi_task_err(&task, text, sizeof text);
    CHECK(is_text(0, len, "gachuswi: packages:3: UnclosedBlock\n") && gachuswi_task_packages(&task) == 0 && gachuswi_task_repos(&task) == 2);
    gachuswi_task_close(&task);
}

int main(void) {
    requirement();
    cycles();
    changes();
    kinds();
    system_and_flags();
    budgets();
    nothing_there();
    architecture();
    best();
    rich_conflict();
    erase();
    script();
    refusals();
    return 0;
}
