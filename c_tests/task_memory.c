/* task_memory [OPTION ..] SCRIPT ..: refuses memory at each allocation of the calls for a task in turn, once that one alone and once all from
 * it on, and tells of each call that does otherwise than it should: answer GACHUSWI_NO_MEMORY, leave what was kept, and hold no more memory
 * than before. It is linked with -Wl,--wrap=malloc,--wrap=realloc,--wrap=free, so that it sees the calls that the library makes. */
#include "gachuswi_task.h"
#include "lending.h"
#include "refusing.h"

static const gachuswi_flags flags = GACHUSWI_FLAGS;
static const char *script;
static uint32_t budget;
static unsigned long failed, calls;
static uint32_t first_pack[1] = {1};
static gachuswi_job erase = {GACHUSWI_JOB_ERASE, false, false, false, first_pack, 1, NULL, 0};

static int32_t solve(gachuswi_task *task) {
    return gachuswi_task_solve(task, lent, lent_len, (const uint8_t *)script, strlen(script), budget);
}

static int32_t again(gachuswi_task *task) { return gachuswi_task_solve_again(task, &flags, &erase, 1, budget); }

static uint8_t room[100000];

static int32_t package_text(gachuswi_task *task) {
    size_t count = 4711;
    int32_t code = gachuswi_package_text(task, 1, room, sizeof room, &count);
    if (code == GACHUSWI_NO_MEMORY && count != 4711) failed++;
    return code;
}

static int32_t solution_text(gachuswi_task *task) {
    size_t count = 4711;
    int32_t code = gachuswi_solution_text(task, 0, 0, room, sizeof room, &count);
    if (code == GACHUSWI_NO_MEMORY && count != 4711) failed++;
    return code;
}

static int32_t dep_text(gachuswi_task *task) {
    size_t count = 4711;
    int32_t code = gachuswi_dep_text(task, 0, room, sizeof room, &count);
    if (code == GACHUSWI_NO_MEMORY && count != 4711) failed++;
    return code;
}

static int32_t proof(gachuswi_task *task) {
    size_t count = 4711;
    int32_t code = gachuswi_problem_proof(task, 0, room, sizeof room, &count);
    if (code == GACHUSWI_NO_MEMORY && count != 4711) failed++;
    return code;
}

static int32_t rule_text(gachuswi_task *task) {
    size_t count = 4711;
    int32_t code = gachuswi_rule_text(task, 0, room, sizeof room, &count);
    if (code == GACHUSWI_NO_MEMORY && count != 4711) failed++;
    return code;
}

/* What is kept, in one number. */
static unsigned long kept(gachuswi_task *task) {
    static gachuswi_change changes[1000];
    unsigned long sum = (unsigned long)gachuswi_task_status(task);
    size_t count = gachuswi_task_changes(task, changes, 1000), rules = 0;
    for (size_t i = 0; i < count && i < 1000; i++) sum = sum * 31 + changes[i].kind * 7 + changes[i].pack * 3 + changes[i].by;
    for (size_t p = 0; p < gachuswi_task_problems(task); p++)
        if (!gachuswi_problem_rules(task, p, NULL, 0, &rules)) sum = sum * 31 + rules;
    sum = sum * 31 + gachuswi_task_packages(task) + 7 * gachuswi_task_repos(task) + 3 * gachuswi_task_rules(task) + gachuswi_task_cycles(task, false);
    return sum * 31 + gachuswi_task_set(task, NULL, 0) + gachuswi_task_err(task, NULL, 0);
}

/* ---- calls that build; the memory of what a refused one read may stay with a task that has no answer */

static int32_t add_repo(gachuswi_task *task) {
    static unsigned char count;
    uint8_t name[3] = {'r', (uint8_t)('a' + count / 26), (uint8_t)('a' + count % 26)};
    size_t repo = 4711;
    int32_t code = gachuswi_repo_add(task, name, 3, 0, &repo);
    if (code == GACHUSWI_NO_MEMORY && repo != 4711) failed++;
    count += code == GACHUSWI_DONE;
    return code;
}

static int32_t add_packages(gachuswi_task *task) {
    static const char text[] = "=Pkg: fresh 1 1 noarch\n=Req: more & other\n=Prv: fresh = 1\n=Fls: /a/b\n=Pkg: more 2 3 noarch\n=Con: other < 7\n";
    uint32_t above = 4711, last = 4711;
    int32_t code = gachuswi_packages_add(task, 0, (const uint8_t *)text, sizeof text - 1, &above, &last);
    if (code == GACHUSWI_NO_MEMORY && (above != 4711 || last != 4711)) failed++;
    return code;
}

static int32_t add_refused(gachuswi_task *task) {
    static const char text[] = "=Pkg: fresh 1 1 noarch\n=Req: more &\n";
    uint32_t above = 4711, last = 4711;
    return gachuswi_packages_add(task, 0, (const uint8_t *)text, sizeof text - 1, &above, &last);
}

static int32_t add_namespace(gachuswi_task *task) { return gachuswi_namespace_add(task, (const uint8_t *)"namespace:a(b)", 14, first_pack, 1); }

static int32_t add_job(gachuswi_task *task) { return gachuswi_job_add(task, &erase); }

static int32_t add_job_by(gachuswi_task *task) { return gachuswi_job_add_by(task, &erase, true, (const uint8_t *)"fresh >= 1", 10); }

static int32_t answer_it(gachuswi_task *task) { return gachuswi_task_answer(task, budget); }

static int32_t open_one(gachuswi_task *task) { return gachuswi_task_open(task); }

/* whether the memory that a refused call holds is let be, and whether each call is made on a task that has an answer */
static bool keeps_memory, on_answers;

static bool has_answer(gachuswi_task *task) { return gachuswi_task_status(task) != GACHUSWI_OPEN; }

static void refuse(const char *name, gachuswi_task *task, int32_t (*call)(gachuswi_task *)) {
    for (int all = 0; all < 2; all++) {
        for (unsigned long k = 0;; k++) {
            /* a call that is done lets the answer go */
            if (on_answers && !has_answer(task) && (gachuswi_task_answer(task, budget), !has_answer(task))) return;
            unsigned long before = kept(task);
            long held = blocks;
            counts = true, refuses_all = all, was_refused = false, granted = k;
            int32_t code = call(task);
            counts = false;
            if (!was_refused) break;
            calls++;
            /* a call may do without the one allocation that is refused */
            if (code == GACHUSWI_NO_MEMORY ? kept(task) != before || (blocks != held && !keeps_memory) : all) {
                printf("%s, %s, allocation %lu%s: %d, %s, %ld blocks more\n", script, name, k + 1, all ? " and all behind it" : "", (int)code,
                       kept(task) == before ? "the same" : "another answer", blocks - held);
                failed++;
            }
        }
    }
}

/* Tries each call on one script, in the order in which a caller makes them. */
static void refuse_each(const gachuswi_options *options) {
    gachuswi_answer answer = GACHUSWI_NONE;
    gachuswi_task task = GACHUSWI_NONE;
    run_lending(&answer, script, options);
    gachuswi_close(&answer);
    budget = options->budget;
    long held = blocks;
    refuse("solve", &task, solve);
    refuse("solve with an answer before", &task, solve);
    refuse("a package's text", &task, package_text);
    refuse("a dependency's text", &task, dep_text);
    refuse("a rule's text", &task, rule_text);
    refuse("a proof", &task, proof);
    refuse("a solution's text", &task, solution_text);
    refuse("solve again", &task, again);
    refuse("a solution's text", &task, solution_text);
    refuse("an answer with an answer before", &task, answer_it);
    keeps_memory = true;
    if (gachuswi_task_packages(&task) > 0 && gachuswi_jobs_clear(&task) == GACHUSWI_DONE) {
        refuse("packages", &task, add_packages);
        refuse("a repository", &task, add_repo);
        refuse("packages that are refused", &task, add_refused);
        refuse("a namespace", &task, add_namespace);
        refuse("a job", &task, add_job);
        refuse("a job by a dependency", &task, add_job_by);
        refuse("packages", &task, add_packages);
        refuse("an answer", &task, answer_it);
        refuse("an answer with an answer before", &task, answer_it);
        /* with an answer nothing may have changed, nor may memory stay */
        on_answers = true, keeps_memory = false;
        refuse("packages with an answer", &task, add_packages);
        refuse("a repository with an answer", &task, add_repo);
        refuse("packages that are refused with an answer", &task, add_refused);
        refuse("a namespace with an answer", &task, add_namespace);
        refuse("a job with an answer", &task, add_job);
        refuse("a job by a dependency with an answer", &task, add_job_by);
        on_answers = false;
    }
    keeps_memory = false;
    refuse("open", &task, open_one);
    gachuswi_task_close(&task);
    if (blocks != held) {
        printf("%s: %ld blocks are left\n", script, blocks - held);
        failed++;
    }
    take_back_all();
}

int main(int argc, char **argv) {
    const gachuswi_options plain = {GACHUSWI_BUDGET, false, false, false};
    gachuswi_options options = plain;
    for (int i = 1; i < argc; i++) {
        if (take_option(argv[i], &options)) continue;
        script = argv[i];
        refuse_each(&options);
        options = plain;
    }
    printf("%lu refusals, %lu otherwise\n", calls, failed);
    return failed != 0 || blocks != 0;
}
