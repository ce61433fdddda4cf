/* drafts [OPTION ..] SCRIPT ..: builds the task of each script by calls, line by line, and compares its answer with that of gachuswi_task_solve: the
 * same numbers, lists and texts. Scripts whose lines of packages are files that are not lent are left out. Then calls that are made wrongly. Tells
 * what is not so, and exits with 1 then. */
#include "gachuswi_task.h"
#include "lending.h"

/* the script that is tried */
static const char *script = "";

static void claim(bool holds, const char *what) {
    if (!holds) {
        printf("drafts: %s: %s\n", script, what);
        exit(1);
    }
}

/* ---- a script, line by line */

static char *words[5000];
static size_t word_count;

/* Takes a line apart, in place. */
static void take_apart(char *line) {
    word_count = 0;
    for (char *word = strtok(line, " \t\r"); word && word_count < 5000; word = strtok(NULL, " \t\r")) words[word_count++] = word;
}

/* Words from the one at `from` on, up to `to`, with a space between two. */
static char *joined(size_t from, size_t to) {
    static char text[100000];
    text[0] = 0;
    for (size_t i = from; i < to; i++) strcat(strcat(text, i > from ? " " : ""), words[i]);
    return text;
}

static bool is(size_t at, const char *word) { return at < word_count && !strcmp(words[at], word); }

static const uint8_t *bytes(const char *text) { return (const uint8_t *)text; }

/* The lines behind an inline line, each without `#>`; and the end of them. */
static char *inline_lines(const char **at, size_t *len) {
    char *text = malloc(strlen(*at) + 1);
    *len = 0;
    while (!strncmp(*at, "#>", 2)) {
        const char *end = strchr(*at, '\n');
        size_t size = end ? (size_t)(end - *at) + 1 : strlen(*at);
        memcpy(text + *len, *at + 2, size - 2);
        *len += size - 2;
        *at += size;
    }
    return text;
}

/* The file that a line names, in the folder of the script. */
static const gachuswi_file *file_named(const char *name) {
    for (size_t i = 1; i < lent_len; i++) {
        size_t len = strlen(name);
        if (lent[i].name_len >= len && !memcmp(lent[i].name + lent[i].name_len - len, name, len)) return &lent[i];
    }
    return NULL;
}

static const char *const actions[] = {"install",        "erase", "update",   "distupgrade",   "lock", "verify", "multiversion",
                                      "allowuninstall", "favor", "disfavor", "userinstalled", "noop"};

/* Packages by their texts, in `packs`. */
static uint32_t packs[5000];

static size_t find(gachuswi_task *task, size_t from, size_t to) {
    for (size_t i = from; i < to; i++) {
        packs[i - from] = 4711;
        claim(gachuswi_package_find(task, bytes(words[i]), strlen(words[i]), &packs[i - from]) == 0, "a package that a script names");
    }
    return to - from;
}

/* A `job` line. */
static void add_job(gachuswi_task *task) {
    gachuswi_job job = {0, false, false, false, packs, 0, NULL, 0};
    size_t end = word_count;
    char text[100000];
    strcpy(text, joined(1, word_count));
    job.text = bytes(text);
    job.text_len = strlen(text);
    while (job.action < 12 && !is(1, actions[job.action])) job.action++;
    if (words[end - 1][0] == '[') {
        end--;
        job.forcebest = strstr(words[end], "forcebest") != NULL;
        job.cleandeps = strstr(words[end], "cleandeps") != NULL;
    }
    if (is(2, "name") || is(2, "provides")) {
        const char *dep = joined(3, end);
        claim(gachuswi_job_add_by(task, &job, is(2, "provides"), bytes(dep), strlen(dep)) == GACHUSWI_DONE, "a job by a dependency");
        return;
    }
    if (is(2, "pkg") || is(2, "oneof")) job.packs_len = find(task, 3, end);
    job.all = is(2, "all");
    claim(gachuswi_job_add(task, &job) == GACHUSWI_DONE, "a job by numbers");
}

/* A `solverflags` line. */
static void set_flags(gachuswi_flags *flags) {
    const char *const names[] = {"allowdowngrade", "allownamechange", "allowarchchange", "allowvendorchange", "allowuninstall", "ignorerecommended", "noinfarchcheck"};
    bool *const at[] = {&flags->allow_downgrade, &flags->allow_name_change, &flags->allow_arch_change, &flags->allow_vendor_change,
                        &flags->allow_uninstall, &flags->ignore_recommended, &flags->no_infarch_check};
    for (size_t w = 1; w < word_count; w++)
        for (char *word = strtok(words[w], ","); word; word = strtok(NULL, ","))
            for (size_t i = 0; i < 7; i++)
                if (!strcmp(word + (word[0] == '!'), names[i])) *at[i] = word[0] != '!';
}

/* The names of the repositories so far, by their numbers. */
static char *repo_names[1000];
static size_t repo_name_count;

static void forget_repos(void) {
    while (repo_name_count) free(repo_names[--repo_name_count]);
}

/* A `repo` line, and the lines behind it. */
static bool add_repo(gachuswi_task *task, const char **at) {
    size_t repo = 4711, repos = gachuswi_task_repos(task), len = 0;
    uint32_t above = 4711, last = 4711, count = gachuswi_task_packages(task);
    char *own = NULL;
    const gachuswi_file *file = NULL;
    claim(gachuswi_repo_add(task, bytes(words[1]), strlen(words[1]), (int32_t)strtol(words[2], NULL, 10), &repo) == GACHUSWI_DONE && repo == repos, "a repository");
    claim(repo_name_count < 1000, "too many repositories");
    repo_names[repo_name_count++] = strcpy(malloc(strlen(words[1]) + 1), words[1]);
    if (!is(3, "testtags")) return true;
    if (is(4, "<inline>")) own = inline_lines(at, &len);
    else if (!(file = file_named(words[4]))) return false;
    int32_t code = gachuswi_packages_add(task, repo, own ? bytes(own) : file->bytes, own ? len : file->len, &above, &last);
    claim(code == GACHUSWI_DONE && above == count && last == gachuswi_task_packages(task), "packages");
    free(own);
    return true;
}

/* Builds the task of the first round of a script; false where a file is not lent, or a line is very long. */
static bool build(gachuswi_task *task, const char *text) {
    gachuswi_flags flags = GACHUSWI_FLAGS;
    forget_repos();
    claim(gachuswi_task_open(task) == GACHUSWI_DONE && gachuswi_task_status(task) == GACHUSWI_OPEN && gachuswi_task_packages(task) == 0, "open");
    for (const char *at = text; *at;) {
        static char line[100000];
        const char *end = strchr(at, '\n');
        size_t len = end ? (size_t)(end - at) : strlen(at);
        if (len >= sizeof line) return false;
        memcpy(line, at, len);
        line[len] = 0;
        at += end ? len + 1 : len;
        if (line[0] == '#') continue;
        take_apart(line);
        if (is(0, "nextjob")) break;
        if (is(0, "job")) add_job(task);
        if (is(0, "repo") && !add_repo(task, &at)) return false;
        if (is(0, "solverflags")) {
            set_flags(&flags);
            claim(gachuswi_flags_set(task, &flags) == GACHUSWI_DONE, "flags");
        }
        if (is(0, "disable")) {
            find(task, 2, 3);
            claim(gachuswi_package_disable(task, packs[0]) == GACHUSWI_DONE, "a package that is disabled");
        }
        if (is(0, "namespace")) {
            size_t count = find(task, 2, word_count);
            claim(gachuswi_namespace_add(task, bytes(words[1]), strlen(words[1]), packs, count) == GACHUSWI_DONE, "a namespace");
        }
        if (is(0, "system")) {
            uint32_t arch = is(1, "x86_64") ? GACHUSWI_X86_64 : is(1, "i686") ? GACHUSWI_I686 : GACHUSWI_AARCH64;
            size_t repo = 0;
            while (word_count > 3 && repo < repo_name_count && !is(3, repo_names[repo])) repo++;
            claim(gachuswi_system_set(task, arch, word_count > 3, repo) == GACHUSWI_DONE, "the system");
        }
    }
    return true;
}

/* ---- what two tasks say */

static uint32_t *numbers(size_t (*call)(gachuswi_task *, uint32_t *, size_t), gachuswi_task *task, size_t *len) {
    *len = call(task, NULL, 0);
    uint32_t *all = malloc((*len + 1) * sizeof *all);
    claim(call(task, all, *len) == *len, "another count");
    return all;
}

static void same_numbers(size_t (*call)(gachuswi_task *, uint32_t *, size_t), gachuswi_task *a, gachuswi_task *b, const char *what) {
    size_t a_len, b_len;
    uint32_t *of_a = numbers(call, a, &a_len), *of_b = numbers(call, b, &b_len);
    claim(a_len == b_len && !memcmp(of_a, of_b, a_len * sizeof *of_a), what);
    free(of_a);
    free(of_b);
}

static void same_changes(gachuswi_task *a, gachuswi_task *b) {
    size_t count = gachuswi_task_changes(a, NULL, 0);
    gachuswi_change *of_a = malloc((count + 1) * sizeof *of_a), *of_b = malloc((count + 1) * sizeof *of_b);
    claim(gachuswi_task_changes(a, of_a, count) == count && gachuswi_task_changes(b, of_b, count) == count, "how many changes");
    claim(!memcmp(of_a, of_b, count * sizeof *of_a), "changes");
    free(of_a);
    free(of_b);
}

static void same_text(size_t a_len, const uint8_t *a, size_t b_len, const uint8_t *b, const char *what) { claim(a_len == b_len && !memcmp(a, b, a_len), what); }

static uint8_t text_a[200000], text_b[200000];

/* A rule says the same; what number its dependency has is its task's. */
static void same_rule(gachuswi_task *a, gachuswi_task *b, size_t rule) {
    static uint32_t packs_a[20000], packs_b[20000];
    gachuswi_rule of_a, of_b;
    size_t a_len = 0, b_len = 0;
    claim(gachuswi_rule_get(a, rule, &of_a) == 0 && gachuswi_rule_get(b, rule, &of_b) == 0, "a rule");
    if (of_a.kind >= GACHUSWI_RULE_REQUIRES && of_a.kind <= GACHUSWI_RULE_OBSOLETES) {
        claim(gachuswi_dep_text(a, of_a.dep, text_a, sizeof text_a, &a_len) == 0 && gachuswi_dep_text(b, of_b.dep, text_b, sizeof text_b, &b_len) == 0, "a dependency");
        same_text(a_len, text_a, b_len, text_b, "texts of a dependency");
    }
    of_a.dep = of_b.dep;
    claim(!memcmp(&of_a, &of_b, sizeof of_a), "rules");
    claim(gachuswi_rule_packages(a, rule, packs_a, 20000, &a_len) == 0 && gachuswi_rule_packages(b, rule, packs_b, 20000, &b_len) == 0, "packages of a rule");
    claim(a_len == b_len && a_len <= 20000 && !memcmp(packs_a, packs_b, a_len * sizeof *packs_a), "other packages of a rule");
}

static void same_proof(gachuswi_task *a, gachuswi_task *b, size_t p) {
    size_t a_len = 0, b_len = 0;
    claim(gachuswi_problem_proof(a, p, text_a, sizeof text_a, &a_len) == 0 && gachuswi_problem_proof(b, p, text_b, sizeof text_b, &b_len) == 0, "a proof");
    claim(a_len <= sizeof text_a, "a long proof");
    same_text(a_len, text_a, b_len, text_b, "proofs");
}

static void same_cycles(gachuswi_task *a, gachuswi_task *b, bool pre) {
    static uint32_t packs_a[20000], packs_b[20000];
    claim(gachuswi_task_cycles(a, pre) == gachuswi_task_cycles(b, pre), "how many cycles");
    for (size_t i = 0; i < gachuswi_task_cycles(a, pre); i++) {
        size_t a_len = 0, b_len = 0;
        claim(gachuswi_cycle_packages(a, pre, i, packs_a, 20000, &a_len) == 0 && gachuswi_cycle_packages(b, pre, i, packs_b, 20000, &b_len) == 0, "a cycle");
        claim(a_len == b_len && a_len <= 20000 && !memcmp(packs_a, packs_b, a_len * sizeof *packs_a), "cycles");
    }
}

static void same_problem(gachuswi_task *a, gachuswi_task *b, size_t p) {
    static size_t rules_a[20000], rules_b[20000];
    size_t a_len = 0, b_len = 0, a_count = 0, b_count = 0;
    claim(gachuswi_problem_rules(a, p, rules_a, 20000, &a_len) == 0 && gachuswi_problem_rules(b, p, rules_b, 20000, &b_len) == 0, "rules");
    claim(a_len == b_len && a_len <= 20000 && !memcmp(rules_a, rules_b, a_len * sizeof *rules_a), "rules of a problem");
    for (size_t i = 0; i < a_len; i++) {
        size_t a_size = 0, b_size = 0;
        claim(gachuswi_rule_text(a, rules_a[i], text_a, sizeof text_a, &a_size) == 0 && gachuswi_rule_text(b, rules_b[i], text_b, sizeof text_b, &b_size) == 0, "a rule's text");
        same_text(a_size, text_a, b_size, text_b, "texts of a rule");
        same_rule(a, b, rules_a[i]);
    }
    same_proof(a, b, p);
    claim(gachuswi_problem_solutions(a, p, &a_count) == 0 && gachuswi_problem_solutions(b, p, &b_count) == 0 && a_count == b_count, "solutions");
    for (size_t s = 0; s < a_count; s++) {
        size_t a_size = 0, b_size = 0;
        claim(gachuswi_solution_text(a, p, s, text_a, sizeof text_a, &a_size) == 0 && gachuswi_solution_text(b, p, s, text_b, sizeof text_b, &b_size) == 0, "a solution's text");
        same_text(a_size, text_a, b_size, text_b, "texts of a solution");
    }
}

static void same(gachuswi_task *read, gachuswi_task *built) {
    claim(gachuswi_task_packages(read) == gachuswi_task_packages(built) && gachuswi_task_repos(read) == gachuswi_task_repos(built), "packages and repositories");
    claim(gachuswi_task_status(read) == gachuswi_task_status(built), "another answer");
    same_changes(read, built);
    same_numbers(gachuswi_task_order, read, built, "the order");
    same_numbers(gachuswi_task_set, read, built, "the set");
    same_cycles(read, built, false);
    same_cycles(read, built, true);
    claim(gachuswi_task_rules(read) == gachuswi_task_rules(built), "how many rules");
    claim(gachuswi_task_problems(read) == gachuswi_task_problems(built), "how many problems");
    for (size_t p = 0; p < gachuswi_task_problems(read); p++) same_problem(read, built, p);
}

/* ---- calls that are made wrongly */

static void says(gachuswi_task *task, const char *line) {
    size_t len = gachuswi_task_err(task, text_a, sizeof text_a);
    same_text(len, text_a, strlen(line), bytes(line), line);
}

/* Calls that may not be made so leave the task as it was. */
static void wrong_calls(gachuswi_task *task) {
    uint32_t count = gachuswi_task_packages(task), none = count + 1, above = 4711, last = 4711;
    size_t repos = gachuswi_task_repos(task), repo = 4711;
    gachuswi_job job = {12, true, false, false, NULL, 0, NULL, 0};
    claim(gachuswi_packages_add(task, repos, NULL, 0, &above, &last) == GACHUSWI_MISUSE && above == 4711 && last == 4711, "no such repository");
    claim(gachuswi_system_set(task, 3, false, 0) == GACHUSWI_MISUSE && gachuswi_system_set(task, 0, true, repos) == GACHUSWI_MISUSE, "no such system");
    claim(gachuswi_package_disable(task, 0) == GACHUSWI_MISUSE && gachuswi_package_disable(task, none) == GACHUSWI_MISUSE, "no such package");
    claim(gachuswi_namespace_add(task, bytes("namespace:x()"), 13, &none, 1) == GACHUSWI_MISUSE, "no such package of a namespace");
    claim(gachuswi_job_add(task, &job) == GACHUSWI_MISUSE && gachuswi_job_add_by(task, &job, true, bytes("a"), 1) == GACHUSWI_MISUSE, "no such action");
    job.action = GACHUSWI_JOB_INSTALL;
    claim(gachuswi_task_answer(task, 1000001) == GACHUSWI_MISUSE, "too great a budget");
    if (gachuswi_task_status(task) == GACHUSWI_MISUSE) return;
    claim(gachuswi_job_add_by(task, &job, false, bytes("a >"), 3) == GACHUSWI_REFUSED, "no dependency");
    says(task, "gachuswi: job:1: MissingOperand\n");
    claim(gachuswi_job_add_by(task, &job, false, bytes("a & b"), 5) == GACHUSWI_REFUSED, "no such dependency here");
    says(task, "gachuswi: job:1: OperatorNotHere\n");
    claim(gachuswi_repo_add(task, bytes("one more"), 8, -7, &repo) == GACHUSWI_DONE && repo == repos, "one more repository");
    says(task, "");
    repo = 4711;
    claim(gachuswi_repo_add(task, bytes("one more"), 8, 9, &repo) == GACHUSWI_REFUSED && repo == 4711, "the same repository");
    says(task, "gachuswi: repo:1: DuplicateRepo\n");
    const char *bad = "=Pkg: new 1 1 noarch\n=Prv: new = 1\n=Pkg: new 1 1\n";
    claim(gachuswi_packages_add(task, repos, bytes(bad), strlen(bad), &above, &last) == GACHUSWI_REFUSED && above == 4711 && last == 4711, "a bad line");
    says(task, "gachuswi: packages:3: BadPackageLine\n");
    claim(gachuswi_task_packages(task) == count && gachuswi_task_repos(task) == repos + 1 && gachuswi_task_status(task) == GACHUSWI_OPEN, "the task has changed");
}

/* A task without packages, and then with two. */
static void small(void) {
    gachuswi_task task = GACHUSWI_NONE;
    gachuswi_job job = {GACHUSWI_JOB_INSTALL, false, false, false, NULL, 0, bytes("install a"), 9};
    const char *two = "=Pkg: a 1 1 noarch\n=Req: b\n=Pkg: b 1 1 noarch\n";
    uint32_t above = 4711, last = 4711;
    size_t repo = 4711;
    gachuswi_change changes[3];
    wrong_calls(&task);
    claim(gachuswi_jobs_clear(&task) == GACHUSWI_MISUSE && task.held == NULL, "nothing is kept");
    claim(gachuswi_task_open(&task) == GACHUSWI_DONE && gachuswi_task_answer(&task, 0) == GACHUSWI_TRANSACTION, "nothing to do");
    claim(gachuswi_task_changes(&task, NULL, 0) == 0 && gachuswi_task_set(&task, NULL, 0) == 1, "the system alone");
    claim(gachuswi_job_add_by(&task, &job, false, bytes("a"), 1) == GACHUSWI_DONE && gachuswi_task_status(&task) == GACHUSWI_OPEN, "a job lets the answer go");
    claim(gachuswi_task_answer(&task, GACHUSWI_BUDGET) == GACHUSWI_PROBLEMS && gachuswi_task_problems(&task) == 1, "nothing provides it");
    claim(gachuswi_repo_add(&task, bytes("r"), 1, 0, &repo) == GACHUSWI_DONE && repo == 0, "a repository");
    claim(gachuswi_packages_add(&task, repo, bytes(two), strlen(two), &above, &last) == GACHUSWI_DONE && above == 0 && last == 2, "two packages");
    claim(gachuswi_task_answer(&task, GACHUSWI_BUDGET) == GACHUSWI_TRANSACTION && gachuswi_task_changes(&task, changes, 3) == 2, "both come");
    claim(gachuswi_package_disable(&task, 2) == GACHUSWI_DONE && gachuswi_task_answer(&task, GACHUSWI_BUDGET) == GACHUSWI_PROBLEMS, "one may not come");
    claim(gachuswi_jobs_clear(&task) == GACHUSWI_DONE && gachuswi_task_answer(&task, GACHUSWI_BUDGET) == GACHUSWI_TRANSACTION, "no job");
    claim(gachuswi_task_changes(&task, changes, 3) == 0, "nothing comes");
    gachuswi_task_close(&task);
}

int main(int argc, char **argv) {
    const gachuswi_options plain = {GACHUSWI_BUDGET, false, false, false};
    gachuswi_options options = plain;
    gachuswi_task read = GACHUSWI_NONE, built = GACHUSWI_NONE;
    small();
    for (int i = 1; i < argc; i++) {
        gachuswi_answer answer = GACHUSWI_NONE;
        if (take_option(argv[i], &options)) continue;
        script = argv[i];
        run_lending(&answer, script, &options);
        gachuswi_close(&answer);
        int32_t code = lent_len ? gachuswi_task_solve(&read, lent, lent_len, lent[0].name, lent[0].name_len, options.budget) : GACHUSWI_READ_FAULT;
        if (code == GACHUSWI_TRANSACTION || code == GACHUSWI_PROBLEMS || code == GACHUSWI_SPENT) {
            char *text = malloc(lent[0].len + 1);
            memcpy(text, lent[0].bytes, lent[0].len);
            text[lent[0].len] = 0;
            if (strlen(text) == lent[0].len && build(&built, text)) {
                claim(gachuswi_task_answer(&built, options.budget) == code, "another answer");
                same(&read, &built);
                wrong_calls(&built);
                /* what was read goes on to be built */
                wrong_calls(&read);
            }
            free(text);
        } else if (code == GACHUSWI_REFUSED) {
            claim(gachuswi_jobs_clear(&read) == GACHUSWI_MISUSE && gachuswi_task_status(&read) == code, "a refusal is no task");
        }
        take_back_all();
        options = plain;
    }
    gachuswi_task_close(&read);
    gachuswi_task_close(&built);
    forget_repos();
    return 0;
}
