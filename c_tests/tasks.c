/* tasks [OPTION ..] SCRIPT ..: solves each script twice, by gachuswi_run and by gachuswi_task_solve, and compares what both say: the result lines of
 * changes and problems, put together from numbers and texts, are those of gachuswi_out, and so is the line of a refusal. Then come calls with
 * numbers that name nothing, and the task is answered anew. Tells what is not so, and exits with 1 then. */
#include "gachuswi_task.h"
#include "lending.h"

static const gachuswi_flags flags = GACHUSWI_FLAGS;
static const char *kinds[] = {"install", "erase", "upgrade", "downgrade", "change", "reinstall", "obsolete"};

/* the script that is tried */
static const char *script = "";

static void claim(int holds, const char *what) {
    if (!holds) {
        printf("tasks: %s: %s\n", script, what);
        exit(1);
    }
}

static char *lines[100000];
static size_t line_count;

static void add(const char *line) {
    claim(line_count < 100000, "too many lines");
    lines[line_count++] = strcpy(malloc(strlen(line) + 1), line);
}

static void drop_lines(void) {
    while (line_count) free(lines[--line_count]);
}

static int by_bytes(const void *a, const void *b) { return strcmp(*(char *const *)a, *(char *const *)b); }

static char *package(gachuswi_task *task, uint32_t pack) {
    size_t len = 77;
    claim(gachuswi_package_text(task, pack, NULL, 0, &len) == 0, "no text of a package");
    char *text = malloc(len + 1);
    size_t again = 0;
    claim(gachuswi_package_text(task, pack, (uint8_t *)text, len, &again) == 0 && again == len, "another text");
    text[len] = 0;
    return text;
}

static void changes(gachuswi_task *task) {
    size_t count = gachuswi_task_changes(task, NULL, 0);
    gachuswi_change *all = malloc((count + 1) * sizeof *all);
    all[count].kind = 4711;
    claim(gachuswi_task_changes(task, all, count) == count && all[count].kind == 4711, "changes");
    for (size_t i = 0; i < count; i++) {
        claim(all[i].kind <= GACHUSWI_OBSOLETE && all[i].pack != 0, "a change");
        char *pack = package(task, all[i].pack), *by = all[i].by ? package(task, all[i].by) : NULL, line[9000];
        snprintf(line, sizeof line, by ? "%s %s %s" : "%s %s", kinds[all[i].kind], pack, by);
        add(line);
        free(pack);
        free(by);
    }
    uint32_t first = 4711;
    size_t set = gachuswi_task_set(task, &first, 1);
    claim(set >= 1 && first == 0, "the set begins with the system");
    size_t order = gachuswi_task_order(task, &first, 0);
    claim(order <= 2 * count && first == 0, "the order");
    free(all);
    for (int pre = 0; pre < 2; pre++) {
        size_t cycles = gachuswi_task_cycles(task, pre), last = 4711;
        for (size_t i = 0; i < cycles; i++)
            claim(gachuswi_cycle_packages(task, pre, i, &first, 1, &last) == 0 && last >= 2 && last <= order && first > 0, "a cycle");
        last = 4711;
        claim(gachuswi_cycle_packages(task, pre, cycles, &first, 1, &last) == GACHUSWI_MISUSE && last == 4711, "no such cycle");
    }
}

/* What a rule of a problem names is there. */
static void rule_is_whole(gachuswi_task *task, size_t number) {
    gachuswi_rule rule;
    uint32_t count = gachuswi_task_packages(task), packs[100];
    size_t carried = 4711, len = 0;
    claim(number < gachuswi_task_rules(task) && gachuswi_rule_get(task, number, &rule) == 0, "a rule");
    claim(rule.kind <= GACHUSWI_RULE_BEST_UPDATE && rule.pack <= count && rule.other <= count, "what a rule names");
    claim(gachuswi_rule_packages(task, number, packs, 100, &carried) == 0, "packages of a rule");
    claim(carried == 0 || rule.kind >= GACHUSWI_RULE_UPDATE, "a rule that carries packages");
    for (size_t i = 0; i < carried && i < 100; i++) claim(packs[i] > (i ? packs[i - 1] : 0) && packs[i] <= count, "ascending packages of a rule");
    bool has_dep = rule.kind >= GACHUSWI_RULE_REQUIRES && rule.kind <= GACHUSWI_RULE_OBSOLETES;
    if (has_dep) claim(gachuswi_dep_text(task, rule.dep, NULL, 0, &len) == 0 && len > 0, "the text of a dependency");
}

/* The proofs of all problems, one behind the other, as gachuswi_run gives them. */
static char *proofs(gachuswi_task *task, size_t *len) {
    static const char head[] = "proof 1\n";
    char *all = malloc(1);
    *len = 0;
    for (size_t p = 0; p < gachuswi_task_problems(task); p++) {
        size_t size = 0, again = 0;
        claim(gachuswi_problem_proof(task, p, NULL, 0, &size) == 0 && size > sizeof head, "a proof");
        char *one = malloc(size);
        claim(gachuswi_problem_proof(task, p, (uint8_t *)one, size, &again) == 0 && again == size, "another proof");
        claim(!memcmp(one, head, sizeof head - 1), "the first line of a proof");
        size_t from = p ? sizeof head - 1 : 0;
        all = realloc(all, *len + size);
        memcpy(all + *len, one + from, size - from);
        *len += size - from;
        free(one);
    }
    return all;
}

static void problem(gachuswi_task *task, size_t p) {
    size_t count = 0, solutions = 0, len = 0;
    claim(gachuswi_problem_rules(task, p, NULL, 0, &count) == 0, "rules of a problem");
    size_t *rules = malloc((count + 1) * sizeof *rules);
    claim(gachuswi_problem_rules(task, p, rules, count, &count) == 0, "rules of a problem");
    for (size_t i = 0; i < count; i++) {
        char text[9000], line[9100];
        claim(gachuswi_rule_text(task, rules[i], (uint8_t *)text, sizeof text - 1, &len) == 0 && len < sizeof text, "a rule's text");
        text[len] = 0;
        snprintf(line, sizeof line, "problem %zu info %s", p + 1, text);
        add(line);
        rule_is_whole(task, rules[i]);
    }
    claim(gachuswi_problem_solutions(task, p, &solutions) == 0, "solutions");
    for (size_t s = 0; s < solutions; s++) {
        char text[90000], line[90100], *at = text;
        claim(gachuswi_solution_text(task, p, s, (uint8_t *)text, sizeof text - 1, &len) == 0 && len < sizeof text, "a solution's text");
        text[len] = 0;
        for (char *end; (end = strchr(at, '\n')); at = end + 1) {
            *end = 0;
            snprintf(line, sizeof line, "problem %zu solution %zu %s", p + 1, s + 1, at);
            add(line);
        }
        size_t dropped = 0, set = 0;
        uint32_t first = 4711;
        claim(gachuswi_solution_rules(task, p, s, NULL, 0, &dropped) == 0 && dropped >= 1, "dropped rules");
        claim(gachuswi_solution_set(task, p, s, &first, 1, &set) == 0 && set >= 1 && first == 0, "a solution's set");
    }
    size_t kept = 4711;
    claim(gachuswi_solution_rules(task, p, solutions, NULL, 0, &kept) == GACHUSWI_MISUSE && kept == 4711, "no such solution");
    claim(gachuswi_solution_set(task, p, solutions, NULL, 0, &kept) == GACHUSWI_MISUSE && kept == 4711, "no such solution");
    claim(gachuswi_solution_text(task, p, solutions, NULL, 0, &kept) == GACHUSWI_MISUSE && kept == 4711, "no such solution");
    free(rules);
}

static void nothing(gachuswi_task *task) {
    size_t kept = 4711;
    claim(gachuswi_problem_rules(task, (size_t)-1, NULL, 0, &kept) == GACHUSWI_MISUSE, "no such problem");
    claim(gachuswi_problem_solutions(task, gachuswi_task_problems(task), &kept) == GACHUSWI_MISUSE, "no such problem");
    claim(gachuswi_package_text(task, 4294967295u, NULL, 0, &kept) == GACHUSWI_MISUSE, "no such package");
    claim(gachuswi_rule_text(task, (size_t)-1, NULL, 0, &kept) == GACHUSWI_MISUSE, "no such rule");
    claim(gachuswi_rule_packages(task, gachuswi_task_rules(task), NULL, 0, &kept) == GACHUSWI_MISUSE, "no such rule");
    claim(gachuswi_problem_proof(task, gachuswi_task_problems(task), NULL, 0, &kept) == GACHUSWI_MISUSE, "no such problem");
    claim(gachuswi_dep_text(task, 4294967295u, NULL, 0, &kept) == GACHUSWI_MISUSE, "no such dependency");
    claim(gachuswi_cycle_packages(task, true, (size_t)-1, NULL, 0, &kept) == GACHUSWI_MISUSE, "no such cycle");
    claim(kept == 4711, "a count was written");
}

/* Each package is found by its text, and installed and erased by a job of its own. */
static void anew(gachuswi_task *task) {
    uint32_t count = gachuswi_task_packages(task), found = 4711;
    claim(gachuswi_package_find(task, (const uint8_t *)"@SYSTEM", 7, &found) == 0 && found == 0, "the system");
    claim(gachuswi_package_find(task, (const uint8_t *)"none", 4, &found) == GACHUSWI_MISUSE && found == 0, "no package");
    int32_t code = gachuswi_task_status(task);
    uint32_t wrong[2] = {1, count + 1};
    gachuswi_job job = {12, false, false, false, wrong, 1, (const uint8_t *)"a job", 5};
    claim(gachuswi_task_solve_again(task, &flags, &job, 1, 0) == GACHUSWI_MISUSE && gachuswi_task_status(task) == code, "no action");
    job.action = GACHUSWI_JOB_INSTALL;
    job.packs_len = 2;
    claim(gachuswi_task_solve_again(task, &flags, &job, 1, 0) == GACHUSWI_MISUSE && gachuswi_task_status(task) == code, "no package");
    wrong[0] = wrong[1] = 0;
    claim(gachuswi_task_solve_again(task, &flags, &job, 1, 0) == GACHUSWI_MISUSE && gachuswi_task_status(task) == code, "the system");
    claim(gachuswi_task_solve_again(task, &flags, NULL, 0, 1000001) == GACHUSWI_MISUSE && gachuswi_task_status(task) == code, "budget");
    job.packs_len = 1;
    for (uint32_t pack = 1; pack <= count && pack <= 20; pack++) {
        char *text = package(task, pack);
        claim(gachuswi_package_find(task, (const uint8_t *)text, strlen(text), &found) == 0 && found <= pack && found, "find");
        free(text);
        wrong[0] = pack;
        for (uint32_t action = 0; action < 2; action++) {
            job.action = action;
            code = gachuswi_task_solve_again(task, &flags, &job, 1, GACHUSWI_BUDGET);
            claim(code == gachuswi_task_status(task), "the number is not kept");
            if (code == GACHUSWI_TRANSACTION) {
                size_t size = gachuswi_task_set(task, NULL, 0);
                uint32_t *set = malloc((size + 1) * sizeof *set);
                int in_set = 0;
                gachuswi_task_set(task, set, size);
                for (size_t i = 0; i < size; i++) in_set |= set[i] == pack;
                claim(in_set == (action == GACHUSWI_JOB_INSTALL), "a job is not met");
                free(set);
            } else if (code == GACHUSWI_PROBLEMS) {
                for (size_t p = 0; p < gachuswi_task_problems(task); p++) problem(task, p);
                drop_lines();
            }
        }
    }
}

/* Whether a script has one round, and asks for no lines but those of changes and problems. */
static bool is_plain(const gachuswi_file *file) {
    static const char round[] = "nextjob", result[] = "result ", kinds_asked[] = "result transaction,problems ";
    for (size_t at = 0; at < file->len;) {
        const char *line = (const char *)file->bytes + at, *end = memchr(line, '\n', file->len - at);
        size_t len = end ? (size_t)(end - line) : file->len - at;
        if (len >= sizeof round - 1 && !memcmp(line, round, sizeof round - 1)) return false;
        if (len >= sizeof result - 1 && !memcmp(line, result, sizeof result - 1) &&
            (len < sizeof kinds_asked - 1 || memcmp(line, kinds_asked, sizeof kinds_asked - 1)))
            return false;
        at += len + 1;
    }
    return true;
}

/* Compares the lines that were put together with those of an answer. */
static void same_lines(gachuswi_answer *answer) {
    size_t len, at = 0;
    char *text = text_of(answer, gachuswi_out, &len);
    qsort(lines, line_count, sizeof *lines, by_bytes);
    for (size_t i = 0; i < line_count; i++) {
        if (i && !strcmp(lines[i], lines[i - 1])) continue;
        size_t size = strlen(lines[i]);
        claim(at + size < len && !memcmp(text + at, lines[i], size) && text[at + size] == '\n', lines[i]);
        at += size + 1;
    }
    claim(at == len, "a line more is printed");
    free(text);
}

/* The proofs of a script of one round, which are those of gachuswi_run. */
static void same_proofs(gachuswi_task *task, uint32_t budget) {
    const gachuswi_options proved = {budget, false, true, false};
    gachuswi_answer answer = GACHUSWI_NONE;
    size_t len, size;
    claim(gachuswi_run(&answer, lent, lent_len, lent[0].name, lent[0].name_len, &proved) == GACHUSWI_DONE, "proofs of a run");
    char *text = text_of(&answer, gachuswi_out, &len), *own = proofs(task, &size);
    claim(len == size && !memcmp(text, own, len), "other proofs");
    free(text);
    free(own);
    gachuswi_close(&answer);
}

/* The line of a refusal, which is that of the answer behind the name of the program. */
static void same_refusal(gachuswi_task *task, gachuswi_answer *answer) {
    size_t len, size = gachuswi_task_err(task, NULL, 0);
    char *line = text_of(answer, gachuswi_err, &len), *own = malloc(size + 1);
    gachuswi_task_err(task, (uint8_t *)own, size);
    char *a = memchr(line, ':', len), *b = memchr(own, ':', size);
    claim(a && b && len - (size_t)(a - line) == size - (size_t)(b - own) && !memcmp(a, b, size - (size_t)(b - own)), "another refusal");
    free(line);
    free(own);
}

/* What the task of a script says, beside the answer of gachuswi_run to the same. */
static void compare(gachuswi_task *task, gachuswi_answer *answer, uint32_t budget) {
    int32_t status = gachuswi_status(answer), code;
    size_t len = strlen(script);
    claim(gachuswi_task_solve(task, lent, lent_len, (const uint8_t *)script, len, 1000001) == GACHUSWI_MISUSE, "too great a budget");
    claim(gachuswi_task_solve(task, lent, lent_len, (const uint8_t *)"\xff", 1, 0) == GACHUSWI_MISUSE, "no text");
    code = gachuswi_task_solve(task, lent, lent_len, (const uint8_t *)script, len, budget);
    claim(code == gachuswi_task_status(task), "the number is not kept");
    claim(gachuswi_task_solve(task, lent, lent_len, (const uint8_t *)script, len, 1000001) == GACHUSWI_MISUSE, "too great a budget");
    claim(gachuswi_task_status(task) == code, "misuse has changed what is kept");
    bool plain = is_plain(&lent[0]), is_answered = code == GACHUSWI_TRANSACTION || code == GACHUSWI_PROBLEMS;
    if (plain) claim(is_answered ? status == GACHUSWI_DONE || status == GACHUSWI_DIFFERS : status == code, "another status");
    if (status == GACHUSWI_READ_FAULT || (plain && status == GACHUSWI_REFUSED)) same_refusal(task, answer);
    if (code == GACHUSWI_TRANSACTION) changes(task);
    for (size_t p = 0; p < gachuswi_task_problems(task); p++) problem(task, p);
    if (plain && status == GACHUSWI_DONE) same_lines(answer);
    if (plain && code == GACHUSWI_PROBLEMS) same_proofs(task, budget);
    drop_lines();
    nothing(task);
    if (is_answered || code == GACHUSWI_SPENT) anew(task);
    else claim(gachuswi_task_solve_again(task, &flags, NULL, 0, 0) == GACHUSWI_MISUSE, "no answer");
}

int main(int argc, char **argv) {
    const gachuswi_options shown = {GACHUSWI_BUDGET, true, false, false};
    gachuswi_options options = shown;
    gachuswi_task task = GACHUSWI_NONE;
    nothing(&task);
    claim(gachuswi_task_status(&task) == GACHUSWI_MISUSE && gachuswi_task_changes(&task, NULL, 0) == 0, "nothing is kept");
    gachuswi_task_close(&task);
    for (int i = 1; i < argc; i++) {
        gachuswi_answer answer = GACHUSWI_NONE;
        if (take_option(argv[i], &options)) continue;
        options.shows = true, options.proves = options.writes = false;
        script = argv[i];
        run_lending(&answer, script, &options);
        /* a script that is no file is asked for and not lent */
        if (lent_len) compare(&task, &answer, options.budget);
        gachuswi_close(&answer);
        take_back_all();
        options = shown;
    }
    gachuswi_task_close(&task);
    gachuswi_task_close(&task);
    return 0;
}
