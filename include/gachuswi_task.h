/* gachuswi_task.h - tasks and answers by numbers.
 *
 * gachuswi_task_solve reads a script as gachuswi_run does, answers its first round, and keeps the answer as a task. Or a task is opened, and built by
 * calls, and gachuswi_task_answer answers it. The other calls read the answer: packages, rules, problems and solutions are numbers, and
 * lists are copied into memory of the caller.
 *
 * What gachuswi.h says of threads, memory, stack and of what a caller owes holds here too, with a gachuswi_task in the place of a
 * gachuswi_answer. Memory that a call writes (`into`, `count`, the task) is no part of what it reads, nor of each other.
 *
 * Packages are numbered from 1 in the order in which the repositories list them; 0 is the system. Rules are numbered from 0 by
 * their places among all hard rules of the task, as in the proof of a problem, and problems, and the solutions of each problem, from 0
 * too. Numbers of rules, problems and solutions are those of one answer: another answer has others. Repositories are numbered from 0.
 */
#ifndef GACHUSWI_TASK_H
#define GACHUSWI_TASK_H

#include "gachuswi.h"

#ifdef __cplusplus
extern "C" {
#endif

/* What calls answer besides GACHUSWI_REFUSED, GACHUSWI_READ_FAULT, GACHUSWI_SPENT, GACHUSWI_NO_MEMORY and GACHUSWI_MISUSE. */
enum {
    GACHUSWI_TRANSACTION = 0, /* a set of packages meets all rules: see changes, order and set */
    GACHUSWI_PROBLEMS = 9,    /* no set does: see problems and solutions */
    GACHUSWI_OPEN = 10        /* a task that has no answer yet; gachuswi_task_status alone says so */
};

/* A task, with its answer or without, or none. It owns memory, which gachuswi_task_close gives back. GACHUSWI_NONE at first. */
typedef struct gachuswi_task {
    void *held;
} gachuswi_task;

/* What becomes of packages. */
enum {
    GACHUSWI_INSTALL = 0,   /* pack comes; by is 0 */
    GACHUSWI_ERASE = 1,     /* pack goes; by is 0 */
    GACHUSWI_UPGRADE = 2,   /* by, of the same name and greater, comes for pack */
    GACHUSWI_DOWNGRADE = 3, /* by, lower, comes for pack */
    GACHUSWI_ALTER = 4,     /* by, an equal version of another architecture or vendor, comes for pack */
    GACHUSWI_REINSTALL = 5, /* by, the same again, comes for pack */
    GACHUSWI_OBSOLETE = 6   /* pack goes, and by obsoletes it; if by comes, it has a change of its own besides */
};

typedef struct gachuswi_change {
    uint32_t kind;
    uint32_t pack;
    uint32_t by;
} gachuswi_change;

/* Reads the script of this name, one of the files, answers its first round, whatever rounds are behind it, and keeps what that comes
 * to in place of what was kept. GACHUSWI_MISUSE is answered for a name that is not UTF-8 and a budget above 1,000,000, and in no other
 * case; with it and with GACHUSWI_NO_MEMORY what was kept before is as it was. Any other answer is that of gachuswi_task_status. */
int32_t gachuswi_task_solve(gachuswi_task *task, const gachuswi_file *files, size_t files_len, const uint8_t *script,
                            size_t script_len, uint32_t budget);

/* What a job does to what it selects: a resulting set holds one of it (INSTALL) or none of it (ERASE); its installed packages are updated, or
 * upgraded with the distribution; it stays as it is (LOCK); and so on, as docs/FORMATS.md says of the actions of a `job` line. */
enum {
    GACHUSWI_JOB_INSTALL = 0,
    GACHUSWI_JOB_ERASE = 1,
    GACHUSWI_JOB_UPDATE = 2,
    GACHUSWI_JOB_DISTUPGRADE = 3,
    GACHUSWI_JOB_LOCK = 4,
    GACHUSWI_JOB_VERIFY = 5,
    GACHUSWI_JOB_MULTIVERSION = 6,
    GACHUSWI_JOB_ALLOWUNINSTALL = 7,
    GACHUSWI_JOB_FAVOR = 8,
    GACHUSWI_JOB_DISFAVOR = 9,
    GACHUSWI_JOB_USERINSTALLED = 10,
    GACHUSWI_JOB_NOOP = 11
};

/* A job. It selects one of these packages, or all where `all` is true, whatever is listed. */
typedef struct gachuswi_job {
    uint32_t action;
    bool all;
    bool forcebest; /* the best candidate is asked for */
    bool cleandeps; /* what nobody needs any more goes with the selection */
    const uint32_t *packs;
    size_t packs_len;
    const uint8_t *text; /* what a solution calls the job that leaves it out: `deljob TEXT` */
    size_t text_len;
} gachuswi_job;

/* What a solver may change, and what it looks at. A script that says nothing of it has allow_name_change alone. */
typedef struct gachuswi_flags {
    bool allow_downgrade;
    bool allow_name_change;
    bool allow_arch_change;
    bool allow_vendor_change;
    bool allow_uninstall;
    bool ignore_recommended;
    bool no_infarch_check;
} gachuswi_flags;

#define GACHUSWI_FLAGS {false, true, false, false, false, false, false}

/* Answers the task that is kept anew, with these flags and jobs in place of its own, and all else as it was. The index that was made with the task
 * serves again. Answers GACHUSWI_TRANSACTION, GACHUSWI_PROBLEMS or GACHUSWI_SPENT, and the new answer is kept; or GACHUSWI_REFUSED, where
 * its clauses pass a limit; GACHUSWI_NO_MEMORY; or GACHUSWI_MISUSE, where an action is none of those above, a package is the system or none
 * that there is, the budget is above 1,000,000, or no answer is kept. With these three the answer before is still kept. */
int32_t gachuswi_task_solve_again(gachuswi_task *task, const gachuswi_flags *flags, const gachuswi_job *jobs, size_t jobs_len,
                                  uint32_t budget);

/* ---- A task built by calls. They are made in any order, but what a call names by a number is there before it. Each answers GACHUSWI_DONE, and
 * the task has what was given; or GACHUSWI_REFUSED, where a text is refused: gachuswi_task_err tells the call, the number of the text's first bad line,
 * and the cause, as `gachuswi: packages:12: BadPackageLine`; GACHUSWI_MISUSE, where a number names nothing, or no task is kept; or GACHUSWI_NO_MEMORY. In
 * the last three cases the task is as it was. With GACHUSWI_NO_MEMORY an answer is still kept, and so is what gachuswi_task_err tells; in the other cases a
 * task has no answer any more, which gachuswi_task_answer gives. A refused script is no task, and stays. A task that was read from a script is one, with the
 * flags and jobs of its first round, or those of gachuswi_task_solve_again. */

/* Opens a task without packages, with the flags of GACHUSWI_FLAGS, in place of what was kept. Answers GACHUSWI_DONE, or GACHUSWI_NO_MEMORY, and then what was
 * kept is as it was. */
int32_t gachuswi_task_open(gachuswi_task *task);

/* Adds a repository, whose number is written to `repo` where the call is done. Of two packages that are alike that of the greater priority is the
 * candidate. A name that is there already is refused. */
int32_t gachuswi_repo_add(gachuswi_task *task, const uint8_t *name, size_t name_len, int32_t priority, size_t *repo);

/* Adds the packages of a repository, which stand in testtags: those with numbers above `above`, which is how many there were, and at
 * most `last`. Both are written where the call is done. */
int32_t gachuswi_packages_add(gachuswi_task *task, size_t repo, const uint8_t *testtags, size_t testtags_len, uint32_t *above,
                              uint32_t *last);

/* Architectures of a system. */
enum { GACHUSWI_X86_64 = 0, GACHUSWI_I686 = 1, GACHUSWI_AARCH64 = 2 };

/* Sets the architecture of the system, and which repository is the installed one, where `has_installed` is true. A task in which neither is
 * set takes packages of every architecture, and nothing is installed. */
int32_t gachuswi_system_set(gachuswi_task *task, uint32_t arch, bool has_installed, size_t installed);

/* Keeps a package from being installed anew. */
int32_t gachuswi_package_disable(gachuswi_task *task, uint32_t pack);

/* Says that these packages, of which one may be the system, have a namespace, which is named as in a script: `namespace:NAME(ARG)`. Packages
 * that have it already keep it. */
int32_t gachuswi_namespace_add(gachuswi_task *task, const uint8_t *name, size_t name_len, const uint32_t *packs, size_t packs_len);

/* Sets the flags, in place of those that are there. */
int32_t gachuswi_flags_set(gachuswi_task *task, const gachuswi_flags *flags);

/* Adds a job behind the others. */
int32_t gachuswi_job_add(gachuswi_task *task, const gachuswi_job *job);

/* The same of a job that selects what has the name of this dependency, a name with or without a comparison and a version; or what provides
 * it. What the job itself selects is not looked at. */
int32_t gachuswi_job_add_by(gachuswi_task *task, const gachuswi_job *job, bool provides, const uint8_t *dep, size_t dep_len);

/* Lets all jobs go. */
int32_t gachuswi_jobs_clear(gachuswi_task *task);

/* Answers the task that is kept, with an index that is made for it. Answers GACHUSWI_TRANSACTION, GACHUSWI_PROBLEMS or GACHUSWI_SPENT, and the answer
 * is kept, in place of any before it; or GACHUSWI_REFUSED, where its clauses pass a limit, which gachuswi_task_err tells; GACHUSWI_NO_MEMORY; or
 * GACHUSWI_MISUSE, where the budget is above 1,000,000, or no task is kept. With the last two what was kept is as it was, and an answer before is
 * still kept; a task that has one is never refused. */
int32_t gachuswi_task_answer(gachuswi_task *task, uint32_t budget);

/* ---- Reading. */

/* What is kept: GACHUSWI_TRANSACTION, GACHUSWI_PROBLEMS or GACHUSWI_SPENT; GACHUSWI_OPEN; or a refusal: GACHUSWI_REFUSED or GACHUSWI_READ_FAULT.
 * GACHUSWI_MISUSE where nothing is. */
int32_t gachuswi_task_status(gachuswi_task *task);

/* Lets go what is kept. It may be called again. */
void gachuswi_task_close(gachuswi_task *task);

/* ---- Each copies the first items, as many as there is room for, and answers how many there are: none where there is no such list. */

/* The line on what is wrong: of a refusal, or of the last call that was to build or to answer, where it was refused. */
size_t gachuswi_task_err(gachuswi_task *task, uint8_t *into, size_t into_len);

/* What a transaction changes. */
size_t gachuswi_task_changes(gachuswi_task *task, gachuswi_change *into, size_t into_len);

/* The packages that come and those that go, in the order in which the transaction is made. */
size_t gachuswi_task_order(gachuswi_task *task, uint32_t *into, size_t into_len);

/* How many cycles there are in what these packages require of each other, conditions aside: of pre-requirements, where `pre` is true, or of all
 * requirements. The order keeps every pre-requirement but those within one cycle of pre-requirements, and every other requirement but those within
 * one cycle. */
size_t gachuswi_task_cycles(gachuswi_task *task, bool pre);

/* The packages that are there after it, with the system, ascending. */
size_t gachuswi_task_set(gachuswi_task *task, uint32_t *into, size_t into_len);

/* How many repositories there are. */
size_t gachuswi_task_repos(gachuswi_task *task);

/* How many packages there are, besides the system. */
uint32_t gachuswi_task_packages(gachuswi_task *task);

/* How many problems there are. */
size_t gachuswi_task_problems(gachuswi_task *task);

/* How many rules the task has that is answered. */
size_t gachuswi_task_rules(gachuswi_task *task);

/* The kinds of rules, and what each says of a set of packages. */
enum {
    GACHUSWI_RULE_NOT_INSTALLABLE = 0, /* pack is not in it */
    GACHUSWI_RULE_REQUIRES = 1,        /* with pack its requirement dep holds */
    GACHUSWI_RULE_CONFLICTS = 2,       /* not both pack and other, which meets the conflict dep of pack */
    GACHUSWI_RULE_RICH_CONFLICT = 3,   /* with pack its conflict dep, a rich dependency, does not hold among the other packages */
    GACHUSWI_RULE_OBSOLETES = 4,       /* not both pack and other, which pack obsoletes by dep */
    GACHUSWI_RULE_SAME_NAME = 5,       /* not both pack and other, which have one name */
    GACHUSWI_RULE_INFARCH = 6,         /* pack is not in it: another package of its name has a better architecture */
    GACHUSWI_RULE_UPDATE = 7,          /* the installed package pack, or what may take its place: one of the rule's packages */
    GACHUSWI_RULE_DISTUPGRADE = 8,     /* one of its packages, which a distribution upgrade puts in the place of pack */
    GACHUSWI_RULE_FEATURE = 9,         /* one of its packages: as UPDATE, were every change allowed */
    GACHUSWI_RULE_JOB_INSTALL = 10,    /* one of its packages, which job selects */
    GACHUSWI_RULE_JOB_ERASE = 11,      /* none of its packages, which job selects */
    GACHUSWI_RULE_JOB_LOCK = 12,       /* of its packages, which job selects, those that are installed */
    GACHUSWI_RULE_BEST_JOB = 13,       /* one of its packages, the best that job selects */
    GACHUSWI_RULE_BEST_UPDATE = 14     /* one of its packages, the best in the place of pack, as job asks */
};

/* A rule. What its kind does not name is 0. */
typedef struct gachuswi_rule {
    uint32_t kind;
    uint32_t pack;
    uint32_t dep;
    uint32_t other; /* a package, or the system */
    uint32_t job;   /* the place of a job among those of the task, from 0 */
} gachuswi_rule;

/* ---- Each answers 0, and tells in `count` how many there are; or GACHUSWI_MISUSE where the numbers name nothing, or nothing is
 * kept, and then nothing is written. */

/* The packages of a cycle, ascending. Cycles are numbered from 0, by their lowest packages. */
int32_t gachuswi_cycle_packages(gachuswi_task *task, bool pre, size_t cycle, uint32_t *into, size_t into_len, size_t *count);

/* A rule; there is no count. */
int32_t gachuswi_rule_get(gachuswi_task *task, size_t rule, gachuswi_rule *into);

/* The packages of a rule, ascending; the kinds up to INFARCH have none. */
int32_t gachuswi_rule_packages(gachuswi_task *task, size_t rule, uint32_t *into, size_t into_len, size_t *count);

/* The rules of a problem, ascending. */
int32_t gachuswi_problem_rules(gachuswi_task *task, size_t problem, size_t *into, size_t into_len, size_t *count);

/* How many solutions a problem has. */
int32_t gachuswi_problem_solutions(gachuswi_task *task, size_t problem, size_t *count);

/* The rules that a solution drops, ascending. */
int32_t gachuswi_solution_rules(gachuswi_task *task, size_t problem, size_t solution, size_t *into, size_t into_len,
                                size_t *count);

/* The packages of its set, with the system, ascending. */
int32_t gachuswi_solution_set(gachuswi_task *task, size_t problem, size_t solution, uint32_t *into, size_t into_len,
                              size_t *count);

/* The number of the package with this text, as gachuswi_package_text gives it; of several the lowest. */
int32_t gachuswi_package_find(gachuswi_task *task, const uint8_t *text, size_t text_len, uint32_t *pack);

/* ---- Texts: the same, or GACHUSWI_NO_MEMORY, and then nothing is written. No 0 byte is put behind. Each call makes the text anew.
 * Of a refusal nothing has a text, and of a task without an answer packages and dependencies alone. */

/* A package, as `name-evr.arch@repository`; `@SYSTEM` of 0. */
int32_t gachuswi_package_text(gachuswi_task *task, uint32_t pack, uint8_t *into, size_t into_len, size_t *count);

/* A dependency, by the number that a rule has of it, as docs/FORMATS.md says: `glibc >= 2.38`, `(a if b) | c`. */
int32_t gachuswi_dep_text(gachuswi_task *task, uint32_t dep, uint8_t *into, size_t into_len, size_t *count);

/* What is said of a rule, as behind ` info ` in the lines of gachuswi_out. */
int32_t gachuswi_rule_text(gachuswi_task *task, size_t rule, uint8_t *into, size_t into_len, size_t *count);

/* What is said of a solution: a line for each thing that it does, each ended by a line feed. */
int32_t gachuswi_solution_text(gachuswi_task *task, size_t problem, size_t solution, uint8_t *into, size_t into_len,
                               size_t *count);

/* The proof of a problem: that no set of packages meets its rules, step by step, as docs/FORMATS.md says, under "Proofs of problems". Of a task that was read from a
 * script whose flags and jobs it still has, the program proofcheck says yes of it, to whom the problem is one of round 1 and has the next number. */
int32_t gachuswi_problem_proof(gachuswi_task *task, size_t problem, uint8_t *into, size_t into_len, size_t *count);

#ifdef __cplusplus
}
#endif

#endif
