/* gachuswi.h - an RPM dependency solver whose answers are proved.
 *
 * A caller lends a script in libsolv's testcase format and the repositories that it names, all in memory, and gets an
 * answer: its status and two texts. docs/LIBRARY.md is for whoever calls it, docs/FORMATS.md has the formats, and
 * docs/PROMISE.md what an answer promises.
 *
 * Threads: there is nothing global. Calls for one answer are made one at a time; calls for different answers may overlap.
 * Memory: only malloc, realloc and free are used. Want of memory is GACHUSWI_NO_MEMORY. No call ends the process, waits, or
 * opens, reads or writes a file or a stream.
 * Stack: no proof says how much a call takes. All test scripts run in 256 KiB; give a thread of your own 1 MiB or more.
 *
 * What a caller owes, since nothing checks code in C:
 *   - a gachuswi_answer is GACHUSWI_NONE before its first call, and only these calls change it; it is not copied;
 *   - a pointer with a length leads to so many bytes, or files; it may be NULL where the length is 0; no other pointer is NULL;
 *   - memory that a call writes (`into`, the answer) is no part of what the same call reads;
 *   - no call is made from a signal handler, or in the child of a fork of a process with threads.
 */
#ifndef GACHUSWI_H
#define GACHUSWI_H

#include <stdbool.h>
#include <stddef.h>
#include <stdint.h>
#include <string.h>

#ifdef __cplusplus
extern "C" {
#endif

/* The number of the interface that this header declares; gachuswi_abi() is that of the library. */
#define GACHUSWI_ABI 1u

/* What calls answer. 0 to 5 are the exit statuses of testsolv for the same script; 4, a stream that fails, never comes. */
enum {
    GACHUSWI_DONE = 0,       /* a transaction or problems; the lines are as the script expects, if it expects any */
    GACHUSWI_DIFFERS = 1,    /* the same, and some line, or a comparison of versions, is not as the script expects */
    GACHUSWI_REFUSED = 2,    /* a bad line, or a limit is passed: see gachuswi_err */
    GACHUSWI_READ_FAULT = 3, /* a file is not among those lent, which gachuswi_err names */
    GACHUSWI_SPENT = 5,      /* the budget of learnt rules is spent: see gachuswi_err */
    GACHUSWI_NO_MEMORY = 6,  /* memory ran out; what was kept before is as it was */
    GACHUSWI_MISUSE = 8      /* a call that may not be made so, or no answer is kept; what was kept before is as it was */
};

/* A budget that serves nearly every task: that of testsolv. */
#define GACHUSWI_BUDGET 100000u

/* A file that is lent for the time of a call. Of two with one name the first counts. */
typedef struct gachuswi_file {
    const uint8_t *name;
    size_t name_len;
    const uint8_t *bytes;
    size_t len;
} gachuswi_file;

/* What is asked for besides the script. Not both of `proves` and `writes` are true. */
typedef struct gachuswi_options {
    uint32_t budget; /* how many clauses may be learnt in all rounds, at most 1,000,000; one more, and it is spent */
    bool shows;      /* give the result lines also where the script says which it expects (testsolv -r) */
    bool proves;     /* give proofs of the problems in place of all lines (testsolv --proof) */
    bool writes;     /* give the script itself as one text, and solve nothing (testsolv --write) */
} gachuswi_options;

/* An answer, or none. It owns memory, which gachuswi_close gives back. */
typedef struct gachuswi_answer {
    void *held;
} gachuswi_answer;

#define GACHUSWI_NONE {NULL}

/* The number of the library's interface. */
uint32_t gachuswi_abi(void);

/* Solves the script of this name, one of the files, and keeps what that comes to in place of what was kept. Answers its
 * status. GACHUSWI_MISUSE is answered for a name that is not UTF-8, a budget above 1,000,000, and where proofs and the script are
 * both asked for, and in no other case; with it and with GACHUSWI_NO_MEMORY what was kept before is as it was. */
int32_t gachuswi_run(gachuswi_answer *answer, const gachuswi_file *files, size_t files_len, const uint8_t *script,
                     size_t script_len, const gachuswi_options *options);

/* The status of what is kept, or GACHUSWI_MISUSE where nothing is. */
int32_t gachuswi_status(gachuswi_answer *answer);

/* Copies the first bytes of the text that testsolv would print on its output, as many as there is room for, and answers how
 * many it has: 0 where nothing is kept. So a call with no room tells how much is needed. No 0 byte is put behind. */
size_t gachuswi_out(gachuswi_answer *answer, uint8_t *into, size_t into_len);

/* The same of the line on what is wrong. */
size_t gachuswi_err(gachuswi_answer *answer, uint8_t *into, size_t into_len);

/* Lets go what is kept. It may be called again. */
void gachuswi_close(gachuswi_answer *answer);

/* How two versions `[epoch:]version[-release]` compare, as rpm compares them: -1, 0 or 1. */
int32_t gachuswi_evr_compare(const uint8_t *a, size_t a_len, const uint8_t *b, size_t b_len);

/* ---- conveniences, which are C and not proved */

/* A file of this name, which ends in a 0 byte. */
static inline gachuswi_file gachuswi_lend(const char *name, const void *bytes, size_t len) {
    gachuswi_file file = {(const uint8_t *)name, strlen(name), (const uint8_t *)bytes, len};
    return file;
}

/* Solves the script of this name as testsolv does without options. */
static inline int32_t gachuswi_solve(gachuswi_answer *answer, const gachuswi_file *files, size_t files_len, const char *script) {
    gachuswi_options options = {GACHUSWI_BUDGET, false, false, false};
    return gachuswi_run(answer, files, files_len, (const uint8_t *)script, strlen(script), &options);
}

#ifdef __cplusplus
}
#endif

#endif
