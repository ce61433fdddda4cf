/* What the programs of this folder share: files of the current folder, lent when they are asked for. */
#include "gachuswi.h"

#include <stdio.h>
#include <stdlib.h>

static gachuswi_file *lent;
static size_t lent_len;

/* Reads a file and lends it; false where it cannot be read. */
static inline bool lend_file(const char *name) {
    FILE *from = fopen(name, "rb");
    if (!from) return false;
    size_t len = 0, room = 1 << 16, got;
    char *bytes = malloc(room);
    while ((got = fread(bytes + len, 1, room - len, from)) > 0)
        if ((len += got) == room) bytes = realloc(bytes, room *= 2);
    bool failed = ferror(from) != 0;
    fclose(from);
    if (failed) {
        free(bytes);
        return false;
    }
    lent = realloc(lent, (lent_len + 1) * sizeof *lent);
    lent[lent_len++] = gachuswi_lend(strcpy(malloc(strlen(name) + 1), name), bytes, len);
    return true;
}

static inline void take_back_all(void) {
    while (lent_len > 0) {
        lent_len--;
        free((void *)lent[lent_len].name);
        free((void *)lent[lent_len].bytes);
    }
    free(lent);
    lent = NULL;
}

/* A text of an answer, with a 0 byte behind it. */
static inline char *text_of(gachuswi_answer *answer, size_t (*call)(gachuswi_answer *, uint8_t *, size_t), size_t *len) {
    *len = call(answer, NULL, 0);
    char *bytes = malloc(*len + 1);
    call(answer, (uint8_t *)bytes, *len);
    bytes[*len] = 0;
    return bytes;
}

/* Lends the file that cannot be read, as the line of an answer says; false where there is none of this name. */
static inline bool lend_missing(gachuswi_answer *answer) {
    static const char begin[] = "testsolv: cannot read ";
    size_t len;
    char *line = text_of(answer, gachuswi_err, &len);
    bool is_lent = false;
    if (len > sizeof begin && !memcmp(line, begin, sizeof begin - 1)) {
        line[len - 1] = 0;
        is_lent = lend_file(line + sizeof begin - 1);
    }
    free(line);
    return is_lent;
}

/* Runs a script, and lends each file that is missing as long as there is one. */
static inline int32_t run_lending(gachuswi_answer *answer, const char *name, const gachuswi_options *options) {
    int32_t status;
    lend_file(name);
    do status = gachuswi_run(answer, lent, lent_len, (const uint8_t *)name, strlen(name), options);
    while (status == GACHUSWI_READ_FAULT && lend_missing(answer));
    return status;
}

/* Takes one word of a command line into the options; false where it is none of them. */
static inline bool take_option(const char *word, gachuswi_options *options) {
    if (!strcmp(word, "-r")) options->shows = true;
    else if (!strcmp(word, "--proof")) options->proves = true;
    else if (!strcmp(word, "--write")) options->writes = true;
    else if (!strncmp(word, "--budget=", 9)) options->budget = (uint32_t)strtoul(word + 9, NULL, 10);
    else return false;
    return true;
}
