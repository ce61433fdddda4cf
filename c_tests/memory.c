/* memory [OPTION ..] SCRIPT ..: refuses memory at each allocation of a call in turn, once that one alone and once all from it on, and tells of
 * each call that does otherwise than it should: answer GACHUSWI_NO_MEMORY, leave what was kept, and hold no more memory than before. It is
 * linked with -Wl,--wrap=malloc,--wrap=realloc,--wrap=free, so that it sees the calls that the library makes. */
#include "lending.h"
#include "refusing.h"

static unsigned long failed;

static void told(const char *name, unsigned long k, const char *what) {
    printf("%s, allocation %lu%s: %s\n", name, k + 1, refuses_all ? " and all behind it" : "", what);
    failed++;
}

/* Whether an answer has this status and this text. */
static bool is_kept(gachuswi_answer *answer, int32_t status, const char *text, size_t len) {
    size_t now_len;
    char *now = text_of(answer, gachuswi_out, &now_len);
    bool same = gachuswi_status(answer) == status && now_len == len && !memcmp(now, text, len);
    free(now);
    return same;
}

/* Calls with the k-th allocation refused, over an answer that has this status and text; false where there is no k-th. */
static bool refuse(gachuswi_answer *answer, const char *name, const gachuswi_options *options, unsigned long k, int32_t wanted) {
    size_t len;
    int32_t before = gachuswi_status(answer);
    char *text = text_of(answer, gachuswi_out, &len);
    void *held = answer->held;
    long blocks_before = blocks;
    granted = k;
    was_refused = false;
    counts = true;
    int32_t status = gachuswi_run(answer, lent, lent_len, (const uint8_t *)name, strlen(name), options);
    counts = false;
    if (was_refused) {
        if (status != GACHUSWI_NO_MEMORY && (refuses_all || status != wanted)) told(name, k, "another status");
        if (status == GACHUSWI_NO_MEMORY && (answer->held != held || blocks != blocks_before || !is_kept(answer, before, text, len)))
            told(name, k, "what was kept has changed, or memory is held");
    } else if (status != wanted) {
        told(name, k, "another status, though no memory was refused");
    }
    free(text);
    return was_refused;
}

/* Tries each allocation of one script, over an answer to it or none; answers how many there are. */
static unsigned long refuse_each(const char *name, const gachuswi_options *options, bool keeps) {
    gachuswi_answer answer = GACHUSWI_NONE;
    int32_t wanted = run_lending(&answer, name, options);
    unsigned long k = 0;
    if (!keeps) gachuswi_close(&answer);
    long blocks_before = blocks;
    while (refuse(&answer, name, options, k, wanted)) {
        if (!keeps) gachuswi_close(&answer);
        k++;
    }
    if (keeps && blocks != blocks_before) told(name, k, "memory is held");
    gachuswi_close(&answer);
    take_back_all();
    return k;
}

int main(int argc, char **argv) {
    const gachuswi_options plain = {GACHUSWI_BUDGET, false, false, false};
    gachuswi_options options = plain;
    unsigned long tried = 0;
    for (int i = 1; i < argc; i++) {
        if (take_option(argv[i], &options)) continue;
        for (int way = 0; way < 4; way++) {
            refuses_all = way & 1;
            tried += refuse_each(argv[i], &options, way & 2);
        }
        options = plain;
    }
    printf("%lu refusals, %lu otherwise\n", tried, failed);
    return failed != 0 || blocks != 0;
}
