/* threads SCRIPT ..: calls from several threads at once, each with an answer of its own, over the same lent files, and tells of each answer that
 * is not the one that a call by itself gives. */
#include "lending.h"

#include <pthread.h>

enum { THREADS = 4, TIMES = 5 };

static const gachuswi_options shown = {GACHUSWI_BUDGET, true, false, false};
static const char *name;
static int32_t wanted;
static char *wanted_text;
static size_t wanted_len;

static void *call_often(void *unused) {
    gachuswi_answer answer = GACHUSWI_NONE;
    size_t wrong = 0;
    (void)unused;
    for (int i = 0; i < TIMES; i++) {
        size_t len;
        int32_t status = gachuswi_run(&answer, lent, lent_len, (const uint8_t *)name, strlen(name), &shown);
        char *text = text_of(&answer, gachuswi_out, &len);
        wrong += status != wanted || len != wanted_len || memcmp(text, wanted_text, len) != 0;
        free(text);
    }
    gachuswi_close(&answer);
    return (void *)wrong;
}

/* How many answers of all threads are wrong. */
static size_t call_at_once(void) {
    pthread_t threads[THREADS];
    size_t wrong = 0;
    for (int i = 0; i < THREADS; i++)
        if (pthread_create(&threads[i], NULL, call_often, NULL)) exit(2);
    for (int i = 0; i < THREADS; i++) {
        void *found;
        pthread_join(threads[i], &found);
        wrong += (size_t)found;
    }
    return wrong;
}

int main(int argc, char **argv) {
    size_t wrong = 0;
    for (int i = 1; i < argc; i++) {
        gachuswi_answer answer = GACHUSWI_NONE;
        name = argv[i];
        wanted = run_lending(&answer, name, &shown);
        wanted_text = text_of(&answer, gachuswi_out, &wanted_len);
        gachuswi_close(&answer);
        size_t found = call_at_once();
        if (found) printf("%s: %zu answers are wrong\n", name, found);
        wrong += found;
        free(wanted_text);
        take_back_all();
    }
    return wrong != 0;
}
