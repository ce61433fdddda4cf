/* scripts [OPTION ..] SCRIPT ..: solves each script by the library, with the options of testsolv that stand before it (-r, --proof, --write,
 * --budget=N), and prints both of its texts and then a line with its status and name. */
#include "lending.h"

static void print(gachuswi_answer *answer, size_t (*call)(gachuswi_answer *, uint8_t *, size_t)) {
    size_t len;
    char *text = text_of(answer, call, &len);
    fwrite(text, 1, len, stdout);
    free(text);
}

int main(int argc, char **argv) {
    const gachuswi_options plain = {GACHUSWI_BUDGET, false, false, false};
    gachuswi_options options = plain;
    gachuswi_answer answer = GACHUSWI_NONE;
    for (int i = 1; i < argc; i++) {
        if (take_option(argv[i], &options)) continue;
        int32_t status = run_lending(&answer, argv[i], &options);
        print(&answer, gachuswi_out);
        print(&answer, gachuswi_err);
        printf("%d %s\n", (int)status, argv[i]);
        take_back_all();
        options = plain;
    }
    gachuswi_close(&answer);
    return 0;
}
