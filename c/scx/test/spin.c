/* One thread that computes:   spin NAME fifo|other|ext RANK MASK MILLISECONDS */
#include "threads.h"

#include <stdio.h>
#include <stdlib.h>
#include <sys/prctl.h>
#include <time.h>

int main(int words, char **word) {
    if (words != 6) return 2;
    prctl(PR_SET_NAME, word[1]);
    set_mask(0, strtoull(word[4], NULL, 0));
    if (!set_class(word[2], atoi(word[3]))) perror(word[1]);
    double begin = seconds_of(CLOCK_MONOTONIC);
    burn(atof(word[5]) * 1e-3);
    printf("spin %s took %.1f ms for %s\n", word[1], (seconds_of(CLOCK_MONOTONIC) - begin) * 1e3, word[5]);
    return 0;
}
