/* Runs copies of a command at once, and writes the seconds until all have ended and the greatest memory of one in
 * kilobytes to a file: measure FILE COPIES COMMAND... A # in its words stands for the number of the copy.
 * It is small itself, as what a process holds when it starts another counts for both. */
#define _GNU_SOURCE
#include <stdio.h>
#include <stdlib.h>
#include <string.h>
#include <sys/resource.h>
#include <sys/wait.h>
#include <time.h>
#include <unistd.h>

static void be(char **words, int copy) {
    for (char **word = words; *word; word++) {
        for (char *place = *word; (place = strchr(place, '#'));) *place = '0' + copy;
    }
    execvp(words[0], words);
    _exit(127);
}

int main(int count, char **words) {
    if (count < 4) return 2;
    struct timespec begun, ended;
    struct rusage usage;
    int status, copies = atoi(words[2]), failed = 0;
    long memory = 0;
    clock_gettime(CLOCK_MONOTONIC, &begun);
    for (int copy = 0; copy < copies; copy++) {
        pid_t child = fork();
        if (child < 0) return 1;
        if (child == 0) be(words + 3, copy);
    }
    for (int copy = 0; copy < copies; copy++) {
        if (wait4(-1, &status, 0, &usage) < 0) return 1;
        failed |= !WIFEXITED(status) || WEXITSTATUS(status);
        if (usage.ru_maxrss > memory) memory = usage.ru_maxrss;
    }
    clock_gettime(CLOCK_MONOTONIC, &ended);
    FILE *file = fopen(words[1], "w");
    if (!file) return 1;
    fprintf(file, "%.6f %ld\n", ended.tv_sec - begun.tv_sec + (ended.tv_nsec - begun.tv_nsec) / 1e9, memory);
    return fclose(file) || failed;
}
