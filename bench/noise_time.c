/* noise_time RUNS FILE PROGRAM...: starts a program so often with a file as its input and nothing for its output, and prints the least user
 * seconds of a run and the most memory that one held, in KiB. */
#include <fcntl.h>
#include <stdio.h>
#include <stdlib.h>
#include <sys/resource.h>
#include <sys/wait.h>
#include <unistd.h>

int main(int words, char **word) {
    if (words < 4) return fprintf(stderr, "usage: noise_time RUNS FILE PROGRAM...\n"), 2;
    double least = 0;
    long most = 0;
    for (int runs = atoi(word[1]); runs > 0; runs--) {
        pid_t child = fork();
        if (child == 0) {
            dup2(open(word[2], O_RDONLY), 0);
            dup2(open("/dev/null", O_WRONLY), 1);
            execvp(word[3], word + 3);
            _exit(127);
        }
        int status;
        struct rusage used;
        if (child < 0 || wait4(child, &status, 0, &used) != child || status != 0) return fprintf(stderr, "%s did not end well\n", word[3]), 2;
        double seconds = (double)used.ru_utime.tv_sec + (double)used.ru_utime.tv_usec / 1e6;
        if (least == 0 || seconds < least) least = seconds;
        if (used.ru_maxrss > most) most = used.ru_maxrss;
    }
    printf("%.2f %ld\n", least, most);
    return 0;
}
