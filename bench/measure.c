/* Runs a command and tells what it took.

       measure RESULT SECONDS COMMAND WORD...

   RESULT gets one line: microseconds of processor time (user and system), peak of memory in kB, exit code, or the
   signal's number with a minus sign. The command is stopped after SECONDS of processor time. This process is small, so
   the peak is the command's own and not that of the one that started it. */

#include <stdio.h>
#include <stdlib.h>
#include <sys/resource.h>
#include <sys/wait.h>
#include <unistd.h>

static long microseconds(struct timeval time) { return time.tv_sec * 1000000L + time.tv_usec; }

int main(int count, char **words) {
    if (count < 4) return 2;
    pid_t child = fork();
    if (child == 0) {
        struct rlimit most = {strtoul(words[2], NULL, 10), strtoul(words[2], NULL, 10) + 1};
        setrlimit(RLIMIT_CPU, &most);
        execvp(words[3], words + 3);
        perror(words[3]);
        _exit(127);
    }
    int status;
    struct rusage used;
    if (child < 0 || wait4(child, &status, 0, &used) != child) return 1;
    FILE *result = fopen(words[1], "w");
    if (!result) return 1;
    fprintf(result, "%ld %ld %d\n", microseconds(used.ru_utime) + microseconds(used.ru_stime), used.ru_maxrss,
            WIFEXITED(status) ? WEXITSTATUS(status) : -WTERMSIG(status));
    return fclose(result) != 0;
}
