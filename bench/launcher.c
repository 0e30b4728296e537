/* launcher FD SECONDS BYTES WORD..: runs the words, and writes to the descriptor FD how they ended: the exit status (or
 * minus the signal), the processor time in microseconds, the peak memory in kilobytes, and the page faults without
 * input. More than SECONDS of processor time or BYTES of memory end the run; 0 is no bound.
 * It is small on purpose: the peak that the system counts for a process is at least that of the one which started it. */
#include <stdio.h>
#include <stdlib.h>
#include <sys/resource.h>
#include <sys/wait.h>
#include <unistd.h>

static void bound(int resource, const char *most) {
    struct rlimit limit = {strtoull(most, 0, 10), strtoull(most, 0, 10)};
    if (limit.rlim_cur > 0) setrlimit(resource, &limit);
}

static long microseconds(struct timeval time) { return time.tv_sec * 1000000L + time.tv_usec; }

int main(int count, char **words) {
    if (count < 5) return 2;
    int told = atoi(words[1]), status;
    pid_t child = fork();
    if (child < 0) return 1;
    if (child == 0) {
        close(told);
        bound(RLIMIT_CPU, words[2]);
        bound(RLIMIT_AS, words[3]);
        execvp(words[4], words + 4);
        _exit(127);
    }
    struct rusage usage;
    if (wait4(child, &status, 0, &usage) != child) return 1;
    dprintf(told, "%d %ld %ld %ld", WIFEXITED(status) ? WEXITSTATUS(status) : -WTERMSIG(status),
            microseconds(usage.ru_utime) + microseconds(usage.ru_stime), usage.ru_maxrss, usage.ru_minflt);
    return 0;
}
