// Runs a command without input and output, and prints its exit status, the processor seconds that it took and its peak
// memory in KiB. The kernel counts what a process held before its `exec` as its own, so that a runner that holds much
// memory can not measure a small program: this one holds less than any.
#include <fcntl.h>
#include <stdio.h>
#include <sys/resource.h>
#include <sys/wait.h>
#include <unistd.h>

static double seconds(struct timeval time) { return (double)time.tv_sec + (double)time.tv_usec / 1e6; }

int main(int count, char **words) {
    if (count < 2) return 2;
    pid_t child = fork();
    if (child == 0) {
        int nothing = open("/dev/null", O_RDWR);
        for (int place = 0; place < 3; place++) dup2(nothing, place);
        execvp(words[1], words + 1);
        _exit(127);
    }
    int status = 0;
    struct rusage used;
    if (child < 0 || wait4(child, &status, 0, &used) < 0) return 1;
    int ended = WIFEXITED(status) ? WEXITSTATUS(status) : 255;
    printf("%d %.6f %ld\n", ended, seconds(used.ru_utime) + seconds(used.ru_stime), used.ru_maxrss);
    return 0;
}
