/* process INPUT COMMAND..: runs a command over a file as its input, without its output, and prints the microseconds of
 * user and of system time that it took, its peak memory in KiB, its page faults and its exit status. Linux counts the
 * memory of whoever starts a process as that process's own, so this is a small program; vfork copies none of it. */
#include <fcntl.h>
#include <stdio.h>
#include <sys/resource.h>
#include <sys/wait.h>
#include <unistd.h>

static int run(const char *input, char **command) {
    int in = open(input, O_RDONLY), out = open("/dev/null", O_WRONLY);
    if (in < 0 || out < 0) return 127;
    dup2(in, 0);
    dup2(out, 1);
    dup2(out, 2);
    execvp(command[0], command);
    return 127;
}

int main(int count, char **words) {
    if (count < 3) return 2;
    pid_t child = vfork();
    if (child < 0) return 2;
    if (child == 0) _exit(run(words[1], words + 2));
    int status;
    struct rusage used;
    if (wait4(child, &status, 0, &used) < 0 || !WIFEXITED(status) || WEXITSTATUS(status) == 127) return 2;
    long user = used.ru_utime.tv_sec * 1000000L + used.ru_utime.tv_usec;
    long system = used.ru_stime.tv_sec * 1000000L + used.ru_stime.tv_usec;
    printf("%ld %ld %ld %ld %d\n", user, system, used.ru_maxrss, used.ru_minflt, WEXITSTATUS(status));
    return 0;
}
