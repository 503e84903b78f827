/* timed INPUT OUTPUT PROGRAM [ARGUMENT..]: runs a program from a file to a file, and prints its processor time in
   microseconds, its peak memory in bytes and its status. The peak of a process counts what the one that started it
   had in memory, so it is started by one that has little. */
#include <fcntl.h>
#include <stdio.h>
#include <sys/resource.h>
#include <sys/wait.h>
#include <unistd.h>

static int become(char **given) {
    int input = open(given[1], O_RDONLY);
    int output = open(given[2], O_WRONLY | O_CREAT | O_TRUNC, 0600);
    if (input < 0 || output < 0 || dup2(input, 0) < 0 || dup2(output, 1) < 0)
        return 127;
    execv(given[3], given + 3);
    return 127;
}

int main(int count, char **given) {
    int status;
    struct rusage used;
    if (count < 4)
        return 2;
    pid_t child = fork();
    if (child == 0)
        _exit(become(given));
    if (child < 0 || wait4(child, &status, 0, &used) != child || !WIFEXITED(status))
        return 1;
    long microseconds = (used.ru_utime.tv_sec + used.ru_stime.tv_sec) * 1000000L + used.ru_utime.tv_usec + used.ru_stime.tv_usec;
    printf("%ld %ld %d\n", microseconds, used.ru_maxrss * 1024L, WEXITSTATUS(status));
    return 0;
}
