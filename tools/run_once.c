/* Runs a program once, and tells what it took.
 *
 *     run_once INPUT OUTPUT PROGRAM [ARGUMENT ..]
 *
 * It writes a line: the seconds by the clock, those of the processor, the most memory that the program held in bytes, and its
 * exit status. The program is started from a process as small as this one, since the peak that the system tells has in it what
 * the process held before the program was loaded.
 */
#define _GNU_SOURCE
#include <fcntl.h>
#include <stdio.h>
#include <sys/resource.h>
#include <sys/wait.h>
#include <time.h>
#include <unistd.h>

static void become(char **words)
{
    int input = open(words[0], O_RDONLY);
    int output = open(words[1], O_WRONLY | O_CREAT | O_TRUNC, 0666);
    if (input >= 0 && output >= 0 && dup2(input, 0) == 0 && dup2(output, 1) == 1)
        execv(words[2], words + 2);
    perror("run_once");
    _exit(127);
}

static double now(void)
{
    struct timespec time;
    clock_gettime(CLOCK_MONOTONIC, &time);
    return time.tv_sec + time.tv_nsec / 1e9;
}

static double seconds(struct timeval time)
{
    return time.tv_sec + time.tv_usec / 1e6;
}

int main(int count, char **words)
{
    int status;
    struct rusage used;
    if (count < 4)
        return 2;
    double began = now();
    pid_t program = fork();
    if (program == 0)
        become(words + 1);
    if (program < 0 || wait4(program, &status, 0, &used) != program)
        return 1;
    double took = now() - began, processor = seconds(used.ru_utime) + seconds(used.ru_stime);
    int ended = WIFEXITED(status) ? WEXITSTATUS(status) : 128;
    printf("%.6f %.6f %ld %d\n", took, processor, used.ru_maxrss * 1024, ended);
    return 0;
}
