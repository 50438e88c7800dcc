/* Runs a program with its words, and then writes its peak memory in kilobytes as a line of its own.
 *
 * A child's peak has in it what its parent took at the fork, and so the parent has to be small: this program, and not Python. */
#include <stdio.h>
#include <sys/resource.h>
#include <sys/wait.h>
#include <unistd.h>

int main(int count, char **words) {
    struct rusage used;
    int status;
    pid_t child = count < 2 ? -1 : fork();
    if (child == 0) {
        execv(words[1], words + 1);
        _exit(127);
    }
    if (child < 0 || wait4(child, &status, 0, &used) != child) {
        return 126;
    }
    printf("%ld\n", used.ru_maxrss);
    return WIFEXITED(status) ? WEXITSTATUS(status) : 125;
}
