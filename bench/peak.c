// Runs a program, and then tells the most memory that it had, in bytes, in a line of standard output.
#include <stdio.h>
#include <sys/resource.h>
#include <sys/wait.h>
#include <unistd.h>

int main(int count, char **words) {
    if (count < 2)
        return 2;
    pid_t child = fork();
    if (child == 0) {
        execv(words[1], words + 1);
        _exit(127);
    }
    int status;
    struct rusage used;
    if (child < 0 || wait4(child, &status, 0, &used) != child || !WIFEXITED(status))
        return 1;
    printf("%ld\n", used.ru_maxrss * 1024);
    return WEXITSTATUS(status);
}
