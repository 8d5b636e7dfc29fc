/* `steps PROGRAM WORD..`: runs the program one instruction after the other, on the processor itself, and prints to the
 * standard error how many there were. One that repeats, such as `rep movsb`, counts once. */
#include <stddef.h>
#include <stdio.h>
#include <sys/ptrace.h>
#include <sys/user.h>
#include <sys/wait.h>
#include <unistd.h>

int main(int count, char **words) {
    if (count < 2)
        return 2;
    pid_t child = fork();
    if (child == 0) {
        ptrace(PTRACE_TRACEME, 0, NULL, NULL);
        execv(words[1], words + 1);
        _exit(127);
    }
    unsigned long steps = 0;
    long before = 0;
    int status = 0;
    waitpid(child, &status, 0);
    while (WIFSTOPPED(status)) {
        long at = ptrace(PTRACE_PEEKUSER, child, offsetof(struct user, regs.rip), NULL);
        steps += at != before;
        before = at;
        ptrace(PTRACE_SINGLESTEP, child, NULL, NULL);
        waitpid(child, &status, 0);
    }
    fprintf(stderr, "%lu\n", steps);
    return WIFEXITED(status) ? WEXITSTATUS(status) : 1;
}
