// Counts the instructions that a command takes once it has read its texts: `steps TALLY ENDS WORD..`. They are those of
// its first thread, from the read on that finds the end of a file for the ENDS-th time. The number is written into the
// file TALLY; the exit status is the command's, 127 where nothing can be counted. Addresses are not drawn at random
// where the system lets them stay, so that the same command has the same number on the same texts.
#define _GNU_SOURCE
#include <stdio.h>
#include <stdlib.h>
#include <sys/personality.h>
#include <sys/ptrace.h>
#include <sys/syscall.h>
#include <sys/wait.h>
#include <unistd.h>

static int begin(char **words) {
    personality(ADDR_NO_RANDOMIZE);
    if (ptrace(PTRACE_TRACEME, 0, NULL, NULL) == 0) execv(words[0], words);
    return 127;
}

// Whether the command has just left a read that found the end of a file; `call` is the system call that it entered last.
static int is_end(pid_t command, unsigned long *call) {
    struct __ptrace_syscall_info told;
    if (ptrace(PTRACE_GET_SYSCALL_INFO, command, sizeof told, &told) <= 0) return 0;
    if (told.op == PTRACE_SYSCALL_INFO_ENTRY) *call = told.entry.nr;
    return told.op == PTRACE_SYSCALL_INFO_EXIT && *call == SYS_read && told.exit.rval == 0;
}

// Lets the command go on, by single instructions once it has read its texts; its last status.
static int follow(pid_t command, long ends, unsigned long *count) {
    unsigned long call = 0;
    int status, is_begun = 0;
    while (waitpid(command, &status, 0) == command && WIFSTOPPED(status)) {
        int sent = WSTOPSIG(status);
        if (!is_begun) {
            is_begun = 1;
            ptrace(PTRACE_SETOPTIONS, command, NULL, PTRACE_O_TRACESYSGOOD | PTRACE_O_EXITKILL);
        }
        if (sent == (SIGTRAP | 0x80) && ends > 0 && is_end(command, &call)) ends--;
        if (sent == SIGTRAP || sent == (SIGTRAP | 0x80)) sent = 0;
        *count += ends <= 0;
        if (ptrace(ends > 0 ? PTRACE_SYSCALL : PTRACE_SINGLESTEP, command, NULL, sent) != 0) return 127;
    }
    return WIFEXITED(status) ? WEXITSTATUS(status) : 127;
}

int main(int count, char **words) {
    if (count < 4) return 127;
    pid_t command = fork();
    if (command == 0) return begin(words + 3);
    unsigned long steps = 0;
    int status = command < 0 ? 127 : follow(command, atol(words[2]), &steps);
    FILE *tally = fopen(words[1], "w");
    if (tally == NULL || fprintf(tally, "%lu\n", steps) < 0 || fclose(tally) != 0) return 127;
    return status;
}
