/* Runs a program on a file that comes through a pipe whose last bytes are late; a read of the pipe does not wait for them (O_NONBLOCK):
       late BYTES FILE PROGRAM */
#define _DEFAULT_SOURCE /* for usleep */
#include <fcntl.h>
#include <stdio.h>
#include <stdlib.h>
#include <sys/wait.h>
#include <unistd.h>

enum { MOST = 4096, LATE = 200000 }; /* the file's bytes, which a pipe takes at once; microseconds */

static void need(int holds, const char *what)
{
    if (!holds) {
        perror(what);
        exit(3);
    }
}

int main(int count, char **words)
{
    char bytes[MOST];
    int ends[2], status;
    if (count != 4) {
        fputs("usage: late BYTES FILE PROGRAM\n", stderr);
        return 3;
    }
    FILE *file = fopen(words[2], "rb");
    need(file != NULL, words[2]);
    size_t length = fread(bytes, 1, MOST, file), late = (size_t)atoi(words[1]);
    need(!ferror(file) && length < MOST && late <= length, words[2]);
    need(pipe(ends) == 0 && fcntl(ends[0], F_SETFL, O_NONBLOCK) == 0, "pipe");
    pid_t child = fork();
    need(child >= 0, "fork");
    if (child == 0) {
        dup2(ends[0], 0);
        close(ends[0]);
        close(ends[1]);
        execl(words[3], words[3], (char *)NULL);
        need(0, words[3]);
    }
    close(ends[0]);
    need(write(ends[1], bytes, length - late) == (ssize_t)(length - late), "pipe");
    usleep(LATE);
    need(write(ends[1], bytes + length - late, late) == (ssize_t)late, "pipe");
    close(ends[1]);
    need(waitpid(child, &status, 0) == child, "waitpid");
    return WIFEXITED(status) ? WEXITSTATUS(status) : 3;
}
