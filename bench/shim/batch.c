/* Runs a program once for each text. The words are the program and its words. Standard input has texts, each behind its length in four
   bytes; for each the exit status (or the signal as a negative number), the length and the bytes of what the run wrote are written to
   standard output, the numbers in four bytes of this machine's order. A run's standard error goes with its standard output. A run that takes
   more than a minute ends by a signal. */
#define _GNU_SOURCE
#include <errno.h>
#include <stdint.h>
#include <stdio.h>
#include <stdlib.h>
#include <sys/mman.h>
#include <sys/stat.h>
#include <sys/wait.h>
#include <unistd.h>

static void must(int held, const char *what) {
    if (!held) {
        perror(what);
        exit(1);
    }
}

static char *room;
static size_t room_size;

static void make_room(size_t size) {
    if (size <= room_size)
        return;
    room_size = size * 2;
    room = realloc(room, room_size);
    must(room != NULL, "realloc");
}

static void run(char **words, int text, int told) {
    pid_t child = vfork();
    must(child >= 0, "vfork");
    if (child == 0) {
        alarm(60);
        if (dup2(text, 0) < 0 || dup2(told, 1) < 0 || dup2(told, 2) < 0)
            _exit(126);
        execv(words[0], words);
        _exit(127);
    }
    int ended;
    pid_t who;
    while ((who = waitpid(child, &ended, 0)) < 0 && errno == EINTR)
        ;
    must(who == child, "waitpid");
    struct stat found;
    must(fstat(told, &found) == 0, "fstat");
    make_room(found.st_size + 1);
    must(pread(told, room, found.st_size, 0) == found.st_size, "pread");
    int32_t status = WIFEXITED(ended) ? WEXITSTATUS(ended) : -WTERMSIG(ended);
    uint32_t size = found.st_size;
    must(fwrite(&status, 4, 1, stdout) == 1 && fwrite(&size, 4, 1, stdout) == 1, "fwrite");
    must(fwrite(room, 1, size, stdout) == size, "fwrite");
}

int main(int count, char **words) {
    if (count < 2)
        return 2;
    int text = memfd_create("text", MFD_CLOEXEC), told = memfd_create("told", MFD_CLOEXEC);
    must(text >= 0 && told >= 0, "memfd_create");
    uint32_t size;
    while (fread(&size, 4, 1, stdin) == 1) {
        make_room(size + 1);
        must(fread(room, 1, size, stdin) == size, "fread");
        must(ftruncate(text, 0) == 0 && ftruncate(told, 0) == 0, "ftruncate");
        must(pwrite(text, room, size, 0) == size, "pwrite");
        must(lseek(text, 0, SEEK_SET) == 0 && lseek(told, 0, SEEK_SET) == 0, "lseek");
        run(words + 1, text, told);
    }
    must(fflush(stdout) == 0, "fflush");
    return 0;
}
