/* A coverage-guided fuzzer of the replay (libFuzzer): each input runs through the plain C replay, whose coverage guides the search, and through the
   proved program named by REPLAY; the two must print the same. Built and run by tests/fuzz/guided. */
#define _GNU_SOURCE
#define main plain_main
#include "../../benches/c/plain_replay.c"
#undef main

#include <errno.h>
#include <spawn.h>
#include <stdlib.h>
#include <sys/mman.h>
#include <sys/wait.h>
#include <unistd.h>

extern char **environ;

/* Runs the proved program on the bytes; what it writes, up to the room. */
static size_t proved(const uint8_t *data, size_t size, char *printed, size_t room)
{
    int in = memfd_create("in", 0), out = memfd_create("out", 0), status;
    pid_t child;
    char *words[] = {getenv("REPLAY"), NULL};
    posix_spawn_file_actions_t files;
    if (words[0] == NULL || in < 0 || out < 0 || write(in, data, size) != (ssize_t)size || lseek(in, 0, SEEK_SET) != 0) {
        abort();
    }
    posix_spawn_file_actions_init(&files);
    posix_spawn_file_actions_adddup2(&files, in, 0);
    posix_spawn_file_actions_adddup2(&files, out, 1);
    if (posix_spawn(&child, words[0], &files, NULL, words, environ) != 0) {
        abort();
    }
    while (waitpid(child, &status, 0) < 0) {
        if (errno != EINTR) {
            abort();
        }
    }
    if (status != 0) {
        abort();
    }
    posix_spawn_file_actions_destroy(&files);
    ssize_t got = pread(out, printed, room, 0);
    close(in);
    close(out);
    return got < 0 ? 0 : (size_t)got;
}

int LLVMFuzzerTestOneInput(const uint8_t *data, size_t size)
{
    static char printed[MAX_OUTPUT];
    if (size > MAX_INPUT + 1) {
        return 0;
    }
    memcpy(input, data, size);
    output_len = 0;
    replay(size);
    size_t len = proved(data, size, printed, sizeof printed);
    if (len != output_len || memcmp(printed, output, len) != 0) {
        fprintf(stderr, "the replay and the plain C replay differ\n");
        abort();
    }
    return 0;
}
