// Loaded before the C library, to see and to disturb what a program asks of the system.
//
// SYNCED: a file that gets a line for each file or folder that the program has the system sync: `w` where the handle can write, `r`
// where it can only read, and the path.
// SYNC_FAULT=KIND:NUMBER: each sync of a handle of this kind, `w` or `r` as above or `d` for a folder, fails with this error.
// SPAWN_FAULT=NUMBER: the first start of a program fails with this error.
#define _GNU_SOURCE
#include <dlfcn.h>
#include <errno.h>
#include <fcntl.h>
#include <spawn.h>
#include <stdio.h>
#include <stdlib.h>
#include <string.h>
#include <sys/stat.h>
#include <unistd.h>

static void note(char kind, int file)
{
    char link[64], path[4096];
    snprintf(link, sizeof link, "/proc/self/fd/%d", file);
    ssize_t length = readlink(link, path, sizeof path - 1);
    const char *name = getenv("SYNCED");
    FILE *notes = name != NULL ? fopen(name, "a") : NULL;
    if (length > 0 && notes != NULL) {
        path[length] = '\0';
        fprintf(notes, "%c %s\n", kind, path);
    }
    if (notes != NULL)
        fclose(notes);
}

int fsync(int file)
{
    int (*real)(int) = (int (*)(int))dlsym(RTLD_NEXT, "fsync");
    struct stat found;
    int flags = fcntl(file, F_GETFL);
    char kind = (flags & O_ACCMODE) == O_RDONLY ? 'r' : 'w';
    const char *fault = getenv("SYNC_FAULT");
    int is_folder = fstat(file, &found) == 0 && S_ISDIR(found.st_mode);
    note(kind, file);
    if (fault != NULL && strlen(fault) > 2 && (fault[0] == kind || (fault[0] == 'd' && is_folder))) {
        errno = atoi(fault + 2);
        return -1;
    }
    return real(file);
}

int posix_spawn(pid_t *pid, const char *path, const posix_spawn_file_actions_t *actions, const posix_spawnattr_t *attributes,
                char *const words[], char *const environment[])
{
    typedef int (*spawn_function)(pid_t *, const char *, const posix_spawn_file_actions_t *, const posix_spawnattr_t *, char *const[],
                                  char *const[]);
    static int starts = 0;
    const char *fault = getenv("SPAWN_FAULT");
    starts++;
    if (fault != NULL && starts == 1)
        return atoi(fault);
    return ((spawn_function)dlsym(RTLD_NEXT, "posix_spawn"))(pid, path, actions, attributes, words, environment);
}
