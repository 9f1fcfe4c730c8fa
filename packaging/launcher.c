/* Starts the program of the name that it is called by, of the build for the highest level that this processor has: bin/NAME starts
 * libexec/bucketuntil/LEVEL/NAME, beside bin. The choice is made at each start, so that a folder or an image may come to another
 * processor. The program takes this one's place: its arguments, descriptors, status and number stay. Where none can be started the status
 * is 126, as a shell has it. */
#include <errno.h>
#include <limits.h>
#include <stdio.h>
#include <stdlib.h>
#include <string.h>
#include <sys/auxv.h>
#include <unistd.h>

/* Cuts the last name off a path, and gives it; NULL where there is none. */
static char *cut(char *path)
{
    char *slash = strrchr(path, '/');
    if (slash == NULL)
        return NULL;
    *slash = '\0';
    return slash + 1;
}

int main(int argc, char **argv)
{
    static const char *const levels[] = {"x86-64-v3", "x86-64-v2"};
    static char own[PATH_MAX], path[PATH_MAX + 64];
    /* The path that was executed, also where /proc isn't there. Links to it are followed. */
    const char *executed = (const char *)getauxval(AT_EXECFN);
    char *name = executed != NULL && realpath(executed, own) != NULL ? cut(own) : NULL;
    (void)argc;
    if (name == NULL || cut(own) == NULL) {
        fprintf(stderr, "bucketuntil: the folder of this program can't be found (%s)\n", strerror(errno));
        return 126;
    }
    for (size_t i = __builtin_cpu_supports("x86-64-v3") ? 0 : 1; i < sizeof levels / sizeof *levels; i++) {
        snprintf(path, sizeof path, "%s/libexec/bucketuntil/%s/%s", own, levels[i], name);
        execv(path, argv);
    }
    fprintf(stderr, "%s: %s can't be started (%s)\n", name, path, strerror(errno));
    return 126;
}
