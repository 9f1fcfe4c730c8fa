/* Preloaded into a program, this has files locked as NFS does it: for one run alone only if they are open to be written. */
#define _GNU_SOURCE
#include <dlfcn.h>
#include <errno.h>
#include <fcntl.h>
#include <sys/file.h>

int flock(int file, int operation)
{
    if ((operation & LOCK_EX) != 0 && (fcntl(file, F_GETFL) & O_ACCMODE) == O_RDONLY) {
        errno = EBADF;
        return -1;
    }
    return ((typeof(flock) *)dlsym(RTLD_NEXT, "flock"))(file, operation);
}
