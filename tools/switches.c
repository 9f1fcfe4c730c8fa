/* The switches of planted mistakes (tools/mistakes.py): which one is on, and whether what is reached is noted, is put into the program's
 * bytes, so that it holds in each of its processes whatever their environment is. */
#define _GNU_SOURCE
#include <fcntl.h>
#include <stdbool.h>
#include <stdint.h>
#include <sys/mman.h>
#include <sys/syscall.h>
#include <unistd.h>

enum { MOST = 4096, NUMBER = 9, DIGITS = 4, NOTES = 19 };

__attribute__((used)) volatile char switches[] = "SWITCHED=0000;NOTE=0;";

static unsigned char unnoted[MOST];
static unsigned char *reached = unnoted;
static uint32_t made;

/* Before `main`, by calls of the system alone: a library that counts the program's own doesn't see them. */
__attribute__((constructor)) static void prepare(void)
{
    for (int digit = 0; digit < DIGITS; digit++)
        made = made * 10 + (uint32_t)(switches[NUMBER + digit] - '0');
    if (switches[NOTES] != '1')
        return;
    int file = (int)syscall(SYS_openat, AT_FDCWD, "/dev/shm/reached", O_RDWR | O_CLOEXEC);
    if (file < 0)
        return;
    void *mapped = (void *)syscall(SYS_mmap, 0, MOST, PROT_READ | PROT_WRITE, MAP_SHARED, file, 0);
    syscall(SYS_close, file);
    if (mapped != MAP_FAILED)
        reached = mapped;
}

bool planted_on(uint32_t number)
{
    if (number < MOST && !reached[number])
        reached[number] = 1;
    return made != 0 && number == made;
}
