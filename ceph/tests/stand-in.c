/* Stands in the place of a program: asks the process that listens at the socket STAND_IN to do what it is asked for, with its words and its
 * files 0, 1 and 2, and ends as that says it ended. So a run takes no start of Python where the program is one of Python's
 * (tools/forked.py). It keeps what else it got until then, as locks. */
#include <signal.h>
#include <stdio.h>
#include <stdlib.h>
#include <string.h>
#include <sys/socket.h>
#include <sys/un.h>
#include <sys/wait.h>
#include <unistd.h>

enum { FILES = 3, MOST_MESSAGE = 65536 };

static char message[MOST_MESSAGE];

static int asked(const char *path)
{
    struct sockaddr_un name = {.sun_family = AF_UNIX};
    snprintf(name.sun_path, sizeof name.sun_path, "%s", path == NULL ? "" : path);
    int asking = socket(AF_UNIX, SOCK_SEQPACKET | SOCK_CLOEXEC, 0);
    if (asking < 0 || connect(asking, (struct sockaddr *)&name, sizeof name) != 0) {
        perror("stand-in: STAND_IN");
        exit(99);
    }
    return asking;
}

/* The words one after the other, each with the zero byte that ends it. */
static size_t put_words(char **words)
{
    size_t size = 0;
    for (; *words != NULL; words++) {
        size_t more = strlen(*words) + 1;
        if (more > MOST_MESSAGE - size)
            exit(98);
        memcpy(message + size, *words, more);
        size += more;
    }
    return size;
}

static void ask(int asking, size_t size)
{
    static const int files[FILES] = {0, 1, 2};
    char room[CMSG_SPACE(sizeof files)] __attribute__((aligned(__alignof__(struct cmsghdr)))) = {0};
    struct iovec part = {message, size};
    struct msghdr about = {.msg_iov = &part, .msg_iovlen = 1, .msg_control = room, .msg_controllen = sizeof room};
    struct cmsghdr *with = CMSG_FIRSTHDR(&about);
    with->cmsg_level = SOL_SOCKET;
    with->cmsg_type = SCM_RIGHTS;
    with->cmsg_len = CMSG_LEN(sizeof files);
    memcpy(CMSG_DATA(with), files, sizeof files);
    if (sendmsg(asking, &about, MSG_NOSIGNAL) < 0)
        exit(97);
}

int main(int count, char **words)
{
    (void)count;
    int asking = asked(getenv("STAND_IN")), status;
    ask(asking, put_words(words));
    if (recv(asking, &status, sizeof status, 0) != sizeof status)
        return 96;
    if (WIFEXITED(status))
        return WEXITSTATUS(status);
    signal(WTERMSIG(status), SIG_DFL);
    raise(WTERMSIG(status));
    return 95;
}
