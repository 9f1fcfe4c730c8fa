/* For a library that is preloaded: one start of a program does for many runs. Where the environment has FORK_RUNS, the number of a socket,
 * the program waits there, after the loader's work and before anything of its own, and forks itself for each message that comes. A message
 * has the files 0, 1 and 2 of a run, its environment, an empty text and its words, each ended by a zero byte; the answer is how the run
 * ended, as waitpid says it. Without FORK_RUNS the program runs as ever. */
#include <stdlib.h>
#include <string.h>
#include <sys/socket.h>
#include <sys/wait.h>
#include <unistd.h>

enum { RUN_FILES = 3, MOST_MESSAGE = 65536, MOST_WORDS = 256 };

static char run_message[MOST_MESSAGE];
static char *run_words[MOST_WORDS + 1];

/* Takes a message with its files; gives how many bytes it has, and 0 where no more will come. */
static size_t take_message(int from, int files[RUN_FILES])
{
    char room[CMSG_SPACE(RUN_FILES * sizeof(int))] __attribute__((aligned(__alignof__(struct cmsghdr))));
    struct iovec part = {run_message, sizeof run_message - 1};
    struct msghdr about = {.msg_iov = &part, .msg_iovlen = 1, .msg_control = room, .msg_controllen = sizeof room};
    ssize_t size = recvmsg(from, &about, 0);
    struct cmsghdr *with = CMSG_FIRSTHDR(&about);
    if (size <= 0 || with == NULL || with->cmsg_len != CMSG_LEN(RUN_FILES * sizeof(int)) || (about.msg_flags & (MSG_TRUNC | MSG_CTRUNC)))
        return 0;
    memcpy(files, CMSG_DATA(with), RUN_FILES * sizeof(int));
    return (size_t)size;
}

static char *after(char *text)
{
    return text + strlen(text) + 1;
}

/* In the run: gives itself what the message says, and says how many words it has. */
static int become_run(size_t size, const int files[RUN_FILES])
{
    for (int file = 0; file < RUN_FILES; file++) {
        if (dup2(files[file], file) < 0)
            _exit(98);
        close(files[file]);
    }
    clearenv();
    char *text = run_message;
    run_message[size] = 0;
    for (; *text; text = after(text))
        putenv(text);
    int count = 0;
    for (text = after(text); text < run_message + size && count < MOST_WORDS; text = after(text))
        run_words[count++] = text;
    return count;
}

/* Returns in each run, with its words, and otherwise where nothing asks for runs. */
static void fork_runs(int *count, char ***words)
{
    const char *number = getenv("FORK_RUNS");
    if (number == NULL)
        return;
    int socket = atoi(number), files[RUN_FILES], status = 0;
    for (size_t size; (size = take_message(socket, files)) > 0;) {
        pid_t run = fork();
        if (run == 0) {
            close(socket);
            *count = become_run(size, files);
            *words = run_words;
            return;
        }
        for (int file = 0; file < RUN_FILES; file++)
            close(files[file]);
        if (run < 0 || waitpid(run, &status, 0) != run || send(socket, &status, sizeof status, MSG_NOSIGNAL) != sizeof status)
            break;
    }
    _exit(0);
}
