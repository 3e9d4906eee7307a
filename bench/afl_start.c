/* What bench/afl does as each run of the program begins, behind the fork that AFL++ makes: the files of the book are
   removed and, where START_FROM names one, a copy of it is put there. Where the input is the book, as START_INPUT says,
   what lies beside it is removed, and START_LINES gives the lines. A link comes from memory: it sends what the input has,
   and then ends. */
#define _GNU_SOURCE
#include <arpa/inet.h>
#include <fcntl.h>
#include <netinet/in.h>
#include <pthread.h>
#include <stdio.h>
#include <stdlib.h>
#include <string.h>
#include <sys/sendfile.h>
#include <sys/socket.h>
#include <sys/stat.h>
#include <sys/syscall.h>
#include <unistd.h>

static void remove_files(const char *book, int first) {
    static const char *const endings[] = {"", "-wal", "-shm", "-journal"};
    char path[4096];
    for (int i = first; i < 4; i++) {
        snprintf(path, sizeof path, "%s%s", book, endings[i]);
        unlink(path);
    }
}

static void copy_file(const char *from, const char *to) {
    struct stat size;
    int in = open(from, O_RDONLY), out = open(to, O_CREAT | O_WRONLY | O_TRUNC, 0600);
    if (in < 0 || out < 0 || fstat(in, &size)) abort();
    for (off_t at = 0; at < size.st_size;)
        if (sendfile(out, in, &at, size.st_size - at) <= 0) abort();
    close(in);
    close(out);
}

static void begin(void) {
    const char *book = getenv("START_BOOK"), *from = getenv("START_FROM");
    const char *input = getenv("START_INPUT"), *lines = getenv("START_LINES");
    if (book) remove_files(book, 0);
    if (input) remove_files(input, 1);
    if (from) copy_file(from, book);
    if (lines) {
        int in = open(lines, O_RDONLY);
        if (in < 0 || dup2(in, 0) < 0) abort();
        close(in);
    }
}

__attribute__((constructor)) static void ask_for_begin(void) { pthread_atfork(NULL, NULL, begin); }

int bind(int socket, const struct sockaddr *address, socklen_t size) { return 0; }

int listen(int socket, int most) { return 0; }

/* A link from memory takes none of the settings of TCP. */
int setsockopt(int socket, int level, int name, const void *value, socklen_t size) {
    int answer = syscall(SYS_setsockopt, socket, level, name, value, size);
    return level == IPPROTO_TCP ? 0 : answer;
}

static int link_from_input(void) {
    char piece[65536];
    ssize_t count;
    int ends[2], room = 64 << 20;
    if (socketpair(AF_UNIX, SOCK_STREAM | SOCK_CLOEXEC, 0, ends)) return -1;
    setsockopt(ends[0], SOL_SOCKET, SO_SNDBUFFORCE, &room, sizeof room);
    setsockopt(ends[1], SOL_SOCKET, SO_SNDBUFFORCE, &room, sizeof room);
    while ((count = read(0, piece, sizeof piece)) > 0)
        if (write(ends[1], piece, count) != count) abort();
    shutdown(ends[1], SHUT_WR);
    return ends[0];
}

int accept4(int socket, struct sockaddr *address, socklen_t *size, int flags) {
    struct sockaddr_in from = {.sin_family = AF_INET, .sin_port = htons(40000), .sin_addr.s_addr = htonl(0x7f000001)};
    if (address && size) {
        memcpy(address, &from, *size < sizeof from ? *size : sizeof from);
        *size = sizeof from;
    }
    return link_from_input();
}

int accept(int socket, struct sockaddr *address, socklen_t *size) { return accept4(socket, address, size, 0); }
