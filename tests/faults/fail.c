/* Loaded before a program (LD_PRELOAD): makes one read or one write on a connection fail, or the next waits, or the next
   connections before they are established, and limits the bytes of each read and write. The file that the variable
   FAILING names has the plan and its report; the program's parent changes it while the program runs.

   A call of a non-blocking socket that would block is none of those that are numbered, and does not fail. Nor is a read
   after the write side was shut down: it discards what came. */
#define _GNU_SOURCE
#include <errno.h>
#include <fcntl.h>
#include <poll.h>
#include <stdint.h>
#include <stdlib.h>
#include <sys/epoll.h>
#include <sys/mman.h>
#include <sys/socket.h>
#include <sys/syscall.h>
#include <unistd.h>

static volatile struct plan {
    /* the plan: the numbers of the failing calls, from 1, and the most bytes of a call; 0 is none */
    int64_t failing_read, failing_write, most_read, most_written;
    /* how many calls of accept and of epoll_wait are still to fail */
    int64_t failing_accepts, failing_waits;
    /* the errors of reads, writes, accepts and waits that fail; 0 is the usual one */
    int64_t read_error, write_error, accept_error, wait_error;
    /* the report since a connection was accepted: calls; bytes given, by the last read alone too, and taken; whether a
       call failed, and the number of later calls */
    int64_t reads, writes, given, given_last, taken, failed, later;
    /* the first bytes that were taken: a peer may get fewer if the connection is reset */
    unsigned char out[8192];
} *plan;

/* whether the write side of a descriptor was shut down */
static unsigned char is_leaving[65536];

__attribute__((constructor)) static void share(void) {
    const char *name = getenv("FAILING");
    int file = name ? open(name, O_RDWR | O_CLOEXEC) : -1;
    plan = mmap(NULL, sizeof *plan, PROT_READ | PROT_WRITE, MAP_SHARED, file, 0);
    if (plan == MAP_FAILED) _exit(126);
    close(file);
}

static size_t least(size_t size, int64_t most) { return most && (size_t)most < size ? (size_t)most : size; }

static int error_or(int64_t error, int usual) { return error ? (int)error : usual; }

/* whether a call would block, and the socket is not to */
static int would_block(int socket, short event) {
    struct pollfd it = {.fd = socket, .events = event};
    return fcntl(socket, F_GETFL) & O_NONBLOCK && poll(&it, 1, 0) == 0;
}

static int fails(int64_t number, int64_t failing, int error) {
    plan->later += plan->failed;
    if (number != failing) return 0;
    plan->failed = 1;
    errno = error;
    return 1;
}

ssize_t recv(int from, void *to, size_t size, int flags) {
    if (is_leaving[(uint16_t)from]) return syscall(SYS_recvfrom, from, to, size, flags, NULL, NULL);
    if (would_block(from, POLLIN)) {
        errno = EAGAIN;
        return -1;
    }
    if (fails(++plan->reads, plan->failing_read, error_or(plan->read_error, ECONNRESET))) return -1;
    ssize_t got = syscall(SYS_recvfrom, from, to, least(size, plan->most_read), flags, NULL, NULL);
    if (got >= 0) plan->given_last = got, plan->given += got;
    return got;
}

ssize_t send(int to, const void *bytes, size_t size, int flags) {
    if (would_block(to, POLLOUT)) {
        errno = EAGAIN;
        return -1;
    }
    if (fails(++plan->writes, plan->failing_write, error_or(plan->write_error, EPIPE))) return -1;
    ssize_t put = syscall(SYS_sendto, to, bytes, least(size, plan->most_written), flags, NULL, 0);
    for (ssize_t at = 0; at < put; at++, plan->taken++)
        if (plan->taken < (int64_t)sizeof plan->out) plan->out[plan->taken] = ((const unsigned char *)bytes)[at];
    return put;
}

int shutdown(int socket, int how) {
    if (how != SHUT_RD) is_leaving[(uint16_t)socket] = 1;
    return syscall(SYS_shutdown, socket, how);
}

int accept4(int listener, struct sockaddr *address, socklen_t *length, int flags) {
    if (plan->failing_accepts && !would_block(listener, POLLIN)) {
        plan->failing_accepts--;
        errno = error_or(plan->accept_error, EMFILE);
        return -1;
    }
    int link = syscall(SYS_accept4, listener, address, length, flags);
    if (link < 0) return link;
    is_leaving[(uint16_t)link] = 0;
    plan->reads = plan->writes = plan->given = plan->given_last = plan->taken = plan->failed = plan->later = 0;
    return link;
}

int epoll_wait(int set, struct epoll_event *events, int most, int milliseconds) {
    if (plan->failing_waits) {
        plan->failing_waits--;
        errno = error_or(plan->wait_error, EINTR);
        return -1;
    }
    return syscall(SYS_epoll_wait, set, events, most, milliseconds);
}
