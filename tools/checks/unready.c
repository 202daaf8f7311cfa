/* Stands before the C library's `sendto`. It lists the datagrams that are tried, and refuses some with media.
 * `tools/bridge check wire` loads it.
 *
 * CONFBRIDGE_UNREADY names a file that holds a struct control. The tool (unready.py) maps it too, and says there which
 * calls are refused.
 */
#define _GNU_SOURCE
#include <dlfcn.h>
#include <errno.h>
#include <netinet/in.h>
#include <stdatomic.h>
#include <stdint.h>
#include <string.h>
#include <sys/socket.h>
#include <sys/syscall.h>

#include "control.h"

enum { ANY = 0, NONE = -1, TRIES = 65536, HEAD = 12 };

struct try {
    int32_t thread;     /* who tried */
    int32_t error;      /* 0 where the system took it */
    uint32_t port;      /* where to */
    uint8_t head[HEAD]; /* its first octets */
};

struct control {
    _Atomic int32_t thread; /* whose calls are refused: a thread's number, ANY or NONE */
    _Atomic int32_t error;  /* by which error */
    _Atomic int64_t before; /* how many of them are let through first */
    _Atomic int64_t left;   /* how many are refused then */
    _Atomic int64_t each;   /* of so many that are to be refused the last one is let through; 0 for none */
    _Atomic uint32_t count; /* how many datagrams were tried */
    struct try tries[TRIES];
};

typedef ssize_t send_to(int, const void *, size_t, int, const struct sockaddr *, socklen_t);

static struct control *control;
static send_to *real;

__attribute__((constructor)) static void map_control(void)
{
    real = (send_to *)dlsym(RTLD_NEXT, "sendto");
    if (!real)
        _exit(127);
    control = mapped_control("CONFBRIDGE_UNREADY", sizeof *control);
}

static int is_rtcp(const uint8_t *octets, size_t count)
{
    return count > 1 && octets[1] >= 192 && octets[1] <= 223;
}

/* The error by which a thread's call is refused, or 0. */
static int error_for(int32_t thread)
{
    int32_t whose = control->thread;
    if (whose == NONE || (whose != ANY && whose != thread) || atomic_fetch_sub(&control->before, 1) > 0)
        return 0;
    int64_t left = atomic_fetch_sub(&control->left, 1);
    return left > 0 && (!control->each || left % control->each) ? control->error : 0;
}

ssize_t sendto(int socket, const void *octets, size_t count, int flags, const struct sockaddr *to, socklen_t size)
{
    if (!control || !to || to->sa_family != AF_INET)
        return real(socket, octets, count, flags, to, size);
    int32_t thread = (int32_t)syscall(SYS_gettid);
    int error = is_rtcp(octets, count) ? 0 : error_for(thread);
    ssize_t taken = -1;
    if (!error) {
        taken = real(socket, octets, count, flags, to, size);
        error = taken < 0 ? errno : 0;
    }
    uint32_t at = control->count++;
    if (at < TRIES) {
        struct try *it = &control->tries[at];
        it->thread = thread, it->error = error, it->port = ntohs(((const struct sockaddr_in *)to)->sin_port);
        memcpy(it->head, octets, count < HEAD ? count : HEAD);
    }
    errno = error;
    return taken;
}
