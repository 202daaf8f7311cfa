/* Loads `confbridge serve` over loopback, and beside it floors. `tools/bridge bench sockets --help` says what each load
 * is.
 *
 * load BINARY fan SECONDS LANES JANUS     1 video source to 16 receivers, 1,000 packets/s in frames of 4
 * load BINARY room SECONDS LANES          64 members with PCMU of 160 samples each 20 ms
 * load BINARY spread SECONDS LANES        the same room in bursts, and each member at its own moment
 * load BINARY gains SECONDS LANES         256 members with gains, of whom 16 speak, on one lane and on four
 * load BINARY calls SECONDS LANES FILE    that room, while strace counts system calls and writes them to a file
 * load BINARY most SECONDS LANES          the largest fan without loss
 *
 * JANUS is the module that starts Janus. An empty one is left out.
 */
#define _GNU_SOURCE
#include <arpa/inet.h>
#include <dirent.h>
#include <errno.h>
#include <fcntl.h>
#include <poll.h>
#include <signal.h>
#include <stdarg.h>
#include <stdint.h>
#include <stdio.h>
#include <stdlib.h>
#include <string.h>
#include <sys/socket.h>
#include <sys/wait.h>
#include <time.h>
#include <unistd.h>

#include "machine.h"
#include "call.h"
#include "floor.h"
#include "beside.h"
#include "calls.h"
#include "most.h"

/* A load: its name, and how many words it is told behind the lanes. */
static const struct load {
    const char *name;
    int more;
    void (*run)(const char *binary, const char *count, char **more);
} loads[] = {
    {"fan", 1, fan_beside},        {"room", 0, room_beside}, {"spread", 0, beside_bursts},
    {"gains", 0, beside_one_lane}, {"calls", 1, counted},    {"most", 0, largest},
};

int main(int count, char **words)
{
    for (size_t i = 0; count > 4 && i < sizeof loads / sizeof *loads; i++)
        if (!strcmp(words[2], loads[i].name) && count == 5 + loads[i].more) {
            lanes = atoi(words[4]);
            loads[i].run(words[1], words[3], words + 5);
            return 0;
        }
    die("usage: load BINARY LOAD COUNT LANES [MORE ..]");
    return 1;
}
