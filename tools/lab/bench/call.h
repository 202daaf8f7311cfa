/* A bridge, its desk, its members and what they send. */
enum {
    RECEIVERS = 16,
    ROOM = 64,
    LARGE = 256,
    SPEAKERS = 16,
    VIDEO = 1100,
    SAMPLES = 160,
    MIX = 12 + 15 * 4 + SAMPLES
};

/* What the bridge says on its standard error. */
static int told_at = -1;
static struct sockaddr_in udp, tcp;
static int desk = -1;

/* How many lanes a bridge has, how many packets a frame of the fan, and how many octets each of these. */
static int lanes = 1, burst = 4, video = VIDEO;
/* How many members the room has, and how many of them send. Whether each has a gain for each that sends. */
static int listening = ROOM, speaking = ROOM, has_gains;
/* Whether the members of the room send each at its own moment, and not all at once. */
static int is_spread;

static struct sockaddr_in loopback(int port)
{
    struct sockaddr_in a = {.sin_family = AF_INET, .sin_port = htons(port)};
    a.sin_addr.s_addr = htonl(INADDR_LOOPBACK);
    return a;
}

/* A UDP socket at an address of this machine and a port of the system's choice, which never waits, with much room where
 * the system lets it have any. It is told to others as one of loopback. */
static int udp_socket_at(in_addr_t host, struct sockaddr_in *at)
{
    int one = socket(AF_INET, SOCK_DGRAM | SOCK_NONBLOCK, 0), room = 8 << 20;
    socklen_t size = sizeof *at;
    if (setsockopt(one, SOL_SOCKET, SO_RCVBUFFORCE, &room, sizeof room))
        setsockopt(one, SOL_SOCKET, SO_RCVBUF, &room, sizeof room);
    *at = (struct sockaddr_in){.sin_family = AF_INET, .sin_addr.s_addr = htonl(host)};
    if (one < 0 || bind(one, (void *)at, sizeof *at) || getsockname(one, (void *)at, &size))
        die("no socket");
    *at = loopback(ntohs(at->sin_port));
    return one;
}

static int udp_socket(struct sockaddr_in *at)
{
    return udp_socket_at(INADDR_LOOPBACK, at);
}

static void start_bridge(const char *binary)
{
    char path[] = "/tmp/load-XXXXXX", told[4096];
    int file = mkstemp(path), ends[2], u, t;
    size_t had = 0;
    if (file < 0 || pipe(ends)
        || dprintf(file, "udp = \"127.0.0.1:0\"\ntcp = \"127.0.0.1:0\"\noperators = 4\nlanes = %d\n", lanes) < 0)
        die("no settings");
    server = fork();
    if (server == 0) {
        dup2(ends[1], 2);
        execl(binary, binary, "serve", path, (char *)0);
        _exit(127);
    }
    close(ends[1]);
    told_at = ends[0];
    do {
        ssize_t n = read(ends[0], told + had, sizeof told - 1 - had);
        if (n <= 0)
            die("the bridge doesn't listen");
        had += n;
        told[had] = 0;
    } while (!strchr(told, '\n'));
    unlink(path);
    if (sscanf(told, "confbridge: listening on udp 127.0.0.1:%d and tcp 127.0.0.1:%d", &u, &t) != 2)
        die(told);
    udp = loopback(u);
    tcp = loopback(t);
}

static int connected(void)
{
    int one = socket(AF_INET, SOCK_STREAM, 0);
    if (connect(one, (void *)&tcp, sizeof tcp))
        die("no connection");
    return one;
}

/* An operator's call, which has to be accepted. */
static void accepted(const char *line)
{
    char told[4096];
    size_t had = 0;
    dprintf(desk, "%s\n", line);
    do {
        ssize_t n = read(desk, told + had, sizeof told - 1 - had);
        if (n <= 0)
            die("the desk is closed");
        had += n;
        told[had] = 0;
    } while (!strchr(told, '\n'));
    if (strncmp(told, "ok ", 3)) {
        fprintf(stderr, "load: %s: %s", line, told);
        die("a line isn't accepted");
    }
}

static void stop_bridge(void)
{
    char told[4096];
    ssize_t n;
    int status;
    dprintf(desk, "stop\n");
    while ((n = read(told_at, told, sizeof told)) > 0)
        printf("%.*s", (int)n, told);
    waitpid(server, &status, 0);
    close(desk);
    close(told_at);
    server = 0;
    if (!WIFEXITED(status) || WEXITSTATUS(status))
        die("the bridge didn't end well");
}

static void put16(uint8_t *at, unsigned v) { at[0] = v >> 8; at[1] = v; }
static void put32(uint8_t *at, uint32_t v) { put16(at, v >> 16); put16(at + 2, v); }

static void header(uint8_t *at, unsigned pt, unsigned seq, uint32_t ts, uint32_t ssrc)
{
    at[0] = 0x80;
    at[1] = pt;
    put16(at + 2, seq);
    put32(at + 4, ts);
    put32(at + 8, ssrc);
}

/* The members: those of the fan (a source, then receivers) and those of the room. */
static int fan[RECEIVERS + 1], room[LARGE];
static struct sockaddr_in fan_at[RECEIVERS + 1], room_at[LARGE];
static long fan_got, room_got;

static void members(void)
{
    fan[0] = udp_socket_at(INADDR_ANY, &fan_at[0]); /* Janus isn't reached from the address of loopback */
    for (int i = 1; i <= RECEIVERS; i++)
        fan[i] = udp_socket(&fan_at[i]);
    for (int i = 0; i < listening; i++)
        room[i] = udp_socket(&room_at[i]);
}

/* An operator's line with some numbers, which has to be accepted. */
static void call(const char *form, ...)
{
    char line[200];
    va_list numbers;
    va_start(numbers, form);
    vsnprintf(line, sizeof line, form, numbers);
    va_end(numbers);
    accepted(line);
}

static void set_fan(void)
{
    call("add-room 1");
    for (int i = 0; i <= RECEIVERS; i++)
        call("add-member %d 1 127.0.0.1:%d pcmu %d 0 0", 100 + i, ntohs(fan_at[i].sin_port), 9000 + i);
    call("add-source 101 100 video");
    for (int i = 1; i <= RECEIVERS; i++) {
        call("add-slot %d %d 0 0 0", 500 + i, 100 + i);
        call("subscribe %d 101", 500 + i);
    }
}

static void set_room(void)
{
    call("add-room 2");
    for (int i = 0; i < listening; i++)
        call("add-member %d 2 127.0.0.1:%d pcmu %d 0 0", 200 + i, ntohs(room_at[i].sin_port), 20000 + i);
    for (int i = 0; i < speaking; i++)
        call("add-source %d %d audio", 30000 + i, 200 + i);
    for (int i = 0; has_gains && i < listening * speaking; i++)
        call("set-gain %d %d 100", 200 + i / speaking, 30000 + i % speaking);
}

static void set_desk(int with_fan, int with_room)
{
    desk = connected();
    if (with_fan)
        set_fan();
    if (with_room)
        set_room();
}

/* Takes what has come to some sockets, and counts what is RTP. Of each datagram only the header is read. */
static void drain(int *some, int count, long *got)
{
    enum { HEAD = 12, BATCH = 32 };
    uint8_t heads[BATCH][HEAD];
    struct iovec parts[BATCH];
    struct mmsghdr found[BATCH];
    for (int i = 0; i < BATCH; i++) {
        parts[i] = (struct iovec){heads[i], HEAD};
        found[i] = (struct mmsghdr){.msg_hdr = {.msg_iov = &parts[i], .msg_iovlen = 1}};
    }
    for (int i = 0; i < count; i++)
        for (int n = BATCH; n == BATCH;) {
            n = recvmmsg(some[i], found, BATCH, 0, 0);
            for (int j = 0; j < n; j++)
                *got +=
                    found[j].msg_len == HEAD && heads[j][0] >> 6 == 2 && !(heads[j][1] >= 192 && heads[j][1] <= 223);
        }
}

/* What was sent, and how many steps were left out since they were due too long ago. */
static long pictures_sent, sounds_sent, steps_left_out;

static double seconds_now(void)
{
    struct timespec now;
    clock_gettime(CLOCK_MONOTONIC, &now);
    return now.tv_sec + now.tv_nsec * 1e-9;
}

/* How many seconds ago a moment was. */
static double passed(const struct timespec *moment)
{
    return seconds_now() - (moment->tv_sec + moment->tv_nsec * 1e-9);
}

/* 4 ms later. */
static void pass_step(struct timespec *moment)
{
    moment->tv_nsec += 4000000;
    if (moment->tv_nsec >= 1000000000) {
        moment->tv_nsec -= 1000000000;
        moment->tv_sec++;
    }
}

/* A packet of the room's sound, by its member and its place in the stream. */
static void send_sound(const struct sockaddr_in *to, int member, unsigned tick)
{
    uint8_t octets[12 + SAMPLES];
    header(octets, 0, tick, tick * SAMPLES, 30000 + member);
    for (int j = 0; j < SAMPLES; j++)
        octets[12 + j] = (member * 7 + j * 13 + tick) | 0x90;
    sendto(room[member], octets, sizeof octets, 0, (void *)to, sizeof *to);
    sounds_sent++;
}

/* What the room sends in a step that begins at a moment, the first of five of a tick: all at once, or each its own part
 * of 20 ms later. */
static void send_sounds(const struct sockaddr_in *to, long step, struct timespec begin)
{
    int part = step % 5, all = speaking, first = is_spread ? all * part / 5 : 0,
        last = is_spread ? all * (part + 1) / 5
               : part    ? 0
                         : all;
    for (int i = first; i < last; i++) {
        if (is_spread && i > first) {
            begin.tv_nsec += 4000000 / (last - first);
            begin.tv_sec += begin.tv_nsec / 1000000000;
            begin.tv_nsec %= 1000000000;
            clock_nanosleep(CLOCK_MONOTONIC, TIMER_ABSTIME, &begin, 0);
        }
        send_sound(to, i, step / 5);
    }
}

/* Both kinds of sending for so many seconds, in steps of 4 ms. A step that is more than 20 ms late is left out, so that
 * no burst follows where this program stood still; timestamps and steps go on by the clock from the first one on, so
 * that a source never comes later than it began. */
static void talk(const struct sockaddr_in *to, double seconds, int with_fan, int with_room)
{
    static unsigned seq;
    static struct timespec next;
    static long step;
    uint8_t octets[12 + VIDEO] = {0};
    if (!next.tv_sec)
        clock_gettime(CLOCK_MONOTONIC, &next);
    for (; passed(&next) > 0.02; step++) /* nothing was due since the last talk */
        pass_step(&next);
    for (long until = step + seconds * 250; step < until; step++) {
        int is_late = passed(&next) > 0.02;
        steps_left_out += is_late;
        if (with_fan && !is_late)
            for (int i = 0; i < burst; i++, seq++, pictures_sent++) {
                header(octets, 100 | (i == burst - 1) << 7, seq, step * 360, 101);
                sendto(fan[0], octets, 12 + video, 0, (void *)to, sizeof *to);
            }
        if (with_room && !is_late)
            send_sounds(to, step, next);
        pass_step(&next);
        clock_nanosleep(CLOCK_MONOTONIC, TIMER_ABSTIME, &next, 0);
        drain(fan, RECEIVERS + 1, &fan_got);
        drain(room, listening, &room_got);
    }
}
