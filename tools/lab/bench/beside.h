/* What a bridge costs beside programs that do the same, and beside itself where members send otherwise or lanes are
 * more. */
static long lost_behind(void)
{
    return lost_at(fan_at, RECEIVERS + 1) + lost_at(room_at, listening);
}

/* What a process has been given: its threads' processor time and that of all together in seconds; and by the system's
 * ticks, which are coarse, all together and how much of it in the system. */
struct work {
    struct threads threads;
    double all, ticks, within;
};

static void work_now(pid_t pid, struct work *now)
{
    now->ticks = processor(pid, &now->within);
    now->all = 0;
    threads_now(pid, &now->threads);
    for (int i = 0; i < now->threads.count; i++)
        now->all += now->threads.had[i];
}

/* The seconds of the busiest thread but the first, which in a bridge is the front. */
static double busiest(const struct work *before, const struct work *after)
{
    double most = 0;
    for (int i = 1; i < before->threads.count && i < after->threads.count; i++)
        if (after->threads.had[i] - before->threads.had[i] > most)
            most = after->threads.had[i] - before->threads.had[i];
    return most;
}

/* Loads a process for so many seconds, after two that aren't counted, and tells what came of it. What a packet out or a
 * tick took of its processor time; and, where it is asked for, of its busiest lane's. */
static double measured(const char *what, const struct sockaddr_in *to, pid_t pid, double seconds, int with_fan,
                       double *of_lane) {
    double all, taken, all_after, taken_after;
    struct work before, after;
    talk(to, 2, with_fan, !with_fan);
    long front = lost_at(to, 1), behind = lost_behind();
    work_now(pid, &before);
    long had = fan_got + room_got;
    pictures_sent = sounds_sent = steps_left_out = 0;
    machine(&all, &taken);
    talk(to, seconds, with_fan, !with_fan);
    machine(&all_after, &taken_after);
    work_now(pid, &after);
    double spent = after.all - before.all, count = with_fan ? fan_got + room_got - had : seconds * 50;
    printf("%s: %.3f s of processor time, %.0f %% of it in the system, %ld packets came of %.0f, %.2f us a %s\n", what,
           spent, 100 * (after.within - before.within) / (after.ticks - before.ticks), fan_got + room_got - had,
           with_fan ? (double)pictures_sent * RECEIVERS : seconds * 50 * listening, spent / count * 1e6,
           with_fan ? "packet out" : "tick");
    printf("%s: %.0f packets/s came, %ld packets sent, %ld lost before it, %ld behind it, %ld steps of 4 ms left out, "
           "%.1f %% of the machine taken away\n",
           what, (fan_got + room_got - had) / seconds, pictures_sent + sounds_sent, lost_at(to, 1) - front,
           lost_behind() - behind, steps_left_out, 100 * (taken_after - taken) / (all_after - all));
    fflush(stdout);
    if (of_lane)
        *of_lane = busiest(&before, &after) / count;
    return spent / count;
}

/* Runs a program in place of this process. It is told a socket, and the ports of all members that receive. */
static void become(const char *const *program, int one)
{
    static char number[1 + RECEIVERS + ROOM][12];
    char *words[8 + RECEIVERS + ROOM];
    int count = 0, told = 0;
    for (; program[count]; count++)
        words[count] = (char *)program[count];
    snprintf(number[told++], sizeof number[0], "%d", one);
    for (int i = 1; i <= RECEIVERS; i++)
        snprintf(number[told++], sizeof number[0], "%d", ntohs(fan_at[i].sin_port));
    for (int i = 0; i < ROOM; i++)
        snprintf(number[told++], sizeof number[0], "%d", ntohs(room_at[i].sin_port));
    for (int i = 0; i < told; i++)
        words[count++] = number[i];
    words[count] = 0;
    execvp(words[0], words);
    _exit(127);
}

/* What the floor takes. */
static double measured_floor(const char *what, double seconds, int with_fan)
{
    struct sockaddr_in at;
    int one = udp_socket(&at), plain = 212992 / 2;
    setsockopt(one, SOL_SOCKET, SO_RCVBUF, &plain, sizeof plain); /* what the bridge's has, by the system's choice */
    server = fork();
    if (server == 0)
        floor_of(one);
    close(one);
    double each = measured(what, &at, server, seconds, with_fan, 0);
    kill(server, SIGKILL);
    waitpid(server, 0, 0);
    return each;
}

/* What Janus takes for the fan. A program in Python starts it, and says where it takes the picture and by which
 * process. */
static double measured_janus(const char *module, double seconds)
{
    int ends[2], port, pid;
    char host[32];
    if (pipe(ends))
        die("no pipe");
    server = fork();
    if (server == 0) {
        dup2(ends[1], 1);
        become((const char *[]){"python3", "-m", module, 0}, fan[0]);
    }
    close(ends[1]);
    FILE *says = fdopen(ends[0], "r");
    if (!says || fscanf(says, "%31s %d %d", host, &port, &pid) != 3)
        die("Janus doesn't start");
    fclose(says);
    struct sockaddr_in at = loopback(port);
    at.sin_addr.s_addr = inet_addr(host);
    double each = measured("Janus", &at, pid, seconds, 1, 0);
    kill(server, SIGTERM);
    waitpid(server, 0, 0);
    return each;
}

/* The bridge, then the floor, and Janus where it is named. */
static void beside_floor(const char *binary, double seconds, int with_fan, const char *janus)
{
    members();
    tables();
    start_bridge(binary);
    set_desk(with_fan, !with_fan);
    double bridge = measured("bridge", &udp, server, seconds, with_fan, 0);
    stop_bridge();
    printf("bridge / floor: %.2f\n", bridge / measured_floor("floor", seconds, with_fan));
    if (*janus)
        printf("bridge / Janus: %.2f\n", bridge / measured_janus(janus, seconds));
}

static void fan_beside(const char *binary, const char *count, char **more)
{
    beside_floor(binary, atof(count), 1, more[0]);
}

static void room_beside(const char *binary, const char *count, char **more)
{
    (void)more;
    beside_floor(binary, atof(count), 0, "");
}

/* A room whose members send each at its own moment, beside the same in bursts: by the same bridge, and by the floor. */
static void beside_bursts(const char *binary, const char *count, char **more)
{
    double seconds = atof(count), took[4];
    (void)more;
    members();
    tables();
    start_bridge(binary);
    set_desk(0, 1);
    took[0] = measured("in bursts", &udp, server, seconds, 0, 0);
    is_spread = 1;
    took[1] = measured("each at its own moment", &udp, server, seconds, 0, 0);
    stop_bridge();
    took[3] = measured_floor("floor, each at its own moment", seconds, 0);
    is_spread = 0;
    took[2] = measured_floor("floor, in bursts", seconds, 0);
    printf("each at its own moment / in bursts: %.2f; of the floor: %.2f\n", took[1] / took[0], took[3] / took[2]);
    printf("bridge / floor: %.2f in bursts, %.2f each at its own moment\n", took[0] / took[2], took[1] / took[3]);
}

/* What the busiest of some lanes takes of a tick, in a large room with gains. */
static double of_busiest(const char *binary, double seconds, int count)
{
    char what[32];
    double busy;
    lanes = count;
    snprintf(what, sizeof what, "%d lane%s", count, count > 1 ? "s" : "");
    start_bridge(binary);
    set_desk(0, 1);
    measured(what, &udp, server, seconds, 0, &busy);
    stop_bridge();
    printf("%s: %.2f us a tick in the busiest lane, which could carry %.0f packets/s\n", what, busy * 1e6,
           listening / busy);
    return busy;
}

/* A large room with gains on one lane, and on four. */
static void beside_one_lane(const char *binary, const char *count, char **more)
{
    (void)more;
    listening = LARGE;
    speaking = SPEAKERS;
    has_gains = 1;
    members();
    double one = of_busiest(binary, atof(count), 1), four = of_busiest(binary, atof(count), 4);
    printf("the busiest of 4 lanes carries as much as %.2f lanes\n", one / four);
}
