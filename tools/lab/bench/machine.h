/* What processes cost, and what sockets lose, by /proc. */
/* The process that is loaded. It ends with this program. */
static pid_t server;

static void die(const char *text)
{
    fprintf(stderr, "load: %s\n", text);
    if (server > 0)
        kill(server, SIGKILL);
    exit(1);
}

/* Seconds of processor time that a process has had, and how many of them in the system. */
static double processor(pid_t pid, double *within)
{
    char path[64], text[1024], *at;
    unsigned long user, sys;
    snprintf(path, sizeof path, "/proc/%d/stat", pid);
    FILE *file = fopen(path, "r");
    if (!file || !fgets(text, sizeof text, file) || !(at = strrchr(text, ')')))
        die("the process is gone");
    fclose(file);
    sscanf(at + 2, "%*c %*d %*d %*d %*d %*d %*u %*u %*u %*u %*u %lu %lu", &user, &sys);
    if (within)
        *within = (double)sys / sysconf(_SC_CLK_TCK);
    return (double)(user + sys) / sysconf(_SC_CLK_TCK);
}

enum { MOST_THREADS = 64 };

/* The threads of a process, its first one before the others, and the seconds of processor time that each has had. */
struct threads {
    int count;
    double had[MOST_THREADS];
};

static void threads_now(pid_t pid, struct threads *now)
{
    char path[64], name[384];
    unsigned long long nanoseconds;
    snprintf(path, sizeof path, "/proc/%d/task", pid);
    DIR *folder = opendir(path);
    if (!folder)
        die("the process is gone");
    now->count = 0;
    for (struct dirent *one; (one = readdir(folder)) && now->count < MOST_THREADS;) {
        snprintf(name, sizeof name, "%s/%s/schedstat", path, one->d_name);
        FILE *file = one->d_name[0] == '.' ? 0 : fopen(name, "r");
        if (!file)
            continue;
        if (fscanf(file, "%llu", &nanoseconds) == 1)
            now->had[now->count++] = nanoseconds * 1e-9;
        fclose(file);
    }
    closedir(folder);
}

/* What was lost at the UDP sockets of some addresses since they were opened. */
static long lost_at(const struct sockaddr_in *some, int count)
{
    char text[512], wanted[1 << 16] = {0};
    long lost = 0;
    for (int i = 0; i < count; i++)
        wanted[ntohs(some[i].sin_port)] = 1;
    FILE *file = fopen("/proc/net/udp", "r");
    while (file && fgets(text, sizeof text, file)) {
        unsigned at;
        long drops;
        if (sscanf(text, " %*d: %*x:%x %*x:%*x %*x %*x:%*x %*s %*s %*s %*s %*s %*s %*s %ld", &at, &drops) == 2 &&
            wanted[at & 65535])
            lost += drops;
    }
    if (file)
        fclose(file);
    return lost;
}

/* All processor time of the machine since it began, and what the machine beneath it took of that, in ticks. */
static void machine(double *all, double *taken)
{
    double part[8] = {0};
    FILE *file = fopen("/proc/stat", "r");
    *all = 0;
    if (file && fscanf(file, "cpu %lf %lf %lf %lf %lf %lf %lf %lf", part, part + 1, part + 2, part + 3, part + 4,
                       part + 5, part + 6, part + 7) == 8)
        for (int i = 0; i < 8; i++)
            *all += part[i];
    *taken = part[7];
    if (file)
        fclose(file);
}
