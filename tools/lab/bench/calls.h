/* How many system calls a datagram takes. */
/* Whether `strace` has all threads of the bridge. */
static int all_traced(void)
{
    char path[300], text[4096], *at;
    int is_traced = 1;
    snprintf(path, sizeof path, "/proc/%d/task", server);
    DIR *folder = opendir(path);
    if (!folder)
        die("the bridge is gone");
    for (struct dirent *one; (one = readdir(folder));) {
        if (one->d_name[0] == '.')
            continue;
        snprintf(path, sizeof path, "/proc/%d/task/%s/status", server, one->d_name);
        FILE *file = fopen(path, "r");
        text[file ? fread(text, 1, sizeof text - 1, file) : 0] = 0;
        if (file)
            fclose(file);
        is_traced &= (at = strstr(text, "TracerPid:")) && atoi(at + 10) > 0;
    }
    closedir(folder);
    return is_traced;
}

/* A room whose members send each at its own moment, while `strace` counts system calls and writes them to a file.
 * Neither what fills the desk nor the end is counted: an operator's call yields while a lane is at the desk's last
 * version. */
static void counted(const char *binary, const char *count, char **more)
{
    char pid[16];
    is_spread = 1;
    members();
    start_bridge(binary);
    set_desk(0, 1);
    snprintf(pid, sizeof pid, "%d", server);
    pid_t counter = fork();
    if (counter == 0) {
        execlp("strace", "strace", "-q", "-f", "-c", "-o", more[0], "-p", pid, (char *)0);
        _exit(127);
    }
    for (int tries = 0; !all_traced(); tries++) {
        if (tries == 1000 || waitpid(counter, 0, WNOHANG))
            die("strace doesn't attach");
        usleep(10000);
    }
    talk(&udp, atof(count), 0, 1);
    talk(&udp, 0.5, 0, 0);
    kill(counter, SIGINT);
    waitpid(counter, 0, 0);
    stop_bridge();
    printf("%ld datagrams in, %ld out, %ld steps of 4 ms left out\n", sounds_sent, room_got, steps_left_out);
}
