/* The largest fan that a bridge sends on without loss, and where packets are lost beyond it. */
enum { SMALL = 100 };

/* Where packets were lost, and how many of what was to come were lacking. */
struct losses {
    long lacking, before, behind, left_out;
};

/* What a run lost, in words. */
static const char *bound_of(const struct losses *lost)
{
    if (lost->left_out)
        return "this tool stood still";
    if (lost->before)
        return "the receive buffer of the bridge's socket";
    return lost->behind ? "the receive buffers of the receivers" : "the bridge";
}

static void tell_shares(const struct work *before, const struct work *after, double own, double seconds)
{
    printf("  of a core, front first:");
    for (int i = 0; i < after->threads.count && i < before->threads.count; i++)
        printf(" %.0f %%", 100 * (after->threads.had[i] - before->threads.had[i]) / seconds);
    printf("; this tool: %.0f %%\n", 100 * own / seconds);
    fflush(stdout);
}

/* Loads a new bridge for so many seconds with frames of so many packets, 250 a second, and tells what came of it. */
static struct losses lost_with(const char *binary, int packets, double seconds)
{
    struct work before, after;
    struct losses lost;
    burst = packets;
    start_bridge(binary);
    set_desk(1, 0);
    talk(&udp, 0.5, 1, 0);
    lost = (struct losses){.before = lost_at(&udp, 1), .behind = lost_behind(), .left_out = steps_left_out};
    long sent = pictures_sent, got = fan_got;
    double own = processor(getpid(), 0);
    work_now(server, &before);
    talk(&udp, seconds, 1, 0);
    work_now(server, &after);
    own = processor(getpid(), 0) - own;
    talk(&udp, 0.5, 0, 0);
    sent = pictures_sent - sent;
    lost = (struct losses){sent * RECEIVERS - (fan_got - got), lost_at(&udp, 1) - lost.before,
                           lost_behind() - lost.behind, steps_left_out - lost.left_out};
    printf("%d lanes, %.0f packets/s out in frames of %d: %ld of %ld lacking, %ld lost before it, %ld behind it, %ld "
           "steps left out\n",
           lanes, sent * RECEIVERS / seconds, packets, lost.lacking > 0 ? lost.lacking : 0, sent * RECEIVERS,
           lost.before, lost.behind, lost.left_out);
    tell_shares(&before, &after, own, seconds);
    stop_bridge();
    return lost;
}

/* Whether all came in one of three runs; of the last that failed, what was lost. */
static int all_came(const char *binary, int packets, double seconds, struct losses *lost)
{
    for (int tries = 0; tries < 3; tries++) {
        struct losses now = lost_with(binary, packets, seconds);
        if (now.lacking <= 0 && !now.left_out)
            return 1;
        *lost = now;
    }
    return 0;
}

/* Frames of packets of so many octets grow by a quarter until packets are lacking in three runs of so many seconds. */
static void largest_of(const char *binary, double seconds, int octets)
{
    int good = 0, packets = 4;
    struct losses lost = {0};
    video = octets;
    while (packets <= 250 && all_came(binary, packets, seconds, &lost)) {
        good = packets;
        packets += packets / 4;
    }
    printf("%d lanes, packets of %d octets: at most %d packets/s out without loss; the bound: %s\n", lanes, octets,
           good * 250 * RECEIVERS, packets > 250 ? "a frame has no more packets" : bound_of(&lost));
}

/* The largest fan of large packets, and of small ones: more of these fit into the receive buffers. */
static void largest(const char *binary, const char *count, char **more)
{
    (void)more;
    members();
    largest_of(binary, atof(count), VIDEO);
    largest_of(binary, atof(count), SMALL);
}
