/* The floor: the socket calls of a bridge and no more. */
/* Linear samples of mu-law octets, and back (ITU-T G.711). */
static int16_t linear[256];
static uint8_t coded[65536];

static void tables(void)
{
    for (int c = 0; c < 256; c++) {
        int u = ~c & 255, v = ((((u & 15) << 3) + 132) << (u >> 4 & 7)) - 132;
        linear[c] = u & 128 ? -v : v;
    }
    for (int s = -32768; s < 32768; s++) {
        int v = (s < 0 ? -s : s) > 32635 ? 32635 : s < 0 ? -s : s, e = 7;
        v += 132;
        while (e && !(v & 128 << e))
            e--;
        coded[(uint16_t)s] = ~((s < 0 ? 128 : 0) | e << 4 | (v >> (e + 3) & 15));
    }
}

/* The floor: what comes from the fan's source goes to 16 receivers; each 20 ms the room's last sounds are summed. */
static void floor_of(int one)
{
    static uint8_t octets[9000], out[MIX], last[ROOM][SAMPLES];
    struct timespec now;
    clock_gettime(CLOCK_MONOTONIC, &now);
    double due = now.tv_sec + now.tv_nsec * 1e-9;
    int heard = 0;
    while (1) {
        struct pollfd wait = {.fd = one, .events = POLLIN};
        poll(&wait, 1, 5);
        while (1) {
            struct sockaddr_in from;
            socklen_t size = sizeof from;
            ssize_t n = recvfrom(one, octets, sizeof octets, 0, (void *)&from, &size);
            if (n < 0)
                break;
            uint32_t ssrc = octets[8] << 24 | octets[9] << 16 | octets[10] << 8 | octets[11];
            if (ssrc == 101)
                for (int i = 1; i <= RECEIVERS; i++)
                    sendto(one, octets, n + 4, 0, (void *)&fan_at[i], sizeof fan_at[i]);
            else if (ssrc >= 30000 && ssrc < 30000 + ROOM) {
                memcpy(last[ssrc - 30000], octets + 12, SAMPLES);
                heard = 1;
            }
        }
        clock_gettime(CLOCK_MONOTONIC, &now);
        if (now.tv_sec + now.tv_nsec * 1e-9 < due)
            continue;
        due += 0.02;
        if (!heard)
            continue;
        int total[SAMPLES] = {0};
        for (int i = 0; i < ROOM; i++)
            for (int j = 0; j < SAMPLES; j++)
                total[j] += linear[last[i][j]];
        for (int i = 0; i < ROOM; i++) {
            for (int j = 0; j < SAMPLES; j++) {
                int v = total[j] - linear[last[i][j]];
                v = v > 32767 ? 32767 : v < -32768 ? -32768 : v;
                out[MIX - SAMPLES + j] = coded[(uint16_t)v];
            }
            out[0] = 0x8f;
            sendto(one, out, sizeof out, 0, (void *)&room_at[i], sizeof room_at[i]);
        }
    }
}
