/* Floods `confbridge serve` over loopback beside a call of two members, and measures that call. `tools/bridge bench
 * floods --help` says more.
 *
 * flood BINARY FLOOD SECONDS RATE    RATE is how many datagrams the flood sends a second; 0 sends none
 */
#define _GNU_SOURCE
#include <arpa/inet.h>
#include <dirent.h>
#include <errno.h>
#include <fcntl.h>
#include <signal.h>
#include <stdarg.h>
#include <stdint.h>
#include <stdio.h>
#include <stdlib.h>
#include <string.h>
#include <sys/mman.h>
#include <sys/prctl.h>
#include <sys/socket.h>
#include <sys/wait.h>
#include <time.h>
#include <unistd.h>

#include "machine.h"
#include "call.h"

enum { STRANGERS = 16, OPEN = 2044, RING = 512, PICTURE = 300, MOST_TICKS = 1 << 20 };

/* The call: a speaker with video 101 and audio 201, and a listener. Beside it two members that the flood may come
 * from. */
static int speaker, listener, floods[2], strangers[STRANGERS];
static struct sockaddr_in speaker_at, listener_at, floods_at[2], strangers_at[STRANGERS];

/* What the flood's own process tells, and is told. */
static struct { volatile long datagrams, octets; volatile unsigned number; } *shared;

static long resident(pid_t pid)
{
    char path[64], text[256];
    long kb = -1;
    snprintf(path, sizeof path, "/proc/%d/status", pid);
    FILE *file = fopen(path, "r");
    while (file && fgets(text, sizeof text, file))
        sscanf(text, "VmRSS: %ld", &kb);
    if (file)
        fclose(file);
    return kb;
}

/* xorshift64*, so that a run can be had again. */
static uint64_t state = 88172645463325252ull;

static uint32_t drawn(uint32_t below)
{
    state ^= state >> 12;
    state ^= state << 25;
    state ^= state >> 27;
    return (uint32_t)((state * 2685821657736338717ull) >> 33) % below;
}

/* The floods. Each writes its next datagram, and says which socket it leaves from. */
static size_t noise(uint8_t *at)
{
    size_t size = 1 + drawn(200);
    for (size_t i = 0; i < size; i++)
        at[i] = drawn(256);
    return size;
}

static size_t from_strangers(uint8_t *at, int *from)
{
    *from = strangers[drawn(STRANGERS)];
    return noise(at);
}

static size_t from_member(uint8_t *at, int *from)
{
    *from = floods[0];
    return noise(at);
}

static size_t unknown_sources(uint8_t *at, int *from)
{
    *from = floods[0];
    header(at, 100, drawn(65536), drawn(1 << 30), 1 << 20 | drawn(1 << 20));
    memset(at + 12, 7, 100);
    return 112;
}

/* The head of a packet that is about the flood's stream (RFC 4585 section 6.1). How long it is. */
static size_t feedback(uint8_t *at, uint32_t begin)
{
    put32(at, begin);
    put32(at + 4, 9);
    put32(at + 8, 502);
    return 12;
}

/* A receiver report with 31 blocks, then lost pictures and lost numbers as many as fit. Half of the numbers are in the
 * window. */
static size_t asks(uint8_t *at, int *from)
{
    size_t size = 8 + 31 * 24;
    *from = floods[0];
    memset(at, 0, 8192);
    header(at, 201, 1 + 6 * 31, 9 << 16, 0);
    at[0] = 0x80 | 31;
    for (int i = 0; i < 31; i++) {
        put32(at + 8 + 24 * i, 502);
        put32(at + 8 + 24 * i + 8, drawn(2) ? shared->number - drawn(RING) : drawn(65536));
    }
    for (int i = 0; i < 100; i++)
        size += feedback(at + size, 0x81ce0002);
    unsigned words = (8192 - size) / 4 - 3;
    for (size += feedback(at + size, 0x81cd0000 | (words + 2)); size < 8192; size += 4) {
        put16(at + size, drawn(2) ? shared->number - drawn(RING) : drawn(65536));
        put16(at + size + 2, drawn(65536));
    }
    return size;
}

/* A receiver report without blocks, and as many NACKs of one number as fit. Half of the numbers are in the window. */
static size_t nacks(uint8_t *at, int *from)
{
    size_t size = 8;
    *from = floods[0];
    put32(at, 0x80c90001);
    put32(at + 4, 9);
    for (; size + 16 <= 8192; size += 16) {
        feedback(at + size, 0x81cd0003);
        put16(at + size + 12, drawn(2) ? shared->number - drawn(RING) : drawn(65536));
        put16(at + size + 14, 0);
    }
    return size;
}

/* Receiver reports of 31 blocks, as many as fit, and one of the blocks that still fit. */
static size_t blocks(uint8_t *at, int *from)
{
    size_t size = 0;
    *from = floods[0];
    memset(at, 0, 8192);
    while (8192 - size >= 8 + 24) {
        unsigned fit = (8192 - size - 8) / 24;
        fit = fit < 31 ? fit : 31;
        put32(at + size, 0x80c90000 | fit << 24 | (1 + 6 * fit));
        put32(at + size + 4, 9);
        for (size_t end = size + 8 + 24 * fit, block = size + 8; block < end; block += 24) {
            put32(at + block, 502);
            put32(at + block + 8, shared->number - drawn(RING));
        }
        size += 8 + 24 * fit;
    }
    return size;
}

/* A receiver report without blocks, and as many lost pictures as the bridge passes on in 20 ms. */
static size_t pictures(uint8_t *at, int *from)
{
    size_t size = 8;
    *from = floods[0];
    put32(at, 0x80c90001);
    put32(at + 4, 9);
    for (int i = 0; i < 64; i++)
        size += feedback(at + size, 0x81ce0002);
    return size;
}

/* Two numbers in a row far from the last ones: a source that restarts. */
static size_t restarts(uint8_t *at, int *from)
{
    static unsigned number[2], half[2], who;
    who = !who;
    number[who] += half[who] ? 1 : 20000;
    half[who] = !half[who];
    *from = floods[who];
    header(at, 100 | 128, number[who], number[who] * 90, 111 + who);
    memset(at + 12, 7, 100);
    return 112;
}

/* Packets of 2,044 sources, none of which ends a frame. */
static size_t open_frames(uint8_t *at, int *from)
{
    static unsigned turn;
    *from = floods[0];
    header(at, 100, turn / OPEN, 5, 100000 + turn % OPEN);
    memset(at + 12, 7, 200);
    turn++;
    return 212;
}

/* The same, of the largest packets that the bridge takes. */
static size_t large_frames(uint8_t *at, int *from)
{
    open_frames(at, from);
    memset(at + 212, 7, 8192 - 212);
    return 8192;
}

/* The largest jumps that the bridge follows: each asks it for all numbers between. */
static size_t gaps(uint8_t *at, int *from)
{
    static unsigned number;
    *from = floods[0];
    number += number < 2 ? 1 : 250;
    header(at, 100 | 128, number, number * 90, 111);
    at[12] = 7;
    return 13;
}

static const struct { const char *name; size_t (*next)(uint8_t *, int *); } kinds[] = {
    {"strangers", from_strangers}, {"noise", from_member}, {"sources", unknown_sources},
    {"asks", asks}, {"nacks", nacks},
    {"blocks", blocks}, {"pictures", pictures}, {"restarts", restarts}, {"open-frames", open_frames},
    {"large-frames", large_frames}, {"gaps", gaps},
};

static void flood(size_t (*next)(uint8_t *, int *), long rate)
{
    uint8_t octets[9000];
    double begun = seconds_now();
    prctl(PR_SET_PDEATHSIG, SIGKILL);
    for (long sent = 0;;) {
        long due = (seconds_now() - begun) * rate;
        if (due - sent > rate / 50)
            sent = due - rate / 50;
        for (; sent < due; sent++) {
            int from;
            size_t size = next(octets, &from);
            sendto(from, octets, size, 0, (void *)&udp, sizeof udp);
            shared->datagrams++;
            shared->octets += size;
        }
        usleep(500);
    }
}

/* The call, and what is known of it. */
static uint8_t kept[RING][12 + PICTURE];
static unsigned next_number;
static long reached, came, came_then, sounds, mixed, up_octets, report_octets, down_octets;
static uint8_t had[65536];
static double late[MOST_TICKS];
static long ticks;

static void send_packet(unsigned number)
{
    sendto(speaker, kept[number % RING], 12 + PICTURE, 0, (void *)&udp, sizeof udp);
}

/* A frame of two packets, and 20 ms of sound. */
static void speak(unsigned tick)
{
    uint8_t sound[12 + SAMPLES];
    for (int i = 0; i < 2; i++, next_number++) {
        header(kept[next_number % RING], 100 | i << 7, next_number, tick * 1800, 101);
        send_packet(next_number);
    }
    header(sound, 0, tick, tick * SAMPLES, 201);
    memset(sound + 12, 0x90, SAMPLES);
    sendto(speaker, sound, sizeof sound, 0, (void *)&udp, sizeof udp);
}

static uint32_t get32(const uint8_t *at) { return (uint32_t)at[0] << 24 | at[1] << 16 | at[2] << 8 | at[3]; }

/* What the bridge asks the speaker for, and how many of its packets it says have come. A lost picture is one that the
 * flood tells of. */
static void speaker_hears(const uint8_t *at, ssize_t size)
{
    const ssize_t whole = size;
    for (ssize_t used; size >= 8; at += used, size -= used) {
        used = 4 * ((at[2] << 8 | at[3]) + 1);
        if (used > size)
            return;
        up_octets += at[1] == 206 ? whole : 0;
        for (ssize_t word = 12; at[1] == 205 && word + 4 <= used; word += 4)
            for (int bit = 0; bit <= 16; bit++)
                if (bit == 0 || get32(at + word) >> (bit - 1) & 1)
                    if ((uint16_t)(next_number - 1 - ((at[word] << 8 | at[word + 1]) + bit)) < RING - 1)
                        send_packet((at[word] << 8 | at[word + 1]) + bit);
        for (ssize_t block = 8; at[1] == 201 && block + 24 <= used; block += 24)
            if (get32(at + block) == 101 || get32(at + block) == 201) {
                long had = (long)get32(at + block + 8) - ((int32_t)(get32(at + block + 4) << 8) >> 8);
                *(get32(at + block) == 101 ? &reached : &sounds) = had;
                *(get32(at + block) == 101 ? &came_then : &mixed) = get32(at + block) == 101 ? came : ticks;
            }
    }
}

static void listener_hears(const uint8_t *at, ssize_t size, double now)
{
    if (size < 12 || (at[1] >= 192 && at[1] <= 223))
        return;
    if (get32(at + 8) == 501) {
        unsigned number = at[2] << 8 | at[3];
        came += !had[number];
        had[number] = 1;
        had[(uint16_t)(number + 32768)] = 0;
    } else if (ticks < MOST_TICKS)
        late[ticks++] = now - get32(at + 4) / (double)SAMPLES * 0.02;
}

/* Whether a compound has a NACK or a PLI. Another one is a report, which time bounds. */
static int asks_for(const uint8_t *at, ssize_t size)
{
    for (ssize_t used; size >= 4; at += used, size -= used) {
        used = 4 * ((at[2] << 8 | at[3]) + 1);
        if (at[1] == 205 || at[1] == 206)
            return 1;
        if (used > size)
            return 0;
    }
    return 0;
}

/* What the members of the flood are told: NACKs and PLIs, and packets. */
static void flood_hears(int one)
{
    uint8_t octets[9000];
    ssize_t n;
    while ((n = recv(one, octets, sizeof octets, MSG_DONTWAIT)) > 0) {
        int is_control = n > 1 && octets[1] >= 192 && octets[1] <= 223;
        *(asks_for(octets, n) ? &up_octets : &report_octets) += is_control ? n : 0;
        down_octets += is_control ? 0 : n;
        if (!is_control && n >= 12 && get32(octets + 8) == 502)
            shared->number = octets[2] << 8 | octets[3];
    }
}

static void hear(void)
{
    uint8_t octets[9000];
    ssize_t n;
    while ((n = recv(speaker, octets, sizeof octets, 0)) > 0)
        if (n > 1 && octets[1] >= 192 && octets[1] <= 223)
            speaker_hears(octets, n);
    while ((n = recv(listener, octets, sizeof octets, 0)) > 0)
        listener_hears(octets, n, seconds_now());
    for (int i = 0; i < 2; i++)
        flood_hears(floods[i]);
    for (int i = 0; i < STRANGERS; i++)
        flood_hears(strangers[i]);
}

static void member(int number, const struct sockaddr_in *at)
{
    call("add-member %d 1 127.0.0.1:%d pcmu %d 0 0", number, ntohs(at->sin_port), 9000 + number);
}

static void set_call(int with_open)
{
    desk = connected();
    accepted("add-room 1");
    member(10, &speaker_at);
    member(11, &listener_at);
    member(12, &floods_at[0]);
    member(13, &floods_at[1]);
    accepted("add-source 101 10 video");
    accepted("add-source 201 10 audio");
    accepted("add-source 111 12 video");
    accepted("add-source 112 13 video");
    accepted("add-slot 501 11 0 0 0");
    accepted("subscribe 501 101");
    accepted("add-slot 502 12 0 0 0");
    accepted("subscribe 502 101");
    for (int i = 0; with_open && i < OPEN; i++)
        call("add-source %d 12 video", 100000 + i);
}

static int by_size(const void *a, const void *b)
{
    double d = *(const double *)a - *(const double *)b;
    return (d > 0) - (d < 0);
}

/* The share of the ticks' lateness, in milliseconds after the earliest. */
static double lateness(double share)
{
    return ticks ? (late[(long)((ticks - 1) * share)] - late[0]) * 1e3 : -1;
}

/* How many milliseconds the last mix is late, after the earliest. */
static double late_now(void)
{
    double earliest = ticks ? late[0] : 0;
    for (long i = 0; i < ticks; i++)
        earliest = late[i] < earliest ? late[i] : earliest;
    return ticks ? (late[ticks - 1] - earliest) * 1e3 : -1;
}

/* Whether the call is as it should be, so many seconds long. */
static int held(double seconds)
{
    double begun = seconds_now(), minute = begun;
    long early = 0, now = 0;
    for (unsigned tick = 0; tick * 0.02 < seconds; tick++) {
        speak(tick);
        while (seconds_now() < begun + (tick + 1) * 0.02) {
            usleep(1000);
            hear();
        }
        if (seconds_now() - minute >= 60 || (tick + 1) * 0.02 >= seconds) {
            minute = seconds_now();
            now = resident(server);
            early = early ? early : now;
            printf("after %.0f s: VmRSS %ld kB, processor %.2f s, the last mix %.1f ms late, %ld datagrams of the "
                   "flood, %ld lost before the bridge\n",
                   minute - begun, now, processor(server, 0), late_now(), shared->datagrams,
                   lost_at(&udp, 1));
            fflush(stdout);
        }
    }
    qsort(late, ticks, sizeof *late, by_size);
    double share = reached ? 100.0 * came_then / reached : 0;
    double up = shared->octets ? (double)up_octets / shared->octets : 0;
    printf("call: %u packets sent, %ld reached the bridge by its last report, %ld of them came (%.2f%%)\n",
           next_number, reached, came_then, share);
    printf("ticks: %ld, late by %.1f ms (median), %.1f (99th percentile), %.1f (most)\n", ticks, lateness(0.5),
           lateness(0.99), lateness(1));
    printf("flood: %ld octets in; out for it %ld octets of control (%.3f for one) and %ld of packets (%.3f); beside it "
           "%ld of reports\n",
           shared->octets, up_octets, up, down_octets, shared->octets ? (double)down_octets / shared->octets : 0,
           report_octets);
    /* A mix comes for each packet of sound, 60 ms after it. */
    return share >= 99 && sounds > 0 && mixed + 3 >= 0.99 * sounds && lateness(0.99) <= 10
        && up_octets <= 1.5 * shared->octets + 256 * (2 + STRANGERS) && now <= early * 1.05 + 1024;
}

int main(int count, char **words)
{
    size_t (*next)(uint8_t *, int *) = 0;
    if (count != 6)
        die("usage: flood BINARY FLOOD SECONDS RATE LANES");
    lanes = atoi(words[5]);
    for (size_t i = 0; i < sizeof kinds / sizeof *kinds; i++)
        if (!strcmp(words[2], kinds[i].name))
            next = kinds[i].next;
    if (!next)
        die("no such flood");
    shared = mmap(0, sizeof *shared, PROT_READ | PROT_WRITE, MAP_SHARED | MAP_ANONYMOUS, -1, 0);
    speaker = udp_socket(&speaker_at);
    listener = udp_socket(&listener_at);
    for (int i = 0; i < 2; i++)
        floods[i] = udp_socket(&floods_at[i]);
    for (int i = 0; i < STRANGERS; i++)
        strangers[i] = udp_socket(&strangers_at[i]);
    start_bridge(words[1]);
    set_call(next == open_frames || next == large_frames);
    pid_t child = atol(words[4]) ? fork() : -1;
    if (child == 0)
        flood(next, atol(words[4]));
    int holds = held(atof(words[3]));
    if (child > 0) {
        kill(child, SIGKILL);
        waitpid(child, 0, 0);
    }
    stop_bridge();
    printf("%s\n", holds ? "held" : "NOT HELD");
    return 0;
}
