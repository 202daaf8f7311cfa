/* The floor of a tick: what a room whose members all speak makes necessary, and no more. `tools/bridge bench media`
 * counts it.
 *
 * tick TIMES MEMBERS SAMPLES    a tick so often: PCMU where a source has 160 samples in a tick, else L16
 *
 * The samples of each source are there. A tick adds them up. For each member it takes the member's own off, clamps the
 * rest, and writes a header, the SSRCs of the first 15 others, and the encoded samples into the member's packet. It
 * prints how many packets there were, how many octets, and their sum, so that no work is left out.
 */
#include <stdint.h>
#include <stdio.h>
#include <stdlib.h>
#include <string.h>

enum { MEMBERS = 64, SAMPLES = 882, NAMED = 15, HEAD = 12 + 4 * NAMED, SPEECH = 160 };

static int16_t said[MEMBERS][SAMPLES];
static int32_t total[SAMPLES];
static int16_t mix[SAMPLES];
static uint8_t packets[MEMBERS][HEAD + 2 * SAMPLES];

static void put32(uint8_t *at, uint32_t v)
{
    v = __builtin_bswap32(v);
    memcpy(at, &v, 4);
}

static void add_up(int members, int samples)
{
    memset(total, 0, sizeof total);
    for (int i = 0; i < members; i++)
        for (int j = 0; j < samples; j++)
            total[j] += said[i][j];
}

static void take_off(const int16_t *own, int samples)
{
    for (int j = 0; j < samples; j++) {
        int32_t v = total[j] - own[j];
        mix[j] = v > 32767 ? 32767 : v < -32768 ? -32768 : v;
    }
}

/* ITU-T G.711 in a form that becomes vectors: of a float, the exponent and the first four digits are the segment and
 * the step. */
static void encode_pcmu(uint8_t *out, int samples)
{
    for (int j = 0; j < samples; j++) {
        int32_t v = mix[j], bits;
        int32_t level = (v < 0 ? -v : v) + 132;
        float f = level > 32767 ? 32767 : level;
        memcpy(&bits, &f, 4);
        out[j] = ~(((bits >> 19) - 2144) | (v < 0 ? 128 : 0));
    }
}

static void encode_l16(uint8_t *out, int samples)
{
    for (int j = 0; j < samples; j++) {
        uint16_t v = __builtin_bswap16(mix[j]);
        memcpy(out + 2 * j, &v, 2);
    }
}

static int head(uint8_t *at, int member, int members, int samples, uint32_t tick)
{
    int named = 0;
    for (int i = 0; i < members && named < NAMED; i++)
        if (i != member)
            put32(at + 12 + 4 * named++, 1000 + i);
    put32(at, (0x80u | named) << 24 | (samples == SPEECH ? 0 : 11) << 16 | (tick & 65535));
    put32(at + 4, tick * samples);
    put32(at + 8, 100000 + member);
    return 12 + 4 * named;
}

int main(int count, char **words)
{
    long times = count == 4 ? atol(words[1]) : -1, octets = 0, sum = 0;
    int members = count == 4 ? atoi(words[2]) : 0, samples = count == 4 ? atoi(words[3]) : 0;
    if (times < 0 || members < 1 || members > MEMBERS || samples < 1 || samples > SAMPLES) {
        fprintf(stderr, "usage: tick TIMES MEMBERS SAMPLES\n");
        return 1;
    }
    for (int i = 0; i < members; i++)
        for (int j = 0; j < samples; j++)
            said[i][j] = (i * 997 + j * 101) % 16001 - 8000;
    for (long t = 0; t < times; t++) {
        add_up(members, samples);
        for (int i = 0; i < members; i++) {
            int begun = head(packets[i], i, members, samples, t);
            take_off(said[i], samples);
            if (samples == SPEECH)
                encode_pcmu(packets[i] + begun, samples);
            else
                encode_l16(packets[i] + begun, samples);
            octets += begun + (samples == SPEECH ? 1 : 2) * samples;
            sum += packets[i][begun + samples - 1];
        }
    }
    printf("%ld packets, %ld octets, %ld\n", times * members, octets, sum);
    return 0;
}
