/* Decodes a frame by libfec, of soft values that are read: "decoder TURNS < NUMBERS".
 *
 * The numbers are the count of bits, of which the last eight are zeros, and two soft values for each: above 0 for a
 * symbol of 0, within 2,047 of it. Written are the processor seconds of a turn, and the bits. libfec takes symbols of
 * 8 bits, so the soft values are rounded to these.
 */
#include <fec.h>
#include <stdio.h>
#include <stdlib.h>
#include <time.h>

enum { MOST_BITS = 1024, TAIL = 8, GREATEST = 2047 };

static double processor_seconds(void)
{
    struct timespec now;
    clock_gettime(CLOCK_PROCESS_CPUTIME_ID, &now);
    return now.tv_sec + 1e-9 * now.tv_nsec;
}

/* Reads the soft values as symbols of 8 bits; the count of bits, or 0 where there are none. */
static int read_symbols(unsigned char *symbols)
{
    int bits, soft;
    if (scanf("%d", &bits) != 1 || bits <= TAIL || bits > MOST_BITS)
        return 0;
    for (int place = 0; place < 2 * bits; place++) {
        if (scanf("%d", &soft) != 1 || soft < -GREATEST || soft > GREATEST)
            return 0;
        symbols[place] = (unsigned char)(127.5 - 127.5 * soft / GREATEST + 0.5);
    }
    return bits;
}

int main(int count, char **words)
{
    static unsigned char symbols[2 * MOST_BITS], data[MOST_BITS / 8];
    int turns = count == 2 ? atoi(words[1]) : 0;
    int bits = read_symbols(symbols);
    void *decoder = bits ? create_viterbi29(bits) : NULL;
    if (turns < 1 || !decoder)
        return 1;
    double begin = processor_seconds();
    for (int turn = 0; turn < turns; turn++) {
        init_viterbi29(decoder, 0);
        update_viterbi29_blk(decoder, symbols, bits);
        chainback_viterbi29(decoder, data, bits - TAIL, 0);
    }
    printf("%.9e\n", (processor_seconds() - begin) / turns);
    for (int place = 0; place < bits - TAIL; place++)
        putchar('0' + (data[place / 8] >> (7 - place % 8) & 1));
    putchar('\n');
    delete_viterbi29(decoder);
    return 0;
}
