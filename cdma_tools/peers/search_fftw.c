/* Correlates samples with a code at all of its phases at once by FFTW: "search TURNS < NUMBERS".
 *
 * The numbers are the count of samples, the samples, the length of the code, and its chips, each as two numbers.
 * Written are the processor seconds of a turn, and the phase whose energy is greatest. The code's own transform and the
 * plans are made once, before time is taken. With -DSINGLE the numbers have single precision.
 */
#include <complex.h>
#include <fftw3.h>
#include <stdio.h>
#include <stdlib.h>
#include <time.h>

#ifdef SINGLE
#define FFTW(name) fftwf_##name
typedef float real;
#else
#define FFTW(name) fftw_##name
typedef double real;
#endif
typedef FFTW(complex) number;

enum { MOST = 1 << 20 };

static double processor_seconds(void)
{
    struct timespec now;
    clock_gettime(CLOCK_PROCESS_CPUTIME_ID, &now);
    return now.tv_sec + 1e-9 * now.tv_nsec;
}

/* Reads a count and so many complex numbers; the count, or 0 where there are none. */
static int read_numbers(number **read)
{
    int size, i, q;
    if (scanf("%d", &size) != 1 || size < 1 || size > MOST)
        return 0;
    *read = FFTW(alloc_complex)(size);
    for (int place = 0; *read && place < size; place++) {
        if (scanf("%d %d", &i, &q) != 2)
            return 0;
        (*read)[place] = i + q * (number)I;
    }
    return *read ? size : 0;
}

static int strongest(const number *sums, int size)
{
    int best = 0;
    real most = -1;
    for (int phase = 0; phase < size; phase++) {
        real i = ((const real *)sums)[2 * phase], q = ((const real *)sums)[2 * phase + 1];
        if (i * i + q * q > most) {
            most = i * i + q * q;
            best = phase;
        }
    }
    return best;
}

int main(int count, char **words)
{
    number *samples, *code, *work, *other;
    int turns = count == 2 ? atoi(words[1]) : 0;
    int span = read_numbers(&samples), size = span ? read_numbers(&code) : 0, best = 0;
    if (turns < 1 || !size || span > size)
        return 1;
    work = FFTW(alloc_complex)(size);
    other = FFTW(alloc_complex)(size);
    FFTW(plan) there = FFTW(plan_dft_1d)(size, work, other, FFTW_FORWARD, FFTW_MEASURE);
    FFTW(plan) back = FFTW(plan_dft_1d)(size, other, work, FFTW_BACKWARD, FFTW_MEASURE);
    FFTW(execute_dft)(there, code, other);
    for (int place = 0; place < size; place++)
        code[place] = other[place];
    double begin = processor_seconds();
    for (int turn = 0; turn < turns; turn++) {
        for (int place = 0; place < size; place++)
            work[place] = place < span ? samples[place] : 0;
        FFTW(execute)(there);
        for (int place = 0; place < size; place++)
            other[place] = code[place] * conj(other[place]);
        FFTW(execute)(back);
        best = strongest(work, size);
    }
    printf("%.9e\n%d\n", (processor_seconds() - begin) / turns, best);
    return 0;
}
