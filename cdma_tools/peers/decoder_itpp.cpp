// Decodes a frame by IT++, of soft values that are read: "decoder TURNS < NUMBERS", as decoder_fec.c does it.
#include <itpp/itcomm.h>

#include <cstdio>
#include <cstdlib>
#include <ctime>
#include <iostream>

static double processor_seconds()
{
    timespec now;
    clock_gettime(CLOCK_PROCESS_CPUTIME_ID, &now);
    return now.tv_sec + 1e-9 * now.tv_nsec;
}

int main(int count, char **words)
{
    const int turns = count == 2 ? std::atoi(words[1]) : 0;
    int bits = 0;
    if (turns < 1 || !(std::cin >> bits) || bits <= 8 || bits > 1024)
        return 1;
    itpp::vec softs(2 * bits);
    for (int place = 0; place < 2 * bits; place++)
        if (!(std::cin >> softs(place)))
            return 1;
    itpp::ivec generators(2);
    generators(0) = 0753;
    generators(1) = 0561;
    itpp::Convolutional_Code code;
    code.set_generator_polynomials(generators, 9);
    itpp::bvec decoded;
    const double begin = processor_seconds();
    for (int turn = 0; turn < turns; turn++)
        code.decode_tail(softs, decoded);
    std::printf("%.9e\n", (processor_seconds() - begin) / turns);
    for (int place = 0; place < decoded.size(); place++)
        std::putchar('0' + int(decoded(place)));
    std::putchar('\n');
    return 0;
}
