/* Looks secret bytes up in a table of two pages, and puts a sum out: which page each lookup loads from tells a bit of the secret.
   tools/image links it with start.s, as docs/TOOLS.md shows. */
#include "enclave.h"

const volatile uint8_t secret[4] = {3, 200, 7, 90};
uint64_t table[1024] __attribute__((aligned(4096)));

int main(void) {
    uint64_t sum = input();
    for (int i = 0; i < 4; i++)
        sum += table[secret[i] * 4] + secret[i];
    output(sum);
    return 0;
}
