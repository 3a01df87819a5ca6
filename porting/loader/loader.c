/* Loads an image (bin-le) and starts it: the words are bytes, the low one first; the stack base is the first. */
#include <stdio.h>
#include <stdlib.h>
static unsigned short store[65536L];
extern int run(unsigned short *store, unsigned stack_base);     /* the interpreter: 0 if the run has finished */
static int word(FILE *file, unsigned short *to) {
    int low = getc(file), high = getc(file);
    *to = (unsigned short)(high << 8 | low);
    return high != EOF;
}
int main(int argc, char **argv) {
    FILE *file = argc == 2 ? fopen(argv[1], "rb") : NULL;
    unsigned short base;
    long n = 0;
    if (file == NULL || !word(file, &base)) return fputs("loader: no image\n", stderr), 3;
    while (n < base && word(file, &store[n])) n++;              /* all cells after these are 0 */
    if (n < base) return fputs("loader: the image is cut\n", stderr), 3;
    return run(store, base);
}
