/* Tries loader.c: the interpreter that it starts is that of porting/core. */
#define main core_main
#include "../core/core.c"
#undef main
int run(unsigned short *words, unsigned stack_base);
int run(unsigned short *words, unsigned stack_base) {
    int going = 1;
    memcpy(store, words, sizeof store);
    for (P = stack_base; going == 1; ) going = step();
    return fflush(stdout) == EOF || going != 0;
}
