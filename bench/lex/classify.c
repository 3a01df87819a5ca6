/* Reads a source from standard input, classifies each byte by a table, and prints how long that took. */
#include <stdio.h>
#include <stdlib.h>
#include <time.h>

int main(void)
{
    size_t room = 1 << 22, length;
    unsigned char *text = malloc(room);
    static unsigned char class[256];
    unsigned long counts[8] = { 0 };
    struct timespec start, end;

    if (!text)
        return 1;
    length = fread(text, 1, room, stdin);
    for (int b = 'A'; b <= 'Z'; b++) class[b] = class[b + 32] = 1;
    for (int b = '0'; b <= '9'; b++) class[b] = 2;
    for (const char *p = " \t\r\f\n"; *p; p++) class[(unsigned char)*p] = 3;
    for (const char *p = "()$,;:!@+-*/=<>&|~\\"; *p; p++) class[(unsigned char)*p] = 4;
    class['"'] = class['\''] = 5;
    class['#'] = 6;
    class['.'] = 7;
    clock_gettime(CLOCK_MONOTONIC, &start);
    for (size_t i = 0; i < length; i++)
        counts[class[text[i]]]++;
    clock_gettime(CLOCK_MONOTONIC, &end);
    printf("%lld %lu\n", (end.tv_sec - start.tv_sec) * 1000000000LL + (end.tv_nsec - start.tv_nsec), counts[1]);
    return 0;
}
