/* run DIR COMMAND: runs the cases that `porting/check --extract DIR` wrote, and judges them as porting/conformance/FORMAT.md says. */
#include <stdio.h>
#include <stdlib.h>
static const char *dir, *const pairs[][2] = { {"STATUS", "WS"}, {"SAID", "WE"}, {"O0", "W0"}, {"O1", "W1"}, {"O2", "W2"}, {"O3", "W3"} };
static FILE *file(int n, const char *name, const char *trial) {
    static char path[1000];
    return sprintf(path, "%.900s/%04d/%s%s", dir, n, name, trial), fopen(path, "rb");
}
static int lines(int n, const char *name, const char *trial, char *to) {    /* puts the lines of a file behind each other, each quoted */
    FILE *from = file(n, name, trial);
    char read[1000];
    while (from != NULL && fscanf(from, "%999[^\n]%*c", read) == 1) to += sprintf(to, "'%s' ", read);
    return from != NULL && fclose(from) == 0;
}
static int same(int n, const char *const pair[2], const char *trial) {      /* a file that isn't expected is as it should be */
    FILE *a = file(n, pair[0], trial), *b = a == NULL ? NULL : file(n, pair[1], "");
    int x = EOF, y = EOF;
    if (a != NULL) do { x = getc(a); y = b ? getc(b) : EOF; } while (x == y && x != EOF && !(pair[0][0] == 'S' && x == '\n'));
    return (a == NULL || fclose(a) == 0) && (b == NULL || fclose(b) == 0) && x == y;
}
int main(int argc, char **argv) {
    int n, t, k, right, wrong = 0;
    for (n = 1, dir = argc == 3 ? argv[1] : ""; argc == 3 && n <= 9999; n++) for (t = 0; t < 2; t++) {
        char arguments[20000], out[2000] = "W0", need[2000] = ".", command[30000];
        if (!lines(n, "ARGS", t ? "2" : "", arguments) || (lines(n, "STDOUT", "", out), lines(n, "NEEDS", "", need), 0)) continue;
        sprintf(command, "test ! -e %s || { cd '%s/%04d' && %s %s < I0 > %s 2> WE; echo $? > WS; }", need, dir, n, argv[2], arguments, out);
        for (right = system(command) == 0, k = 0; k < 6; k++) right &= same(n, pairs[k], t ? "2" : "");
        if (!right) wrong += printf("wrong: %04d%s\n", n, t ? "2" : "") > 0; }
    return printf("%d wrong\n", wrong) < 0 || wrong > 0 || argc != 3;
}
