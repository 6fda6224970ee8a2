/* Reads a dump as plainly as C can: the whole file into memory, and each number of it as an integer of 128
 * bits. It judges nothing, and prints how many lines and numbers there are, and the sum of all modulo 2^64. */
#include <stdio.h>
#include <stdlib.h>

static unsigned char *text;
static size_t length;

static int read_whole(const char *name) {
    FILE *file = fopen(name, "rb");
    if (!file || fseek(file, 0, SEEK_END)) return 1;
    length = (size_t)ftell(file);
    rewind(file);
    text = malloc(length + 1);
    if (!text || fread(text, 1, length, file) != length) return 1;
    text[length] = 0;
    return fclose(file);
}

int main(int count, char **words) {
    size_t lines = 0, numbers = 0;
    unsigned __int128 sum = 0;
    if (count != 2 || read_whole(words[1])) {
        fprintf(stderr, "usage: reader DUMP\n");
        return 2;
    }
    for (size_t at = 0; at < length;) {
        unsigned char byte = text[at];
        lines += byte == '\n';
        if (byte < '0' || byte > '9') {
            at++;
            continue;
        }
        int is_below = at && text[at - 1] == '-';
        unsigned __int128 number = 0;
        for (; text[at] >= '0' && text[at] <= '9'; at++) number = number * 10 + (text[at] - '0');
        sum += is_below ? -number : number;
        numbers++;
    }
    printf("%zu lines, %zu numbers, %llu\n", lines, numbers, (unsigned long long)sum);
    return 0;
}
