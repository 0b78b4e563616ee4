/* Does the calls of a list on a file and nothing else: r COUNT PLACE reads into fresh memory, w COUNT PLACE writes and f 0 0 syncs.
   Prints the microseconds. */
#include <fcntl.h>
#include <stdio.h>
#include <stdlib.h>
#include <time.h>
#include <unistd.h>

struct call { char kind; long many, place; };

int main(int count, char **words) {
    static struct call calls[1 << 20];
    size_t all = 0, room = 0, most = 0;
    if (count != 3) return 1;
    FILE *list = fopen(words[2], "r");
    while (list && all < 1 << 20 && fscanf(list, " %c %ld %ld", &calls[all].kind, &calls[all].many, &calls[all].place) == 3) {
        if (calls[all].kind == 'r') room += calls[all].many;
        if (calls[all].kind == 'w' && calls[all].many > (long)most) most = calls[all].many;
        all++;
    }
    int file = open(words[1], O_RDWR);
    char *fresh = malloc(room + 1), *piece = calloc(1, most + 1);
    struct timespec start, end;
    if (!list || file < 0 || !fresh || !piece) return 1;
    clock_gettime(CLOCK_MONOTONIC, &start);
    for (size_t at = 0; at < all; at++) {
        long many = calls[at].many, place = calls[at].place;
        switch (calls[at].kind) {
        case 'r': if (pread(file, fresh, many, place) != many) return 1; fresh += many; break;
        case 'w': if (pwrite(file, piece, many, place) != many) return 1; break;
        case 'f': if (fdatasync(file)) return 1; break;
        }
    }
    clock_gettime(CLOCK_MONOTONIC, &end);
    printf("%ld\n", (end.tv_sec - start.tv_sec) * 1000000 + (end.tv_nsec - start.tv_nsec) / 1000);
    return 0;
}
