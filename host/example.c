/* example.c: checks and runs TAL texts of others, as the program talc does, and in slices.
 * cc -O2 example.c libtal_c.a talc_heap.c -o example && ./example FILE.. */
#include <inttypes.h>
#include <stdio.h>
#include <stdlib.h>
#include "talc.h"
#include "talc_heap.h"

static uint8_t *content(const char *name, size_t *length) {
    FILE *file = fopen(name, "rb");
    if (file == NULL) return NULL;
    size_t room = 4096, have = 0, got;
    uint8_t *bytes = malloc(room);
    while (bytes && (got = fread(bytes + have, 1, room - have, file)) > 0) {
        have += got;
        if (have == room) bytes = realloc(bytes, room *= 2);
    }
    fclose(file);
    *length = have;
    return bytes;
}

static void tell(const char *name, const char *what, talc_answer a) {
    printf("%s: %s: ", name, what);
    switch (a.status) {
    case TALC_DONE: printf("done, int %" PRId64 " after %" PRIu64 "\n", a.value, a.made); break;
    case TALC_BUDGET: printf("running after %" PRIu64 " instructions\n", a.made); break;
    case TALC_MEMORY: printf("out of memory after %" PRIu64 "\n", a.made); break;
    case TALC_EMPTY: printf("no program\n"); break;
    default: {
        char letter = a.code == TALC_M1 ? 'M' : 'T';
        int digits = a.code == TALC_M1 ? 1 : 2;
        printf("%c%0*d %" PRIu64 "..%" PRIu64 "\n", letter, digits, (int)a.code % 100, a.start, a.end);
    }
    }
}

int main(int count, char **names) {
    for (int i = 1; i < count; i++) {
        size_t length;
        uint8_t *text = content(names[i], &length);
        if (text == NULL) return 1;
        tell(names[i], "check", talc_check(text, length));
        tell(names[i], "run", talc_run(text, length, 1000));
        talc_guest guest;
        talc_guest_init(&guest);
        tell(names[i], "load", talc_guest_load(&guest, text, length));
        uint64_t made = 0;
        talc_answer a;
        do {
            a = talc_guest_run(&guest, 7);
            made += a.made;
        } while (a.status == TALC_BUDGET && made < 1000);
        tell(names[i], "last slice", a);
        printf("%s: %" PRIu64 " instructions in slices of 7, %zu bytes held\n", names[i], made, talc_heap_held());
        talc_guest_clear(&guest);
        /* with a bound on memory */
        talc_heap_bound(2000);
        tell(names[i], "check within 2000 bytes", talc_check(text, length));
        talc_heap_bound(SIZE_MAX);
        free(text);
    }
    printf("held at the end: %zu\n", talc_heap_held());
    return 0;
}
