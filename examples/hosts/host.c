/* host.c: takes texts of others. Assembly texts are checked and run, at once, by a guest in slices, with a cap on what
 * it keeps, and within a bound on memory; source texts are typed, evaluated, compiled, run and explained. Say which by
 * the ends of the names: host FILE.tal FILE.f .. */
#include <inttypes.h>
#include <stdio.h>
#include <stdlib.h>
#include <string.h>
#include "talc.h"
#include "talc_heap.h"

enum { FUEL = 1000, SLICE = 7, LONG = 1000000, BYTES = 100000, TUPLES = 100, TURNS = 1000, DEPTH = 2 };

typedef struct {
    uint8_t *bytes;
    size_t length;
} text;

static const char *name; /* of the file */

/* The bytes of a file; they are never at NULL, also where there are none. */
static text content(const char *path) {
    size_t room = 4096, got;
    text it = {malloc(room), 0};
    FILE *file = fopen(path, "rb");
    if (file == NULL) exit(5);
    while ((got = fread(it.bytes + it.length, 1, room - it.length, file)) > 0) {
        it.length += got;
        if (it.length == room) it.bytes = realloc(it.bytes, room *= 2);
    }
    fclose(file);
    return it;
}

static void say_fault(uint32_t code, uint64_t start, uint64_t end) {
    printf("%c%0*" PRIu32 " %" PRIu64 "..%" PRIu64 "\n", " TMEL"[code / 100], code / 100 % 2 ? 2 : 1, code % 100, start,
           end);
}

static void say_status(uint32_t status) {
    puts(status == TALC_MEMORY ? "out of memory" : status == TALC_SMALL ? "too small" : "no such thing");
}

/* Tells an answer; `made` counts the instructions of all slices. */
static void say(const char *what, talc_answer a, uint64_t made) {
    printf("%s: %s: ", name, what);
    if (a.code) say_fault(a.code, a.start, a.end);
    else if (a.status == TALC_DONE && made) printf("int %" PRId64 " after %" PRIu64 "\n", a.value, made);
    else if (a.status == TALC_DONE) puts("done");
    else if (a.status == TALC_BUDGET) printf("running after %" PRIu64 "\n", made);
    else say_status(a.status);
}

/* Tells a word, and of a tuple its fields, so many deep. */
static void say_word(talc_guest *guest, talc_word word, int depth) {
    talc_word field;
    uint64_t i = 0;
    if (word.kind == TALC_NONE) printf("none");
    else if (word.kind == TALC_INT) printf("%" PRId64, word.value);
    else if (word.kind == TALC_BLOCK) printf("block %" PRIu64, word.number);
    else if (depth == 0) printf("tuple");
    else {
        printf("<");
        for (; (field = talc_guest_field(guest, word.number, i)).kind != TALC_NONE; i++) {
            printf(i ? ", " : "");
            say_word(guest, field, depth - 1);
        }
        printf(">");
    }
}

static void say_state(talc_guest *guest) {
    talc_place place = talc_guest_place(guest);
    printf("%s: at %" PRIu64 ".%" PRIu64 ", r1: ", name, place.block, place.index);
    say_word(guest, talc_guest_reg(guest, 1), DEPTH);
    printf(", r2: ");
    say_word(guest, talc_guest_reg(guest, 2), DEPTH);
    puts("");
}

static void say_kept(talc_guest *guest) { printf("%s: kept: %" PRIu64 "\n", name, talc_guest_kept(guest)); }

static void in_slices(talc_guest *guest) {
    talc_answer a;
    uint64_t made = 0;
    do {
        a = talc_guest_run(guest, SLICE);
        made += a.made;
    } while (a.status == TALC_BUDGET && made < FUEL);
    say("slices", a, made);
    say_state(guest);
    say("collect", talc_guest_collect(guest), 0);
    say_kept(guest);
}

/* Runs with a cap, and where that stops the guest, goes on with a larger one. */
static void with_cap(talc_guest *guest) {
    talc_guest_within(guest, TUPLES, LONG);
    talc_answer a = talc_guest_run(guest, FUEL);
    say("with 100 tuples", a, a.made);
    if (a.status != TALC_MEMORY) return;
    say_kept(guest);
    talc_guest_within(guest, LONG, LONG);
    a = talc_guest_run(guest, FUEL);
    say("with 1000000 tuples", a, a.made);
}

static void take_cleared(talc_guest *guest) {
    talc_guest_clear(guest);
    say("cleared", talc_guest_run(guest, 1), 0);
    say("cap of none", talc_guest_within(guest, TUPLES, TUPLES), 0);
    if (talc_guest_kept(guest) != 0 || talc_guest_field(guest, 0, 0).kind != TALC_NONE) exit(1);
}

static void take_assembly(text it) {
    talc_guest guest;
    talc_answer a = talc_check(it.bytes, it.length);
    say("check", a, 0);
    a = talc_run(it.bytes, it.length, FUEL);
    say("run", a, a.made);
    talc_guest_init(&guest);
    a = talc_guest_load(&guest, it.bytes, it.length);
    if (a.status == TALC_DONE) in_slices(&guest);
    a = talc_guest_load(&guest, it.bytes, it.length);
    if (a.status == TALC_DONE) with_cap(&guest);
    talc_heap_bound(BYTES);
    a = talc_guest_load(&guest, it.bytes, it.length);
    if (a.status == TALC_DONE) a = talc_guest_run(&guest, LONG);
    say("within 100000 bytes", a, a.made);
    talc_heap_bound(SIZE_MAX);
    take_cleared(&guest);
}

typedef enum { TYPEOF, EVAL, COMPILE, SHOW, EXPLAIN } call;

static talc_made ask(call which, text it, uint64_t number, uint8_t *room, size_t size) {
    switch (which) {
    case TYPEOF: return talc_typeof(it.bytes, it.length, room, size);
    case EVAL: return talc_eval(it.bytes, it.length, number, room, size);
    case COMPILE: return talc_compile(it.bytes, it.length, number, room, size);
    case SHOW: return talc_show(it.bytes, it.length, (uint32_t)number, room, size);
    default: return talc_explain(it.bytes, it.length, room, size);
    }
}

/* Asks into a small room first, which stays as it was where that is too small, and then into a large enough one. */
static text made_of(const char *what, call which, text it, uint64_t number) {
    static const uint8_t mark[8] = "........";
    text made = {malloc(sizeof mark), 0};
    memcpy(made.bytes, mark, sizeof mark);
    talc_made m = ask(which, it, number, made.bytes, sizeof mark);
    if (m.status == TALC_SMALL) {
        if (memcmp(made.bytes, mark, sizeof mark) != 0) exit(1);
        made.bytes = realloc(made.bytes, m.length);
        m = ask(which, it, number, made.bytes, m.length);
    }
    made.length = m.length;
    printf("%s: %s: ", name, what);
    if (m.code) say_fault(m.code, m.start, m.end);
    else if (m.status == TALC_DONE || m.status == TALC_BUDGET) printf("%" PRIu64 " bytes\n", m.length);
    else say_status(m.status);
    return made;
}

/* Shows the first line. */
static void say_line(text made) {
    uint8_t *end = memchr(made.bytes, '\n', made.length);
    if (end) printf("  %.*s\n", (int)(end - made.bytes), (char *)made.bytes);
    free(made.bytes);
}

static void take_source(text it) {
    say_line(made_of("typeof", TYPEOF, it, 0));
    say_line(made_of("eval", EVAL, it, TURNS));
    text made = made_of("compile", COMPILE, it, 0);
    if (made.length) {
        talc_answer a = talc_run(made.bytes, made.length, FUEL);
        say("compiled", a, a.made);
    }
    free(made.bytes);
    free(made_of("compile within 8 registers", COMPILE, it, 8).bytes);
    free(made_of("compile within 7 registers", COMPILE, it, 7).bytes);
    free(made_of("show closed", SHOW, it, TALC_CLOSED).bytes);
    free(made_of("show form 6", SHOW, it, 6).bytes);
    say_line(made_of("explain", EXPLAIN, it, 0));
}

int main(int count, char **paths) {
    if (talc_version() != TALC_VERSION || talc_compiler_version() != TALC_VERSION) return 1;
    if (talc_guest_size() > sizeof(talc_guest)) return 1;
    for (int i = 1; i < count; i++) {
        text it = content(paths[i]);
        name = strrchr(paths[i], '/') ? strrchr(paths[i], '/') + 1 : paths[i];
        if (strstr(name, ".tal")) take_assembly(it);
        else take_source(it);
        free(it.bytes);
    }
    printf("held at the end: %zu\n", talc_heap_held());
    return 0;
}
