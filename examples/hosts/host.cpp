// host.cpp: what host.c does, in C++: the guest is a class, and what is made a std::string.
#include <cstdio>
#include <cstring>
#include <fstream>
#include <functional>
#include <iostream>
#include <iterator>
#include <string>
#include "talc.h"
#include "talc_heap.h"

namespace {

constexpr uint64_t fuel = 1000, slice = 7, many = 1000000, tuples = 100, turns = 1000;
constexpr size_t bytes = 100000;
constexpr int depth = 2;

const uint8_t *at(const std::string &text) { return reinterpret_cast<const uint8_t *>(text.data()); }
uint8_t *at(std::string &text) { return reinterpret_cast<uint8_t *>(&text[0]); }

// A program that is loaded once and run a slice at a time; it gives back what it holds.
class Guest {
public:
    Guest() { talc_guest_init(&guest_); }
    Guest(const Guest &) = delete;
    Guest &operator=(const Guest &) = delete;
    ~Guest() { clear(); }

    talc_answer load(const std::string &text) { return talc_guest_load(&guest_, at(text), text.size()); }
    talc_answer run(uint64_t most) { return talc_guest_run(&guest_, most); }
    talc_answer collect() { return talc_guest_collect(&guest_); }
    talc_place place() { return talc_guest_place(&guest_); }
    talc_word reg(uint64_t number) { return talc_guest_reg(&guest_, number); }
    talc_word field(uint64_t tuple, uint64_t number) { return talc_guest_field(&guest_, tuple, number); }
    talc_answer within(uint64_t most, uint64_t fields) { return talc_guest_within(&guest_, most, fields); }
    uint64_t kept() { return talc_guest_kept(&guest_); }
    void clear() { talc_guest_clear(&guest_); }

private:
    talc_guest guest_;
};

std::string fault(uint32_t code, uint64_t start, uint64_t end) {
    char shown[64];
    std::snprintf(shown, sizeof shown, "%c%0*u %llu..%llu", " TMEL"[code / 100], code / 100 % 2 ? 2 : 1, code % 100,
                  static_cast<unsigned long long>(start), static_cast<unsigned long long>(end));
    return shown;
}

std::string status(uint32_t it) {
    return it == TALC_MEMORY ? "out of memory" : it == TALC_SMALL ? "too small" : "no such thing";
}

std::string shown(const talc_answer &a, uint64_t made) {
    if (a.code) return fault(a.code, a.start, a.end);
    if (a.status == TALC_BUDGET) return "running after " + std::to_string(made);
    if (a.status != TALC_DONE) return status(a.status);
    return made ? "int " + std::to_string(a.value) + " after " + std::to_string(made) : "done";
}

class Teller {
public:
    explicit Teller(const std::string &path) : name_(path.substr(path.find_last_of('/') + 1)) {}
    const std::string &name() const { return name_; }
    void line(const std::string &text) const { std::cout << name_ << ": " << text << "\n"; }
    void answer(const std::string &what, const talc_answer &a, uint64_t made) const {
        line(what + ": " + shown(a, made));
    }

private:
    std::string name_;
};

// A word, and of a tuple its fields, so many deep.
std::string shown(Guest &guest, const talc_word &word, int deep) {
    if (word.kind == TALC_NONE) return "none";
    if (word.kind == TALC_INT) return std::to_string(word.value);
    if (word.kind == TALC_BLOCK) return "block " + std::to_string(word.number);
    if (deep == 0) return "tuple";
    std::string fields;
    for (uint64_t i = 0;; i++) {
        const talc_word field = guest.field(word.number, i);
        if (field.kind == TALC_NONE) return "<" + fields + ">";
        fields += (i ? ", " : "") + shown(guest, field, deep - 1);
    }
}

void say_kept(Guest &guest, const Teller &say) { say.line("kept: " + std::to_string(guest.kept())); }

void in_slices(Guest &guest, const Teller &say) {
    talc_answer a;
    uint64_t made = 0;
    do {
        a = guest.run(slice);
        made += a.made;
    } while (a.status == TALC_BUDGET && made < fuel);
    say.answer("slices", a, made);
    const talc_place place = guest.place();
    say.line("at " + std::to_string(place.block) + "." + std::to_string(place.index) + ", r1: "
             + shown(guest, guest.reg(1), depth) + ", r2: " + shown(guest, guest.reg(2), depth));
    say.answer("collect", guest.collect(), 0);
    say_kept(guest, say);
}

// Runs with a cap, and where that stops the guest, goes on with a larger one.
void with_cap(Guest &guest, const Teller &say) {
    guest.within(tuples, many);
    talc_answer a = guest.run(fuel);
    say.answer("with 100 tuples", a, a.made);
    if (a.status != TALC_MEMORY) return;
    say_kept(guest, say);
    guest.within(many, many);
    a = guest.run(fuel);
    say.answer("with 1000000 tuples", a, a.made);
}

void take_assembly(const std::string &text, const Teller &say) {
    Guest guest;
    say.answer("check", talc_check(at(text), text.size()), 0);
    talc_answer a = talc_run(at(text), text.size(), fuel);
    say.answer("run", a, a.made);
    if (guest.load(text).status == TALC_DONE) in_slices(guest, say);
    if (guest.load(text).status == TALC_DONE) with_cap(guest, say);
    talc_heap_bound(bytes);
    a = guest.load(text);
    if (a.status == TALC_DONE) a = guest.run(many);
    say.answer("within 100000 bytes", a, a.made);
    talc_heap_bound(SIZE_MAX);
    guest.clear();
    say.answer("cleared", guest.run(1), 0);
    say.answer("cap of none", guest.within(tuples, tuples), 0);
}

using Call = std::function<talc_made(uint8_t *, size_t)>;

// Asks into a small room first, and then into one that is large enough.
std::string made_of(const Teller &say, const std::string &what, const Call &call) {
    std::string room(8, '.');
    talc_made m = call(at(room), room.size());
    if (m.status == TALC_SMALL) {
        if (room != "........") std::exit(1);
        room.resize(m.length);
        m = call(at(room), room.size());
    }
    room.resize(m.length);
    const bool is_made = m.status == TALC_DONE || m.status == TALC_BUDGET;
    say.line(what + ": " + (m.code ? fault(m.code, m.start, m.end) : is_made ? std::to_string(m.length) + " bytes"
                                                                            : status(m.status)));
    return room;
}

void say_line(const std::string &made) {
    if (!made.empty()) std::cout << "  " << made.substr(0, made.find('\n')) << "\n";
}

void take_source(const std::string &it, const Teller &say) {
    const uint8_t *text = at(it);
    const size_t size = it.size();
    say_line(made_of(say, "typeof", [=](uint8_t *room, size_t n) { return talc_typeof(text, size, room, n); }));
    say_line(made_of(say, "eval", [=](uint8_t *room, size_t n) { return talc_eval(text, size, turns, room, n); }));
    const auto compile = [=](uint64_t registers) {
        return [=](uint8_t *room, size_t n) { return talc_compile(text, size, registers, room, n); };
    };
    const std::string made = made_of(say, "compile", compile(0));
    if (!made.empty()) {
        const talc_answer a = talc_run(at(made), made.size(), fuel);
        say.answer("compiled", a, a.made);
    }
    made_of(say, "compile within 8 registers", compile(8));
    made_of(say, "compile within 7 registers", compile(7));
    const auto show = [=](uint32_t form) {
        return [=](uint8_t *room, size_t n) { return talc_show(text, size, form, room, n); };
    };
    made_of(say, "show closed", show(TALC_CLOSED));
    made_of(say, "show form 6", show(6));
    say_line(made_of(say, "explain", [=](uint8_t *room, size_t n) { return talc_explain(text, size, room, n); }));
}

}

int main(int count, char **paths) {
    if (talc_version() != TALC_VERSION || talc_compiler_version() != TALC_VERSION) return 1;
    for (int i = 1; i < count; i++) {
        std::ifstream file(paths[i], std::ios::binary);
        const std::string text{std::istreambuf_iterator<char>(file), {}};
        const Teller say(paths[i]);
        if (say.name().find(".tal") != std::string::npos) take_assembly(text, say);
        else take_source(text, say);
    }
    std::cout << "held at the end: " << talc_heap_held() << "\n";
}
