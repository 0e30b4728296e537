// host.go: what host.c does, in Go, by cgo: a guest is a struct with methods, and refusals are errors.
package main

/*
#include <stdlib.h>
#include "talc.h"
#include "talc_heap.h"
*/
import "C"

import (
	"bytes"
	"errors"
	"fmt"
	"log"
	"os"
	"path/filepath"
	"runtime"
	"strings"
	"unsafe"
)

const (
	fuel   = 1000
	slice  = 7
	long   = 1000000
	most   = 100000
	tuples = 100
	turns  = 1000
	depth  = 2
)

var (
	errMemory = errors.New("out of memory")
	errUsage  = errors.New("no such thing")
)

// fault is the rule or limit by which a text is refused, and the place.
type fault struct {
	code       C.uint32_t
	start, end C.uint64_t
}

func (f fault) Error() string {
	return fmt.Sprintf("%s%0*d %d..%d", " TMEL"[f.code/100:f.code/100+1], 1+f.code/100%2, f.code%100, f.start, f.end)
}

// why is the error of a status, where it is one.
func why(status, code C.uint32_t, start, end C.uint64_t) error {
	switch {
	case status == C.TALC_DONE || status == C.TALC_BUDGET:
		return nil
	case status == C.TALC_MEMORY:
		return errMemory
	case code == 0:
		return errUsage
	}
	return fault{code, start, end}
}

// run is how a run ended: with an integer, or going on.
type run struct {
	halted bool
	value  int64
	made   uint64
}

func (r run) String() string {
	if !r.halted {
		return fmt.Sprintf("running after %d", r.made)
	}
	return fmt.Sprintf("int %d after %d", r.value, r.made)
}

func runOf(a C.talc_answer) (run, error) {
	return run{a.status == C.TALC_DONE, int64(a.value), uint64(a.made)}, why(a.status, a.code, a.start, a.end)
}

func errorOf(a C.talc_answer) error {
	return why(a.status, a.code, a.start, a.end)
}

// at is where the bytes of a text are, which is nowhere null.
func at(text []byte) (*C.uint8_t, C.size_t) {
	if len(text) == 0 {
		text = make([]byte, 1)
		return (*C.uint8_t)(unsafe.Pointer(&text[0])), 0
	}
	return (*C.uint8_t)(unsafe.Pointer(&text[0])), C.size_t(len(text))
}

// guest is a program that is loaded once and run a slice at a time; clear gives back what it holds.
type guest struct {
	room *C.talc_guest
}

func newGuest() *guest {
	g := &guest{(*C.talc_guest)(C.malloc(C.sizeof_talc_guest))}
	C.talc_guest_init(g.room)
	return g
}

func (g *guest) load(text []byte) error {
	bytes, length := at(text)
	return errorOf(C.talc_guest_load(g.room, bytes, length))
}

func (g *guest) run(fuel uint64) (run, error) {
	return runOf(C.talc_guest_run(g.room, C.uint64_t(fuel)))
}

func (g *guest) collect() error { return errorOf(C.talc_guest_collect(g.room)) }

func (g *guest) within(tuples, fields uint64) error {
	return errorOf(C.talc_guest_within(g.room, C.uint64_t(tuples), C.uint64_t(fields)))
}

func (g *guest) kept() uint64 { return uint64(C.talc_guest_kept(g.room)) }

func (g *guest) clear() { C.talc_guest_clear(g.room) }

func (g *guest) free() {
	g.clear()
	C.free(unsafe.Pointer(g.room))
}

// shown is a word, and of a tuple its fields, so many deep.
func (g *guest) shown(word C.talc_word, deep int) string {
	switch {
	case word.kind == C.TALC_NONE:
		return "none"
	case word.kind == C.TALC_INT:
		return fmt.Sprint(word.value)
	case word.kind == C.TALC_BLOCK:
		return fmt.Sprint("block ", word.number)
	case deep == 0:
		return "tuple"
	}
	var fields []string
	for {
		field := C.talc_guest_field(g.room, word.number, C.uint64_t(len(fields)))
		if field.kind == C.TALC_NONE {
			return "<" + strings.Join(fields, ", ") + ">"
		}
		fields = append(fields, g.shown(field, deep-1))
	}
}

func (g *guest) state() string {
	place := C.talc_guest_place(g.room)
	first, second := g.shown(C.talc_guest_reg(g.room, 1), depth), g.shown(C.talc_guest_reg(g.room, 2), depth)
	return fmt.Sprintf("at %d.%d, r1: %s, r2: %s", place.block, place.index, first, second)
}

func (g *guest) inSlices() (run, error) {
	var all run
	for !all.halted && all.made < fuel {
		last, err := g.run(slice)
		if err != nil {
			return last, err
		}
		last.made += all.made
		all = last
	}
	return all, nil
}

// teller writes lines on a file.
type teller string

func (t teller) line(text string) { fmt.Printf("%s: %s\n", string(t), text) }

func (t teller) run(what string, r run, err error) {
	if err != nil {
		t.done(what, err)
	} else {
		t.line(what + ": " + r.String())
	}
}

func (t teller) done(what string, err error) {
	if err != nil {
		t.line(what + ": " + err.Error())
	} else {
		t.line(what + ": done")
	}
}

// withCap runs with a cap, and where that stops the guest, goes on with a larger one.
func withCap(g *guest, say teller) {
	g.within(tuples, long)
	r, err := g.run(fuel)
	say.run("with 100 tuples", r, err)
	if err == errMemory {
		say.line(fmt.Sprint("kept: ", g.kept()))
		g.within(long, long)
		r, err = g.run(fuel)
		say.run("with 1000000 tuples", r, err)
	}
}

func takeAssembly(text []byte, say teller) {
	bytes, length := at(text)
	say.done("check", errorOf(C.talc_check(bytes, length)))
	r, err := runOf(C.talc_run(bytes, length, fuel))
	say.run("run", r, err)
	g := newGuest()
	defer g.free()
	if g.load(text) == nil {
		r, err = g.inSlices()
		say.run("slices", r, err)
		say.line(g.state())
		say.done("collect", g.collect())
		say.line(fmt.Sprint("kept: ", g.kept()))
	}
	if g.load(text) == nil {
		withCap(g, say)
	}
	C.talc_heap_bound(most)
	if err = g.load(text); err == nil {
		r, err = g.run(long)
	}
	say.run("within 100000 bytes", r, err)
	C.talc_heap_bound(C.SIZE_MAX)
	g.clear()
	r, err = g.run(1)
	say.run("cleared", r, err)
	say.done("cap of none", g.within(tuples, tuples))
}

// maker is a call that makes something of a text, into a room.
type maker func(room *C.uint8_t, size C.size_t) C.talc_made

// madeOf asks into a small room first, and then into one that is large enough.
func madeOf(say teller, what string, call maker) []byte {
	room := []byte("........")
	m := call(at(room))
	if m.status == C.TALC_SMALL {
		if string(room) != "........" {
			log.Fatal("a room that is too small was written to")
		}
		room = make([]byte, m.length)
		m = call(at(room))
	}
	if err := why(m.status, m.code, m.start, m.end); err != nil {
		say.done(what, err)
	} else {
		say.line(fmt.Sprintf("%s: %d bytes", what, m.length))
	}
	return room[:m.length]
}

func sayLine(made []byte) {
	if len(made) > 0 {
		fmt.Printf("  %s\n", bytes.SplitN(made, []byte("\n"), 2)[0])
	}
}

func takeSource(text []byte, say teller) {
	t, n := at(text)
	compile := func(registers C.uint64_t) maker {
		return func(room *C.uint8_t, size C.size_t) C.talc_made { return C.talc_compile(t, n, registers, room, size) }
	}
	show := func(form C.uint32_t) maker {
		return func(room *C.uint8_t, size C.size_t) C.talc_made { return C.talc_show(t, n, form, room, size) }
	}
	sayLine(madeOf(say, "typeof", func(room *C.uint8_t, size C.size_t) C.talc_made {
		return C.talc_typeof(t, n, room, size)
	}))
	sayLine(madeOf(say, "eval", func(room *C.uint8_t, size C.size_t) C.talc_made {
		return C.talc_eval(t, n, turns, room, size)
	}))
	if made := madeOf(say, "compile", compile(0)); len(made) > 0 {
		code, length := at(made)
		r, err := runOf(C.talc_run(code, length, fuel))
		say.run("compiled", r, err)
	}
	madeOf(say, "compile within 8 registers", compile(8))
	madeOf(say, "compile within 7 registers", compile(7))
	madeOf(say, "show closed", show(C.TALC_CLOSED))
	madeOf(say, "show form 6", show(6))
	sayLine(madeOf(say, "explain", func(room *C.uint8_t, size C.size_t) C.talc_made {
		return C.talc_explain(t, n, room, size)
	}))
}

func main() {
	// (a bound on memory is one of a thread)
	runtime.LockOSThread()
	if C.talc_version() != C.TALC_VERSION || C.talc_compiler_version() != C.TALC_VERSION {
		log.Fatal("libraries of another version")
	}
	for _, path := range os.Args[1:] {
		text, err := os.ReadFile(path)
		if err != nil {
			log.Fatal(err)
		}
		say := teller(filepath.Base(path))
		if strings.HasSuffix(path, ".tal") {
			takeAssembly(text, say)
		} else {
			takeSource(text, say)
		}
	}
	fmt.Printf("held at the end: %d\n", C.talc_heap_held())
}
