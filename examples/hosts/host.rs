// host.rs: what host.c does, in Rust: the guest is a struct that gives back what it holds, and refusals are errors.
use std::fmt;
use std::io::Write;

/// The declarations of talc.h and talc_heap.h.
mod talc {
    #[repr(C)]
    #[derive(Clone, Copy)]
    pub struct Answer {
        pub status: u32,
        pub code: u32,
        pub start: u64,
        pub end: u64,
        pub value: i64,
        pub made: u64,
    }

    #[repr(C)]
    pub struct Word {
        pub kind: u32,
        pub number: u64,
        pub value: i64,
    }

    #[repr(C)]
    pub struct Place {
        pub status: u32,
        pub block: u64,
        pub index: u64,
    }

    #[repr(C)]
    pub struct Made {
        pub status: u32,
        pub code: u32,
        pub start: u64,
        pub end: u64,
        pub length: u64,
    }

    pub type Room = [u64; 64];

    unsafe extern "C" {
        pub fn talc_version() -> u32;
        pub fn talc_compiler_version() -> u32;
        pub fn talc_guest_size() -> usize;
        pub fn talc_check(text: *const u8, length: usize) -> Answer;
        pub fn talc_run(text: *const u8, length: usize, fuel: u64) -> Answer;
        pub fn talc_guest_init(guest: *mut Room);
        pub fn talc_guest_load(guest: *mut Room, text: *const u8, length: usize) -> Answer;
        pub fn talc_guest_run(guest: *mut Room, fuel: u64) -> Answer;
        pub fn talc_guest_collect(guest: *mut Room) -> Answer;
        pub fn talc_guest_within(guest: *mut Room, tuples: u64, fields: u64) -> Answer;
        pub fn talc_guest_kept(guest: *mut Room) -> u64;
        pub fn talc_guest_reg(guest: *mut Room, number: u64) -> Word;
        pub fn talc_guest_field(guest: *mut Room, tuple: u64, field: u64) -> Word;
        pub fn talc_guest_place(guest: *mut Room) -> Place;
        pub fn talc_guest_clear(guest: *mut Room);
        pub fn talc_typeof(text: *const u8, length: usize, room: *mut u8, size: usize) -> Made;
        pub fn talc_eval(text: *const u8, length: usize, turns: u64, room: *mut u8, size: usize) -> Made;
        pub fn talc_compile(text: *const u8, length: usize, registers: u64, room: *mut u8, size: usize) -> Made;
        pub fn talc_show(text: *const u8, length: usize, form: u32, room: *mut u8, size: usize) -> Made;
        pub fn talc_explain(text: *const u8, length: usize, room: *mut u8, size: usize) -> Made;
        pub fn talc_heap_bound(bytes: usize);
        pub fn talc_heap_held() -> usize;
    }
}

const VERSION: u32 = 1;
const FUEL: u64 = 1000;
const SLICE: u64 = 7;
const LONG: u64 = 1_000_000;
const BYTES: usize = 100_000;
const TUPLES: u64 = 100;
const DEPTH: u64 = 2;
const TURNS: u64 = 1000;

/// Why a call gave nothing.
enum Why {
    Fault { code: u32, start: u64, end: u64 },
    OutOfMemory,
    NoSuchThing,
}

impl fmt::Display for Why {
    fn fmt(&self, f: &mut fmt::Formatter) -> fmt::Result {
        match *self {
            Why::Fault { code, start, end } => {
                let (letter, digits) = [("T", 2), ("M", 1), ("E", 2), ("L", 1)][code as usize / 100 - 1];
                write!(f, "{letter}{:0digits$} {start}..{end}", code % 100)
            }
            Why::OutOfMemory => write!(f, "out of memory"),
            Why::NoSuchThing => write!(f, "no such thing"),
        }
    }
}

fn why(status: u32, code: u32, start: u64, end: u64) -> Result<(), Why> {
    match (status, code) {
        (0 | 4, _) => Ok(()),
        (7, _) => Err(Why::OutOfMemory),
        (_, 0) => Err(Why::NoSuchThing),
        _ => Err(Why::Fault { code, start, end }),
    }
}

fn taken(a: talc::Answer) -> Result<talc::Answer, Why> {
    why(a.status, a.code, a.start, a.end).map(|()| a)
}

fn ran(a: talc::Answer, made: u64) -> String {
    match a.status {
        4 => format!("running after {made}"),
        _ => format!("int {} after {made}", a.value),
    }
}

fn said<T>(it: Result<T, Why>, how: impl Fn(&T) -> String) -> String {
    it.map_or_else(|why| why.to_string(), |it| how(&it))
}

/// A program that is loaded once and run a slice at a time.
struct Guest(Box<talc::Room>);

impl Guest {
    fn new() -> Guest {
        let mut room = Box::new([0; 64]);
        unsafe { talc::talc_guest_init(&mut *room) };
        Guest(room)
    }

    fn load(&mut self, text: &[u8]) -> Result<(), Why> {
        taken(unsafe { talc::talc_guest_load(&mut *self.0, text.as_ptr(), text.len()) }).map(|_| ())
    }

    fn run(&mut self, fuel: u64) -> Result<talc::Answer, Why> {
        taken(unsafe { talc::talc_guest_run(&mut *self.0, fuel) })
    }

    fn clear(&mut self) {
        unsafe { talc::talc_guest_clear(&mut *self.0) }
    }

    fn within(&mut self, tuples: u64, fields: u64) -> Result<(), Why> {
        taken(unsafe { talc::talc_guest_within(&mut *self.0, tuples, fields) }).map(|_| ())
    }

    fn kept(&mut self) -> u64 {
        unsafe { talc::talc_guest_kept(&mut *self.0) }
    }

    fn reg(&mut self, number: u64) -> talc::Word {
        unsafe { talc::talc_guest_reg(&mut *self.0, number) }
    }

    /// A field of a tuple, where it has a word.
    fn field(&mut self, tuple: u64, number: u64) -> Option<talc::Word> {
        Some(unsafe { talc::talc_guest_field(&mut *self.0, tuple, number) }).filter(|word| word.kind != 0)
    }

    /// A word, and of a tuple its fields, so many deep.
    fn shown(&mut self, word: talc::Word, depth: u64) -> String {
        match word.kind {
            0 => "none".into(),
            1 => word.value.to_string(),
            2 if depth == 0 => "tuple".into(),
            2 => {
                let fields: Vec<talc::Word> = (0..).map_while(|i| self.field(word.number, i)).collect();
                let shown: Vec<String> = fields.into_iter().map(|it| self.shown(it, depth - 1)).collect();
                format!("<{}>", shown.join(", "))
            }
            _ => format!("block {}", word.number),
        }
    }

    fn state(&mut self) -> String {
        let place = unsafe { talc::talc_guest_place(&mut *self.0) };
        let (first, second) = (self.reg(1), self.reg(2));
        let (first, second) = (self.shown(first, DEPTH), self.shown(second, DEPTH));
        format!("at {}.{}, r1: {first}, r2: {second}", place.block, place.index)
    }
}

impl Drop for Guest {
    fn drop(&mut self) {
        self.clear();
    }
}

fn in_slices(guest: &mut Guest) -> Result<String, Why> {
    let mut made = 0;
    loop {
        let a = guest.run(SLICE)?;
        made += a.made;
        if a.status == 0 || made >= FUEL {
            return Ok(ran(a, made));
        }
    }
}

/// Runs with a cap, and where that stops the guest, goes on with a larger one.
fn with_cap(name: &str, guest: &mut Guest) -> Result<(), Why> {
    guest.within(TUPLES, LONG)?;
    let run = guest.run(FUEL);
    let is_stopped = matches!(run, Err(Why::OutOfMemory));
    println!("{name}: with 100 tuples: {}", said(run, |a| ran(*a, a.made)));
    if is_stopped {
        println!("{name}: kept: {}", guest.kept());
        guest.within(LONG, LONG)?;
        println!("{name}: with 1000000 tuples: {}", said(guest.run(FUEL), |a| ran(*a, a.made)));
    }
    Ok(())
}

fn take_assembly(name: &str, text: &[u8]) {
    let mut guest = Guest::new();
    let run = |fuel| taken(unsafe { talc::talc_run(text.as_ptr(), text.len(), fuel) });
    let checked = taken(unsafe { talc::talc_check(text.as_ptr(), text.len()) });
    println!("{name}: check: {}", said(checked, |_| "done".into()));
    println!("{name}: run: {}", said(run(FUEL), |a| ran(*a, a.made)));
    if guest.load(text).is_ok() {
        println!("{name}: slices: {}", said(in_slices(&mut guest), String::clone));
        println!("{name}: {}", guest.state());
        let collected = taken(unsafe { talc::talc_guest_collect(&mut *guest.0) });
        println!("{name}: collect: {}", said(collected, |_| "done".into()));
        println!("{name}: kept: {}", guest.kept());
    }
    let _ = guest.load(text).and_then(|()| with_cap(name, &mut guest));
    unsafe { talc::talc_heap_bound(BYTES) };
    let bounded = guest.load(text).and_then(|()| guest.run(LONG));
    println!("{name}: within 100000 bytes: {}", said(bounded, |a| ran(*a, a.made)));
    unsafe { talc::talc_heap_bound(usize::MAX) };
    guest.clear();
    println!("{name}: cleared: {}", said(guest.run(1), |a| ran(*a, a.made)));
    println!("{name}: cap of none: {}", said(guest.within(TUPLES, TUPLES), |()| "done".into()));
}

/// Asks into a small room first, and then into one that is large enough.
fn made_of(name: &str, what: &str, call: impl Fn(*mut u8, usize) -> talc::Made) -> Vec<u8> {
    let mut room = vec![b'.'; 8];
    let mut made = call(room.as_mut_ptr(), room.len());
    if made.status == 8 {
        assert_eq!(room, b"........");
        room.resize(made.length as usize, 0);
        made = call(room.as_mut_ptr(), room.len());
    }
    room.truncate(made.length as usize);
    let all = why(made.status, made.code, made.start, made.end);
    println!("{name}: {what}: {}", said(all, |()| format!("{} bytes", made.length)));
    room
}

fn say_line(made: &[u8]) {
    if let Some(line) = made.split(|&byte| byte == b'\n').next().filter(|it| !it.is_empty()) {
        println!("  {}", String::from_utf8_lossy(line));
    }
}

fn take_source(name: &str, it: &[u8]) {
    let (text, length) = (it.as_ptr(), it.len());
    say_line(&made_of(name, "typeof", |room, size| unsafe { talc::talc_typeof(text, length, room, size) }));
    say_line(&made_of(name, "eval", |room, size| unsafe { talc::talc_eval(text, length, TURNS, room, size) }));
    let compile = |registers| move |room, size| unsafe { talc::talc_compile(text, length, registers, room, size) };
    let made = made_of(name, "compile", compile(0));
    if !made.is_empty() {
        let run = taken(unsafe { talc::talc_run(made.as_ptr(), made.len(), FUEL) });
        println!("{name}: compiled: {}", said(run, |a| ran(*a, a.made)));
    }
    made_of(name, "compile within 8 registers", compile(8));
    made_of(name, "compile within 7 registers", compile(7));
    let show = |form| move |room, size| unsafe { talc::talc_show(text, length, form, room, size) };
    made_of(name, "show closed", show(2));
    made_of(name, "show form 6", show(6));
    say_line(&made_of(name, "explain", |room, size| unsafe { talc::talc_explain(text, length, room, size) }));
}

fn main() {
    unsafe {
        assert!(talc::talc_version() == VERSION && talc::talc_compiler_version() == VERSION);
        assert!(talc::talc_guest_size() <= size_of::<talc::Room>());
    }
    for path in std::env::args().skip(1) {
        let text = std::fs::read(&path).expect("a file");
        let name = path.rsplit('/').next().unwrap_or(&path);
        if name.contains(".tal") {
            take_assembly(name, &text);
        } else {
            take_source(name, &text);
        }
    }
    println!("held at the end: {}", unsafe { talc::talc_heap_held() });
    std::io::stdout().flush().expect("the output");
}
