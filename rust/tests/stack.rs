//! The stack that a call needs, on tables as deep as a table can be: at most [`quelomavunt::STACK_BYTES`], and for all
//! but the calls that walk down a type less than 8 KiB, as measured on memory that is filled before the call and looked
//! at after it (what a call reserves and never writes is not seen); and a thread with no more than that makes every
//! call. `tools/stack` prints what each call took.

mod support;

use std::ffi::{c_int, c_void};
use support::*;

/// The bytes of the stack on which a call is measured.
const MEASURED: usize = 2 << 20;
/// What a call takes that does not walk down a type.
const FLAT: usize = 8 << 10;
/// The calls that walk down a type.
const WALKERS: [&str; 4] = ["from_compact_bits", "to_compact_bits", "compact_len", "prune"];
/// What the memory of a stack holds before it is used.
const FRESH: u8 = 0xA7;

/// A table of 1,024 nodes: those given, and a chain on top of them, each node made of the last one and unit.
fn grown(mut table: Zoo, kind: u8, left: bool) -> Zoo {
    while table.kinds.len() < 1024 {
        let last = (table.kinds.len() - 1) as u16;
        if left {
            table.push(kind, last, 0);
        } else {
            table.push(kind, 0, last);
        }
    }
    table.fill();
    table
}

/// The deepest types: a chain on unit or on 2 + 2 × 2, of products or sums, that goes down on the left or on the right.
fn deepest(padded: bool, kind: u8, left: bool) -> Zoo {
    let nodes = if padded { 4 } else { 1 };
    let of = |column: [u16; 4]| column[..nodes].to_vec();
    let bottom = Zoo {
        kinds: vec![0, 1, 2, 1][..nodes].to_vec(),
        lefts: of([0, 0, 1, 1]),
        rights: of([0, 0, 1, 2]),
        groups: vec![],
        count: 0,
    };
    grown(bottom, kind, left)
}

/// The deepest types, each with a byte of tags that lead down the chain.
fn deepest_tables() -> Vec<(Zoo, u8)> {
    let mut all = Vec::new();
    for padded in [true, false] {
        all.push((deepest(padded, 2, true), 0x00));
        all.push((deepest(padded, 2, false), 0x00));
        all.push((deepest(padded, 1, true), 0x00));
        all.push((deepest(padded, 1, false), 0xFF));
    }
    all
}

/// A table's file: numbers in groups of seven bits.
fn file_of(table: &Zoo) -> Vec<u8> {
    let mut file = Vec::new();
    let mut number = |n: u16| {
        if n > 127 {
            file.push(n as u8 | 0x80);
            file.push((n >> 7) as u8);
        } else {
            file.push(n as u8);
        }
    };
    number(table.count as u16);
    for node in 0..table.kinds.len() {
        number(u16::from(table.kinds[node]));
        if table.kinds[node] != 0 {
            number(table.lefts[node]);
            number(table.rights[node]);
        }
    }
    file
}

/// What a call is asked on deep tables: over each its last type wherever a type is named, then the one below it as the
/// result. Each with room and without, and with a long stream and one that ends early.
fn deep_worlds(call: &Call) -> Vec<World> {
    let mut all = Vec::new();
    for (table, fill) in deepest_tables() {
        for node in [1023, 1022] {
            let mut world = call.good_world();
            world.table = table.clone();
            if call.name == "read_table" {
                world.data = file_of(&table);
            }
            world.a = (vec![fill; 4096], 3, 1023);
            world.b = world.a.clone();
            (world.node, world.other) = (node, node);
            (world.stream, world.length, world.position) = (vec![fill; 4096], 8 * 4096, 2);
            world.out = vec![0x77; 4096];
            let mut cramped = world.clone();
            cramped.out.clear();
            let mut short = world.clone();
            short.length = short.position + table.width(node).saturating_sub(1);
            all.extend([world, cramped, short]);
        }
    }
    all
}

/// What the call accepts, over a table of 1,024 nodes.
fn good_world(call: &Call) -> World {
    let mut good = call.good_world();
    good.table = grown(good.table, 2, true);
    good
}

struct Asked<'a> {
    call: &'a Call,
    world: World,
    code: u64,
}

extern "C" fn ask(asked: *mut c_void) -> *mut c_void {
    // The caller's own, and nobody else's while the thread runs.
    let asked = unsafe { &mut *asked.cast::<Asked>() };
    asked.code = (asked.call.run)(&mut asked.world);
    std::ptr::null_mut()
}

extern "C" fn ask_nothing(_: *mut c_void) -> *mut c_void {
    std::ptr::null_mut()
}

/// Room for a `pthread_attr_t` of any system that this runs on.
#[repr(C, align(16))]
struct Attributes([u8; 128]);

unsafe extern "C" {
    fn pthread_attr_init(attributes: *mut Attributes) -> c_int;
    fn pthread_attr_setstack(attributes: *mut Attributes, from: *mut c_void, bytes: usize) -> c_int;
    fn pthread_create(
        thread: *mut usize,
        attributes: *const Attributes,
        start: extern "C" fn(*mut c_void) -> *mut c_void,
        argument: *mut c_void,
    ) -> c_int;
    fn pthread_join(thread: usize, answer: *mut *mut c_void) -> c_int;
}

/// How many bytes of its stack a thread touched that ran this.
fn touched(start: extern "C" fn(*mut c_void) -> *mut c_void, argument: *mut c_void) -> usize {
    let mut memory = vec![FRESH; MEASURED + 4096];
    let skip = memory.as_ptr().align_offset(4096);
    let stack = &mut memory[skip..skip + MEASURED];
    let mut attributes = Attributes([0; 128]);
    let mut thread = 0;
    // The stack is ours until the thread has ended.
    unsafe {
        assert_eq!(pthread_attr_init(&mut attributes), 0);
        assert_eq!(pthread_attr_setstack(&mut attributes, stack.as_mut_ptr().cast(), MEASURED), 0);
        assert_eq!(pthread_create(&mut thread, &attributes, start, argument), 0);
        assert_eq!(pthread_join(thread, std::ptr::null_mut()), 0);
    }
    MEASURED - stack.iter().take_while(|byte| **byte == FRESH).count()
}

#[test]
fn no_call_needs_more_than_it_says() {
    let idle = touched(ask_nothing, std::ptr::null_mut());
    for call in calls() {
        let took = |world: World| {
            let mut asked = Asked { call: &call, world, code: u64::MAX };
            let bytes = touched(ask, (&raw mut asked).cast()).saturating_sub(idle);
            (bytes, asked.code == 0)
        };
        let (mut most, accepted) = took(good_world(&call));
        assert!(accepted, "{} accepted nothing", call.name);
        let mut deep = 0;
        for world in deep_worlds(&call) {
            let (bytes, accepted) = took(world);
            most = most.max(bytes);
            deep += u64::from(accepted);
        }
        println!("{:24}{most:>8} bytes", call.name);
        if WALKERS.contains(&call.name) {
            assert!(deep >= 8, "{} accepted only {deep} of the deepest types", call.name);
            assert!(most > 1000 * 64, "{} did not go down: {most} bytes", call.name);
            assert!(most <= quelomavunt::STACK_BYTES, "{} took {most} bytes of stack", call.name);
        } else {
            assert!(most < FLAT, "{} took {most} bytes of stack", call.name);
        }
    }
}

#[test]
fn a_thread_of_that_size_makes_every_call() {
    let ran = std::thread::Builder::new().stack_size(quelomavunt::STACK_BYTES).spawn(|| {
        let mut accepted = 0;
        for call in calls() {
            for mut world in deep_worlds(&call).into_iter().chain([good_world(&call)]) {
                accepted += usize::from((call.run)(&mut world) == 0);
            }
        }
        accepted
    });
    let accepted = ran.expect("a thread").join().expect("no call fails");
    assert!(accepted >= calls().len() + 8 * WALKERS.len(), "{accepted} answers were accepted");
}
