//! A list on the heap: it is built and collected, summed by loads, and summed once more by two threads with views; then
//! it grows until the heap is full. docs/C.md says how the program is built.

mod pauseless;

use pauseless::{Code, Heap, Layout, Policy, Sizes};
use std::process::ExitCode;
use std::sync::RwLock;
use std::thread;

// The thread of the heap, its registers, the global that keeps the list, and the one layout: a reference to the next
// node, and a key.
const ME: u32 = 0;
const TAIL: u32 = 0;
const NODE: u32 = 1;
const HERE: u32 = 2;
const LIST: u32 = 0;
const LAYOUT: Layout = Layout { refs: 1, nums: 1 };
const POLICY: Policy = Policy {
    words: 64,
    free: 1,
    percent: 75,
    budget: 0,
};

/// Starts the list with a node of key 0.
fn start(heap: &mut Heap) -> Result<(), Code> {
    heap.make_with(&POLICY, ME, TAIL, 0, &[], &[0])?;
    heap.store_global(ME, LIST, TAIL)
}

/// Appends a node to the list.
fn append(heap: &mut Heap, key: u64) -> Result<(), Code> {
    heap.make_with(&POLICY, ME, NODE, 0, &[], &[key])?;
    heap.store(ME, TAIL, 0, NODE)?;
    heap.copy(ME, TAIL, NODE)
}

/// Builds the list of 0 to 19, with 50 nodes alongside each that nobody keeps.
fn build(heap: &mut Heap) -> Result<(), Code> {
    start(heap)?;
    for key in 1..20 {
        append(heap, key)?;
        for _ in 0..50 {
            heap.make_with(&POLICY, ME, NODE, 0, &[TAIL], &[key])?;
        }
    }
    heap.clear(ME, NODE)
}

/// Sums the list by loads, and doubles each key.
fn sum(heap: &mut Heap) -> Result<u64, Code> {
    let mut total = 0;
    heap.load_global(ME, HERE, LIST)?;
    while !heap.is_null(ME, HERE)? {
        let key = heap.get(ME, HERE, 0)?;
        heap.set(ME, HERE, 0, 2 * key)?;
        heap.load(ME, HERE, HERE, 0)?;
        total += key;
    }
    Ok(total)
}

/// Sums the list by a view.
fn viewed_sum(heap: &Heap) -> Result<u64, Code> {
    let mut total = 0;
    let mut here = heap.view_global(LIST)?;
    while let Some(node) = here {
        total += heap.view_get(node, 0)?;
        here = heap.view_load(node, 0)?;
    }
    Ok(total)
}

/// Appends nodes until a call fails, and returns its code.
fn fill(heap: &mut Heap) -> Code {
    loop {
        if let Err(code) = append(heap, 0) {
            return code;
        }
    }
}

/// Clears all roots of the list, so that the next object that is made finds a collected heap.
fn forget(heap: &mut Heap) -> Result<(), Code> {
    for register in [TAIL, NODE, HERE] {
        heap.clear(ME, register)?;
    }
    heap.store_global(ME, LIST, TAIL)
}

fn run() -> Result<(), Code> {
    let mut heap = Heap::new(&Sizes::usual(64, 8), &[LAYOUT])?;
    build(&mut heap)?;
    println!("live {}", heap.collect(75)?.live);
    println!("sum {}", sum(&mut heap)?);

    let shared = RwLock::new(heap);
    let view = || viewed_sum(&shared.read().unwrap());
    let (left, right) = thread::scope(|scope| {
        let (left, right) = (scope.spawn(view), scope.spawn(view));
        (left.join().unwrap(), right.join().unwrap())
    });
    println!("views {} {}", left?, right?);

    let mut heap = shared.into_inner().unwrap();
    println!("register 16: {}", heap.clear(ME, 16).unwrap_err());
    let code = fill(&mut heap);
    println!("full: {code}");
    assert_eq!(code, Code::NO_FRAMES);
    forget(&mut heap)?;
    start(&mut heap)?;
    println!("live {}", heap.collect(75)?.live);
    heap.verify()
}

fn main() -> ExitCode {
    match run() {
        Ok(()) => ExitCode::SUCCESS,
        Err(code) => {
            eprintln!("list: {code}");
            ExitCode::FAILURE
        }
    }
}
