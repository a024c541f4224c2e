//! A heap written by hand in plain Rust, with the same steps of threads as the library's, the same
//! tests in the same order and the same refusals (docs/STEPS.md): what `bench/calls.py` puts beside
//! the library's calls. It has no collector, so it stays in `Idle` and no page is ever protected;
//! the tests of phase, page state and NMT bit are made all the same.
//!
//! `plain MIX COUNT` does turns of a mix of `crates/bench_calls/src/mixes.rt`, and prints what they give.

use std::{collections::BTreeSet, env, error::Error, hint::black_box};

/// The bit of a reference word that says whether a mark has seen it.
const NMT: u64 = 1 << 63;

#[derive(Clone, Copy, PartialEq, Eq)]
#[allow(dead_code)] // The collector, which isn't here, sets the other phases.
enum Phase { Idle, MarkCrossing, Scanning, ProtectCrossing, Relocating }

#[derive(Clone, Copy, PartialEq, Eq)]
#[allow(dead_code)] // The collector, which isn't here, sets the last three.
enum PageState { Unused, Open, Closed, From, Gone }

/// Why a step isn't done. A refused step changes nothing.
#[derive(Clone, Copy, Debug, PartialEq, Eq)]
enum Refusal {
    NoActor, BadIndex, Parked, Busy, NotBusy, Null, Stall, Stale, NoRoom, HasBuffer, NoFrames,
    NoPages, Births,
}

fn refuse(due: bool, refusal: Refusal) -> Result<(), Refusal> {
    if due { Err(refusal) } else { Ok(()) }
}

#[derive(Clone, Copy)]
struct Layout { refs: u8, nums: u8 }

#[derive(Clone, Copy)]
struct Page { state: PageState, frame: Option<u32>, top: u32 }

/// Words of a page that a thread may still fill, the first of which stands at `place`.
#[derive(Clone, Copy)]
struct Buffer { page: u32, next: u32, end: u32, place: usize }

/// Where a reference was loaded from: a field's address, or a global.
#[derive(Clone, Copy)]
enum Source { Field(u64), Global(u32) }

/// A load that isn't finished: the word as it was loaded, and as it is so far.
#[derive(Clone, Copy)]
struct Barrier { target: u32, source: Source, raw: u64, now: u64, healed: bool }

struct Thread { registers: Box<[u64]>, buffer: Option<Buffer>, barrier: Option<Barrier>, parked: bool, crossed: bool }

impl Thread {
    fn register(&self, number: u32) -> Result<u64, Refusal> {
        self.registers.get(number as usize).copied().ok_or(Refusal::BadIndex)
    }

    /// The last leading tests of a step that isn't of a barrier.
    fn is_free(&self) -> Result<(), Refusal> {
        refuse(self.parked, Refusal::Parked)?;
        refuse(self.barrier.is_some(), Refusal::Busy)
    }
}

fn set_bit(bits: &mut [u64], place: u64) {
    bits[place as usize / 64] |= 1 << (place % 64);
}

/// Clears so many bits, a power of two, from a multiple of it on.
fn clear_bits(bits: &mut [u64], start: usize, count: usize) {
    if count < 64 {
        bits[start / 64] &= !(((1 << count) - 1) << (start % 64));
    } else {
        bits[start / 64..(start + count) / 64].fill(0);
    }
}

/// The reference that 64 bits in memory are; what is no word counts as null.
fn read_reference(bits: u64) -> u64 {
    let address = bits & !NMT;
    if address == 0 || address >= 1 << 40 { 0 } else { bits }
}

/// The heap. `words` is the memory of all frames; `starts` and `mark` have a bit for each address.
/// `roomy` has the open pages with words left, `unused` the unused pages, and `spare` the free
/// frames. The page of number 0 is never used.
struct Heap {
    words: Vec<u64>,
    pages: Vec<Page>,
    roomy: BTreeSet<u32>,
    unused: BTreeSet<u32>,
    spare: BTreeSet<u32>,
    starts: Vec<u64>,
    mark: Vec<u64>,
    shift: u32,
    mask: u64,
    layouts: Vec<Layout>,
    threads: Vec<Thread>,
    globals: Vec<u64>,
    phase: Phase,
    nmt: u64,
    births: u64,
    most_births: u64,
}

/// Making a heap, and what steps are made of.
impl Heap {
    /// So many frames of so many words, a power of two, one thread of 16 registers, and 64 globals.
    fn empty(words: usize, frames: u32, layouts: Vec<Layout>) -> Heap {
        let pages = 2 * frames as usize + 1;
        let registers = vec![0; 16].into_boxed_slice();
        Heap {
            words: vec![0; words * frames as usize],
            pages: vec![Page { state: PageState::Unused, frame: None, top: 0 }; pages],
            roomy: BTreeSet::new(),
            unused: (1..=2 * frames).collect(),
            spare: (0..frames).collect(),
            starts: vec![0; (pages * words).div_ceil(64)],
            mark: vec![0; (pages * words).div_ceil(64)],
            shift: words.trailing_zeros(),
            mask: words as u64 - 1,
            layouts,
            threads: vec![Thread { registers, buffer: None, barrier: None, parked: false, crossed: true }],
            globals: vec![0; 64],
            phase: Phase::Idle,
            nmt: 0,
            births: 0,
            most_births: 1 << 32,
        }
    }

    fn thread(&self, thread: u32) -> Result<&Thread, Refusal> {
        self.threads.get(thread as usize).ok_or(Refusal::NoActor)
    }

    /// The leading tests of a step with one register: its word, and whether the thread has crossed.
    fn one(&self, thread: u32, register: u32) -> Result<(u64, bool), Refusal> {
        let actor = self.thread(thread)?;
        let word = actor.register(register)?;
        actor.is_free()?;
        Ok((word, actor.crossed))
    }

    /// The same of a step with two registers.
    fn two(&self, thread: u32, left: u32, right: u32) -> Result<(u64, u64, bool), Refusal> {
        let actor = self.thread(thread)?;
        let (left, right) = (actor.register(left)?, actor.register(right)?);
        actor.is_free()?;
        Ok((left, right, actor.crossed))
    }

    /// The same of a step of a barrier, which has to be open.
    fn barrier(&self, thread: u32) -> Result<(&Barrier, bool), Refusal> {
        let actor = self.thread(thread)?;
        refuse(actor.parked, Refusal::Parked)?;
        Ok((actor.barrier.as_ref().ok_or(Refusal::NotBusy)?, actor.crossed))
    }

    fn page(&self, word: u64) -> Option<&Page> {
        self.pages.get(((word & !NMT) >> self.shift) as usize)
    }

    /// Whether a thread may use a word. Null is on the page that is never used.
    fn usable_or_null(&self, word: u64, crossed: bool) -> Result<(), Refusal> {
        match (self.page(word).map(|page| page.state), self.phase) {
            (Some(PageState::From | PageState::Gone), Phase::ProtectCrossing) => refuse(crossed, Refusal::Stall),
            (Some(PageState::From | PageState::Gone), _) => Err(Refusal::Stale),
            _ => Ok(()),
        }
    }

    /// Where the word of an address stands.
    fn place(&self, address: u64) -> Option<usize> {
        let frame = self.page(address)?.frame?;
        Some(((frame as usize) << self.shift) + (address & self.mask) as usize)
    }

    /// Where the object of a register's word stands that may be used, and its layout.
    fn object(&self, word: u64, crossed: bool) -> Result<(usize, Layout), Refusal> {
        refuse(word == 0, Refusal::Null)?;
        self.usable_or_null(word, crossed)?;
        let place = self.place(word).ok_or(Refusal::BadIndex)?;
        let header = self.words.get(place).ok_or(Refusal::BadIndex)?;
        let layout = self.layouts.get((header >> 32) as usize).ok_or(Refusal::BadIndex)?;
        Ok((place, *layout))
    }

    fn reference_at(&self, word: u64, crossed: bool, field: u32) -> Result<usize, Refusal> {
        let (place, layout) = self.object(word, crossed)?;
        refuse(field >= u32::from(layout.refs), Refusal::BadIndex)?;
        Ok(place + 1 + field as usize)
    }

    fn datum_at(&self, word: u64, crossed: bool, index: u32) -> Result<usize, Refusal> {
        let (place, layout) = self.object(word, crossed)?;
        refuse(index >= u32::from(layout.nums), Refusal::BadIndex)?;
        Ok(place + 1 + usize::from(layout.refs) + index as usize)
    }

    fn nmt_trap_due(&self, word: u64, crossed: bool) -> bool {
        let may_trap = self.phase == Phase::Scanning || (self.phase == Phase::MarkCrossing && crossed);
        may_trap && word != 0 && word & NMT != self.nmt
    }

    fn trap_due(&self, word: u64, crossed: bool) -> bool {
        self.usable_or_null(word, crossed).is_err() || self.nmt_trap_due(word, crossed)
    }

    /// Opens the lowest unused page on the lowest free frame.
    fn open(&mut self) -> Result<u32, Refusal> {
        let frame = *self.spare.first().ok_or(Refusal::NoFrames)?;
        let page = self.unused.pop_first().ok_or(Refusal::NoPages)?;
        self.spare.pop_first();
        self.roomy.insert(page);
        self.pages[page as usize] = Page { state: PageState::Open, frame: Some(frame), top: 0 };
        let (place, words) = ((frame as usize) << self.shift, 1 << self.shift);
        self.words[place..place + words].fill(0);
        clear_bits(&mut self.starts, page as usize * words, words);
        clear_bits(&mut self.mark, page as usize * words, words);
        Ok(page)
    }

    /// Words of the lowest open page with room, else of a fresh page.
    fn lend(&mut self, words: u32) -> Result<Buffer, Refusal> {
        let all = 1 << self.shift;
        let has_room = |page: &u32| all - self.pages[*page as usize].top >= words;
        let page = match self.roomy.iter().copied().find(has_room) {
            Some(page) => page,
            None => self.open()?,
        };
        let record = &mut self.pages[page as usize];
        let (next, end) = (record.top, record.top + words);
        record.top = end;
        let frame = record.frame.ok_or(Refusal::NoFrames)?;
        if end == all {
            self.roomy.remove(&page);
        }
        Ok(Buffer { page, next, end, place: ((frame as usize) << self.shift) + next as usize })
    }

    /// Makes an object at the head of a buffer, whose words are all 0. Gives its word.
    fn bear(&mut self, buffer: Buffer, layout: u32) -> u64 {
        let address = (u64::from(buffer.page) << self.shift) + u64::from(buffer.next);
        self.words[buffer.place] = u64::from(layout) << 32 | self.births;
        self.births += 1;
        set_bit(&mut self.starts, address);
        if matches!(self.phase, Phase::MarkCrossing | Phase::Scanning) {
            set_bit(&mut self.mark, address);
        }
        address | self.nmt
    }
}

/// The steps of threads.
impl Heap {
    fn take(&mut self, thread: u32, words: u32) -> Result<(u32, u32), Refusal> {
        let actor = self.thread(thread)?;
        refuse(words == 0 || words > 1 << self.shift, Refusal::BadIndex)?;
        actor.is_free()?;
        refuse(actor.buffer.is_some(), Refusal::HasBuffer)?;
        let buffer = self.lend(words)?;
        self.threads[thread as usize].buffer = Some(buffer);
        Ok((buffer.page, buffer.next))
    }

    fn give_back(&mut self, thread: u32) -> Result<(), Refusal> {
        let actor = self.thread(thread)?;
        actor.is_free()?;
        refuse(actor.buffer.is_none(), Refusal::NoRoom)?;
        self.threads[thread as usize].buffer = None;
        Ok(())
    }

    fn new(&mut self, thread: u32, target: u32, layout: u32) -> Result<u64, Refusal> {
        let actor = self.thread(thread)?;
        actor.register(target)?;
        let shape = self.layouts.get(layout as usize).ok_or(Refusal::BadIndex)?;
        actor.is_free()?;
        let buffer = actor.buffer.ok_or(Refusal::NoRoom)?;
        let size = 1 + u32::from(shape.refs) + u32::from(shape.nums);
        refuse(buffer.end - buffer.next < size, Refusal::NoRoom)?;
        refuse(self.births >= self.most_births, Refusal::Births)?;
        let birth = self.births;
        let word = self.bear(buffer, layout);
        let rest = Buffer { next: buffer.next + size, place: buffer.place + size as usize, ..buffer };
        let actor = &mut self.threads[thread as usize];
        actor.buffer = Some(rest);
        actor.registers[target as usize] = word;
        Ok(birth)
    }

    fn load(&mut self, thread: u32, target: u32, object: u32, field: u32) -> Result<(), Refusal> {
        let (_, word, crossed) = self.two(thread, target, object)?;
        let place = self.reference_at(word, crossed, field)?;
        let raw = read_reference(*self.words.get(place).ok_or(Refusal::BadIndex)?);
        let source = Source::Field((word & !NMT) + 1 + u64::from(field));
        self.threads[thread as usize].barrier = Some(Barrier { target, source, raw, now: raw, healed: false });
        Ok(())
    }

    fn load_global(&mut self, thread: u32, target: u32, global: u32) -> Result<(), Refusal> {
        let actor = self.thread(thread)?;
        actor.register(target)?;
        let raw = *self.globals.get(global as usize).ok_or(Refusal::BadIndex)?;
        actor.is_free()?;
        let source = Source::Global(global);
        self.threads[thread as usize].barrier = Some(Barrier { target, source, raw, now: raw, healed: false });
        Ok(())
    }

    /// Whether a trap was due. A GC trap is refused, where the library would move the object.
    fn trap(&mut self, thread: u32) -> Result<bool, Refusal> {
        let (barrier, crossed) = self.barrier(thread)?;
        self.usable_or_null(barrier.now, crossed)?;
        if !self.nmt_trap_due(barrier.now, crossed) {
            return Ok(false);
        }
        let address = barrier.now & !NMT;
        let marked = Barrier { now: address | self.nmt, ..*barrier };
        set_bit(&mut self.mark, address);
        self.threads[thread as usize].barrier = Some(marked);
        Ok(true)
    }

    /// Whether the place of the load still had what was loaded, and was written.
    fn heal(&mut self, thread: u32) -> Result<bool, Refusal> {
        let (&barrier, crossed) = self.barrier(thread)?;
        refuse(self.trap_due(barrier.now, crossed), Refusal::Busy)?;
        self.threads[thread as usize].barrier = Some(Barrier { healed: true, ..barrier });
        let word = match barrier.source {
            Source::Field(address) => self.place(address).and_then(|place| self.words.get_mut(place)),
            Source::Global(number) => self.globals.get_mut(number as usize),
        };
        let unchanged = word.filter(|word| **word == barrier.raw);
        Ok(unchanged.map(|word| *word = barrier.now).is_some())
    }

    fn finish(&mut self, thread: u32) -> Result<(), Refusal> {
        let (barrier, crossed) = self.barrier(thread)?;
        let (target, word) = (barrier.target, barrier.now);
        refuse(self.trap_due(word, crossed) || !(barrier.healed || word == barrier.raw), Refusal::Busy)?;
        let actor = &mut self.threads[thread as usize];
        actor.registers[target as usize] = word;
        actor.barrier = None;
        Ok(())
    }

    fn store(&mut self, thread: u32, object: u32, field: u32, source: u32) -> Result<(), Refusal> {
        let (word, stored, crossed) = self.two(thread, object, source)?;
        let place = self.reference_at(word, crossed, field)?;
        self.usable_or_null(stored, crossed)?;
        self.words[place] = stored;
        Ok(())
    }

    fn store_global(&mut self, thread: u32, global: u32, source: u32) -> Result<(), Refusal> {
        let actor = self.thread(thread)?;
        let word = actor.register(source)?;
        refuse(global as usize >= self.globals.len(), Refusal::BadIndex)?;
        actor.is_free()?;
        self.usable_or_null(word, actor.crossed)?;
        self.globals[global as usize] = word;
        Ok(())
    }

    fn datum(&self, thread: u32, object: u32, index: u32) -> Result<u64, Refusal> {
        let (word, crossed) = self.one(thread, object)?;
        let place = self.datum_at(word, crossed, index)?;
        self.words.get(place).copied().ok_or(Refusal::BadIndex)
    }

    fn set_datum(&mut self, thread: u32, object: u32, index: u32, value: u64) -> Result<(), Refusal> {
        let (word, crossed) = self.one(thread, object)?;
        let place = self.datum_at(word, crossed, index)?;
        self.words[place] = value;
        Ok(())
    }

    fn same(&self, thread: u32, left: u32, right: u32) -> Result<bool, Refusal> {
        let (left, right, crossed) = self.two(thread, left, right)?;
        self.usable_or_null(left, crossed)?;
        self.usable_or_null(right, crossed)?;
        Ok(left & !NMT == right & !NMT)
    }

    fn is_null(&self, thread: u32, register: u32) -> Result<bool, Refusal> {
        Ok(self.one(thread, register)?.0 == 0)
    }

    fn copy_register(&mut self, thread: u32, target: u32, source: u32) -> Result<(), Refusal> {
        let (_, word, _) = self.two(thread, target, source)?;
        self.threads[thread as usize].registers[target as usize] = word;
        Ok(())
    }

    fn clear_register(&mut self, thread: u32, target: u32) -> Result<(), Refusal> {
        self.one(thread, target)?;
        self.threads[thread as usize].registers[target as usize] = 0;
        Ok(())
    }
}

const THREAD: u32 = 0;
const WORDS: u32 = 4_096;
const OBJECTS: u32 = 1_365;
const LAST: u32 = 0;
const OTHER: u32 = 1;

/// Does so many turns, and adds up what they give.
fn repeat(count: u32, mut turn: impl FnMut(u32) -> Result<u64, Refusal>) -> Result<u64, Refusal> {
    let mut sum = 0u64;
    for number in 0..count {
        sum = sum.wrapping_add(turn(number)?);
    }
    Ok(sum)
}

/// Puts so many objects before the list, in the buffer that is there.
fn link(heap: &mut Heap, count: u32) -> Result<u64, Refusal> {
    repeat(count, |_| {
        heap.new(THREAD, OTHER, 0)?;
        heap.store(THREAD, OTHER, 0, LAST)?;
        heap.copy_register(THREAD, LAST, OTHER)?;
        Ok(1)
    })
}

fn build(heap: &mut Heap, count: u32) -> Result<u64, Refusal> {
    repeat(count.div_ceil(OBJECTS), |page| {
        heap.take(THREAD, WORDS)?;
        let made = link(heap, OBJECTS.min(count - page * OBJECTS))?;
        heap.give_back(THREAD)?;
        Ok(made)
    })
}

fn end_load(heap: &mut Heap) -> Result<(), Refusal> {
    if heap.trap(THREAD)? {
        heap.heal(THREAD)?;
    }
    heap.finish(THREAD)
}

fn data(heap: &mut Heap, count: u32) -> Result<u64, Refusal> {
    repeat(count, |turn| {
        heap.set_datum(THREAD, LAST, 0, u64::from(turn))?;
        heap.datum(THREAD, LAST, 0)
    })
}

fn walk(heap: &mut Heap, count: u32) -> Result<u64, Refusal> {
    repeat(count, |_| {
        heap.load(THREAD, LAST, LAST, 0)?;
        end_load(heap)?;
        let has_ended = heap.is_null(THREAD, LAST)?;
        if has_ended {
            heap.copy_register(THREAD, LAST, OTHER)?;
        }
        Ok(u64::from(has_ended))
    })
}

fn registers(heap: &mut Heap, count: u32) -> Result<u64, Refusal> {
    repeat(count, |_| {
        heap.copy_register(THREAD, OTHER, LAST)?;
        let same = heap.same(THREAD, LAST, OTHER)?;
        let null = heap.is_null(THREAD, OTHER)?;
        heap.clear_register(THREAD, OTHER)?;
        Ok(u64::from(same != null))
    })
}

fn globals(heap: &mut Heap, count: u32) -> Result<u64, Refusal> {
    repeat(count, |_| {
        heap.store_global(THREAD, 0, LAST)?;
        heap.load_global(THREAD, OTHER, 0)?;
        end_load(heap)?;
        Ok(1)
    })
}

fn main() -> Result<(), Box<dyn Error>> {
    let mut words = env::args().skip(1);
    let mix = words.next().ok_or("no mix is named")?;
    let count = words.next().ok_or("no count is named")?.parse()?;
    let (frames, turns): (u32, fn(&mut Heap, u32) -> Result<u64, Refusal>) = match mix.as_str() {
        "data" => (1, data),
        "build" => (4_096, |heap, count| build(heap, count).map(|_| heap.births)),
        "walk" => (1, walk),
        "registers" => (1, registers),
        "globals" => (1, globals),
        _ => return Err("no such mix".into()),
    };
    // The compiler isn't to know what the heap holds, least of all its phase. The memory is written
    // before the turns, as the library's is.
    let mut heap = black_box(Heap::empty(WORDS as usize, frames, vec![Layout { refs: 1, nums: 1 }]));
    heap.words.fill(0);
    let done = build(&mut heap, 1_000).and_then(|_| turns(&mut heap, count));
    println!("{}", done.map_err(|refusal| format!("refused {refusal:?}"))?);
    Ok(())
}
