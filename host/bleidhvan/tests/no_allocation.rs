//! A sheet is played, and refused, without a request for memory.

use bleidhvan::{Bank, Event, Kind, Knobs, Refusal};
use std::alloc::{GlobalAlloc, Layout, System};
use std::cell::Cell;
use std::hint::black_box;

/// The system's allocator, which counts what a thread asks of it.
struct Counting;

thread_local! {
    static ASKED: Cell<usize> = const { Cell::new(0) };
}

fn count() {
    ASKED.set(ASKED.get() + 1);
}

unsafe impl GlobalAlloc for Counting {
    unsafe fn alloc(&self, layout: Layout) -> *mut u8 {
        count();
        unsafe { System.alloc(layout) }
    }

    unsafe fn dealloc(&self, at: *mut u8, layout: Layout) {
        count();
        unsafe { System.dealloc(at, layout) }
    }

    unsafe fn realloc(&self, at: *mut u8, layout: Layout, size: usize) -> *mut u8 {
        count();
        unsafe { System.realloc(at, layout, size) }
    }
}

#[global_allocator]
static ALLOCATOR: Counting = Counting;

/// How often memory is asked for or given back in a call.
fn asked(call: impl FnOnce()) -> usize {
    let before = ASKED.get();
    call();
    ASKED.get() - before
}

#[test]
fn the_allocator_counts() {
    assert_eq!(asked(|| drop(black_box(vec![0; 100]))), 2);
}

#[test]
fn a_sheet_is_played_without_memory() {
    let mut bank = Bank::new(33);
    for slot in 0..7 {
        let kind = if slot % 2 == 0 { Kind::String } else { Kind::Modal };
        bank.open(slot, kind, 48000.0).expect("the opening is accepted");
    }
    let strike = Knobs { trigger: true, ..Knobs::default() };
    let sheet: Vec<Event> =
        (0..70).map(|k| Event { frame: k, slot: k % 9, knobs: strike }).collect();
    let mut buffers = [0; 4].map(|_| vec![0.0; 128]);
    for events in [0, 1, 64, 65, 70] {
        let mut lent = buffers.each_mut().map(|buffer| &mut buffer[..]);
        let mut given = Ok(0);
        let asked = asked(|| {
            let lent = lent.each_mut().map(|buffer| &mut buffer[..]);
            let answers = bank.play(&sheet[..events], lent);
            given = answers.map(|answers| answers.iter().filter(|answer| answer.is_ok()).count());
        });
        assert_eq!(asked, 0, "{events} events");
        let accepted = sheet[..events].iter().filter(|event| event.slot < 7).count();
        let refused = Err(Refusal::TooMany { events });
        assert_eq!(given, if events > 64 { refused } else { Ok(accepted) });
    }
}
