//! A voice of the Rust, called and read.

use super::format::{GIVEN_WORDS, Given, Kind, Left, Render};
use crate::draws::{buffer, canonical, digest_of_buffer, previous};
use crate::functions::random::seeded;
use oracle::debug::Tree;
use oracle::utils::random::get_word;
use std::cell::{Cell, RefCell};
use std::panic::{AssertUnwindSafe, catch_unwind, set_hook, take_hook};
use std::sync::Once;

/// How the Rust halted in a call.
#[derive(Debug, PartialEq, Eq)]
pub enum Halt {
    /// Departure 1: a delay was 2^64 or more, and its sum with the write place overflowed.
    LongDelay,
    /// Any other halt, with the Rust's message.
    Other(String),
}

/// The buffers temp, temp_2, out and aux.
pub type Buffers = [Vec<f32>; 4];

/// A voice of the Rust.
pub trait Voice: Clone {
    const KIND: Kind;

    fn opened(sample_rate: f32) -> Self;

    /// Resets the voice, or says that it has no reset.
    fn reset(&mut self) -> Result<(), Halt>;

    fn render(&mut self, r: &Render, buffers: &mut Buffers);

    /// What it keeps: the words 12 to 34 of a call, and the words 39 and 40.
    fn kept(&self) -> (Vec<u32>, [u32; 2]);
}

/// The voice of a sequence, none before the opening.
pub struct Player<V>(Option<V>);

impl<V> Default for Player<V> {
    fn default() -> Self {
        Player(None)
    }
}

impl<V: Voice> Player<V> {
    /// What the call leaves, or how the Rust halted in it, which then changes nothing.
    pub fn call(&mut self, given: &Given) -> Result<Left, Halt> {
        let none = Buffers::default();
        if let Given::Open { sample_rate } = *given {
            return Ok(left(self.0.insert(V::opened(sample_rate)), 0, &none));
        }
        let voice = self.0.as_mut().ok_or(Halt::Other("no voice is open".into()))?;
        let Given::Render(render) = given else {
            voice.reset()?;
            return Ok(left(voice, 0, &none));
        };
        let mut after = voice.clone();
        let (word, buffers) = caught(|| rendered(&mut after, render))?;
        *voice = after;
        Ok(left(voice, word, &buffers))
    }
}

/// The generator's word and the buffers after a render.
fn rendered(voice: &mut impl Voice, r: &Render) -> (u32, Buffers) {
    let mut buffers = [0, 1, 2, 3].map(|k| buffer(r.frames as usize, r.fill.wrapping_add(k)));
    let following = seeded(r.word, || {
        voice.render(r, &mut buffers);
        get_word()
    });
    (previous(following), buffers)
}

/// The words that a call leaves.
fn left(voice: &impl Voice, word: u32, buffers: &Buffers) -> Left {
    let (kept, digests) = voice.kept();
    let mut words = vec![word];
    words.extend(kept);
    assert!(words.len() <= DIGESTS - GIVEN_WORDS, "every word has its place");
    words.resize(DIGESTS - GIVEN_WORDS, 0);
    words.extend(buffers.each_ref().map(|buffer| digest_of_buffer(buffer)));
    words.extend(digests);
    words.extend(buffers[2].iter().take(16).copied().map(canonical));
    std::array::from_fn(|k| words.get(k).copied().unwrap_or(0))
}

/// The word of a call that holds the first digest.
const DIGESTS: usize = 35;

/// The bits of the fields of these names, in their order.
pub fn numbers(tree: &Tree, names: &[&str]) -> Vec<u32> {
    names.iter().map(|name| canonical(tree.field(name).float())).collect()
}

thread_local! {
    /// Whether a panic of this thread is kept instead of shown.
    static KEPT: Cell<bool> = const { Cell::new(false) };
    /// The place and the message of the last panic that was kept.
    static MESSAGE: RefCell<String> = const { RefCell::new(String::new()) };
}

/// What f gives, or the halt in it, whose message is not shown.
pub fn caught<T>(f: impl FnOnce() -> T) -> Result<T, Halt> {
    static HOOK: Once = Once::new();
    HOOK.call_once(|| {
        let shown = take_hook();
        set_hook(Box::new(move |panic| match KEPT.get() {
            true => MESSAGE.set(panic.to_string().replace('\n', " ")),
            false => shown(panic),
        }));
    });
    KEPT.set(true);
    let answer = catch_unwind(AssertUnwindSafe(f));
    KEPT.set(false);
    answer.map_err(|_| halt(MESSAGE.take()))
}

fn halt(message: String) -> Halt {
    let overflow = "attempt to add with overflow";
    match message.contains("/delay_line.rs:") && message.ends_with(overflow) {
        true => Halt::LongDelay,
        false => Halt::Other(message),
    }
}
