//! A list of calls, made on both sides and compared after each.

use crate::list::List;
use crate::same::{same, same_buffers, same_floats, same_words};
use bleidhvan::raw::{self, Answer, SLOT_BYTES};
use bleidhvan::{Counts, Knobs, layout};
use record::banks::bank::Bank;
use record::banks::format::{Asked, Call, Lent, MEMORY};
use record::draws::buffer;
use record::voices::format::Render;
use record::voices::player::{Buffers, Halt};

/// The numbers of line memory that a slot owns.
const OWN: usize = 1280;

/// What was compared.
#[derive(Debug, Default, Clone, Copy)]
pub struct Tally {
    pub lists: u64,
    pub calls: u64,
    pub refused: u64,
    /// Accepted renders, of which so many were heard on both sides.
    pub blocks: u64,
    pub heard: u64,
    pub samples: u64,
    /// Blocks that left a number which is not finite, or a denormal one.
    pub non_finite: u64,
    pub denormal: u64,
    /// How often a voice was stopped at each of the three departures.
    pub departures: [u64; 3],
}

/// Where the two sides part.
#[derive(Debug)]
pub struct Difference {
    pub call: usize,
    pub text: String,
}

/// The port's side: what crosses.
struct Port {
    bytes: Vec<u8>,
    lines: Vec<f32>,
    word: u32,
    /// What the next render is told of the processor.
    slow: bool,
}

impl Port {
    fn call(&mut self, call: &Call, lines: usize, buffers: &mut Buffers) -> Answer {
        let Port { bytes, lines: all, word, slow } = self;
        let slot = call.slot as usize;
        let lines = &mut all[..lines];
        let number = match call.asked {
            Asked::Open { kind, sample_rate } => raw::open(bytes, lines, slot, kind, sample_rate),
            Asked::Reset => raw::reset(bytes, lines, slot),
            Asked::Render(render) => {
                let buffers = buffers.each_mut().map(|buffer| &mut buffer[..]);
                let knobs = knobs_of(&render);
                return raw::render(bytes, lines, word, slot, &knobs, buffers, *slow);
            }
        };
        Answer { number, counts: Counts::default() }
    }
}

pub fn knobs_of(r: &Render) -> Knobs {
    let Render { sustain, trigger, accent, f0, structure, brightness, damping, .. } = *r;
    Knobs { sustain, trigger, accent, f0, structure, brightness, damping }
}

/// Both sides, and what they were before the call.
struct Sides {
    port: Port,
    oracle: Bank,
    bytes: Vec<u8>,
    lines: Vec<f32>,
}

/// Makes a list's calls on both sides, or says where they part.
pub fn run(mut list: List, tally: &mut Tally) -> Result<(), Difference> {
    let lines = buffer(MEMORY, list.fill);
    let mut bytes = vec![0; raw::bank_bytes()];
    let number = raw::fresh(&mut bytes);
    let oracle = Bank::fresh(list.seed, lines.clone());
    let port = Port { bytes: bytes.clone(), lines: lines.clone(), word: list.seed, slow: false };
    let mut sides = Sides { port, oracle, bytes, lines };
    let differs = |call| move |text| Difference { call, text };
    same("the number of a fresh bank", number, 0).map_err(differs(0))?;
    for slot in 0..8 {
        sides.same_record(slot).map_err(differs(0))?;
    }
    tally.lists += 1;
    for (place, (call, lent)) in list.by_ref().enumerate() {
        tally.calls += 1;
        let slow = place % 2 == 0;
        sides.port.slow = slow;
        sides.step(&call, &lent, tally).map_err(|text| {
            let text =
                format!("{text}\n  after {call:?}\n  lent {lent:?}\n  slow_subnormals {slow}");
            Difference { call: place, text }
        })?;
    }
    Ok(())
}

impl Sides {
    fn step(&mut self, call: &Call, lent: &Lent, tally: &mut Tally) -> Result<(), String> {
        self.bytes.copy_from_slice(&self.port.bytes);
        self.lines.copy_from_slice(&self.port.lines);
        let filled = |k| buffer(lent.frames[k as usize] as usize, lent.fill.wrapping_add(k));
        let lent_buffers = [0, 1, 2, 3].map(filled);
        let [mut ours, mut theirs] = [lent_buffers.clone(), lent_buffers];
        let lines = lent.lines as usize;
        let answer = self.port.call(call, lines, &mut ours);
        let expected = match self.oracle.call(call, lines, &mut theirs) {
            Ok(expected) => expected,
            Err(halt) => self.stop(call, lent, halt, tally)?,
        };
        let Counts { burst, dust, dispersion } = answer.counts;
        let counts = [burst, dust, dispersion].map(|count| count as u32);
        same("the number", answer.number, expected[0])?;
        same("the counts", &counts[..], &expected[1..])?;
        same("the generator's word", self.port.word, self.oracle.word)?;
        if answer.number != 0 {
            tally.refused += 1;
            return self.kept(0..0).and(same_buffers(&ours, &theirs));
        }
        let slot = call.slot as usize;
        self.kept(slot..slot + 1)?;
        if let Asked::Render(_) = call.asked {
            tally.blocks += 1;
            tally.samples += lent.frames[0] as u64;
        }
        if self.oracle.is_stopped(call.slot) {
            return Ok(());
        }
        self.same_record(slot)?;
        self.same_lines(slot)?;
        same_buffers(&ours, &theirs)?;
        self.count_heard(call, &ours, tally);
        Ok(())
    }

    /// Stops the voice where the halt is one of the three departures.
    fn stop(
        &mut self,
        call: &Call,
        lent: &Lent,
        halt: Halt,
        tally: &mut Tally,
    ) -> Result<[u32; 4], String> {
        let Asked::Render(render) = call.asked else { return Err(format!("{halt:?}")) };
        let is_modal = self.oracle.number(call.slot, record::banks::format::Number::Kind) == 2;
        let struck = render.trigger && !render.sustain;
        let departure = match halt {
            Halt::LongDelay => 0,
            Halt::Other(_) if is_modal && render.structure == 1.0 => 1,
            Halt::Other(_) if is_modal && struck && lent.frames[0] == 0 => 2,
            Halt::Other(message) => return Err(message),
        };
        tally.departures[departure] += 1;
        let [burst, dust, dispersion] = self.oracle.stop(call.slot, &render, lent.frames[0]);
        Ok([0, burst, dust, dispersion])
    }

    /// The bytes and the lines of all slots but those are as they were.
    fn kept(&self, but: std::ops::Range<usize>) -> Result<(), String> {
        for slot in (0..8).filter(|slot| !but.contains(slot)) {
            let [before, after] =
                [&self.bytes, &self.port.bytes].map(|bank| layout::slot_bytes(bank, slot));
            same("another slot's bytes", before, after)?;
        }
        let outside = |lines: &[f32], from: usize, to: usize| {
            [&lines[..from], &lines[to..]].map(|part| part.iter().map(|x| x.to_bits()).collect())
        };
        let (from, to) = (OWN * but.start, OWN * but.end);
        let before: [Vec<u32>; 2] = outside(&self.lines, from, to);
        same("line memory of no slot called", before, outside(&self.port.lines, from, to))
    }

    fn same_record(&self, slot: usize) -> Result<(), String> {
        let record = layout::record(layout::slot_bytes(&self.port.bytes, slot));
        same_words("number", &record, self.oracle.records()[slot])
    }

    fn same_lines(&self, slot: usize) -> Result<(), String> {
        let own = OWN * slot..OWN * (slot + 1);
        let [ours, theirs] =
            [&self.port.lines, &self.oracle.memory].map(|lines| &lines[own.clone()]);
        same_floats("number of the lines", ours, theirs)
    }

    fn count_heard(&self, call: &Call, buffers: &Buffers, tally: &mut Tally) {
        let Asked::Render(_) = call.asked else { return };
        tally.heard += 1;
        let any = |is: fn(&f32) -> bool| buffers[2].iter().chain(&buffers[3]).any(is);
        tally.non_finite += u64::from(any(|x| !x.is_finite()));
        tally.denormal += u64::from(any(|x| x.is_subnormal()));
    }
}

const _: () = assert!(SLOT_BYTES * 8 == 3144);
