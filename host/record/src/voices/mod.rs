//! Sequences of calls of each voice as a file; docs/RECORD.md is its description.

#[cfg(not(no_plaits))]
pub mod choice;
pub mod format;
#[cfg(not(no_plaits))]
pub mod modals;
#[cfg(not(no_plaits))]
pub mod player;
#[cfg(not(no_plaits))]
pub mod strings;

#[cfg(not(no_plaits))]
pub use beside_the_rust::{Recorded, differences, record};

#[cfg(not(no_plaits))]
mod beside_the_rust {
    use super::format::{Call, Given, from_bytes};
    use super::player::{Halt, Player, Voice};

    /// The calls of all sequences, and how many sequences ended before a delay of 2^64 or more.
    #[derive(Default)]
    pub struct Recorded {
        pub calls: Vec<Call>,
        pub long_delays: usize,
    }

    impl Recorded {
        /// The numbers of sequences, renders and frames, and of calls that left extreme floats.
        pub fn summary(&self) -> String {
            let opens = |call: &&Call| matches!(call.given, Given::Open { .. });
            let sequences = self.calls.iter().filter(opens).count();
            let frames: Vec<u32> = self.calls.iter().filter_map(frames).collect();
            let leaving = |is: fn(f32) -> bool| {
                let left = |call: &&Call| kept(call).any(is);
                self.calls.iter().filter(left).count()
            };
            format!(
                "{sequences} sequences, {} of them up to a delay of 2^64; {} renders, {} frames; {} calls left non-finite numbers, {} denormal ones",
                self.long_delays,
                frames.len(),
                frames.iter().sum::<u32>(),
                leaving(|x| !x.is_finite()),
                leaving(f32::is_subnormal),
            )
        }
    }

    fn frames(call: &Call) -> Option<u32> {
        match call.given {
            Given::Render(render) => Some(render.frames),
            _ => None,
        }
    }

    /// The floats of the words that a call left, those of out left out.
    fn kept(call: &Call) -> impl Iterator<Item = f32> {
        call.words().into_iter().take(35).skip(15).map(f32::from_bits)
    }

    /// Plays the sequences, or says in which call the Rust halted otherwise than by departure 1.
    pub fn record<V: Voice>(sequences: &[Vec<Given>]) -> Result<Recorded, String> {
        let mut recorded = Recorded::default();
        for (number, sequence) in sequences.iter().enumerate() {
            let mut player = Player::<V>::default();
            for (call, given) in sequence.iter().enumerate() {
                let at = || format!("sequence {number}, call {call}");
                if !given.accepted() {
                    return Err(format!("{}: {given:?} is not accepted", at()));
                }
                match player.call(given) {
                    Ok(left) => recorded.calls.push(Call { given: *given, left }),
                    Err(Halt::LongDelay) => {
                        recorded.long_delays += 1;
                        break;
                    }
                    Err(Halt::Other(message)) => return Err(format!("{}: {message}", at())),
                }
            }
        }
        Ok(recorded)
    }

    /// The number of calls of a file that leave something else now, or what is wrong with the file.
    pub fn differences<V: Voice>(bytes: &[u8]) -> Result<usize, String> {
        let mut player = Player::<V>::default();
        let mut stands = |call: &&Call| player.call(&call.given).as_ref() == Ok(&call.left);
        Ok(from_bytes(V::KIND, bytes)?.iter().filter(|call| !stands(call)).count())
    }
}
