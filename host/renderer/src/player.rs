//! A score played through a bank, block after block.

use crate::cut::Cut;
use crate::score::{SLOTS, Score};
use bleidhvan::{Bank, Counts, Refusal};

/// The words that the events of a row drew in all, or why the first of them that was refused was.
pub type Answer = Result<Words, Refusal>;

/// Words of a burst, of dust and of dispersion.
pub type Words = [u64; 3];

pub struct Player<'a> {
    bank: Bank,
    cut: Cut<'a>,
    buffers: [Vec<f32>; 4],
    /// Of each cue.
    answers: Vec<Answer>,
}

impl<'a> Player<'a> {
    /// A player of so many frames, in blocks of at most so many.
    pub fn new(
        score: &'a Score,
        (seed, rate): (u32, u32),
        frames: u64,
        block: usize,
    ) -> Result<Self, Refusal> {
        let mut bank = Bank::new(seed);
        for (slot, kind) in score.kinds.iter().enumerate().take(SLOTS) {
            if let Some(kind) = kind {
                bank.open(slot, *kind, rate as f32)?;
            }
        }
        let buffers = std::array::from_fn(|_| vec![0.0; block]);
        let (cut, answers) =
            (Cut::new(&score.cues, frames, block), vec![Ok([0; 3]); score.cues.len()]);
        Ok(Player { bank, cut, buffers, answers })
    }

    /// Plays the next block, and gives out and aux; nothing at the end.
    pub fn next(&mut self) -> Result<Option<[&[f32]; 2]>, Refusal> {
        let Some(block) = self.cut.next() else { return Ok(None) };
        let n = block.frames;
        let [_, _, out, aux] = &mut self.buffers;
        out[..n].fill(0.0);
        aux[..n].fill(0.0);
        let buffers = self.buffers.each_mut().map(|buffer| &mut buffer[..n]);
        let answers = self.bank.play(&block.sheet, buffers)?;
        for (answer, cue) in answers.iter().zip(block.cues) {
            add(&mut self.answers[cue], *answer);
        }
        let [_, _, out, aux] = &mut self.buffers;
        one_nan(&mut out[..n]);
        one_nan(&mut aux[..n]);
        Ok(Some([&out[..n], &aux[..n]]))
    }

    /// What became of each cue.
    pub fn answers(self) -> Vec<Answer> {
        self.answers
    }

    /// The generator's word.
    #[cfg(test)]
    pub fn word(&self) -> u32 {
        self.bank.word()
    }
}

/// Adds what became of one more event of a row.
fn add(answer: &mut Answer, event: Result<Counts, Refusal>) {
    match (&mut *answer, event) {
        (Ok(words), Ok(Counts { burst, dust, dispersion })) => {
            for (sum, words) in words.iter_mut().zip([burst, dust, dispersion]) {
                *sum += words as u64;
            }
        }
        (Ok(_), Err(refusal)) => *answer = Err(refusal),
        (Err(_), _) => (),
    }
}

/// Makes every NaN the same: its bits hang on where a block ends.
fn one_nan(samples: &mut [f32]) {
    for sample in samples {
        if sample.is_nan() {
            *sample = f32::NAN;
        }
    }
}

#[cfg(test)]
mod tests {
    use super::{Player, one_nan};
    use crate::score::{Answered, Cue, Score};
    use bleidhvan::{Kind, Knob, Knobs, Refusal};

    fn cue(row: usize, frame: u64, slot: usize, accent: f32) -> Cue {
        Cue { row, frame, slot, knobs: Knobs { trigger: true, accent, ..Knobs::default() } }
    }

    #[test]
    fn a_row_whose_event_the_bank_refuses_is_told_and_the_others_sound() {
        let cues = vec![cue(0, 0, 0, 0.5), cue(1, 30, 1, 2.0), cue(2, 60, 2, 0.5)];
        let rows = (2..5).map(|line| Answered { line, fault: None }).collect();
        let mut kinds = [None; 8];
        kinds[..2].fill(Some(Kind::String));
        let score = Score { rows, cues, kinds };
        let mut player = Player::new(&score, (7, 48000), 480, 100).expect("they are opened");
        let mut heard = Vec::new();
        while let Some([out, _]) = player.next().expect("no block is refused") {
            heard.extend_from_slice(out);
        }
        assert_eq!(heard.len(), 480);
        assert!(heard.iter().any(|sample| *sample != 0.0));
        let answers = player.answers();
        assert_eq!(answers[0], Ok([100, 0, 480]));
        assert_eq!(answers[1], Err(Refusal::OutOfRange { knob: Knob::Accent, value: 2.0 }));
        // The slot was opened by none.
        assert_eq!(answers[2], Err(Refusal::Empty { slot: 2 }));
    }

    #[test]
    fn every_nan_has_the_same_bits_and_nothing_else_changes() {
        let mut samples =
            [0x7fc0_1234, 0xffc0_0000, 0x7f80_0000, 0x8000_0000, 1].map(f32::from_bits);
        one_nan(&mut samples);
        let bits = samples.map(f32::to_bits);
        assert_eq!(bits, [0x7fc0_0000, 0x7fc0_0000, 0x7f80_0000, 0x8000_0000, 1]);
    }
}
