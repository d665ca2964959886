//! Where a piece ends that rings until it has died away.

use crate::blocks::SHORT;
use crate::levels::QUIET;

/// Follows a piece: it has died away where, behind its last row, no sample of a whole second is within 90 dB of the highest before.
pub struct Dying {
    hold: u64,
    /// The frame behind the last row's.
    last: u64,
    peak: f32,
    frames: u64,
    heard: u64,
    /// Whether it has died away.
    pub is_over: bool,
}

impl Dying {
    pub fn new(rate: u32, last: u64) -> Self {
        Dying { hold: rate.into(), last, peak: 0.0, frames: 0, heard: 0, is_over: false }
    }

    /// How many of these frames are wanted: those up to where it has died away.
    pub fn follow(&mut self, channels: &[&[f32]]) -> usize {
        let n = channels.first().map_or(0, |channel| channel.len());
        for frame in 0..n {
            let highest = channels.iter().map(|channel| channel[frame].abs()).fold(0.0, f32::max);
            self.peak = self.peak.max(highest);
            self.frames += 1;
            if highest > self.peak * QUIET {
                self.heard = self.frames;
            }
            let waited = self.frames.saturating_sub(self.heard.max(self.last));
            self.is_over = waited >= self.hold;
            if self.is_over {
                return frame + 1;
            }
        }
        n
    }

    /// The frames up to where it died away, in whole short blocks.
    pub fn frames(&self) -> u64 {
        self.heard.max(self.last).next_multiple_of(SHORT as u64)
    }
}

#[cfg(test)]
mod tests {
    use super::Dying;

    /// Follows a sound in parts of that length, and gives the frames that are wanted and where it ended.
    fn followed(sound: &[f32], last: u64, part: usize) -> (usize, u64) {
        let mut dying = Dying::new(100, last);
        let mut wanted = 0;
        for samples in sound.chunks(part) {
            wanted += dying.follow(&[samples, samples]);
            if dying.is_over {
                break;
            }
        }
        (wanted, dying.frames())
    }

    #[test]
    fn it_ends_behind_the_last_that_is_heard_whatever_the_parts() {
        let mut sound = vec![0.0; 1000];
        sound[0] = 1.0;
        sound[30] = -4e-5;
        sound[40] = 3e-5;
        // Behind a second of silence it is heard again, too late.
        sound[200] = 1.0;
        for part in [1, 7, 24, 99, 1000] {
            assert_eq!(followed(&sound, 1, part), (131, 48), "{part}");
            // A row is waited for, and a second behind it.
            assert_eq!(followed(&sound, 60, part), (160, 72), "{part}");
            assert_eq!(followed(&sound, 150, part), (301, 216), "{part}");
        }
    }
}
