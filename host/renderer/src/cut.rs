//! A score cut into blocks, whose renders are the same however long a block may be.
//!
//! Time is cut at every multiple of a short block's frames. At each of these cuts every slot that sounds has an event: that of its
//! row, where one falls there, and else the one that carries it on. Blocks end at cuts alone, so a block is but how many of them are
//! handed on at once. Where more events would fall between two cuts than a block may have, there is one more cut, at a row's frame.

use crate::blocks::SHORT;
use crate::score::{Cue, MOST_EVENTS, SLOTS};
use bleidhvan::{Event, Knobs};

/// What is played at once.
#[derive(Debug, Clone, Default, PartialEq)]
pub struct Block {
    pub frames: usize,
    pub sheet: Vec<Event>,
    /// The cue of each event, by its place among all.
    pub cues: Vec<usize>,
}

/// The blocks of a score, up to its end.
pub struct Cut<'a> {
    cues: &'a [Cue],
    /// The cues that are through.
    through: usize,
    /// The cue of each slot that sounds, and its knobs as they are carried on.
    sounding: [Option<(usize, Knobs)>; SLOTS],
    at: u64,
    end: u64,
    most_frames: usize,
    /// What did not fit into the block before.
    over: Option<Block>,
}

impl<'a> Cut<'a> {
    /// Cuts cues, which are in the order of frames and slots and no more on a frame than a block may have, up to an end behind all of
    /// them, into blocks of at most so many frames, which are at least a short block's.
    pub fn new(cues: &'a [Cue], end: u64, most_frames: usize) -> Self {
        let sounding = [None; SLOTS];
        Cut { cues, through: 0, sounding, at: 0, end, most_frames, over: None }
    }

    /// What lies between two cuts.
    fn stretch(&mut self) -> Option<Block> {
        if self.at >= self.end {
            return None;
        }
        let from = self.at;
        let mut to = (from / SHORT as u64 + 1) * SHORT as u64;
        let mut block = Block::default();
        self.begin(&mut block);
        while let Some(first) = self.cues.get(self.through).filter(|cue| cue.frame < to) {
            let frame = first.frame;
            let rows = self.rows(|cue| cue.frame == frame);
            if block.sheet.len() + rows > MOST_EVENTS {
                to = frame;
                break;
            }
            self.add(rows, frame - from, &mut block);
        }
        self.at = to.min(self.end);
        block.frames = (self.at - from) as usize;
        Some(block)
    }

    /// The events at a cut, slot by slot: those of rows, or else the one that carries the slot on.
    fn begin(&mut self, block: &mut Block) {
        for slot in 0..SLOTS {
            let rows = self.rows(|cue| (cue.frame, cue.slot) == (self.at, slot));
            if rows > 0 {
                self.add(rows, 0, block);
            } else if let Some((cue, knobs)) = self.sounding[slot] {
                block.sheet.push(Event { frame: 0, slot, knobs });
                block.cues.push(cue);
            }
        }
    }

    /// How many of the next rows are such.
    fn rows(&self, is_such: impl Fn(&Cue) -> bool) -> usize {
        self.cues[self.through..].iter().take_while(|cue| is_such(cue)).count()
    }

    /// The events of the next rows, which are of one frame.
    fn add(&mut self, rows: usize, frame: u64, block: &mut Block) {
        for place in self.through..self.through + rows {
            let Cue { slot, knobs, .. } = self.cues[place];
            block.sheet.push(Event { frame: frame as usize, slot, knobs });
            block.cues.push(place);
            // It was struck, and rings on.
            self.sounding[slot] = Some((place, Knobs { trigger: false, ..knobs }));
        }
        self.through += rows;
    }
}

impl Iterator for Cut<'_> {
    type Item = Block;

    fn next(&mut self) -> Option<Block> {
        let mut block = self.over.take().or_else(|| self.stretch())?;
        while let Some(stretch) = self.stretch() {
            let fits = block.frames + stretch.frames <= self.most_frames
                && block.sheet.len() + stretch.sheet.len() <= MOST_EVENTS;
            if !fits {
                self.over = Some(stretch);
                break;
            }
            let moved = |event: &Event| Event { frame: block.frames + event.frame, ..*event };
            let sheet: Vec<Event> = stretch.sheet.iter().map(moved).collect();
            block.sheet.extend(sheet);
            block.cues.extend(stretch.cues);
            block.frames += stretch.frames;
        }
        Some(block)
    }
}

#[cfg(test)]
mod tests {
    use super::{Block, Cut, SHORT};
    use crate::chance::Chance;
    use crate::score::{Cue, MOST_EVENTS, SLOTS};
    use bleidhvan::Knobs;

    fn cue(row: usize, frame: u64, slot: usize) -> Cue {
        let knobs =
            Knobs { trigger: row.is_multiple_of(2), accent: row as f32, ..Knobs::default() };
        Cue { row, frame, slot, knobs }
    }

    /// A render of the piece: the slot, the frames, the row's accent, and whether it strikes.
    type Render = (usize, u64, u64, f32, bool);

    /// The renders of blocks, and the frames in which they are.
    fn renders(blocks: &[Block]) -> (Vec<Render>, u64) {
        let (mut renders, mut at) = (Vec::new(), 0);
        for block in blocks {
            for (place, event) in block.sheet.iter().enumerate() {
                let later = block.sheet[place + 1..].iter().find(|later| later.slot == event.slot);
                let to = later.map_or(block.frames, |later| later.frame);
                let [from, to] = [event.frame, to].map(|frame| at + frame as u64);
                renders.push((event.slot, from, to, event.knobs.accent, event.knobs.trigger));
            }
            at += block.frames as u64;
        }
        (renders, at)
    }

    /// Cues of a random score, some of whose frames are crowded.
    fn cues(chance: &mut Chance, end: u64) -> Vec<Cue> {
        let mut frames: Vec<u64> = (0..chance.below(150)).map(|_| chance.below(end)).collect();
        for _ in 0..chance.below(3) {
            let frame = chance.below(end);
            let most = chance.of(&[10, 57]);
            frames.extend((0..chance.below(most + 1)).map(|_| frame));
            let many = chance.of(&[0, 90]);
            frames.extend((0..many).map(|_| (frame + chance.below(SHORT as u64)).min(end - 1)));
        }
        frames.sort();
        let slots = 1 + chance.below(SLOTS as u64);
        let cues = frames.iter().enumerate();
        let mut cues: Vec<Cue> =
            cues.map(|(row, frame)| cue(row, *frame, chance.below(slots) as usize)).collect();
        cues.sort_by_key(|cue| (cue.frame, cue.slot));
        let is_crowded =
            |cue: &Cue| cues.iter().filter(|each| each.frame == cue.frame).count() > 57;
        if cues.iter().any(is_crowded) { vec![] } else { cues }
    }

    /// Holds what the blocks of one cut promise.
    fn hold(blocks: &[Block], cues: &[Cue], most: usize) {
        let (mut sounding, mut own) = ([false; SLOTS], vec![0; cues.len()]);
        let mut at = 0;
        for block in blocks {
            assert!((1..=most).contains(&block.frames) && block.sheet.len() <= MOST_EVENTS);
            assert!(block.sheet.windows(2).all(|pair| pair[0].frame <= pair[1].frame));
            assert!(block.sheet.iter().all(|event| event.frame < block.frames));
            for slot in (0..SLOTS).filter(|slot| sounding[*slot]) {
                assert!(block.sheet.iter().any(|event| (event.frame, event.slot) == (0, slot)));
            }
            for (event, place) in block.sheet.iter().zip(&block.cues) {
                let cue = &cues[*place];
                assert_eq!(event.slot, cue.slot);
                if at + event.frame as u64 == cue.frame {
                    assert_eq!(event.knobs, cue.knobs);
                    own[*place] += 1;
                } else {
                    assert_eq!(event.knobs, Knobs { trigger: false, ..cue.knobs });
                }
                sounding[event.slot] = true;
            }
            at += block.frames as u64;
        }
        // Every row is played once, and carried on from there.
        assert!(own.iter().all(|times| *times == 1), "{own:?}");
    }

    #[test]
    fn the_renders_are_the_same_in_blocks_of_every_length() {
        let mut chance = Chance(7);
        let [mut full, mut cut] = [0; 2];
        for _ in 0..2_000 {
            let end = 1 + chance.below(3_000);
            let cues = cues(&mut chance, end);
            let short: Vec<Block> = Cut::new(&cues, end, SHORT).collect();
            hold(&short, &cues, SHORT);
            let expected = renders(&short);
            assert_eq!(expected.1, end);
            for most in [SHORT + 1, 100, 512, 4096] {
                let blocks: Vec<Block> = Cut::new(&cues, end, most).collect();
                hold(&blocks, &cues, most);
                assert_eq!(renders(&blocks), expected);
                full += blocks.iter().filter(|block| block.sheet.len() > 56).count();
            }
            cut += short.iter().filter(|block| block.frames < SHORT).count();
        }
        assert!(full > 1_000 && cut > 1_000, "{full} and {cut}");
    }

    #[test]
    fn more_events_than_a_block_has_end_it_early() {
        let mut cues: Vec<Cue> = (0..60).map(|row| cue(row, 30, row % 3)).collect();
        cues.extend((60..70).map(|row| cue(row, 40, row % 3)));
        cues.sort_by_key(|cue| (cue.frame, cue.slot));
        let blocks: Vec<Block> = Cut::new(&cues, 100, 4096).collect();
        let shapes: Vec<[usize; 2]> =
            blocks.iter().map(|block| [block.frames, block.sheet.len()]).collect();
        // Up to the first cut nothing sounds; then 60 rows up to the row at 40, and 10 from there on with those carried on.
        assert_eq!(shapes, [[40, 60], [60, 10 + 3 * 3]]);
    }
}
