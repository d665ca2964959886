//! The most bytes that a catalogue and its pages can come to: their room is made sure of before a note takes any.

use crate::catalogue;
use crate::order::Orders;
use crate::outcome::Outcome;
use crate::piece::PIECES;
use crate::settings::Settings;
use crate::sfz;

pub struct Room {
    pub catalogue: u64,
    /// Of each file of the page.
    pub pieces: [Vec<u64>; PIECES.len()],
    pub sfz: u64,
}

impl Room {
    /// The room for orders whatever becomes of them.
    pub fn of(orders: Orders, settings: &Settings) -> Self {
        let [catalogue, sfz] = [catalogue::HEADER, sfz::HEADER].map(|text| text.len() as u64 + 1);
        let mut room = Room { catalogue, pieces: Default::default(), sfz };
        for (place, order) in orders.enumerate() {
            let outcome = Outcome::unplayed(&order);
            let is_played = order.note.is_ok();
            let line = catalogue::line(&order, &outcome, settings).len();
            let more = |bytes: usize| if is_played { bytes } else { 0 };
            room.catalogue += (line + 1 + more(catalogue::MORE)) as u64;
            if is_played {
                let file = catalogue::file_of(order.name(), settings.format);
                room.sfz += sfz::region(&order, &file).len() as u64 + 1;
            }
            for (piece, files) in PIECES.iter().zip(&mut room.pieces) {
                if place % piece.rows() == 0 {
                    files.push(piece.frame());
                }
                if let Some(file) = files.last_mut() {
                    *file += piece.most(&order, settings) as u64;
                }
            }
        }
        room
    }
}

#[cfg(test)]
mod tests {
    use super::{PIECES, Room};
    use crate::catalogue;
    use crate::chance::Chance;
    use crate::checksum::Summing;
    use crate::levels::Told;
    use crate::order::Orders;
    use crate::outcome::{Outcome, Rendered, Sum};
    use crate::page;
    use crate::piece::Notes;
    use crate::sheet::{COLUMNS, Sheet};
    use crate::tests::SETTINGS;
    use crate::wave::Wave;
    use std::io;

    /// A note whose every number is as long as it can be.
    fn long() -> Outcome {
        let (mut wave, mut chance) = (Wave::new(96_000), Chance(7));
        for k in 0..96_000 {
            // Louder and softer noise, so that no row of the spectrogram is like another.
            let level = 0.999 * chance.part().powi(k / 800 % 7) as f32;
            wave.add(&[if k % 2 == 0 { -level } else { level }]);
        }
        let most = u64::MAX;
        Outcome::Kept(Box::new(Rendered {
            frames: most,
            peak: f32::from_bits(1),
            told: Told {
                peak: "-899.99".into(),
                loudness: "-70.0".into(),
                silent: "3599.999".into(),
                warning: "w".repeat(120),
            },
            burst: most,
            dust: most,
            dispersion: most,
            wave: Some(wave),
            checksum: Summing::default().end(),
            file: None,
        }))
    }

    #[test]
    fn no_outcome_takes_more_than_its_room() {
        let name = "&".repeat(99);
        let row = |k: usize| format!("{k}{name},modal,A3,9,trigger,0.5,0.4,0.5,0.5\n");
        let rows: String = (0..9).map(row).chain(["x,\"\n".into()]).collect();
        let text = format!("{}\n{rows}", COLUMNS.join(","));
        let orders = || Orders::new(Sheet::new(text.as_bytes()).expect("a header"), &SETTINGS);
        let room = Room::of(orders(), &SETTINGS);
        let error = io::Error::other("\"&".repeat(100));
        let stopped = || Outcome::NotRendered;
        let way = || {
            Outcome::Failed(format!(
                "{name}.wav is there, and no run wrote it: move it away, or render with --force"
            ))
        };
        let piece = Some("&".repeat(255));
        let notes = Notes { ordered: 100_000, settings: SETTINGS, piece };
        let outcomes: [&dyn Fn() -> Outcome; 4] =
            [&long, &|| Outcome::unwritten(&error), &stopped, &way];
        for outcome in outcomes {
            let (mut lines, mut rows) = (0, [0; PIECES.len()]);
            for order in orders() {
                let outcome =
                    if order.note.is_ok() { outcome() } else { Outcome::unplayed(&order) };
                lines += catalogue::line(&order, &outcome, &SETTINGS).len() + 1;
                for (piece, rows) in PIECES.iter().zip(&mut rows) {
                    let row = piece.row(&order, &outcome, &SETTINGS).len();
                    assert!(row <= piece.most(&order, &SETTINGS), "{piece:?}: {row}");
                    *rows += row as u64;
                }
            }
            assert!((catalogue::HEADER.len() + 1 + lines) as u64 <= room.catalogue, "{lines}");
            for ((piece, rows), rooms) in PIECES.iter().zip(rows).zip(&room.pieces) {
                let frame = piece.begin(399, &notes).len() + piece.end(399, &notes).len();
                let sum = page::summed(&Sum::default()).len();
                assert!((frame + sum) as u64 <= piece.frame(), "{piece:?}: {frame}");
                assert!(piece.frame() + rows <= rooms[0], "{piece:?}: {rows}");
            }
        }
    }
}
