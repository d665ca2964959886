//! The time of a row of a score: seconds, or a bar and a beat.

use crate::note::Fault;

/// The latest time in seconds: a day.
pub const LATEST: f64 = 86400.0;

/// What bars and beats come to.
#[derive(Debug, Clone, Copy)]
pub struct Meter {
    /// Beats a minute; none where a score is in seconds alone.
    pub tempo: Option<f64>,
    /// Beats a bar.
    pub beats: u32,
}

/// The frame of a time, or what to write instead.
pub fn frame(cell: &str, meter: &Meter, rate: u32) -> Result<u64, Fault> {
    let text = cell.trim();
    let seconds = match (text.split_once(':'), meter.tempo) {
        (Some(_), None) => {
            let range =
                "a number of seconds: for a bar and a beat write --tempo too, as --tempo 72";
            return Err(Fault::cell("time", cell, range));
        }
        (Some((bar, beat)), Some(tempo)) => {
            beats(bar, beat, meter.beats).map(|beats| beats * 60.0 / tempo)
        }
        (None, _) => text.parse().ok(),
    };
    let seconds = seconds.filter(|seconds| (0.0..=LATEST).contains(seconds));
    let seconds = seconds.ok_or_else(|| Fault::cell("time", cell, &range(meter)))?;
    Ok((seconds * f64::from(rate)).round() as u64)
}

/// The beats from the beginning to a bar and a beat, both counted from 1.
fn beats(bar: &str, beat: &str, of_a_bar: u32) -> Option<f64> {
    let bar: u32 = bar.trim().parse().ok().filter(|bar| *bar > 0)?;
    let beat: f64 = beat.trim().parse().ok()?;
    let is_in_bar = beat >= 1.0 && beat < f64::from(of_a_bar) + 1.0;
    is_in_bar.then(|| f64::from(bar - 1) * f64::from(of_a_bar) + beat - 1.0)
}

/// The times that are taken.
fn range(meter: &Meter) -> String {
    let seconds = format!("a number of seconds from 0 to {LATEST}");
    match meter.tempo {
        None => seconds,
        Some(_) => format!(
            "{seconds}, or a bar and a beat up to there such as 3:2.5, with beats from 1 to below {}",
            meter.beats + 1
        ),
    }
}

#[cfg(test)]
mod tests {
    use super::{Meter, frame};

    const SECONDS: Meter = Meter { tempo: None, beats: 4 };
    const WALTZ: Meter = Meter { tempo: Some(90.0), beats: 3 };

    #[test]
    fn seconds_and_bars_are_frames() {
        for (cell, expected) in [("0", 0), (" 1.5 ", 72000), ("0.00001", 0), ("86400", 4147200000)]
        {
            assert_eq!(frame(cell, &SECONDS, 48000), Ok(expected), "{cell}");
        }
        // A beat is two thirds of a second.
        let cases =
            [("1:1", 0), ("1:2", 32000), ("2:1", 96000), ("2 : 3.5", 176000), ("1.5", 72000)];
        for (cell, expected) in cases {
            assert_eq!(frame(cell, &WALTZ, 48000), Ok(expected), "{cell}");
        }
    }

    #[test]
    fn what_is_no_time_says_what_is() {
        for cell in ["", "x", "-1", "86400.1", "nan", "inf", "1e9", "1,5"] {
            let reason = frame(cell, &SECONDS, 48000).unwrap_err().reason;
            let expected =
                format!("time is '{cell}', and must be a number of seconds from 0 to 86400");
            assert_eq!(reason, expected);
        }
        let reason = frame("3:2", &SECONDS, 48000).unwrap_err().reason;
        assert!(reason.ends_with("write --tempo too, as --tempo 72"), "{reason}");
        for cell in ["0:1", "1:0.9", "1:4", "1:nan", "1:", ":1", "1:1:1", "1.5:1", "99999999:1"] {
            let reason = frame(cell, &WALTZ, 48000).unwrap_err().reason;
            assert!(reason.contains("such as 3:2.5, with beats from 1 to below 4"), "{reason}");
        }
    }
}
