//! The exported player beside single renders, whether the Rust is there or not; whose frames are whose; and wrong players, each of which is found.
//! `SHEETS` says how many sheets are played.

mod wrong;

use bleidhvan::raw;
use compare::sheets::list::{List, Step};
use compare::sheets::tally::{ENOUGH, Tally};
use compare::sheets::{Difference, Nothing, Player, model, run};

/// Plays so many sheets, or says which list and where in it differs.
fn play(player: Player, sheets: u64) -> Result<Tally, (u32, Difference)> {
    let mut tally = Tally::default();
    for number in 0.. {
        if tally.sheets >= sheets {
            break;
        }
        let list = List::new(33, number);
        run(list, player, &mut Nothing, &mut tally).map_err(|difference| (number, difference))?;
    }
    Ok(tally)
}

#[test]
fn a_sheet_leaves_what_its_renders_leave() {
    let sheets = std::env::var("SHEETS").map_or(ENOUGH, |n| n.parse().expect("a number"));
    let tally = play(raw::play, sheets).expect("nothing differs");
    if sheets >= ENOUGH {
        assert_eq!(tally.missing(), [""; 0]);
    }
}

#[test]
fn cases_that_never_came_up_are_named() {
    let missing = Tally::default().missing();
    for case in [
        "a sheet refused with 16",
        "an event answered with 0",
        "a sheet with 15 and 16 at once",
        "flags above 1",
    ] {
        assert!(missing.iter().any(|name| name == case), "{case}");
    }
    assert!(!play(raw::play, 1).expect("nothing differs").missing().is_empty());
}

/// Each frame of a slot from its first event on is of one event, the latest of the slot at or before it.
#[test]
fn each_frame_is_of_the_latest_event() {
    let mut frames_of_one = 0;
    for number in 0..40 {
        let mut list = List::new(7, number);
        while let Some(step) = list.step(&[false; 8]) {
            let Step::Play(lent) = step else { continue };
            if !model::faults(&lent.asked()).is_empty() {
                continue;
            }
            let (sheet, frames) = (&lent.sheet, lent.lengths[0]);
            let ends = model::ends(sheet, frames);
            for (slot, frame) in (0..8).flat_map(|slot| (0..frames).map(move |at| (slot, at))) {
                let own = |place: &usize| sheet[*place].slot == slot;
                let begun = |place: &usize| sheet[*place].frame as usize <= frame;
                let latest = (0..sheet.len()).rfind(|place| own(place) && begun(place));
                let has = |place: &usize| own(place) && begun(place) && frame < ends[*place];
                let owners: Vec<usize> = (0..sheet.len()).filter(has).collect();
                assert_eq!(owners, latest.into_iter().collect::<Vec<_>>(), "{lent:?}");
                frames_of_one += owners.len();
            }
        }
    }
    assert!(frames_of_one > 10_000, "{frames_of_one} frames are of an event");
}

#[test]
fn a_right_player_by_single_renders_is_not_found() {
    play(wrong::play::<{ wrong::NOTHING }>, ENOUGH).expect("nothing differs");
}

#[test]
fn every_wrong_player_is_found() {
    for (name, player) in wrong::PLAYERS {
        let Err((list, Difference { sheet, text })) = play(player, ENOUGH) else {
            panic!("{name}: nothing differs");
        };
        let first = text.lines().next().unwrap_or_default();
        println!("{name}: list {list}, sheet {sheet}: {first}");
    }
}
