//! Sheets as users of the wrapper play them.

use bleidhvan::{Bank, Buffer, Counts, Event, Kind, Knob, Knobs, Refusal};

/// temp, temp_2, out and aux, with something in each.
type Buffers = [Vec<f32>; 4];

fn buffers(frames: usize) -> Buffers {
    [0.5, -0.25, 0.125, 0.75].map(|sample| vec![sample; frames])
}

fn strike(f0: f32) -> Knobs {
    Knobs { trigger: true, f0, ..Knobs::default() }
}

/// A string in each even slot of 0 to 5, a modal voice in each odd one, and two empty slots.
fn bank() -> Bank {
    let mut bank = Bank::new(33);
    for slot in 0..6 {
        let kind = if slot % 2 == 0 { Kind::String } else { Kind::Modal };
        bank.open(slot, kind, 48000.0).expect("the opening is accepted");
    }
    bank
}

fn play(bank: &mut Bank, sheet: &[Event], buffers: &mut Buffers) -> Vec<Result<Counts, Refusal>> {
    let answers = bank.play(sheet, buffers.each_mut().map(|buffer| &mut buffer[..]));
    answers.expect("the sheet is played").to_vec()
}

/// The refusal of a whole sheet, which changes nothing.
fn refusal(sheet: &[Event], lengths: [usize; 4]) -> Refusal {
    let mut bank = bank();
    let before = bank.to_saved();
    let mut buffers = lengths.map(|frames| vec![0.5; frames]);
    let lent = buffers.each_mut().map(|buffer| &mut buffer[..]);
    let refusal = bank.play(sheet, lent).unwrap_err();
    assert!(before == bank.to_saved(), "{refusal}: the bank changed");
    assert!(buffers.iter().flatten().all(|sample| *sample == 0.5), "{refusal}: a buffer changed");
    refusal
}

fn at(frames: &[usize]) -> Vec<Event> {
    frames.iter().map(|frame| Event { frame: *frame, ..Event::default() }).collect()
}

/// The same render by itself, on frames that the test names.
fn render(
    bank: &mut Bank,
    event: &Event,
    to: usize,
    buffers: &mut Buffers,
) -> Result<Counts, Refusal> {
    let parts = buffers.each_mut().map(|buffer| &mut buffer[event.frame..to]);
    bank.render(event.slot, &event.knobs, parts)
}

#[test]
fn a_sheet_makes_the_renders_of_its_events() {
    let event = |frame, slot, f0| Event { frame, slot, knobs: strike(f0) };
    let sheet = [
        event(0, 0, 0.01),
        event(0, 1, 0.02),
        event(10, 9, 0.01),
        event(10, 0, 0.013),
        event(10, 0, 0.004),
        event(20, 1, 0.7),
        event(20, 7, 0.01),
        event(63, 1, 0.03),
    ];
    let ends = [10, 20, 64, 10, 64, 63, 64, 64];
    let (mut one, mut other) = (bank(), bank());
    let [mut ours, mut theirs] = [0; 2].map(|_| buffers(64));
    let answers = play(&mut one, &sheet, &mut ours);
    let renders = sheet.iter().zip(ends);
    let expected: Vec<_> =
        renders.map(|(event, to)| render(&mut other, event, to, &mut theirs)).collect();
    assert_eq!(answers, expected);
    assert_eq!(answers[2], Err(Refusal::NoSlot { slot: 9 }));
    assert_eq!(answers[3], Ok(Counts::default()), "a render of no frames");
    assert_eq!(answers[5], Err(Refusal::OutOfRange { knob: Knob::F0, value: 0.7 }));
    assert_eq!(answers[6], Err(Refusal::Empty { slot: 7 }));
    assert!(one.to_saved() == other.to_saved(), "the banks differ");
    assert_eq!(ours, theirs);
}

/// Each knob and each flag has a value of its own, so that none can stand for another.
#[test]
fn every_knob_crosses_as_itself() {
    for (slot, flags) in (0..2).flat_map(|slot| (0..4).map(move |flags| (slot, flags))) {
        let (sustain, trigger) = (flags & 1 != 0, flags & 2 != 0);
        let [f0, accent, structure, brightness, damping] = [0.031, 0.87, 0.63, 0.42, 0.21];
        let knobs = Knobs { sustain, trigger, accent, f0, structure, brightness, damping };
        let (mut one, mut other) = (bank(), bank());
        let [mut ours, mut theirs] = [0; 2].map(|_| buffers(64));
        for frame in [0, 7] {
            let event = Event { frame, slot, knobs };
            let answers = play(&mut one, &[event], &mut ours);
            assert_eq!(answers, [render(&mut other, &event, 64, &mut theirs)]);
        }
        assert!(one.to_saved() == other.to_saved(), "slot {slot}, {knobs:?}: the banks differ");
        assert_eq!(ours, theirs, "slot {slot}, {knobs:?}");
    }
}

#[test]
fn a_sheet_has_up_to_64_events_and_as_many_answers() {
    for events in [0, 1, 63, 64] {
        let sheet = at(&vec![3; events]);
        let mut bank = bank();
        let answers = play(&mut bank, &sheet, &mut buffers(4));
        assert_eq!(answers.len(), events);
        let words: Vec<usize> = answers.iter().flatten().map(|counts| counts.dispersion).collect();
        let last: Vec<usize> = (1..=events).map(|event| usize::from(event == events)).collect();
        assert_eq!(words, last, "the last event alone has a frame, and draws its word");
    }
    for events in [65, 66, 200] {
        let refusal = refusal(&at(&vec![3; events]), [4; 4]);
        assert_eq!((refusal, refusal.number()), (Refusal::TooMany { events }, 14));
    }
}

#[test]
fn frames_that_go_down_are_refused_with_the_event_and_the_one_before() {
    let sheet = at(&[0, 5, 5, 4, 3, 2]);
    let refusal = refusal(&sheet, [64; 4]);
    assert_eq!(refusal, Refusal::OutOfOrder { event: 3, frame: 4, before: 5 });
    assert_eq!(refusal.number(), 15);
}

#[test]
fn a_frame_past_the_end_is_refused_with_the_event_and_the_block() {
    play(&mut bank(), &at(&[62, 63]), &mut buffers(64));
    for frame in [64, 65, 4096, usize::MAX] {
        let refusal = refusal(&at(&[0, 63, frame, frame]), [64; 4]);
        assert_eq!(refusal, Refusal::PastEnd { event: 2, frame, frames: 64 });
        assert_eq!(refusal.number(), 16);
    }
    assert_eq!(refusal(&at(&[0]), [0; 4]), Refusal::PastEnd { event: 0, frame: 0, frames: 0 });
    assert!(play(&mut bank(), &[], &mut buffers(0)).is_empty());
}

#[test]
fn of_two_faults_the_first_by_number_is_given() {
    let many = at(&[[9; 64].as_slice(), &[8, 7]].concat());
    let buffers = Buffer::ALL.into_iter().zip([7, 17, 18]).enumerate();
    for (k, (buffer, number)) in buffers {
        let mut lengths = [4; 4];
        lengths[..1 + k].fill(4097);
        let unlike = Refusal::Length { buffer, frames: 4, temp: 4097 };
        assert_eq!((refusal(&many, lengths), unlike.number()), (unlike, number));
    }
    let long = Refusal::TooLong { frames: 4097 };
    assert_eq!((refusal(&many, [4097; 4]), long.number()), (long, 8));
    assert_eq!(refusal(&many, [4; 4]), Refusal::TooMany { events: 66 });
    let down = Refusal::OutOfOrder { event: 2, frame: 2, before: 9 };
    assert_eq!(refusal(&at(&[9, 9, 2]), [4; 4]), down);
}

/// Frames beyond 32 bits are as good as any others: the order counts before the block's end.
#[cfg(target_pointer_width = "64")]
#[test]
fn frames_beyond_32_bits_go_down_too() {
    let far = 1 << 32;
    for frames in [[far + 2, far + 1, far], [far, 5, 5], [5, far, far - 1], [far, far, far - 1]] {
        let event = (1..3).find(|k| frames[*k] < frames[k - 1]).expect("they go down");
        let [before, frame] = [event - 1, event].map(|k| frames[k]);
        let expected = Refusal::OutOfOrder { event, frame, before };
        assert_eq!(refusal(&at(&frames), [64; 4]), expected);
    }
    let up = Refusal::PastEnd { event: 1, frame: far, frames: 64 };
    assert_eq!(refusal(&at(&[0, far, far + 1]), [64; 4]), up);
    let slots = [far, far + 1, usize::MAX].map(|slot| Event { slot, ..Event::default() });
    let refused = slots.map(|event| Err(Refusal::NoSlot { slot: event.slot }));
    assert_eq!(play(&mut bank(), &slots, &mut buffers(8)), refused);
}

#[test]
fn a_refusal_says_what_to_write_instead() {
    let said = |sheet: &[Event], frames| refusal(sheet, [frames; 4]).to_string();
    assert_eq!(
        said(&at(&[0; 70]), 64),
        "the sheet has 70 events: give a block at most 64, and the next block the others"
    );
    assert_eq!(
        said(&at(&[0, 12, 10]), 64),
        "event 2, counted from 0, is at frame 10, and the one before it at 12: put the events in the order of their frames"
    );
    assert_eq!(
        said(&at(&[0, 64]), 64),
        "event 1, counted from 0, is at frame 64 of a block of 64: give it a frame from 0 to 63, or put it in a later block"
    );
    assert_eq!(
        said(&at(&[0]), 0),
        "event 0, counted from 0, is at frame 0 of a block of no frames: such a block takes no event"
    );
}

#[test]
fn answers_are_equal_where_each_is() {
    let sheet = at(&[0, 3]);
    let play = |bank: &mut Bank, sheet: &[Event]| {
        let mut buffers = buffers(8);
        let lent = buffers.each_mut().map(|buffer| &mut buffer[..]);
        bank.play(sheet, lent).expect("the sheet is played")
    };
    let [one, other] = [0; 2].map(|_| play(&mut bank(), &sheet));
    assert_eq!(one, other);
    assert_ne!(one, play(&mut bank(), &sheet[..1]));
    let shown = format!("{:?}", &one[..]);
    assert_eq!(format!("{one:?}"), shown);
}
