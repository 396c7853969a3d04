//! Frames as they arrive, cut anywhere.

use karramotx::{
    sql_body, Args, BadLength, ClientMessage, Frames, Kind, Operation, Refusal, Report, Session, Work,
    MAX_FRAME, MIN_REPLY,
};

/// A load, a frame of no known type, a refused frame, a Session close and a frame behind it.
fn conversation() -> Vec<Vec<u8>> {
    let body = sql_body(b"select leg");
    let args = Args::new();
    let operation = Operation::StmtExecute;
    let (compact_metadata, fetch_rows) = (None, Some(2));
    let messages = [
        ClientMessage::Prepare { statement: 1, operation, body: &body },
        ClientMessage::Open { cursor: 9, statement: 1, args: &args, compact_metadata, fetch_rows },
        ClientMessage::Fetch { cursor: 9, fetch_rows },
        ClientMessage::Fetch { cursor: 9, fetch_rows: None },
        ClientMessage::Fetch { cursor: 8, fetch_rows },
        ClientMessage::SessionClose,
        ClientMessage::Reset,
    ];
    let mut frames: Vec<Vec<u8>> = messages.iter().map(|m| m.to_vec().unwrap()).collect();
    frames.insert(1, vec![3, 0, 0, 0, 200, 1, 2]);
    frames
}

/// Takes an arrival whole and answers the frames that were handed out on the way.
fn take(frames: &mut Frames, mut arrival: &[u8]) -> Result<Vec<Vec<u8>>, BadLength> {
    let mut out = Vec::new();
    while !arrival.is_empty() {
        let taken = frames.push(arrival);
        assert!(taken > 0, "a reader that waits has room");
        arrival = &arrival[taken..];
        while let Some(frame) = frames.next_frame()? {
            assert_eq!(frame.kind, frame.bytes[4]);
            out.push(frame.to_vec());
        }
    }
    Ok(out)
}

/// Pushes what is taken whole.
fn push_all(frames: &mut Frames, bytes: &[u8]) {
    assert_eq!(frames.push(bytes), bytes.len());
}

/// What a session replies to frames, and the session after them.
fn replies(frames: &[Vec<u8>]) -> (Vec<Vec<u8>>, Session) {
    let mut session = Session::new();
    let mut all = Vec::new();
    for frame in frames {
        let report = match session.look(frame).work {
            Ok(Work::Prepare) => Report::Prepared { placeholders: 0 },
            Ok(Work::Execute | Work::Open) => Report::Result { columns: 1, rows: 5 },
            Ok(Work::Fetch(_)) => Report::Done,
            Ok(Work::None) | Err(_) => Report::None,
        };
        let mut reply = [0; MIN_REPLY];
        let step = session.step(frame, report, &mut reply);
        assert_eq!(step.used, frame.len(), "a step uses all of a frame that was handed out");
        all.push(step.reply.to_vec());
    }
    (all, session)
}

/// A frame of so many bytes.
fn frame_of(len: usize, kind: u8) -> Vec<u8> {
    let mut frame = u32::try_from(len - 4).unwrap().to_le_bytes().to_vec();
    frame.push(kind);
    frame.extend((5..len).map(|i| i as u8));
    frame
}

#[test]
fn two_cuts_anywhere_change_nothing() {
    let whole = conversation();
    let bytes = whole.concat();
    let mut frames = Frames::new();
    for first in 0..=bytes.len() {
        for second in first..=bytes.len() {
            let mut out = Vec::new();
            for arrival in [&bytes[..first], &bytes[first..second], &bytes[second..]] {
                out.extend(take(&mut frames, arrival).unwrap());
            }
            assert_eq!(out, whole, "cut at {first} and {second}");
            assert!(frames.held().is_empty());
        }
    }
}

#[test]
fn a_cut_anywhere_leaves_the_replies_and_the_session_alone() {
    let whole = conversation();
    let bytes = whole.concat();
    let expected = replies(&whole);
    assert!(expected.1.is_closed());
    for cut in 0..=bytes.len() {
        let mut frames = Frames::new();
        let mut out = take(&mut frames, &bytes[..cut]).unwrap();
        let ahead: usize = out.iter().map(Vec::len).sum();
        assert_eq!(frames.held(), &bytes[ahead..cut], "frames handed out, then bytes held, are those pushed");
        out.extend(take(&mut frames, &bytes[cut..]).unwrap());
        assert_eq!(replies(&out), expected, "cut at {cut}");
    }
}

#[test]
fn one_byte_at_a_time() {
    let whole = conversation();
    let mut frames = Frames::new();
    let mut out = Vec::new();
    for (i, byte) in whole.concat().into_iter().enumerate() {
        let ahead: usize = out.iter().map(Vec::len).sum();
        out.extend(take(&mut frames, &[byte]).unwrap());
        let complete = out.iter().map(Vec::len).sum::<usize>() > ahead;
        assert_eq!(complete, frames.held().is_empty(), "at byte {i}");
    }
    assert_eq!(out, whole);
}

#[test]
fn all_in_one_arrival_and_frames_one_by_one() {
    let whole = conversation();
    let mut frames = Frames::new();
    push_all(&mut frames, &whole.concat());
    for (i, frame) in whole.iter().enumerate() {
        assert_eq!(frames.held(), whole[i..].concat());
        assert_eq!(frames.next_frame().unwrap().map(|f| f.to_vec()).as_ref(), Some(frame));
    }
    assert_eq!(frames.next_frame(), Ok(None));
    assert_eq!(frames.next_frame(), Ok(None), "to wait is no error, and stays none");
}

#[test]
fn frames_ahead_of_a_bad_length_come_first() {
    let whole = conversation();
    let good = whole.concat();
    for length in [0, 65_533, 65_536, u32::MAX] {
        let bytes = [&good[..], &length.to_le_bytes(), b"what is dropped"].concat();
        for cut in 0..=bytes.len() {
            let mut frames = Frames::new();
            let _ = frames.push(&bytes[..cut]);
            let _ = frames.push(&bytes[cut..]);
            for frame in &whole {
                assert_eq!(frames.next_frame().unwrap().unwrap().bytes, frame);
            }
            for _ in 0..2 {
                assert_eq!(frames.next_frame(), Err(BadLength));
                assert_eq!(frames.held(), length.to_le_bytes());
                assert_eq!(frames.push(&good), 0);
            }
        }
    }
    assert_eq!(BadLength.to_string(), Refusal::BadLength.to_string());
    assert_eq!(Refusal::from(BadLength), Refusal::BadLength);
}

#[test]
fn a_bad_length_stops_a_loop_behind_the_frames() {
    let bytes = [conversation().concat(), vec![0; 4]].concat();
    for size in [1, 2, 3, 7, bytes.len()] {
        let mut frames = Frames::new();
        let mut arrivals = bytes.chunks(size).map(|arrival| take(&mut frames, arrival));
        assert!(arrivals.any(|taken| taken == Err(BadLength)));
        assert_eq!(frames.held(), [0; 4]);
    }
}

#[test]
fn start_over_empties() {
    let mut frames = Frames::new();
    for before in [&[][..], &[1, 0], &[0; 9], &[9, 0, 0, 0, 6, 1], &[1, 0, 0, 0, 6, 1]] {
        push_all(&mut frames, before);
        frames.start_over();
        assert!(frames.held().is_empty());
        assert_eq!(frames.next_frame(), Ok(None));
        assert_eq!(take(&mut frames, &conversation().concat()), Ok(conversation()));
    }
}

#[test]
fn the_longest_frame_fills_the_store() {
    let longest = frame_of(MAX_FRAME, 99);
    for size in [1, 65_535, 65_536] {
        let mut frames = Frames::new();
        for arrival in longest.chunks(size) {
            assert_eq!(frames.next_frame(), Ok(None));
            push_all(&mut frames, arrival);
        }
        assert_eq!(frames.held(), longest);
        assert_eq!(frames.push(&[1]), 0, "the store is full");
        let frame = frames.next_frame().unwrap().expect("it is all there");
        assert_eq!((frame.kind, frame.bytes), (99, &longest[..]));
        assert!(frames.held().is_empty());
    }
}

#[test]
fn an_arrival_longer_than_the_store_is_taken_in_part() {
    let whole = [frame_of(40_000, 1), frame_of(MAX_FRAME, 2), frame_of(5, 3), frame_of(40_000, 4)];
    let bytes = whole.concat();
    let mut frames = Frames::new();
    assert_eq!(frames.push(&bytes), MAX_FRAME);
    assert_eq!(frames.push(&bytes[MAX_FRAME..]), 0);
    frames.start_over();
    for size in [1, 1460, 65_535, bytes.len()] {
        let mut out = Vec::new();
        bytes.chunks(size).for_each(|arrival| out.extend(take(&mut frames, arrival).unwrap()));
        assert!(out == whole, "in pieces of {size}");
    }
}

#[test]
fn every_type_byte_is_handed_out() {
    let mut frames = Frames::new();
    for kind in 0..=255 {
        push_all(&mut frames, &[1, 0, 0, 0, kind]);
        let frame = frames.next_frame().unwrap().unwrap();
        assert_eq!((frame.kind, &frame[..]), (kind, &[1, 0, 0, 0, kind][..]));
        let known = [6, 7, 40, 41, 42, 43, 44, 45].contains(&kind);
        let found = Kind::from_number(kind.into());
        assert_eq!(found.map(|k| k as u8), known.then_some(kind));
        let unknown = Session::new().look(&frame).work == Err(Refusal::UnknownType);
        assert_eq!(unknown, !known);
    }
}

#[test]
fn frames_behind_a_session_close_are_refused_by_the_step() {
    let mut frames = Frames::new();
    push_all(&mut frames, &[1, 0, 0, 0, 7, 1, 0, 0, 0, 6]);
    let mut session = Session::new();
    let mut outcomes = Vec::new();
    while let Some(frame) = frames.next_frame().unwrap() {
        let mut reply = [0; MIN_REPLY];
        outcomes.push(session.step(&frame, Report::None, &mut reply).outcome.map(|_| ()));
    }
    assert_eq!(outcomes, [Ok(()), Err(Refusal::Closed)]);
}

#[test]
fn a_step_without_room_can_be_made_again() {
    let mut frames = Frames::new();
    push_all(&mut frames, &[1, 0, 0, 0, 6]);
    let frame = frames.next_frame().unwrap().unwrap();
    let mut session = Session::new();
    let mut reply = [0; MIN_REPLY];
    assert_eq!(session.step(&frame, Report::None, &mut reply[1..]).outcome, Err(Refusal::NoRoom));
    assert!(session.step(&frame, Report::None, &mut reply).outcome.is_ok());
}

#[test]
fn a_clone_goes_on_by_itself() {
    let mut frames = Frames::default();
    push_all(&mut frames, &[1, 0, 0]);
    let mut other = frames.clone();
    push_all(&mut other, &[0, 7]);
    push_all(&mut frames, &[0, 6]);
    assert_eq!(other.next_frame().unwrap().unwrap().kind, 7);
    assert_eq!(frames.next_frame().unwrap().unwrap().kind, 6);
    push_all(&mut frames, &[1, 0, 0]);
    assert_eq!(format!("{frames:?}"), "Frames { held: 3 }");
}
