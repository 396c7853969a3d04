//! Every deliberate mistake is found, and the reference model is not accused.

use differential::compare::{search, search_arrivals, sweep, sweep_arrivals};
use differential::coverage::Coverage;
use differential::generate::{arrivals, every_image, Event, Imaging, Operation, Random};
use differential::implementation::*;
use differential::model::{Layer, Mistake, Model, MISTAKES};
use differential::mutants::{hunt_all, WITHIN};
use differential::under_test;

const SEED: u64 = 1;

#[test]
fn all_are_found() {
    let caught = hunt_all(&under_test(), SEED);
    caught.iter().for_each(|one| println!("{one}"));
    let free: Vec<_> = caught.iter().filter(|one| one.steps.is_none()).collect();
    assert!(free.is_empty(), "not found within {WITHIN} steps: {}", free.len());
}

/// These break a promise.
const BROKEN: &[Mistake] = {
    use Mistake::*;
    &[
        OpenToldEndsNothing,
        PrepareToldFreePlace,
        FreeToldEnded,
        ReplaceKeepsCursor,
        ExecuteKeepsCursor,
        DeallocateKeepsCursor,
        CloseKeepsTables,
        FailedExecuteEnds,
        OtherCursorClosed,
        FirstPartAlone,
        LastStatementPart,
        LastScalarPart,
        LastBytesPart,
        BytesOfLastScalar,
        RequiredOfEachPart,
        FirstPartsType,
        TwiceInLastPart,
        TwiceInOnePart,
        TwiceArgumentNine,
        TwiceKeepsBody,
        TwiceBeforeClosed,
        TwiceAfterAll,
        TwiceMessageSaysNo,
        UnknownBeforeClosed,
        ClosedSaysYes,
        BadPayloadSaysYes,
        SmallReplySaysYes,
        RefusedSaysNo,
        ReportRefusedSaysNo,
        InspectionSaysNo,
        LastRowSuspends,
        OpenWithoutDone,
        ReplyCleared,
        WrittenInPart,
        FullBufferRefused,
        RoomForLongest,
        RestCleared,
        UnrulyNotWritten,
        ClosedNotWritten,
        DoneLeftOut,
        PlacesCloseUp,
        SentBeforeReported,
        BehindTaken,
        IdZeroRefused,
        NoStatementTaken,
        SentAboveTaken,
        AllSentRefused,
        OldEntriesKept,
        StaysClosed,
        RestoredOpen,
        RestoredCloseUp,
        RestoredSentNone,
        RestoredFromZero,
        RefusedEmpties,
        RefusedHalfRead,
        TallyFromZero,
        TallyAllRows,
        TallyForgets,
    ]
};

/// Against itself a mutant differs in nothing: only the promises checked on
/// each side alone, the tally first among them, can find it.
#[test]
fn promises_alone_find_these() {
    for mistake in BROKEN {
        let mutant = Model::wrong(*mistake);
        let found = search(&mutant, &mutant, SEED, WITHIN, &mut Coverage::default());
        assert!(found.is_some(), "{mistake:?} keeps all promises");
    }
}

/// What is promised of a reader leaves no mistake on arrivals unseen.
#[test]
fn promises_alone_find_all_on_arrivals() {
    for mistake in MISTAKES.iter().filter(|mistake| mistake.is_on_arrivals()) {
        let mutant = Model::wrong(*mistake);
        let found = search_arrivals(&mutant, &mutant, SEED, WITHIN, &mut Coverage::default());
        assert!(found.is_some(), "{mistake:?} keeps all promises");
    }
}

/// What an operation on a reader answers, and what is held behind it.
#[derive(Debug, PartialEq)]
enum Told {
    Pushed(Pushed),
    Next(NextFrame),
    StartedOver,
}

fn told<I: Implementation>(who: &I, reader: &mut I::Reader, operation: &Operation) -> (Told, Vec<u8>) {
    let told = match operation {
        Operation::Push(bytes) => Told::Pushed(who.push(reader, bytes)),
        Operation::NextFrame { .. } => Told::Next(who.next_frame(reader)),
        Operation::StartOver => {
            who.start_over(reader);
            Told::StartedOver
        }
    };
    (told, who.held(reader))
}

/// Whether two readers differ in one sequence, with no promise asked of either.
fn differ<A: Implementation, B: Implementation>(a: &A, b: &B, events: &[Event]) -> bool {
    let (mut left, mut right) = (a.reader(), b.reader());
    events.iter().any(|event| match event {
        Event::Reader(operation) => told(a, &mut left, operation) != told(b, &mut right, operation),
        _ => false,
    })
}

/// The comparison leaves no mistake on arrivals unseen either, without the promises.
#[test]
fn comparison_alone_finds_all_on_arrivals() {
    const SEQUENCES: usize = 2_000;
    for mistake in MISTAKES.iter().filter(|mistake| mistake.is_on_arrivals()) {
        let (reference, mutant) = (under_test(), Model::wrong(*mistake));
        let mut random = Random::new(SEED);
        let found = (0..SEQUENCES).any(|_| differ(&reference, &mutant, &arrivals(&mut random)));
        assert!(found, "{mistake:?} answers as the library does");
    }
}

/// An image as it is written into a buffer with `more` or fewer bytes than it has, and what was answered.
fn written<I: Implementation>(who: &I, session: &I::Session, more: isize) -> (Written, Vec<u8>) {
    let length = who.image(session, &mut [0; MAX_IMAGE]).length;
    let mut buffer = vec![0xaa; length.saturating_add_signed(more)];
    (who.image(session, &mut buffer), buffer)
}

/// What of one event with images can be compared.
fn imaged<I: Implementation>(who: &I, session: &mut I::Session, event: &Event) -> Vec<(Written, Vec<u8>)> {
    match event {
        Event::Image(Imaging::Restore(image)) => {
            let (read, reason) = who.restore(session.clone(), image);
            *session = read;
            vec![(Written { reason, length: 0 }, Vec::new())]
        }
        Event::Image(Imaging::HostMade(words)) => vec![written(who, &who.made(words), 0)],
        _ => [-1, 0, 5].map(|more| written(who, session, more)).to_vec(),
    }
}

/// Whether two sessions differ in one sequence of images, with no promise asked of either.
fn images_differ<A: Implementation, B: Implementation>(a: &A, b: &B, events: &[Event]) -> bool {
    let (mut left, mut right) = (a.fresh(), b.fresh());
    events.iter().any(|event| {
        let (one, other) = (imaged(a, &mut left, event), imaged(b, &mut right, event));
        one != other || a.tables(&left) != b.tables(&right)
    })
}

/// The comparison leaves no mistake with images unseen either, and chance is not needed for it.
#[test]
fn comparison_alone_finds_all_on_images() {
    let sequences = every_image();
    for mistake in MISTAKES.iter().filter(|mistake| mistake.is_on_images()) {
        let (reference, mutant) = (under_test(), Model::wrong(*mistake));
        let found = sequences.iter().any(|events| images_differ(&reference, &mutant, events));
        assert!(found, "{mistake:?} answers as the library does");
    }
}

#[test]
fn the_reference_is_not_accused() {
    let (reference, other) = (Model::reference(), under_test());
    let mut coverage = Coverage::default();
    let found = sweep(&reference, &other, &mut Coverage::default())
        .or_else(|| search(&reference, &other, SEED, 60_000, &mut coverage));
    if let Some(found) = found {
        panic!("{}", found.print);
    }
    // A run that misses a refusal, or accepts next to nothing, proves little.
    assert!((0..=17).all(|reason| coverage.reason(reason) > 0), "\n{coverage}");
    assert!([PREPARE, CURSOR_OPEN].iter().all(|kind| coverage.twice(*kind) >= 100), "\n{coverage}");
    assert!((0.4..0.7).contains(&coverage.accepted_share()), "\n{coverage}");
    assert!(coverage.arguments.iter().all(|count| *count > 0), "\n{coverage}");
    // Both answers about padded numbers, often, of each of the eight messages.
    assert!(coverage.padded.iter().flatten().all(|count| *count >= 20), "\n{coverage}");
    // And of frames refused 17.
    assert!(coverage.padded_twice.iter().flatten().all(|count| *count >= 20), "\n{coverage}");
    assert!([0, 2, 3, 6].iter().all(|reason| coverage.drafts[*reason] > 0), "\n{coverage}");
    assert!([0, 3, 6].iter().all(|reason| coverage.stretches[*reason] > 0), "\n{coverage}");
    in_parts_were_met(&coverage);
    images_were_met(&coverage);
}

/// Images of every kind were accepted, and refused for each fault alone.
fn images_were_met(coverage: &Coverage) {
    let met = &coverage.images;
    assert!(met.reached == coverage.reason(0) && met.handed_over >= 1_000, "\n{met}");
    assert!(met.accepted.iter().all(|count| *count > 0), "\n{met}");
    assert!(met.refused.iter().all(|count| *count > 0), "\n{met}");
    assert!(met.host_made.iter().all(|count| *count >= 50), "\n{met}");
}

/// Each layer in parts was accepted often, was bad and stood in a frame refused
/// 17; bodies in parts never were accepted.
fn in_parts_were_met(coverage: &Coverage) {
    for (layer, [accepted, bad, twice, _]) in Layer::IN_PARTS.iter().zip(coverage.in_parts) {
        assert_eq!(accepted >= 100, !layer.is_body(), "{layer:?}\n{coverage}");
        assert!(accepted == 0 || !layer.is_body(), "{layer:?}\n{coverage}");
        assert!(bad > 0 && twice > 0, "{layer:?}\n{coverage}");
    }
}

#[test]
fn no_arrival_accuses_the_reference() {
    let (reference, other) = (Model::reference(), under_test());
    let mut coverage = Coverage::default();
    let found = sweep_arrivals(&reference, &other, &mut coverage).or_else(|| {
        let operations = coverage.operations() + 20_000;
        search_arrivals(&reference, &other, SEED, operations, &mut coverage)
    });
    if let Some(found) = found {
        panic!("{}", found.print);
    }
    let met = &coverage.arrivals;
    let counts = met.pushes.iter().chain(&met.next_frames).chain(&met.start_overs);
    assert!(counts.chain([&met.cut_short]).all(|count| *count > 0), "\n{met}");
}
