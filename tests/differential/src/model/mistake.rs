//! The deliberate mistakes the model can be told to make.
//!
//! Each is a plausible misreading of the papers and one line of difference
//! where the rule is applied. `mutants` shows that the comparison finds all.

macro_rules! mistakes {
    ($($(#[$doc:meta])* $name:ident,)*) => {
        #[derive(Clone, Copy, Debug, PartialEq, Eq)]
        pub enum Mistake { $($(#[$doc])* $name,)* }

        /// Every mistake, in the order of the declaration.
        pub const ALL: &[Mistake] = &[$(Mistake::$name,)*];
    };
}

mistakes! {
    // Reading.
    /// An eleventh byte of a varint is let through.
    ElevenByteVarint,
    /// A tag above 2^32 is accepted, its high bits dropped.
    WideTag,
    /// A length is taken modulo 2^32.
    LengthWraps,
    /// Groups nest to depth 33.
    Depth33,
    /// Groups nest to depth 31 only.
    Depth31,
    /// A group's end may carry any number.
    AnyGroupEnd,
    /// An end without a start is skipped.
    LoneEnd,
    /// An unlisted enum value overwrites the earlier good one.
    UnlistedOverwrites,
    /// An enum is compared in all 64 bits.
    WideEnum,
    /// An id above 32 bits is bad instead of cut to 32.
    WideIdBad,
    /// The first of several plain values counts.
    FirstValue,
    /// A known number with another wire type is bad.
    OtherWireBad,
    /// The scalar of an object or array is read.
    UnchosenScalarRead,
    /// Prepare type 3 chooses field 5, as if the types were counted through.
    PrepareType3,
    /// A bool of 2 is read as false.
    BoolTwoFalse,
    /// A signaling NaN in a float loses that bit.
    NanQuieted,
    /// Zigzag by dividing signed numbers, which loses the upper half.
    ZigzagDivides,
    /// A Reset's payload is not looked at.
    ResetUnread,
    /// An empty find body counts as missing.
    EmptyBodyMissing,
    /// Bytes past the frame are counted as used.
    AllBytesUsed,
    /// A refused payload is not used.
    BadUsesNothing,
    /// An object among a Prepare's own arguments is bad.
    PrepareObjectBad,
    /// A StmtExecute may lack its text.
    TextOptional,
    /// Octets and strings may lack their bytes.
    OctetsOptional,
    /// Places of bytes are counted from the payload.
    PlaceInPayload,
    /// A pass over the arguments stops at an object.
    PassStopsAtObject,

    // Reading messages in parts.
    /// Of an embedded message the first part alone counts.
    FirstPartAlone,
    /// Of a statement the last part alone counts, as document 01 had it.
    LastStatementPart,
    /// Of an argument's scalar the last part alone counts.
    LastScalarPart,
    /// Of octets and strings the last part alone counts.
    LastBytesPart,
    /// Octets and strings are looked for in the last part of the scalar that has them.
    BytesOfLastScalar,
    /// What is required is asked of each part.
    RequiredOfEachPart,
    /// An earlier part may be bad.
    BadEarlierPart,
    /// The bytes of all parts are read as those of one, so that a group may span two.
    PartsJoined,
    /// The type in the first part that has one stands.
    FirstPartsType,
    /// Bodies that the type does not choose must be good field lists.
    UnchosenBodyRead,
    /// Octets and strings that the type does not choose must be good field lists.
    UnchosenBytesRead,
    /// Arguments are merged with each other.
    ArgumentsMerged,

    // Refusing two bodies.
    /// Two bodies are accepted, the last one taken.
    TwiceAccepted,
    /// Two bodies are accepted and merged, as other messages are.
    TwiceMerged,
    /// 17 is told without a look into the bodies.
    TwiceBeforeBad,
    /// Of two bodies the last one alone must be good.
    TwiceLastJudged,
    /// What is required is asked of each of two bodies.
    TwiceRequiredOfEach,
    /// Bodies of all types are counted, not only of the chosen one.
    TwiceOfAnyBody,
    /// The chosen field counts with any wire type.
    TwiceOfAnyWire,
    /// Bodies are counted in the last part of the statement.
    TwiceInLastPart,
    /// Bodies are counted in each part of the statement by itself.
    TwiceInOnePart,
    /// Bodies without bytes are not counted.
    TwiceWithBytes,
    /// An argument of a frame refused 17 is refused 9.
    TwiceArgumentNine,
    /// The body of a frame refused 17 is the last one.
    TwiceKeepsBody,
    /// 17 is told before a closed session.
    TwiceBeforeClosed,
    /// 17 is told behind 7 to 14.
    TwiceAfterAll,

    // Looking.
    /// An unknown type is told before a closed session.
    UnknownBeforeClosed,
    /// Too few arguments (9) is told before an unsupported one (8).
    NineBeforeEight,
    /// 8 names the last object or array instead of the first.
    LastObjectNamed,
    /// 9 names the placeholder count instead of the argument count.
    NineNamesPlaceholders,
    /// Ids in texts are printed signed.
    SignedId,
    /// An Open at 16 cursors is refused though its own id is among them.
    OpenFullRefused,
    /// A Prepare at 64 statements is refused though its own id is among them.
    PrepareFullRefused,
    /// 14 is told before 12.
    FullBeforeOther,
    /// The cursor of another id is closed, as the worklog has it, not refused 12.
    OtherCursorClosed,
    /// Fetching from a cursor without rows left gives FetchDone again, not 11.
    FetchPastEnd,

    // Inspecting.
    /// An Open does not tell that the earlier cursor of its id ends.
    OpenToldEndsNothing,
    /// A Prepare is told the lowest free place, though its id is live.
    PrepareToldFreePlace,
    /// A free place is told as ended where its zeros are the ids asked for.
    FreeToldEnded,
    /// A frame that a look refuses is told no places.
    RefusedToldNothing,

    // Telling of padded numbers.
    /// A varint is padded only where a shorter form exists: nine `FF` and `7F` is not.
    PaddedByLength,
    /// A varint is padded only where it ends in a byte of 0.
    PaddedByLastByte,
    /// An id or enum with bits above the 32 that are kept is called padded.
    WideIsPadded,
    /// A bool of 2 is called padded.
    BoolTwoIsPadded,
    /// Tags are forgotten.
    TagsNotCounted,
    /// Lengths are forgotten.
    LengthsNotCounted,
    /// Numbers are forgotten.
    NumbersNotCounted,
    /// Unknown fields are forgotten.
    UnknownNotCounted,
    /// Only the last occurrence of a field counts, as if each wrote over the one before.
    EarlierNotCounted,
    /// Numbers that a Scalar's type does not choose are forgotten.
    UnchosenNumberNotCounted,
    /// A group's start tag is forgotten.
    GroupStartNotCounted,
    /// The fields in a group count.
    GroupInsideCounted,
    /// A group's end tag counts.
    GroupEndCounted,
    /// The statement of a Prepare or an Open is forgotten.
    StatementNotCounted,
    /// The fields of an Open's Execute are forgotten.
    OpenExecuteNotCounted,
    /// An argument's inside is forgotten.
    ArgumentsNotCounted,
    /// A Scalar's fields are forgotten.
    ScalarNotCounted,
    /// The inside of octets and strings is forgotten.
    OctetsNotCounted,
    /// The fields of the chosen Prepare body count.
    BodyInsideCounted,
    /// The arguments in a Prepare body count.
    BodyArgumentsCounted,
    /// The inside of a body that is not chosen counts.
    UnchosenBodyCounted,
    /// The inside of a scalar, octets or string that is not chosen counts.
    UnchosenValueCounted,
    /// Earlier parts of a message are forgotten.
    EarlierPartNotCounted,
    /// Of an Open's two Executes the last one alone counts.
    FirstExecuteNotCounted,
    /// The fields of a Prepare body count where there are two.
    TwiceBodiesCounted,
    /// A frame refused 17 says no.
    TwiceSaysNo,
    /// The message of a frame refused 17 says no, though a look says what was read.
    TwiceMessageSaysNo,
    /// A closed session says what was read.
    ClosedSaysYes,
    /// A bad payload says whether its first field was padded.
    BadPayloadSaysYes,
    /// A step refused 3 says what was read.
    SmallReplySaysYes,
    /// Every refused frame says no.
    RefusedSaysNo,
    /// A step refused 15 or 16 says no.
    ReportRefusedSaysNo,
    /// The message of an inspection says no.
    InspectionSaysNo,

    // Stepping.
    /// Replacing a statement keeps its cursor.
    ReplaceKeepsCursor,
    /// Execute keeps the statement's cursor.
    ExecuteKeepsCursor,
    /// Deallocate keeps the statement's cursor.
    DeallocateKeepsCursor,
    /// A failed Execute ends the cursor already.
    FailedExecuteEnds,
    /// fetch_rows is added to the rows sent before comparing.
    AddedFirst,
    /// fetch_rows absent means none in a Fetch.
    FetchAbsentNone,
    /// fetch_rows absent means all in an Open.
    OpenAbsentAll,
    /// Sending exactly the last row suspends, as the worklog's example shows.
    LastRowSuspends,
    /// A new entry goes behind the last live one while there is room.
    PlaceBehindLast,
    /// A replaced cursor moves to the lowest free place.
    ReplacedMoves,
    /// A freed place keeps its numbers.
    FreedKeepsNumbers,
    /// Session close leaves the tables.
    CloseKeepsTables,
    /// A report of rows without columns is accepted.
    RowsWithoutColumns,
    /// A failure code is not held to 32 bits.
    WideCode,
    /// A failure code of 0 is passed on.
    CodeZero,
    /// 65,536 placeholders are accepted.
    MorePlaceholders,
    /// 4,097 columns are accepted.
    MoreColumns,
    /// 2^32 rows are accepted.
    MoreRows,
    /// A report is asked for where no work is wanted.
    ReportAlways,
    /// Execute without columns gives FetchDone all the same.
    ExecuteAlwaysDone,
    /// Open without columns gives StmtExecuteOk alone, as Execute does.
    OpenWithoutDone,
    /// A reply of 128 bytes is refused 3.
    Reply128Refused,
    /// The rest of the reply buffer is cleared.
    ReplyCleared,

    // Writing.
    /// An absent compact_metadata is written as false.
    WritesAbsent,
    /// A frame of exactly the limit is refused 2.
    LimitRefused,
    /// 3 is told before 2.
    RoomBeforeLimit,
    /// The stretch may hold other fields than arguments.
    LooseStretch,
    /// Ids are written as int32, so those above 2^31 take ten bytes.
    IdWrittenSigned,
    /// An argument that just fills the buffer is refused 3.
    FullStretchRefused,

    // Writing images.
    /// As much of an image as there is room for is written before 3.
    WrittenInPart,
    /// A buffer that the image just fills is refused 3.
    FullBufferRefused,
    /// A buffer that the longest image would not fit is refused 3.
    RoomForLongest,
    /// The bytes past the image are cleared.
    RestCleared,
    /// A session of a host's own that breaks a rule is refused 18.
    UnrulyNotWritten,
    /// In a session of a host's own a flag is yes only if it is 1.
    OnlyOneIsYes,
    /// The image of a closed session says open.
    ClosedNotWritten,
    /// Cursors with all rows sent are left out.
    DoneLeftOut,
    /// Places are counted from 1.
    PlacesFromOne,
    /// Entries are numbered through, free places forgotten.
    PlacesCloseUp,
    /// Rows sent stand before reported rows.
    SentBeforeReported,
    /// A cursor's statement id stands before its own.
    StatementIdFirst,

    // Reading images.
    /// An image that ends early gives what it has until there.
    CutTaken,
    /// The image of no bytes gives a fresh session.
    NoImageIsFresh,
    /// Padded numbers are accepted.
    PaddedTaken,
    /// Bits past 64 are dropped as in a payload.
    DroppedBitsTaken,
    /// Bytes behind an image are not looked at.
    BehindTaken,
    /// The form is not looked at.
    AnyForm,
    /// A closed flag of 2 is yes.
    AnyFlag,
    /// A closed session may have entries.
    ClosedWithEntriesTaken,
    /// A place may stand twice, and the later entry stays.
    PlaceTwiceTaken,
    /// Places may stand in any order.
    AnyOrder,
    /// A statement at place 64 is dropped.
    StatementPlacePast,
    /// A cursor at place 16 is dropped.
    CursorPlacePast,
    /// Place 63 of the statements and place 15 of the cursors are refused.
    LastPlaceRefused,
    /// Two statements may have one id.
    StatementTwiceTaken,
    /// Two cursors may have one id.
    CursorTwiceTaken,
    /// A statement id is cut to 32 bits.
    StatementIdWide,
    /// A cursor id is cut to 32 bits.
    CursorIdWide,
    /// The statement id of a cursor is cut to 32 bits before it is looked for.
    StatementIdCut,
    /// An id of 0 is refused.
    IdZeroRefused,
    /// 2^32 reported rows are accepted.
    RowsWide,
    /// 65,536 placeholders are accepted from an image.
    ManyPlaceholders,
    /// A cursor may be on a statement that is not listed.
    NoStatementTaken,
    /// Two cursors may be on one statement.
    TwoOnOneTaken,
    /// More rows may be sent than reported.
    SentAboveTaken,
    /// A cursor with all rows sent is refused.
    AllSentRefused,
    /// Entries of the session that is read into stay where the image has none.
    OldEntriesKept,
    /// A closed session stays closed whatever it reads.
    StaysClosed,
    /// A closed session is restored open.
    RestoredOpen,
    /// Restored entries take the lowest places.
    RestoredCloseUp,
    /// A restored cursor has sent nothing.
    RestoredSentNone,
    /// A restored cursor has only the rows then left, numbered from 0.
    RestoredFromZero,
    /// A refused image leaves an empty session.
    RefusedEmpties,
    /// The statements of an image are taken before its cursors are judged.
    RefusedHalfRead,

    // Keeping the tally from an image on.
    /// The rows of a restored cursor are numbered from 0.
    TallyFromZero,
    /// A restored cursor counts with all its reported rows.
    TallyAllRows,
    /// Restored cursors are no openings.
    TallyForgets,

    // Reading arrivals.
    /// What stands behind a bad length is never dropped.
    KeepsBehindBadLength,
    /// The four bytes of a bad length are dropped with what is behind them.
    DropsBadLength,
    /// A bad length drops the frames ahead of it.
    DropsFramesAhead,
    /// A bad length that handing out uncovers keeps what is behind it until the next call.
    DropsLate,
    /// Arrivals are taken, and dropped, where a bad length stands first.
    TakesBehindBadLength,
    /// Bytes dropped behind a bad length do not count as taken.
    DroppedNotCounted,
    /// A bad length is told as 1.
    WaitsAtBadLength,
    /// A length is good up to the size of the store, its own four bytes forgotten.
    LengthLimitAtStore,
    /// A frame is handed out one byte short.
    HandsOutOneByteShort,
    /// Frames of other types than the eight are not handed out.
    SkipsUnknownTypes,
    /// Starting over keeps the part of a frame.
    StartOverKeepsPart,
    /// The last byte of the store is not used.
    StoreOneByteShort,
    /// Only the room behind the bytes held is used, not the room in front of them.
    TakesNoMoreThanBehind,
    /// An arrival without room for all of it is not taken at all.
    TakesAllOrNothing,
    /// A push that takes nothing says 1, though a whole frame stands first.
    NothingTakenWaits,
}

impl Mistake {
    /// Whether it is made with images, and shows in what is written or read.
    pub fn is_on_images(self) -> bool {
        (Mistake::WrittenInPart as usize..=Mistake::RefusedHalfRead as usize).contains(&(self as usize))
    }

    /// Whether it is made with arrivals, where steps on frames would not show it.
    pub fn is_on_arrivals(self) -> bool {
        use Mistake::*;
        matches!(
            self,
            KeepsBehindBadLength
                | DropsBadLength
                | DropsFramesAhead
                | DropsLate
                | TakesBehindBadLength
                | DroppedNotCounted
                | WaitsAtBadLength
                | LengthLimitAtStore
                | HandsOutOneByteShort
                | SkipsUnknownTypes
                | StartOverKeepsPart
                | StoreOneByteShort
                | TakesNoMoreThanBehind
                | TakesAllOrNothing
                | NothingTakenWaits
        )
    }
}
