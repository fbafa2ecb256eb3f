//! Writers with one mistake each: the checks of request 2.2 must find every one. The writer here is
//! put together otherwise than the reference's: what refuses is taken from the list of all that is
//! wrong, and the contents are laid entry by entry.

use std::panic::{catch_unwind, AssertUnwindSafe};

use reference::bad_terms::{bad_terms, Bad};
use reference::formula::TermList;
use reference::grid::Vertex;
use reference::ground::Ground;
use reference::limits::MOST;
use reference::named;
use reference::operations::{Move, Step, Verdict};
use reference::order::CutOrder;
use reference::product::{Product, Reference};
use reference::seams::Ending;
use reference::tally::Named;
use reference::writing::{Loose, Which};
use reference::writing_checks as checks;
use reference::writing_met::{ways, wrong_length, Way, WrongEnds, WrongLength, WrongStart};

named! {
    /// What a writer does wrong.
    Mistake {
        /// Nothing.
        Nothing: 1,
        /// Offsets count from behind the contents.
        OffsetsWithoutContents: 1,
        /// Each offset is that of the body behind.
        OffsetsOfTheEnd: 1,
        /// The start comes before the polynomials.
        StartBeforePolynomials: 1,
        /// The polynomials come from the last to the first.
        PolynomialsReversed: 1,
        /// The first polynomial stands for all.
        FirstForAll: 1,
        /// Byte 3 is 0.
        BiasDropped: 1,
        /// Byte 2 is n.
        EntryCountIsN: 1,
        /// The high byte of a number comes first.
        HighByteFirst: 1,
        /// The high byte of a number is 0.
        LowByteOnly: 1,
        /// An entry has the length before the offset.
        LengthBeforeOffset: 1,
        /// Polynomial 2 is written in dimension 2 too, if there is one.
        TwoInDimension2: 1,
        /// The job ends the buffer.
        AtTheEnd: 1,
        /// The byte behind the job becomes 0.
        ByteBehindChanged: 1,
        /// All bytes behind the job become 0.
        RestCleared: 1,
        /// Byte 0 is written before anything is tested.
        ByteBeforeRefusal: 1,
        /// The contents are written before the space is tested, as far as they go.
        ContentsBeforeSpace: 1,
        /// A buffer of exactly the job's length is too short.
        ExactRefused: 1,
        /// A buffer that is longer than the job is refused.
        LongerRefused: 1,
        /// A buffer that is one byte short is taken, and the last byte is not written.
        OneShortTaken: 1,
        /// The answer is the buffer's length.
        AnswerIsSpace: 1,
        /// The answer is the length of the bodies.
        AnswerWithoutContents: 1,
        /// 16 comes before 8.
        SpaceBeforeStart: 1,
        /// 16 comes before 7.
        SpaceBeforeTerms: 1,
        /// 16 comes before 5.
        SpaceBeforeLengths: 1,
        /// 16 comes before 3, if there is no space at all.
        SpaceBeforeDimension: 1,
        /// 8 comes before 7.
        StartBeforeTerms: 1,
        /// 7 comes before 6.
        TermsBeforeBox: 1,
        /// 6 to 8 come before 5, where the body at fault has its length.
        LengthsLast: 1,
        /// Of a body that is too long for its entry, the bytes that its length has in 16 bits are
        /// taken.
        LengthsIn16Bits: 1,
        /// The low 8 bits of n are looked at.
        NIn8Bits: 1,
        /// The low 32 bits of n are looked at.
        NIn32Bits: 1,
        /// Dimension 4 is refused.
        No4: 1,
        /// A bias above 0 is refused, as byte 3 once was.
        BiasRefused: 1,
        /// Polynomial 2 is tested in dimension 2 too.
        TwoReadInDimension2: 1,
        /// A polynomial that is not read is refused if it is too long for an entry.
        UnreadTooLong: 1,
        /// No polynomial may be empty.
        UnreadEmpty: 1,
        /// An empty polynomial is taken.
        EmptyTaken: 1,
        /// A polynomial with bytes behind its last term is taken, but for these bytes.
        NotWholeTaken: 1,
        /// A polynomial may have 70 terms in each dimension.
        SeventyTerms: 1,
        /// A start that is too long is taken, but for the bytes behind.
        LongStartTaken: 1,
        /// The last polynomial's terms are not tested.
        LastTermsNotTested: 1,
        /// The order of terms is not tested.
        OrderNotTested: 1,
        /// A coefficient of 1,048,576 in size is refused.
        LargestCoefficientRefused: 1,
        /// The ends of the last axis are not tested.
        LastAxisNotTested: 1,
        /// Equal ends are taken.
        EqualEndsTaken: 1,
        /// The ends 256 and -256 are refused.
        LargestEndsRefused: 1,
        /// The start is not tested.
        StartNotTested: 1,
        /// The side is not tested.
        SideNotTested: 1,
        /// Masks may have axes above n.
        MaskAboveNTaken: 1,
        /// A start outside the box is refused with 9.
        StartInBox: 1,
    }
}

/// What a body is cut to by a mistake.
fn cut(mistake: Mistake, which: Which, n: usize, body: &[u8]) -> Vec<u8> {
    let is_polynomial = matches!(which, Which::Polynomial(_));
    let length = match mistake {
        Mistake::LengthsIn16Bits => body.len() % 65_536,
        Mistake::NotWholeTaken if is_polynomial && body.len() >= 8 => body.len() / 8 * 8,
        Mistake::LongStartTaken if which == Which::Start => body.len().min(n.saturating_mul(3)),
        _ => body.len(),
    };
    body[..length].to_vec()
}

/// What the writer takes for what it is handed.
fn taken(mistake: Mistake, loose: &Loose) -> Loose {
    let mut taken = loose.clone();
    taken.n = match mistake {
        Mistake::NIn8Bits => loose.n % (1 << 8),
        Mistake::NIn32Bits => loose.n % (1 << 32),
        _ => loose.n,
    };
    for which in Which::of(MOST) {
        *taken.body_mut(which) = cut(mistake, which, taken.n as usize, loose.body(which));
    }
    if mistake == Mistake::FirstForAll {
        taken.polynomials = [0; MOST - 1].map(|first| loose.polynomials[first].clone());
    }
    taken
}

/// Whether a way to a refusal is not seen.
fn overlooked(mistake: Mistake, n: usize, loose: &Loose, way: Way) -> bool {
    let is_seventy = |k: usize| {
        let length = loose.polynomials[k - 1].len();
        length % 8 == 0 && length <= 560
    };
    match (mistake, way) {
        (Mistake::EmptyTaken, Way::Length(Which::Polynomial(_), WrongLength::Empty)) => true,
        (Mistake::SeventyTerms, Way::Length(Which::Polynomial(k), WrongLength::Long)) => {
            is_seventy(k)
        }
        (Mistake::LastTermsNotTested, Way::Term(k, _)) => k == n - 1,
        (Mistake::OrderNotTested, Way::Term(_, Bad::Equal | Bad::Lower)) => true,
        (Mistake::LastAxisNotTested, Way::Ends(axis, _)) => axis == n,
        (Mistake::EqualEndsTaken, Way::Ends(_, WrongEnds::Equal)) => true,
        (Mistake::StartNotTested, Way::Start(_)) => true,
        (Mistake::SideNotTested, Way::Start(WrongStart::Side)) => true,
        (Mistake::MaskAboveNTaken, Way::Start(WrongStart::AboveN)) => true,
        _ => false,
    }
}

/// The bytes of a number of 16 bits among those of a body, at a step, from some offset on.
fn has_number(body: &[u8], offset: usize, step: usize, wanted: &[&[u8]]) -> bool {
    let width = wanted[0].len();
    let numbers = (offset..).step_by(step).map_while(|at| body.get(at..at + width));
    numbers.into_iter().any(|number| wanted.contains(&number))
}

/// A refusal that there is by the mistake alone.
fn made_up(mistake: Mistake, n: usize, loose: &Loose, space: usize, length: usize) -> Option<u8> {
    let unread = &loose.polynomials[n - 1..];
    let two = Which::Polynomial(2);
    let second = loose.body(two);
    match mistake {
        Mistake::No4 => (n == 4).then_some(3),
        Mistake::BiasRefused => (loose.bias > 0).then_some(2),
        Mistake::UnreadTooLong => unread.iter().any(|body| body.len() > 65_535).then_some(5),
        Mistake::UnreadEmpty => unread.iter().any(|body| body.is_empty()).then_some(5),
        Mistake::TwoReadInDimension2 if n == 2 && wrong_length(3, two, second.len()).is_some() => {
            Some(5)
        }
        Mistake::TwoReadInDimension2 if n == 2 && !bad_terms(3, second).is_empty() => Some(7),
        Mistake::LargestCoefficientRefused => {
            let largest = [&1_048_576i32.to_le_bytes()[..], &(-1_048_576i32).to_le_bytes()];
            let has = |body: &Vec<u8>| has_number(body, 0, 8, &largest);
            loose.polynomials[..n - 1].iter().any(has).then_some(7)
        }
        Mistake::LargestEndsRefused => {
            let largest = [&256i16.to_le_bytes()[..], &(-256i16).to_le_bytes()];
            has_number(&loose.ends, 0, 2, &largest).then_some(6)
        }
        Mistake::StartInBox => start_outside(n, loose).then_some(9),
        Mistake::ExactRefused => (space == length).then_some(16),
        Mistake::LongerRefused => (space > length).then_some(16),
        _ => None,
    }
}

/// Whether the first coordinate of the start lies outside the box.
fn start_outside(n: usize, loose: &Loose) -> bool {
    if loose.start.len() != 3 * n || loose.ends.len() != 4 * n {
        return false;
    }
    let at = |body: &[u8], k: usize| i16::from_le_bytes([body[2 * k], body[2 * k + 1]]);
    let (low, high, x) = (at(&loose.ends, 0), at(&loose.ends, 1), at(&loose.start, 0));
    x < low || high < x
}

/// The refusals in the order in which they are tested.
fn order(mistake: Mistake) -> [u8; 8] {
    match mistake {
        Mistake::SpaceBeforeStart => [3, 2, 5, 6, 7, 16, 8, 9],
        Mistake::SpaceBeforeTerms => [3, 2, 5, 6, 16, 7, 8, 9],
        Mistake::SpaceBeforeLengths => [3, 2, 16, 5, 6, 7, 8, 9],
        Mistake::SpaceBeforeDimension => [16, 3, 2, 5, 6, 7, 8, 9],
        Mistake::StartBeforeTerms => [3, 2, 5, 6, 8, 7, 9, 16],
        Mistake::TermsBeforeBox => [3, 2, 5, 7, 6, 8, 9, 16],
        Mistake::LengthsLast => [3, 2, 6, 7, 8, 5, 9, 16],
        _ => [3, 2, 5, 6, 7, 8, 9, 16],
    }
}

/// The refusal, if there is one.
fn refusal(mistake: Mistake, loose: &Loose, space: usize) -> Option<u8> {
    // If n is no dimension, the space is only looked at for having none.
    let n = if (2..=4).contains(&loose.n) { loose.n as usize } else { 2 };
    let length = bodies(mistake, n, loose).concat().len() + 4 * (n + 2);
    let seen_space = space + (mistake == Mistake::OneShortTaken) as usize;
    let all = ways(loose, n, seen_space).into_iter();
    let seen = all.filter(|&way| !overlooked(mistake, n, loose, way));
    let mut refusals: Vec<u8> = seen.map(|way| way.refusal()).collect();
    refusals.extend(made_up(mistake, n, loose, space, length));
    order(mistake).into_iter().find(|number| refusals.contains(number))
}

/// The bodies of the job in the order in which they are written.
fn bodies(mistake: Mistake, n: usize, loose: &Loose) -> Vec<Vec<u8>> {
    let mut order = Which::of(n);
    match mistake {
        Mistake::StartBeforePolynomials => order[1..].rotate_right(1),
        Mistake::PolynomialsReversed => order[1..n].reverse(),
        Mistake::TwoInDimension2 if n == 2 && !loose.polynomials[1].is_empty() => {
            order.insert(2, Which::Polynomial(2))
        }
        _ => {}
    }
    order.into_iter().map(|which| loose.body(which).to_vec()).collect()
}

/// The bytes of the contents.
fn contents(mistake: Mistake, n: usize, bias: u8, bodies: &[Vec<u8>]) -> Vec<u8> {
    let count = if mistake == Mistake::EntryCountIsN { n } else { bodies.len() };
    let bias = if mistake == Mistake::BiasDropped { 0 } else { bias };
    let mut out = vec![1, n as u8, count as u8, bias];
    let mut offset = match mistake {
        Mistake::OffsetsWithoutContents => 0,
        _ => 4 + 4 * bodies.len(),
    };
    for body in bodies {
        let next = offset + body.len();
        let shown = if mistake == Mistake::OffsetsOfTheEnd { next } else { offset };
        let mut entry = [shown, body.len()];
        if mistake == Mistake::LengthBeforeOffset {
            entry.reverse();
        }
        for number in entry {
            let [low, high] = (number as u16).to_le_bytes();
            out.extend(match mistake {
                Mistake::HighByteFirst => [high, low],
                Mistake::LowByteOnly => [low, 0],
                _ => [low, high],
            });
        }
        offset = next;
    }
    out
}

/// Writes as far as the buffer goes.
fn put(buffer: &mut [u8], at: usize, bytes: &[u8]) {
    for (to, from) in buffer[at..].iter_mut().zip(bytes) {
        *to = *from;
    }
}

/// The writer with a mistake.
fn write(mistake: Mistake, loose: &Loose, buffer: &mut [u8]) -> Result<usize, u8> {
    let loose = &taken(mistake, loose);
    let space = buffer.len();
    if mistake == Mistake::ByteBeforeRefusal {
        put(buffer, 0, &[1]);
    }
    let refused = refusal(mistake, loose, space);
    if let Some(number) =
        refused.filter(|&number| !(mistake == Mistake::ContentsBeforeSpace && number == 16))
    {
        return Err(number);
    }
    let n = loose.n as usize;
    let bodies = bodies(mistake, n, loose);
    let contents = contents(mistake, n, loose.bias, &bodies);
    if let Some(number) = refused {
        put(buffer, 0, &contents);
        return Err(number);
    }
    let job = [contents, bodies.concat()].concat();
    let at = if mistake == Mistake::AtTheEnd { space - job.len() } else { 0 };
    put(buffer, at, &job);
    match mistake {
        Mistake::ByteBehindChanged => put(buffer, job.len().min(space), &[0]),
        Mistake::RestCleared => buffer[job.len()..].fill(0),
        _ => {}
    }
    Ok(match mistake {
        Mistake::AnswerIsSpace => space,
        Mistake::AnswerWithoutContents => bodies.concat().len(),
        _ => job.len(),
    })
}

/// The reference, but for the writer.
struct Wrong(Mistake);

impl Product for Wrong {
    fn open(&self, job: &[u8]) -> Result<(usize, Vec<usize>), u8> {
        Reference.open(job)
    }
    fn body(&self, job: &[u8], index: u64) -> Result<(usize, usize), u8> {
        Reference.body(job, index)
    }
    fn judge(&self, job: &[u8], place: &[u8]) -> Result<bool, u8> {
        Reference.judge(job, place)
    }
    fn judge_ground(&self, job: &[u8], place: &[u8]) -> Result<Ground, u8> {
        Reference.judge_ground(job, place)
    }
    fn point(&self, job: &[u8], place: &[u8]) -> Result<Vertex, u8> {
        Reference.point(job, place)
    }
    fn step(&self, job: &[u8], place: &[u8]) -> Result<Step, u8> {
        Reference.step(job, place)
    }
    fn trace(&self, job: &[u8], buffer: &mut [u8]) -> Result<(Verdict, usize), u8> {
        Reference.trace(job, buffer)
    }
    fn pen(&self, job: &[u8], places: &[u8], closed: bool, k: u64) -> Result<Move, u8> {
        Reference.pen(job, places, closed, k)
    }
    fn running_sum(
        &self,
        job: &[u8],
        polynomial: u64,
        coordinates: &[i64; MOST],
        terms: u64,
    ) -> Result<i128, u8> {
        Reference.running_sum(job, polynomial, coordinates, terms)
    }
    fn small_open(&self, job: &[u8]) -> Result<(usize, Vec<usize>), u8> {
        Reference.small_open(job)
    }
    fn small_trace(&self, job: &[u8], buffer: &mut [u8]) -> Result<(Verdict, usize), u8> {
        Reference.small_trace(job, buffer)
    }
    fn seams(&self, job: &[u8], buffer: &mut [u8]) -> Result<(Ending, usize), u8> {
        Reference.seams(job, buffer)
    }
    fn cut_order(&self, job: &[u8], list: &[u8]) -> Result<CutOrder, u8> {
        Reference.cut_order(job, list)
    }
    fn write_job(&self, loose: &Loose, buffer: &mut [u8]) -> Result<usize, u8> {
        write(self.0, loose, buffer)
    }
    fn formula(&self, n: u64, text: &[u8]) -> TermList {
        Reference.formula(n, text)
    }
}

/// The check of this name, with as many inputs as the counts that it asserts need.
fn run(name: &str, p: &Wrong) {
    match name {
        "every_length" => checks::every_length(p),
        "lengths_together" => checks::lengths_together(p),
        "long_lengths" => checks::long_lengths(p),
        "each_fault" => checks::each_fault(p),
        "two_faults" => checks::two_faults(p),
        "least_number_is_answered" => checks::least_number_is_answered(p),
        "every_space" => checks::every_space(p),
        "every_byte" => checks::every_byte(p),
        "every_bias" => checks::every_bias(p),
        "every_number" => checks::every_number(p),
        "not_read" => checks::not_read(p),
        "any_loose_bodies" => checks::any_loose_bodies(p, 140, 30_000, 20),
        "any_terms" => checks::any_terms(p, 142, 10_000, 40),
        "written_again" => checks::written_again(p, 144, 30_000, [1_000; 3]),
        "another_start" => checks::another_start(p, 146, 4_000, 40),
        _ => panic!("no check {name}"),
    }
}

const CHECKS: [&str; 15] = [
    "every_length",
    "lengths_together",
    "long_lengths",
    "each_fault",
    "two_faults",
    "least_number_is_answered",
    "every_space",
    "every_byte",
    "every_bias",
    "every_number",
    "not_read",
    "any_loose_bodies",
    "any_terms",
    "written_again",
    "another_start",
];

/// Checks that must find the mistake, besides that of any loose bodies, which must find each.
fn finders(mistake: Mistake) -> [&'static str; 2] {
    use Mistake::*;
    match mistake {
        Nothing => panic!("there is nothing to find"),
        TwoInDimension2 => ["not_read", "written_again"],
        ByteBeforeRefusal | ContentsBeforeSpace | OneShortTaken => ["every_space", "each_fault"],
        SpaceBeforeStart | SpaceBeforeTerms | SpaceBeforeLengths | StartBeforeTerms
        | TermsBeforeBox | LengthsLast => ["two_faults", "least_number_is_answered"],
        SpaceBeforeDimension => ["two_faults", "every_number"],
        LengthsIn16Bits => ["long_lengths", "each_fault"],
        NIn8Bits | NIn32Bits => ["every_number", "each_fault"],
        BiasRefused => ["every_bias", "written_again"],
        TwoReadInDimension2 | UnreadEmpty => ["not_read", "every_length"],
        UnreadTooLong => ["not_read", "long_lengths"],
        EmptyTaken | NotWholeTaken | SeventyTerms => ["every_length", "lengths_together"],
        LongStartTaken => ["every_length", "another_start"],
        LastTermsNotTested | OrderNotTested => ["any_terms", "each_fault"],
        LargestCoefficientRefused => ["any_terms", "written_again"],
        LastAxisNotTested => ["every_byte", "each_fault"],
        EqualEndsTaken => ["two_faults", "each_fault"],
        LargestEndsRefused => ["every_byte", "written_again"],
        StartNotTested | SideNotTested | MaskAboveNTaken => ["another_start", "each_fault"],
        StartInBox => ["another_start", "written_again"],
        // The rest is about bytes and spaces of jobs that are written.
        _ => ["every_space", "written_again"],
    }
}

/// Whether a check fails by what the writer answered or wrote, which it then says, and not by a
/// count or by a slip of the wrong writer itself.
fn finds(name: &str, mistake: Mistake) -> bool {
    match catch_unwind(AssertUnwindSafe(|| run(name, &Wrong(mistake)))) {
        Ok(()) => false,
        Err(why) => {
            let said = why.downcast_ref::<String>().expect("what it says");
            assert!(said.contains(" for n "), "{name} of {mistake:?}: {said}");
            true
        }
    }
}

#[test]
fn each_mistake_is_found() {
    for mistake in Mistake::all().into_iter().filter(|&mistake| mistake != Mistake::Nothing) {
        for name in finders(mistake).into_iter().chain(["any_loose_bodies"]) {
            assert!(finds(name, mistake), "{name} does not find {mistake:?}");
        }
    }
}

/// Without a mistake all checks pass, and each check finds one.
#[test]
fn nothing_is_found_where_nothing_is_wrong() {
    for name in CHECKS {
        run(name, &Wrong(Mistake::Nothing));
        assert!(finds(name, Mistake::ExactRefused) || finds(name, Mistake::TermsBeforeBox));
    }
}
