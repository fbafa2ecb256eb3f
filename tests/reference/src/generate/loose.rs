//! Loose bodies to write a job from, and faults to put into them.

use super::kinds::{valid_of_any, Made};
use super::random::Random;
use crate::build::Parts;
use crate::limits::{Limits, DIMENSIONS, MOST};
use crate::named;
use crate::tally::{Named, Tally};
use crate::writing::{Loose, Which};

named! {
    /// What is handed over for a polynomial that is not read.
    Unread {
        /// No byte.
        Empty: 4,
        /// Up to 40 bytes of noise.
        Noise: 4,
        /// The first polynomial again.
        First: 4,
        /// That with the coefficient 0 in its first term.
        Spoiled: 4,
        /// 65,536 bytes and more.
        Huge: 1,
    }
}

impl Unread {
    pub fn body(self, r: &mut Random, first: &[u8]) -> Vec<u8> {
        let mut body = first.to_vec();
        match self {
            Unread::Empty => body.clear(),
            Unread::Noise => {
                let length = 1 + r.index(40);
                body = r.bytes(length);
            }
            Unread::First => {}
            Unread::Spoiled => body[..4].fill(0),
            Unread::Huge => resize(&mut body, 65_536 + r.index(20)),
        }
        body
    }
}

impl Loose {
    /// The bodies of a job. Of the polynomials that are not read there is no byte.
    pub fn of(parts: &Parts) -> Loose {
        let mut bodies = parts.bodies().into_iter();
        let ends = bodies.next().expect("a box");
        let mut polynomials: [Vec<u8>; MOST - 1] = Default::default();
        polynomials.iter_mut().zip(bodies.by_ref().take(parts.n - 1)).for_each(|(p, b)| *p = b);
        let start = bodies.next().expect("a start");
        Loose { n: parts.n as u64, bias: parts.bias, ends, polynomials, start }
    }

    /// The same, with other bytes for the polynomials that a job of dimension n does not have.
    pub fn with_unread(mut self, r: &mut Random, n: usize, unread: Unread) -> Loose {
        for k in n..MOST {
            self.polynomials[k - 1] = unread.body(r, &self.polynomials[0]);
        }
        self
    }
}

/// Gives a body another length. Where it becomes longer its bytes come again from the front, so
/// that who reads the right number of them finds nothing wrong.
pub fn resize(body: &mut Vec<u8>, length: usize) {
    let whole = body.len().max(1);
    body.resize(whole, 0);
    body.reserve(length);
    while body.len() < length {
        let more = whole.min(length - body.len());
        body.extend_from_within(..more);
    }
    body.truncate(length);
}

named! {
    /// A length that a body may not have.
    LengthFault {
        /// None.
        Empty: 1,
        /// One byte less.
        OneShort: 1,
        /// One byte more.
        OneLong: 1,
        /// An axis less; of a polynomial, half a term.
        Less: 1,
        /// An axis more; of a polynomial, one term more than it may have.
        More: 1,
        /// The most that its entry holds; of a polynomial, in whole terms.
        Largest: 1,
        /// 65,536: 0 in its entry.
        Past: 1,
        /// 65,536 more: the same in its entry.
        Wrapped: 1,
        /// 131,072 more: the same in its entry.
        WrappedTwice: 1,
    }
}

impl LengthFault {
    /// The length for a body of this length, which is right.
    pub fn length(self, n: usize, which: Which, right: usize) -> usize {
        let (less, more, largest) = match which {
            Which::Box => (4 * (n - 1), 4 * (n + 1), 65_535),
            Which::Polynomial(_) => (4, 8 * (Limits::of(n).terms + 1), 65_528),
            Which::Start => (3 * (n - 1), 3 * (n + 1), 65_535),
        };
        match self {
            LengthFault::Empty => 0,
            LengthFault::OneShort => right - 1,
            LengthFault::OneLong => right + 1,
            LengthFault::Less => less,
            LengthFault::More => more,
            LengthFault::Largest => largest,
            LengthFault::Past => 65_536,
            LengthFault::Wrapped => 65_536 + right,
            LengthFault::WrappedTwice => 131_072 + right,
        }
    }
}

named! {
    /// Ends that an axis may not have.
    EndsFault {
        /// The low end is -257.
        LowUnder: 1,
        /// The low end is 257.
        LowOver: 1,
        /// The high end is -257.
        HighUnder: 1,
        /// The high end is 257.
        HighOver: 1,
        /// The low end is the least number of 16 bits.
        Least: 1,
        /// The high end is the largest number of 16 bits.
        Largest: 1,
        /// The low end is the high end.
        Equal: 1,
        /// They are exchanged.
        Exchanged: 1,
    }
}

impl EndsFault {
    /// Puts it into the four bytes of an axis.
    fn put(self, bytes: &mut [u8]) {
        let (low, high) = bytes.split_at_mut(2);
        match self {
            EndsFault::LowUnder => low.copy_from_slice(&(-257i16).to_le_bytes()),
            EndsFault::LowOver => low.copy_from_slice(&257i16.to_le_bytes()),
            EndsFault::HighUnder => high.copy_from_slice(&(-257i16).to_le_bytes()),
            EndsFault::HighOver => high.copy_from_slice(&257i16.to_le_bytes()),
            EndsFault::Least => low.copy_from_slice(&i16::MIN.to_le_bytes()),
            EndsFault::Largest => high.copy_from_slice(&i16::MAX.to_le_bytes()),
            EndsFault::Equal => low.copy_from_slice(high),
            EndsFault::Exchanged => low.swap_with_slice(high),
        }
    }
}

named! {
    /// What makes a term of a polynomial bad.
    TermFault {
        /// The coefficient is 0.
        Zero: 1,
        /// The coefficient is 1,048,577.
        Large: 1,
        /// The coefficient is -1,048,577.
        Small: 1,
        /// The coefficient is the least number of 32 bits.
        Least: 1,
        /// The exponent of the axis above n is 1.
        AboveN: 1,
        /// The exponent of axis 1 is 5.
        Degree: 1,
        /// The exponents are 255, 1, 0 and 0: their sum is 0 in 8 bits.
        Wrapped: 1,
        /// The exponents are those of the term before.
        Repeated: 1,
        /// It is exchanged with the term before.
        Exchanged: 1,
    }
}

impl TermFault {
    /// Puts it into any term of a polynomial. For the order of terms there have to be two.
    fn put(self, r: &mut Random, n: usize, body: &mut Vec<u8>) {
        if matches!(self, TermFault::Repeated | TermFault::Exchanged) {
            if body.len() < 16 {
                resize(body, 16);
            }
            let at = 8 * (1 + r.index(body.len() / 8 - 1));
            match self {
                TermFault::Repeated => body.copy_within(at - 4..at, at + 4),
                _ => (at..at + 8).for_each(|k| body.swap(k - 8, k)),
            }
            return;
        }
        let at = 8 * r.index(body.len() / 8);
        let (coefficient, exponents) = body[at..at + 8].split_at_mut(4);
        match self {
            TermFault::Zero => coefficient.fill(0),
            TermFault::Large => coefficient.copy_from_slice(&1_048_577i32.to_le_bytes()),
            TermFault::Small => coefficient.copy_from_slice(&(-1_048_577i32).to_le_bytes()),
            TermFault::Least => coefficient.copy_from_slice(&i32::MIN.to_le_bytes()),
            TermFault::AboveN => exponents[n] = 1,
            TermFault::Degree => exponents[0] = 5,
            TermFault::Wrapped => exponents.copy_from_slice(&[255, 1, 0, 0]),
            TermFault::Repeated | TermFault::Exchanged => unreachable!("put above"),
        }
    }
}

named! {
    /// What makes a start malformed.
    StartFault {
        /// The first mask is 0.
        ZeroMask: 1,
        /// The last mask is the one before.
        SameMask: 1,
        /// The first mask is not in the second.
        NotHolding: 1,
        /// The last mask has the axis above n too.
        AboveN: 1,
        /// The last mask has the highest bit too.
        HighestBit: 1,
        /// The side is 2.
        SideTwo: 1,
        /// The side is 255.
        SideLargest: 1,
    }
}

impl StartFault {
    fn put(self, n: usize, body: &mut [u8]) {
        let (first, last, side) = (2 * n, 3 * n - 2, 3 * n - 1);
        match self {
            StartFault::ZeroMask => body[first] = 0,
            StartFault::SameMask => body[last] = body[last - 1],
            StartFault::NotHolding => body[first + 1] &= !body[first],
            StartFault::AboveN => body[last] |= 1 << n,
            StartFault::HighestBit => body[last] |= 128,
            StartFault::SideTwo => body[side] = 2,
            StartFault::SideLargest => body[side] = 255,
        }
    }
}

/// A fault of loose bodies. Axes and polynomials are numbered from 1.
#[derive(Clone, Copy, PartialEq, Eq, PartialOrd, Ord, Debug)]
pub enum Fault {
    /// n is this number.
    Dimension(u64),
    Length(Which, LengthFault),
    Ends(usize, EndsFault),
    Term(usize, TermFault),
    Start(StartFault),
}

impl Fault {
    /// Every one that there is in a dimension.
    pub fn all(n: usize) -> Vec<Fault> {
        let low = n as u64;
        let others = [0, 1, 5, 255, 256 + low, (1 << 16) + low, (1 << 32) + low, (1 << 63) + low];
        let mut all: Vec<Fault> = others.into_iter().map(Fault::Dimension).collect();
        all.push(Fault::Dimension(u64::MAX));
        for which in Which::of(n) {
            all.extend(cases::<LengthFault>().map(|fault| Fault::Length(which, fault)));
        }
        for axis in 1..=n {
            all.extend(cases::<EndsFault>().map(|fault| Fault::Ends(axis, fault)));
        }
        for k in 1..n {
            let terms =
                cases::<TermFault>().filter(|&fault| fault != TermFault::AboveN || n < MOST);
            all.extend(terms.map(|fault| Fault::Term(k, fault)));
        }
        let two_masks = [StartFault::SameMask, StartFault::NotHolding];
        let starts = cases::<StartFault>().filter(|fault| n > 2 || !two_masks.contains(fault));
        all.extend(starts.map(Fault::Start));
        all
    }

    pub fn refusal(self) -> u8 {
        match self {
            Fault::Dimension(_) => 3,
            Fault::Length(..) => 5,
            Fault::Ends(..) => 6,
            Fault::Term(..) => 7,
            Fault::Start(_) => 8,
        }
    }

    /// Puts it into loose bodies that were right before, and may have other faults by now.
    fn put(self, r: &mut Random, (n, right): (usize, &Loose), loose: &mut Loose) {
        match self {
            Fault::Dimension(number) => loose.n = number,
            Fault::Length(which, fault) => {
                let length = fault.length(n, which, right.body(which).len());
                resize(loose.body_mut(which), length);
            }
            Fault::Ends(axis, fault) => fault.put(&mut loose.ends[4 * (axis - 1)..4 * axis]),
            Fault::Term(k, fault) => fault.put(r, n, &mut loose.polynomials[k - 1]),
            Fault::Start(fault) => fault.put(n, &mut loose.start),
        }
    }
}

/// The cases of an enum.
fn cases<T: Named>() -> impl Iterator<Item = T> {
    T::all().into_iter()
}

/// Loose bodies of dimension n with these faults: first what is in a body, then its length. Of two
/// in one place the later may undo the other, but then it is itself a fault with the same refusal.
pub fn with_loose_faults(r: &mut Random, n: usize, right: &Loose, faults: &[Fault]) -> Loose {
    let mut loose = right.clone();
    let mut faults = faults.to_vec();
    faults.sort();
    faults.dedup();
    faults.iter().rev().for_each(|fault| fault.put(r, (n, right), &mut loose));
    loose
}

named! {
    /// What becomes of the loose bodies of a job that opens.
    LooseKind {
        /// Nothing.
        Right: 6,
        /// One fault.
        OneFault: 6,
        /// Two or three faults, in one body or in several.
        MoreFaults: 6,
        /// Up to three bytes of the bodies become any others.
        AnyBytes: 4,
        /// A body is up to 9 bytes shorter or longer.
        OtherLength: 2,
        /// n is another dimension.
        OtherDimension: 1,
        /// n is any number up to 300, or has some bits above.
        OtherNumber: 1,
        /// Two bodies are exchanged, those too that are not read.
        Exchanged: 1,
        /// Each body is noise, mostly of a length that is right.
        Noise: 1,
    }
}

/// Loose bodies to hand to the writer, and how they were made.
pub struct AnyLoose {
    pub loose: Loose,
    /// The dimension of the job that they were made of.
    pub made_in: usize,
    /// The names of that job.
    pub made: Made,
    pub unread: Unread,
    pub kind: LooseKind,
    pub faults: Vec<Fault>,
}

/// Any of the bodies that are handed over.
fn any_body(r: &mut Random) -> Which {
    r.pick(&Which::of(MOST))
}

fn change(r: &mut Random, n: usize, loose: &mut Loose, kind: LooseKind) {
    match kind {
        LooseKind::Right | LooseKind::OneFault | LooseKind::MoreFaults => {}
        LooseKind::AnyBytes => {
            for _ in 0..1 + r.index(3) {
                let body = loose.body_mut(r.pick(&Which::of(n)));
                let at = r.index(body.len());
                body[at] = r.byte();
            }
        }
        LooseKind::OtherLength => {
            let body = loose.body_mut(any_body(r));
            let length = body.len() as i64 + r.pick(&[-9, -8, -4, -2, -1, 1, 2, 4, 8, 9]);
            resize(body, length.max(0) as usize);
        }
        LooseKind::OtherDimension => loose.n = r.pick(&DIMENSIONS) as u64,
        LooseKind::OtherNumber => {
            let any = r.below(301);
            let shift = 8 * (1 + r.below(7));
            loose.n = r.pick(&[any, loose.n + (1 << shift), any << shift]);
        }
        LooseKind::Exchanged => {
            let (one, other) = (any_body(r), any_body(r));
            let bodies = [one, other].map(|which| loose.body(which).to_vec());
            [*loose.body_mut(other), *loose.body_mut(one)] = bodies;
        }
        LooseKind::Noise => {
            for which in Which::of(MOST) {
                let any = r.index(40);
                let length = r.pick(&[loose.body(which).len(), loose.body(which).len(), any]);
                *loose.body_mut(which) = r.bytes(length);
            }
        }
    }
}

/// Any loose bodies.
pub fn any_loose(r: &mut Random) -> AnyLoose {
    let (made, parts) = valid_of_any(r, false);
    let (n, unread, kind) = (parts.n, r.named(), r.named());
    let count = match kind {
        LooseKind::OneFault => 1,
        LooseKind::MoreFaults => 2 + r.below(2),
        _ => 0,
    };
    let all = Fault::all(n);
    let faults: Vec<Fault> = (0..count).map(|_| any_fault(r, &all)).collect();
    let right = Loose::of(&parts).with_unread(r, n, unread);
    let mut loose = with_loose_faults(r, n, &right, &faults);
    change(r, n, &mut loose, kind);
    AnyLoose { loose, made_in: n, made, unread, kind, faults }
}

/// One of the faults, each refusal as often as the others.
fn any_fault(r: &mut Random, all: &[Fault]) -> Fault {
    let refusal = r.pick(&[3, 5, 6, 7, 8]);
    loop {
        let fault = r.pick(all);
        if fault.refusal() == refusal {
            return fault;
        }
    }
}

/// Counts of how loose bodies were made.
#[derive(Default)]
pub struct LooseTally {
    made: Tally<Made>,
    unread: Tally<Unread>,
    kinds: Tally<LooseKind>,
}

impl LooseTally {
    pub fn count(&mut self, any: &AnyLoose) {
        self.made.count(any.made_in, any.made);
        self.unread.count(any.made_in, any.unread);
        self.kinds.count(any.made_in, any.kind);
    }

    /// Fails unless each kind of job with each bias, each kind of what is not read and of what
    /// became of the bodies was met in each dimension.
    pub fn assert_all(&self) {
        self.made.assert_all();
        self.unread.assert_all();
        self.kinds.assert_all();
    }
}

#[cfg(test)]
mod tests {
    use super::*;
    use crate::writing::write_job;
    use std::collections::BTreeMap;

    /// The refusal in a buffer that holds the job.
    fn refusal(loose: &Loose) -> Option<u8> {
        write_job(loose, &mut [0; 2_000]).err()
    }

    /// Each fault alone is refused as it says, whatever is not read.
    #[test]
    fn each_fault_reaches_its_refusal() {
        let mut r = Random::new(108);
        for _ in 0..500 {
            let (_, parts) = valid_of_any(&mut r, false);
            let unread: Unread = r.named();
            let right = Loose::of(&parts).with_unread(&mut r, parts.n, unread);
            assert_eq!(refusal(&right), None);
            for fault in Fault::all(parts.n) {
                let loose = with_loose_faults(&mut r, parts.n, &right, &[fault]);
                assert_eq!(refusal(&loose), Some(fault.refusal()), "{fault:?} in {right:?}");
            }
        }
    }

    /// What the writer answers to each kind, in a buffer that holds the job.
    #[test]
    fn each_kind_reaches_its_refusals() {
        let mut r = Random::new(109);
        let mut made = LooseTally::default();
        let mut met: BTreeMap<LooseKind, Tally<Option<u8>>> = BTreeMap::new();
        for _ in 0..40_000 {
            let any = any_loose(&mut r);
            made.count(&any);
            met.entry(any.kind).or_default().count(any.made_in, refusal(&any.loose));
        }
        made.assert_all();
        let of_bodies = [3, 5, 6, 7, 8].map(Some);
        for kind in LooseKind::all() {
            println!("{kind:?}");
            let met = &met[&kind];
            match kind {
                LooseKind::Right => met.assert_met(&[None]),
                LooseKind::OneFault => met.assert_met(&of_bodies),
                LooseKind::MoreFaults => met.assert_met(&of_bodies),
                LooseKind::AnyBytes => met.assert_met(&[None, Some(6), Some(7), Some(8)]),
                LooseKind::OtherLength => met.assert_includes(&[None, Some(5)]),
                LooseKind::OtherDimension => met.assert_met(&[None, Some(5)]),
                LooseKind::OtherNumber => met.assert_includes(&[Some(3)]),
                LooseKind::Exchanged => met.assert_includes(&[None, Some(5)]),
                LooseKind::Noise => met.assert_includes(&[Some(5), Some(6)]),
            }
        }
    }
}
