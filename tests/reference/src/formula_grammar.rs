//! The grammar of request 2.1 as rules, and a decision of the language by the rules alone: all texts
//! that they derive, up to a length, and the number of ways in which they derive a text. It is slow,
//! reads no text from left to right, and shares nothing with the reader in `formula`, nor with the
//! one in `formula_met`. A sum is a sum and one product more here, so the rules say, too, that
//! operations of one rank go from left to right.

/// What a rule has on its right side.
#[derive(Clone, Copy, PartialEq, Eq, Debug)]
enum Symbol {
    Number,
    Atom,
    Power,
    Product,
    Sum,
    /// One of these bytes.
    Of(&'static [u8]),
}

/// In this order a symbol follows those that it may consist of alone.
const SYMBOLS: [Symbol; 5] =
    [Symbol::Number, Symbol::Atom, Symbol::Power, Symbol::Product, Symbol::Sum];

impl Symbol {
    fn index(self) -> usize {
        SYMBOLS.iter().position(|&symbol| symbol == self).expect("a symbol with rules")
    }
}

/// What a symbol may consist of, in dimension n.
fn rules(n: usize, symbol: Symbol) -> Vec<Vec<Symbol>> {
    use Symbol::*;
    let digit = Of(b"0123456789");
    match symbol {
        Number => (1..=7).map(|digits| vec![digit; digits]).collect(),
        Atom => vec![vec![Number], vec![Of(&b"xyzw"[..n])], vec![Of(b"("), Sum, Of(b")")]],
        Power => vec![vec![Atom], vec![Atom, Of(b"^"), Of(b"01234")]],
        Product => vec![vec![Power], vec![Product, Of(b"*"), Power]],
        Sum => vec![
            vec![Product],
            vec![Of(b"-"), Product],
            vec![Sum, Of(b"+"), Product],
            vec![Sum, Of(b"-"), Product],
        ],
        Of(_) => unreachable!("bytes have no rules"),
    }
}

/// The texts that each symbol derives, by length from 1 on, with bytes of the alphabet alone. A text
/// that is derived in several ways is there as often.
struct Words<'a> {
    alphabet: &'a [u8],
    by_length: Vec<[Vec<Vec<u8>>; SYMBOLS.len()]>,
}

impl Words<'_> {
    /// The texts of this length that the symbols derive one behind the other.
    fn joined(&self, symbols: &[Symbol], length: usize) -> Vec<Vec<u8>> {
        let Some((&first, others)) = symbols.split_first() else {
            return if length == 0 { vec![Vec::new()] } else { Vec::new() };
        };
        let mut all = Vec::new();
        for own in 1..=length.saturating_sub(others.len()) {
            let behind = self.joined(others, length - own);
            if behind.is_empty() {
                continue;
            }
            for word in self.of(first, own) {
                all.extend(behind.iter().map(|rest| [&word[..], rest].concat()));
            }
        }
        all
    }

    fn of(&self, symbol: Symbol, length: usize) -> Vec<Vec<u8>> {
        match symbol {
            Symbol::Of(bytes) if length == 1 => {
                let known = bytes.iter().filter(|byte| self.alphabet.contains(byte));
                known.map(|&byte| vec![byte]).collect()
            }
            Symbol::Of(_) => Vec::new(),
            _ => self.by_length.get(length).map_or(Vec::new(), |of| of[symbol.index()].clone()),
        }
    }
}

/// All texts over an alphabet that are in the language, by length from 0 to the largest.
pub fn words(n: usize, alphabet: &[u8], largest: usize) -> Vec<Vec<Vec<u8>>> {
    let mut words = Words { alphabet, by_length: vec![Default::default()] };
    for length in 1..=largest {
        words.by_length.push(Default::default());
        for symbol in SYMBOLS {
            let all = rules(n, symbol);
            let found = all.iter().flat_map(|rule| words.joined(rule, length)).collect();
            words.by_length[length][symbol.index()] = found;
        }
    }
    let sum = Symbol::Sum.index();
    words.by_length.into_iter().map(|mut of| std::mem::take(&mut of[sum])).collect()
}

/// In how many ways the rules derive a text: none if it is outside the language. For each part of
/// the text and each symbol it is counted once, from shorter parts to longer ones.
pub fn readings(n: usize, text: &[u8]) -> u64 {
    let length = text.len();
    let all: Vec<Vec<Vec<Symbol>>> = SYMBOLS.into_iter().map(|symbol| rules(n, symbol)).collect();
    // By beginning, end and symbol.
    let mut ways = vec![vec![[0; SYMBOLS.len()]; length + 1]; length + 1];
    for size in 1..=length {
        for from in 0..=length - size {
            for symbol in SYMBOLS {
                let of_rule = |rule: &Vec<Symbol>| joined(&ways, text, rule, from, from + size);
                let sum = all[symbol.index()].iter().map(of_rule).sum();
                ways[from][from + size][symbol.index()] = sum;
            }
        }
    }
    ways[0][length][Symbol::Sum.index()]
}

/// In how many ways the symbols derive a part of a text one behind the other.
fn joined(
    ways: &[Vec<[u64; SYMBOLS.len()]>],
    text: &[u8],
    symbols: &[Symbol],
    from: usize,
    to: usize,
) -> u64 {
    let own = |symbol: Symbol, to: usize| match symbol {
        Symbol::Of(bytes) => (to == from + 1 && bytes.contains(&text[from])) as u64,
        _ => ways[from][to][symbol.index()],
    };
    match symbols {
        [] => (from == to) as u64,
        _ if symbols.len() > to - from => 0,
        [only] => own(*only, to),
        [first @ Symbol::Of(_), others @ ..] => match own(*first, from + 1) {
            0 => 0,
            one => one * joined(ways, text, others, from + 1, to),
        },
        [first, others @ ..] => (from + 1..to)
            .filter(|&end| own(*first, end) > 0)
            .map(|end| own(*first, end) * joined(ways, text, others, end, to))
            .sum(),
    }
}

#[cfg(test)]
mod tests {
    use super::*;

    fn texts(words: &[Vec<u8>]) -> Vec<&str> {
        let mut all: Vec<&str> =
            words.iter().map(|word| std::str::from_utf8(word).expect("letters")).collect();
        all.sort();
        all
    }

    /// The shortest texts, by hand.
    #[test]
    fn shortest() {
        let words = words(2, b"xz5+-*^()2", 3);
        assert_eq!(texts(&words[0]), [""; 0]);
        assert_eq!(texts(&words[1]), ["2", "5", "x"]);
        assert_eq!(texts(&words[2]), ["-2", "-5", "-x", "22", "25", "52", "55"]);
        let two = |joint: &str| {
            let each = ["2", "5", "x"];
            each.map(|one| each.map(|other| format!("{one}{joint}{other}"))).concat()
        };
        let mut wanted = [two("+"), two("-"), two("*")].concat();
        wanted.extend(["(2)", "(5)", "(x)", "2^2", "5^2", "x^2"].map(String::from));
        wanted.extend(["-22", "-25", "-52", "-55"].map(String::from));
        wanted.extend(["222", "225", "252", "255", "522", "525", "552", "555"].map(String::from));
        wanted.sort();
        assert_eq!(texts(&words[3]), wanted);
    }

    #[test]
    fn one_reading_or_none() {
        for text in ["x", "-x", "1234567", "x-y-2*x*y^4", "-(x-(-y)^0)*7-3", "((x))"] {
            assert_eq!(readings(2, text.as_bytes()), 1, "{text}");
        }
        for text in ["", "+x", "--x", "12345678", "x^5", "x^12", "x^2^2", "2x", "()", "x*-y", "z"] {
            assert_eq!(readings(2, text.as_bytes()), 0, "{text}");
        }
        assert_eq!((readings(3, b"z"), readings(3, b"w"), readings(4, b"w")), (1, 0, 1));
    }
}
