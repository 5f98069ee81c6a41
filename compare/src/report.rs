//! What was compared, what differed, and the smallest input of each kind.
use crate::entries::Entry;
use std::collections::BTreeMap;
use std::fmt;

/// Numbers in hexadecimal: patterns of eight digits, words of sixteen.
#[derive(Clone, PartialEq, Eq)]
pub enum Shown {
    Pattern(u32),
    Words([u64; 8]),
    Answer(bool),
    Parts(Vec<u32>),
    /// The number of a refusal, 0 for none, and the words after it.
    After(u32, [u64; 8]),
    Panic(String),
}

impl fmt::Display for Shown {
    fn fmt(&self, f: &mut fmt::Formatter) -> fmt::Result {
        match self {
            Shown::Pattern(p) => write!(f, "0x{p:08X}"),
            Shown::Words(w) => {
                let words: Vec<String> =
                    w.iter().map(|x| if *x < 10 { format!("{x}") } else { format!("0x{x:016X}") }).collect();
                write!(f, "[{}]", words.join(", "))
            }
            Shown::Answer(b) => write!(f, "{b}"),
            Shown::Parts(p) => write!(f, "{}", p.iter().map(|x| format!("0x{x:08X}")).collect::<Vec<_>>().join(", ")),
            Shown::After(n, w) => write!(f, "{n} {}", Shown::Words(*w)),
            Shown::Panic(m) => write!(f, "panic: {m}"),
        }
    }
}

/// An input: an operation, a state where it has one, and its patterns.
#[derive(Clone, Copy)]
pub struct Input<'a> {
    pub name: &'static str,
    pub words: Option<[u64; 8]>,
    pub patterns: &'a [u32],
}

impl Input<'_> {
    /// Small is what has few ones; then what is the lower number.
    fn rank(&self) -> (u32, [u64; 8], Vec<u32>) {
        (self.ones(), self.words.unwrap_or_default(), self.patterns.to_vec())
    }

    fn ones(&self) -> u32 {
        let words: u32 = self.words.iter().flatten().map(|x| x.count_ones()).sum();
        words + self.patterns.iter().map(|x| x.count_ones()).sum::<u32>()
    }
}

impl fmt::Display for Input<'_> {
    fn fmt(&self, f: &mut fmt::Formatter) -> fmt::Result {
        let mut all: Vec<String> = self.words.iter().map(|w| Shown::Words(*w).to_string()).collect();
        all.extend(self.patterns.iter().take(MOST_PATTERNS).map(|p| Shown::Pattern(*p).to_string()));
        if self.patterns.len() > MOST_PATTERNS {
            all.push(format!("... {} patterns", self.patterns.len()));
        }
        write!(f, "{}({})", self.name, all.join(", "))
    }
}

#[derive(Default)]
struct Kind {
    met: u64,
    rank: (u32, [u64; 8], Vec<u32>),
    text: String,
}

#[derive(Default)]
pub struct Report {
    compared: BTreeMap<&'static str, u64>,
    /// By entry of docs/DIFFERENCES.md and operation.
    explained: BTreeMap<(Entry, &'static str), Kind>,
    unexplained: u64,
    wrong: u64,
}

const MOST_SHOWN: u64 = 20;
const MOST_PATTERNS: usize = 32;

impl Report {
    pub fn inputs(&self) -> u64 {
        self.compared.values().sum()
    }

    /// One comparison. `entry` is asked only where the source's answer is another.
    pub fn compare(
        &mut self,
        input: Input,
        ours: Shown,
        model: Shown,
        theirs: Shown,
        entry: impl FnOnce() -> Option<Entry>,
    ) {
        *self.compared.entry(input.name).or_default() += 1;
        if ours != model {
            self.wrong(|| format!("{input}: ours {ours}, model {model}, source {theirs}"));
        }
        if ours == theirs {
            return;
        }
        let Some(entry) = entry() else {
            self.unexplained += 1;
            if self.unexplained <= MOST_SHOWN {
                println!("NO ENTRY EXPLAINS: {input}: source {theirs}, ours {ours}");
            }
            return;
        };
        let kind = self.explained.entry((entry, input.name)).or_default();
        kind.met += 1;
        if kind.met == 1 || input.ones() <= kind.rank.0 && input.rank() < kind.rank {
            kind.rank = input.rank();
            kind.text = format!("{input}: source {theirs}, ours {ours}");
        }
    }

    /// One comparison of ours with the model alone, where the source has nothing of the kind.
    pub fn check<T: PartialEq + fmt::Debug>(
        &mut self,
        name: &'static str,
        input: impl FnOnce() -> String,
        ours: T,
        model: T,
    ) {
        *self.compared.entry(name).or_default() += 1;
        if ours != model {
            self.wrong(|| format!("{name}({}): ours {ours:X?}, model {model:X?}", input()));
        }
    }

    pub fn wrong(&mut self, text: impl FnOnce() -> String) {
        self.wrong += 1;
        if self.wrong <= MOST_SHOWN {
            println!("OURS IS WRONG: {}", text());
        }
    }

    /// Prints it all; true where ours was right and nothing stays unexplained.
    pub fn finish(&self, of: &str) -> bool {
        println!("Inputs {of}compared: {}", self.inputs());
        for (name, n) in &self.compared {
            println!("  {n:>10}  {name}");
        }
        if !self.explained.is_empty() {
            println!("Differences of the source, by entry of docs/DIFFERENCES.md, with the smallest input:");
        }
        for (((number, case), name), kind) in &self.explained {
            println!("  {number:>2}  {case}; {name}: {} times", kind.met);
            println!("      {}", kind.text);
        }
        println!("Differences that no entry explains: {}", self.unexplained);
        println!("Inputs on which ours is not the model's: {}", self.wrong);
        self.unexplained == 0 && self.wrong == 0
    }
}
