//! What was compared, and how it came out.

use std::fmt;

/// Most characters that are told of either side of a difference.
const MOST: usize = 400;

/// A call as the oracle answers it, and as the library does.
pub struct Compared {
    /// The call's name.
    pub call: &'static str,
    /// The refusal's number, 0 for an answer.
    pub number: u32,
    /// Why the trace stopped, where that is answered.
    pub stop: Option<u64>,
    /// The ground of an explanation, where that is answered.
    pub explained: Option<Explained>,
    /// The number of a path's first fault, where that is answered.
    pub fault: Option<u64>,
    /// The ground of a move, of a reason or of a path, in whole numbers or drawn, where that
    /// is answered.
    pub ground: Option<u64>,
    /// What differs, if anything does.
    pub difference: Option<String>,
}

/// The ground of an explanation, and of a hit its kind and the other pairs at its
/// distance.
#[derive(Clone, Copy)]
pub struct Explained {
    pub ground: u64,
    pub kind: u64,
    pub others: u64,
}

impl Compared {
    /// The comparison of a call that is no trace, no explanation, no path's check and no
    /// move.
    pub fn of<T: PartialEq + fmt::Debug>(
        call: &'static str,
        number: u64,
        oracle: T,
        library: T,
    ) -> Self {
        let number = u32::try_from(number).expect("a refusal's number is small");
        let difference = (oracle != library).then(|| {
            let [oracle, library] = [format!("{oracle:x?}"), format!("{library:x?}")];
            format!("{call}: expected {oracle:.MOST$}, the library has {library:.MOST$}")
        });
        Self { call, number, stop: None, explained: None, fault: None, ground: None, difference }
    }
}

/// How many numbers a call's answer can have: 0 and the refusals 1 to 14.
const NUMBERS: usize = 15;
/// How many stop reasons there are, from 1 on.
const STOPS: usize = 5;
/// How many grounds there are, from 0 on.
const GROUNDS: usize = 6;
/// How many numbers of a path's fault there are, from 0, which is none, on.
const FAULTS: usize = 3;
/// How many grounds of a move there are, from 0, which is clear, on.
const MOVES: usize = 3;
/// How many kinds of hit there are.
const KINDS: usize = 2;
/// How many other pairs at a hit's distance a comparison must reach.
const OTHERS: u64 = 24;
/// How many differences are told in full.
const TOLD: usize = 5;

/// The counts of one call.
struct Row {
    call: &'static str,
    agree: u64,
    numbers: [u64; NUMBERS],
}

/// The counts of the explanations.
#[derive(Default)]
struct Explanations {
    grounds: [u64; GROUNDS],
    kinds: [u64; KINDS],
    most_others: u64,
}

impl Explanations {
    /// Counts an explanation.
    fn add(&mut self, explained: Explained) {
        self.grounds[explained.ground as usize] += 1;
        if explained.ground == 0 {
            self.kinds[explained.kind as usize] += 1;
            self.most_others = self.most_others.max(explained.others);
        }
    }

    /// What no explanation had, of what some must have.
    fn unreached(&self) -> Vec<String> {
        let none = |counts: &[u64], what: &str| -> Vec<String> {
            let missing = (0..counts.len()).filter(|&place| counts[place] == 0);
            missing.map(|place| format!("no explanation has {what} {place}")).collect()
        };
        let mut all = [none(&self.grounds, "ground"), none(&self.kinds, "a hit of kind")].concat();
        if self.most_others < OTHERS {
            all.push(format!("no hit has {OTHERS} other pairs at its distance"));
        }
        all
    }
}

impl fmt::Display for Explanations {
    fn fmt(&self, f: &mut fmt::Formatter<'_>) -> fmt::Result {
        let Self { grounds, kinds, most_others } = self;
        write!(f, "grounds of explanations:")?;
        for (place, count) in grounds.iter().enumerate() {
            write!(f, " {place}: {count}{}", if place + 1 < GROUNDS { "," } else { "\n" })?;
        }
        let [vertex_edge, edge_vertex] = kinds;
        write!(f, "hits explained: kind 0: {vertex_edge}, kind 1: {edge_vertex}; ")?;
        writeln!(f, "other pairs at a hit's distance: at most {most_others}")
    }
}

/// The counts of all calls.
#[derive(Default)]
pub struct Tally {
    rows: Vec<Row>,
    stops: [u64; STOPS],
    explanations: Explanations,
    faults: [u64; FAULTS],
    moves: Vec<(&'static str, [u64; MOVES])>,
    differences: Vec<String>,
}

impl Tally {
    /// Counts a comparison; `origin` says where its record comes from.
    pub fn add(&mut self, compared: Compared, origin: impl Fn() -> String) {
        let place = self.rows.iter().position(|row| row.call == compared.call);
        let place = place.unwrap_or_else(|| {
            self.rows.push(Row { call: compared.call, agree: 0, numbers: [0; NUMBERS] });
            self.rows.len() - 1
        });
        self.rows[place].numbers[compared.number as usize] += 1;
        if let Some(stop) = compared.stop {
            self.stops[stop as usize - 1] += 1;
        }
        if let Some(explained) = compared.explained {
            self.explanations.add(explained);
        }
        if let Some(fault) = compared.fault {
            self.faults[fault as usize] += 1;
        }
        if let Some(ground) = compared.ground {
            self.count_move(compared.call, ground);
        }
        match compared.difference {
            None => self.rows[place].agree += 1,
            Some(told) if self.differences.len() < TOLD => {
                self.differences.push(format!("{}: {told}", origin()))
            }
            Some(_) => {}
        }
    }

    /// Counts the ground of this call on a move.
    fn count_move(&mut self, call: &'static str, ground: u64) {
        let place = self.moves.iter().position(|row| row.0 == call);
        let place = place.unwrap_or_else(|| {
            self.moves.push((call, [0; MOVES]));
            self.moves.len() - 1
        });
        self.moves[place].1[ground as usize] += 1;
    }

    /// The counts of all calls together.
    fn all(&self) -> Row {
        let numbers = std::array::from_fn(|place| {
            self.rows.iter().map(|row| row.numbers[place]).sum::<u64>()
        });
        Row { call: "all", agree: self.rows.iter().map(|row| row.agree).sum(), numbers }
    }

    /// All calls compared, and those that agree.
    pub fn totals(&self) -> (u64, u64) {
        let all = self.all();
        (all.numbers.iter().sum(), all.agree)
    }

    /// What no explanation, no path and no move had, of what some must have.
    pub fn unreached(&self) -> Vec<String> {
        let missing = (0..FAULTS).filter(|&fault| self.faults[fault] == 0);
        let paths = missing.map(|fault| format!("no path has fault {fault}"));
        let none = |(call, counts): &(&str, [u64; MOVES])| {
            let missing = (0..MOVES).filter(|&ground| counts[ground] == 0);
            missing.map(|ground| format!("no {call} has ground {ground}")).collect::<Vec<_>>()
        };
        let moves = self.moves.iter().flat_map(none);
        self.explanations.unreached().into_iter().chain(paths).chain(moves).collect()
    }

    /// Whether this call was compared.
    pub fn has(&self, call: &str) -> bool {
        self.rows.iter().any(|row| row.call == call)
    }
}

impl fmt::Display for Tally {
    fn fmt(&self, f: &mut fmt::Formatter<'_>) -> fmt::Result {
        write!(f, "{:31} {:>8} {:>8} {:>8}", "call", "cases", "agree", "answered")?;
        (1..NUMBERS).try_for_each(|number| write!(f, " {:>8}", format!("ref. {number}")))?;
        writeln!(f)?;
        for Row { call, agree, numbers } in self.rows.iter().chain([&self.all()]) {
            write!(f, "{call:31} {:>8} {agree:>8}", numbers.iter().sum::<u64>())?;
            numbers.iter().try_for_each(|count| write!(f, " {count:>8}"))?;
            writeln!(f)?;
        }
        write!(f, "stop reasons of traces:")?;
        for (place, count) in self.stops.iter().enumerate() {
            write!(f, " {}: {count}{}", place + 1, if place + 1 < STOPS { "," } else { "\n" })?;
        }
        write!(f, "{}", self.explanations)?;
        let [accepted, points, legs] = self.faults;
        writeln!(f, "paths: accepted: {accepted}, fault at a point: {points}, at a leg: {legs}")?;
        for (call, [clear, edge, enclosed]) in &self.moves {
            writeln!(f, "{call}: clear: {clear}, edge: {edge}, enclosed: {enclosed}")?;
        }
        self.differences.iter().try_for_each(|told| writeln!(f, "DIFFERENCE {told}"))?;
        let (cases, agree) = self.totals();
        write!(f, "{} calls and laws, {cases} cases, {agree} agree", self.rows.len())
    }
}
