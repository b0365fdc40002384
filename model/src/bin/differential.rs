//! Compares the engine and the tuned calls with the model, call by call: answers and every lent byte.
//!
//! `differential [seed [cases]]`; without a seed it takes one from the clock. Where JEMLAYOS_LIST names a list program,
//! what that prints is compared too. Exits with 1 on a difference, or where a call was never accepted, never refused with one
//! of the numbers that it tries, or never met one of the rules on gaps and on rounding that it can meet, or where a search for
//! a place never came to one of its ends.

use std::cell::RefCell;
use std::collections::BTreeMap;
use std::ffi::OsString;
use std::io::Write;
use std::process::{Command, ExitCode, Stdio};
use std::time::{Instant, SystemTime, UNIX_EPOCH};

use jemlayos_model::bytes::{numbers, word, words};
use jemlayos_model::calls::{others, Calls, List, PartInput, RuleInput};
use jemlayos_model::compare::Compared;
use jemlayos_model::generate::damage::{damaged_byte, damaged_bytes, damaged_mesh, long_meshes};
use jemlayos_model::generate::random::Random;
use jemlayos_model::generate::scenarios::{Scenario, GAP_SHARES};
use jemlayos_model::generate::traffic;
use jemlayos_model::listing;
use jemlayos_model::mesh::MOST_ELEMENTS;
use jemlayos_model::met::{self, Meetings, Met};
use jemlayos_model::refusal::{Answer, Refusal};
use jemlayos_model::split::Range;
use jemlayos_model::state::{Sizes, LAST_ROUND};

fn main() -> ExitCode {
    let mut arguments = std::env::args().skip(1).map(|a| a.parse().expect("a number"));
    let clock = || SystemTime::now().duration_since(UNIX_EPOCH).map_or(0, |time| time.as_secs());
    let seed = arguments.next().unwrap_or_else(clock);
    let cases = arguments.next().unwrap_or(2_000);
    let tally = RefCell::<Tally>::default();
    let told = |call: &'static str, answer: Answer, differences: &[String]| {
        let mut tally = tally.borrow_mut();
        tally.count(call, answer.err().map_or(0, Refusal::number));
        differences.iter().for_each(|difference| tally.differ(difference));
    };
    let compared = Compared { others: others(), told };
    let list_program = ListProgram { path: std::env::var_os("JEMLAYOS_LIST"), tally: &tally };
    for other in &compared.others {
        print!("{} against model, ", other.name());
    }
    println!("seed {seed}, {cases} cases");
    let all = Watched { calls: &compared, tally: &tally };

    let began = Instant::now();
    let random = &mut Random::new(seed);
    for (mesh, _) in long_meshes() {
        let _ = all.check_mesh(&mesh);
    }
    for (_, scenario) in Scenario::extremes(random) {
        try_inputs(&all, random, &scenario);
        list_program.compare(&scenario.listing_input());
        all.try_run(random, &scenario, 30);
    }
    for case in 1..=cases {
        tally.borrow_mut().case = case;
        let mesh = damaged_mesh(random, 1 + (case % 7) as u32);
        let _ = all.check_mesh(&mesh);
        let mut scenario = if case % 50 == 0 { Scenario::large(random) } else { Scenario::random(random) };
        if case % 4 > 0 {
            all.try_run(random, &scenario, 60);
            try_odd_value(&all, random, &scenario);
            scenario.damage(random);
        }
        try_inputs(&all, random, &scenario);
        try_listing(&list_program, random, &scenario);
        let forged = traffic::forged_state(random);
        try_state(&all, random, &forged);
        let list = some_list(random);
        try_places(&all, &list);
    }
    tally.into_inner().report(began.elapsed().as_secs_f64())
}

const MOST_SHOWN: u64 = 20;

/// The numbers that a call tries.
fn tries(call: &str) -> &'static [u32] {
    match call {
        "check mesh" => &[1, 2, 3, 4, 5, 6, 7],
        "round" => &[1, 2, 3, 4, 5, 6, 7, 10, 11, 13, 14, 16],
        "state size" => &[1, 2, 3, 4, 5, 6, 7, 8, 9, 10, 12, 13],
        "start" => &[1, 2, 3, 4, 5, 6, 7, 8, 9, 10, 11, 12, 13, 14, 16],
        "write" => &[16, 20, 27],
        "take" => &[15, 20, 21, 22, 23],
        "advance" => &[20, 24, 25, 26],
        "collect" => &[16, 20, 28],
        "points" => &[16, 20, 24, 29],
        "place" => &[],
        // The lists of a part, and the list program, which has no buffer.
        "list program" => &[1, 2, 3, 4, 5, 6, 7, 8, 9, 10, 12, 13],
        _ => &[1, 2, 3, 4, 5, 6, 7, 8, 9, 10, 12, 13, 16],
    }
}

#[derive(Default)]
struct Tally {
    case: u64,
    /// How often each call gave each number, 0 where it was accepted.
    answers: BTreeMap<&'static str, BTreeMap<u32, u64>>,
    /// How many calls met each rule on gaps or on rounding.
    met: BTreeMap<(&'static str, Met), u64>,
    /// How many searches for a place came to each end.
    ends: BTreeMap<SearchEnd, u64>,
    /// How many runs there were of each kind of rule and each share of gaps.
    runs: BTreeMap<(u32, usize), u64>,
    differences: u64,
}

impl Tally {
    /// The same seed and number of cases show a difference again.
    fn differ(&mut self, difference: &str) {
        self.differences += 1;
        if self.differences <= MOST_SHOWN {
            println!("case {}, {difference}", self.case);
        }
    }

    fn count(&mut self, call: &'static str, number: u32) {
        assert!(number == 0 || tries(call).contains(&number), "{call} is never refused with {number}");
        *self.answers.entry(call).or_default().entry(number).or_default() += 1;
    }

    fn report(&self, seconds: f64) -> ExitCode {
        let (mut calls, mut missing) = (0, 0);
        for (call, numbers) in &self.answers {
            let count = |number: &u32| numbers.get(number).copied().unwrap_or(0);
            let refused: Vec<String> = tries(call).iter().map(|n| format!("{n}: {}", count(n))).collect();
            let refused = if refused.is_empty() { String::new() } else { format!("; refused {}", refused.join(", ")) };
            println!("{call}: accepted {}{refused}", count(&0));
            calls += numbers.values().sum::<u64>();
            missing += [0].iter().chain(tries(call)).filter(|n| count(n) == 0).count();
        }
        for &refusal in Refusal::ALL {
            let count: u64 = self.answers.values().filter_map(|numbers| numbers.get(&refusal.number())).sum();
            missing += usize::from(count == 0);
            println!("{count:>9} × {refusal}");
        }
        for call in self.answers.keys().filter(|call| !met::meets(call).is_empty()) {
            let counts = met::meets(call).iter().map(|&met| (met, self.met.get(&(call, met)).copied().unwrap_or(0)));
            missing += counts.clone().filter(|&(_, count)| count == 0).count();
            println!("{call}, met: {}", joined(counts.map(|(met, count)| format!("{met} {count}"))));
        }
        let counts = SearchEnd::ALL.map(|end| (end, self.ends.get(&end).copied().unwrap_or(0)));
        missing += counts.iter().filter(|&&(_, count)| count == 0).count();
        println!("place, ends: {}", joined(counts.iter().map(|(end, count)| format!("{end:?} {count}"))));
        for kind in 0..=2 {
            let counts = GAP_SHARES.map(|share| (share, self.runs.get(&(kind, share)).copied().unwrap_or(0)));
            missing += counts.iter().filter(|&&(_, count)| count == 0).count();
            let counts = counts.iter().map(|(share, count)| format!("{share} % gaps {count}"));
            println!("runs of kind {kind}: {}", joined(counts));
        }
        println!(
            "{calls} calls in {seconds:.1} s, {} differences, {missing} cases that were not reached",
            self.differences
        );
        if self.differences == 0 && missing == 0 {
            ExitCode::SUCCESS
        } else {
            ExitCode::FAILURE
        }
    }
}

/// How a search for a place ends.
#[derive(Clone, Copy, Debug, PartialEq, Eq, PartialOrd, Ord)]
enum SearchEnd {
    /// At the number sought, in a rising list.
    Found,
    /// At a greater one, in a rising list.
    Absent,
    /// The same two in a list that does not rise.
    FoundUnordered,
    AbsentUnordered,
    /// With the list, all of whose numbers are below the one sought.
    WholeList,
    /// At once: the list has no number.
    NoNumbers,
}

impl SearchEnd {
    const ALL: [SearchEnd; 6] = [
        SearchEnd::Found,
        SearchEnd::Absent,
        SearchEnd::FoundUnordered,
        SearchEnd::AbsentUnordered,
        SearchEnd::WholeList,
        SearchEnd::NoNumbers,
    ];

    fn of(list: &[u8], cell: u32, place: u64, read: u32) -> SearchEnd {
        let numbers = numbers(list);
        let rises = numbers.windows(2).all(|pair| pair[0] < pair[1]);
        let ended = read > 0 && numbers[read as usize - 1] >= cell as usize;
        match (place > 0, ended, rises) {
            _ if numbers.is_empty() => SearchEnd::NoNumbers,
            (_, false, _) => SearchEnd::WholeList,
            (true, _, true) => SearchEnd::Found,
            (false, _, true) => SearchEnd::Absent,
            (true, _, false) => SearchEnd::FoundUnordered,
            (false, _, false) => SearchEnd::AbsentUnordered,
        }
    }
}

fn joined(counts: impl Iterator<Item = String>) -> String {
    counts.collect::<Vec<_>>().join(", ")
}

/// Makes each call, and counts the rules on gaps and on rounding that it met.
struct Watched<'a> {
    calls: &'a dyn Calls,
    tally: &'a RefCell<Tally>,
}

impl Watched<'_> {
    fn count(&self, call: &'static str, answer: Answer, met: Meetings) -> Answer {
        let mut tally = self.tally.borrow_mut();
        for met in met {
            *tally.met.entry((call, met)).or_default() += 1;
        }
        answer
    }

    fn try_run(&self, random: &mut Random, scenario: &Scenario, turns: usize) {
        if try_run(self, random, scenario, turns) {
            *self.tally.borrow_mut().runs.entry((scenario.kind, scenario.gap_share)).or_default() += 1;
        }
    }
}

impl Calls for Watched<'_> {
    fn name(&self) -> &'static str {
        self.calls.name()
    }

    fn check_mesh(&self, mesh: &[u8]) -> Answer {
        self.calls.check_mesh(mesh)
    }

    fn list(&self, input: PartInput, list: List, out: &mut [u8]) -> Answer {
        self.calls.list(input, list, out)
    }

    fn round(&self, mesh: &[u8], stencil: &[u8], rule: RuleInput, field: &[u8], out: &mut [u8]) -> Answer {
        let answer = self.calls.round(mesh, stencil, rule, field, out);
        self.count("round", answer, met::in_round(mesh, stencil, rule, field, answer))
    }

    fn state_size(&self, input: PartInput) -> Answer {
        self.calls.state_size(input)
    }

    fn start(&self, input: PartInput, rule: RuleInput, field: &[u8], state: &mut [u8]) -> Answer {
        let answer = self.calls.start(input, rule, field, state);
        self.count("start", answer, met::in_start(input.mesh, field, answer))
    }

    fn write(&self, state: &mut [u8], to: u32, out: &mut [u8]) -> Answer {
        let answer = self.calls.write(state, to, out);
        self.count("write", answer, met::in_write(state, out, answer))
    }

    fn take(&self, state: &mut [u8], message: &[u8]) -> Answer {
        let answer = self.calls.take(state, message);
        self.count("take", answer, met::in_take(state, message, answer))
    }

    fn advance(&self, state: &mut [u8]) -> Answer {
        let before = state.to_vec();
        let answer = self.calls.advance(state);
        self.count("advance", answer, met::in_advance(&before, answer))
    }

    fn collect(&self, state: &[u8], round: u32, field: &mut [u8]) -> Answer {
        let answer = self.calls.collect(state, round, field);
        self.count("collect", answer, met::in_collect(state, answer))
    }

    fn points(&self, state: &[u8], out: &mut [u8]) -> Answer {
        let answer = self.calls.points(state, out);
        self.count("points", answer, met::in_points(state, answer))
    }

    fn place(&self, list: &[u8], cell: u32, read: &mut u32) -> u64 {
        let place = self.calls.place(list, cell, read);
        *self.tally.borrow_mut().ends.entry(SearchEnd::of(list, cell, place, *read)).or_default() += 1;
        place
    }
}

/// The list program, if one is named.
struct ListProgram<'a> {
    path: Option<OsString>,
    tally: &'a RefCell<Tally>,
}

impl ListProgram<'_> {
    /// What the list program prints; a program that stops reading early is no difference.
    fn compare(&self, input: &[u8]) {
        let Some(program) = &self.path else {
            return;
        };
        let mut child =
            Command::new(program).stdin(Stdio::piped()).stdout(Stdio::piped()).spawn().expect("the list program runs");
        let _ = child.stdin.take().expect("a pipe to it").write_all(input);
        let found = child.wait_with_output().expect("the list program ends").stdout;
        let expected = listing::text(input);
        let mut tally = self.tally.borrow_mut();
        let refused = expected.strip_prefix("refused ").map(|number| number.trim().parse().expect("a number"));
        tally.count("list program", refused.unwrap_or(0));
        if found != expected.as_bytes() {
            tally.differ(&format!("list program: {:?} for {expected:?}", String::from_utf8_lossy(&found)));
        }
    }
}

/// A buffer full of junk, of about the length needed: just right, a little longer, too short or empty.
fn buffer(random: &mut Random, need: usize) -> Vec<u8> {
    let length = match random.below(6) {
        0 => need.saturating_sub(1),
        1 => random.below(need + 1),
        2 => need + random.between(1, 9),
        _ => need,
    };
    random.bytes(length)
}

/// A number that most often is one of 1 to `most`.
fn number(random: &mut Random, most: u32) -> u32 {
    match random.below(8) {
        0 => *random.pick(&[0, most + 1, 17, 256, 257, 65_537, u32::MAX]),
        _ => random.between(1, most.clamp(1, 16) as usize) as u32,
    }
}

/// The calls over a mesh, with its inputs as they are.
fn try_inputs(calls: &dyn Calls, random: &mut Random, scenario: &Scenario) {
    let _ = calls.check_mesh(&scenario.mesh);
    let mut out = buffer(random, 4 * scenario.cells);
    let _ = calls.round(&scenario.mesh, &scenario.stencil, scenario.rule(), &scenario.field, &mut out);

    let input = scenario.part(number(random, scenario.parts));
    let size = calls.state_size(input).unwrap_or(64);
    let mut state = buffer(random, size as usize);
    let _ = calls.start(input, scenario.rule(), &scenario.field, &mut state);

    let mut lists = vec![List::Interior, List::Halo, List::Locals];
    lists.extend([List::Imports, List::Exports].map(|list| list(number(random, scenario.parts))));
    lists.extend(Range::ALL.map(|range| List::Range(range, *random.pick(&[0, 0, 1, 2, 3, u32::MAX]))));
    for list in lists {
        // How long a list is only its call says.
        let mut out = random.bytes(2 * scenario.mesh.len());
        if let Ok(count) = calls.list(input, list, &mut out) {
            if let List::Imports(_) = list {
                try_places(calls, &out[..2 * count as usize]);
            }
            let mut out = buffer(random, 2 * count as usize);
            let _ = calls.list(input, list, &mut out);
        }
    }
}

/// A list of words, most often rising, now and then with half a word more.
fn some_list(random: &mut Random) -> Vec<u8> {
    let most = *random.pick(&[9, 300, 65_535]);
    let count = random.below(12);
    let mut numbers: Vec<usize> = (0..count).map(|_| random.below(most + 1)).collect();
    if !random.one_in(3) {
        numbers.sort_unstable();
        numbers.dedup();
    }
    let mut list = words(&numbers);
    if random.one_in(4) {
        list.push(random.byte());
    }
    list
}

/// Searches for each number of a list, for the numbers beside it, for one with the same low 16 bits, and for some that no word
/// has. What was in `read` before does not matter.
fn try_places(calls: &dyn Calls, list: &[u8]) {
    let near = |number: usize| [number.saturating_sub(1), number, number + 1, number + 65_536].map(|cell| cell as u32);
    for cell in numbers(list).into_iter().flat_map(near).chain([0, 65_535, 65_536, 65_537, u32::MAX]) {
        let _ = calls.place(list, cell, &mut 0xeeee_eeee);
    }
}

/// The calls that are given a field, with one value in it that is a gap, or neither a depth nor a gap.
fn try_odd_value(calls: &dyn Calls, random: &mut Random, scenario: &Scenario) {
    let mut odd = scenario.clone();
    odd.put_odd_value(random);
    let mut out = vec![0xee; odd.field.len()];
    let _ = calls.round(&odd.mesh, &odd.stencil, odd.rule(), &odd.field, &mut out);
    let size = calls.state_size(odd.part(1)).unwrap_or(64);
    let _ = calls.start(odd.part(1), odd.rule(), &odd.field, &mut vec![0xee; size as usize]);
}

/// The list program's input as it is, cut, damaged, or as long as it may be and longer.
fn try_listing(list_program: &ListProgram, random: &mut Random, scenario: &Scenario) {
    let mut input = scenario.listing_input();
    match random.below(6) {
        0 => input.truncate(random.below(input.len())),
        1 => input = damaged_bytes(random, &input),
        2 => input.resize(listing::LONGEST_INPUT + random.below(2), 0),
        _ => {}
    }
    list_program.compare(&input);
}

/// Random calls on the parts of a run, whose rounds a full exchange brings on now and then. False where the inputs are
/// refused.
fn try_run(calls: &dyn Calls, random: &mut Random, scenario: &Scenario, turns: usize) -> bool {
    let Some(mut run) = Run::start(calls, scenario) else {
        return false;
    };
    for _ in 0..turns {
        let part = random.below(run.states.len());
        match random.below(14) {
            0 => run.exchange(random),
            1 => run.at_the_last_rounds(random, part),
            2 => try_state(calls, random, &run.states[part]),
            3..6 => {
                let to = number(random, scenario.parts);
                let mut longest = vec![0; 8 + 4 * scenario.cells];
                let length = calls.write(&mut run.states[part].clone(), to, &mut longest).unwrap_or(8);
                let mut out = buffer(random, length as usize);
                run.write(part, to, &mut out);
            }
            6..9 => {
                let message = traffic::message(random, &run.written);
                let _ = calls.take(&mut run.states[part], &message);
            }
            9 => {
                let _ = calls.advance(&mut run.states[part]);
            }
            10 => try_points(calls, random, &run.states[part]),
            _ => run.collect(random, part),
        }
    }
    true
}

struct Run<'a> {
    calls: &'a dyn Calls,
    scenario: &'a Scenario,
    /// The state of each part, from part 1 on.
    states: Vec<Vec<u8>>,
    written: Vec<Vec<u8>>,
}

impl<'a> Run<'a> {
    /// Starts every part, if the inputs are accepted.
    fn start(calls: &'a dyn Calls, scenario: &'a Scenario) -> Option<Self> {
        let start = |part: u32| {
            let mut state = vec![0xee; calls.state_size(scenario.part(part)).ok()? as usize];
            calls.start(scenario.part(part), scenario.rule(), &scenario.field, &mut state).ok()?;
            Some(state)
        };
        let states = (1..=scenario.parts).map(start).collect::<Option<_>>()?;
        Some(Run { calls, scenario, states, written: Vec::new() })
    }

    fn write(&mut self, part: usize, to: u32, out: &mut [u8]) -> Option<Vec<u8>> {
        let length = self.calls.write(&mut self.states[part], to, out).ok()?;
        let message = out[..length as usize].to_vec();
        self.written.push(message.clone());
        Some(message)
    }

    /// Every part writes to every other, which takes the message; each gives its points, and then all that can advance do.
    fn exchange(&mut self, random: &mut Random) {
        let parts = self.states.len();
        let mut pairs: Vec<usize> = (0..parts * parts).collect();
        random.shuffle(&mut pairs);
        let mut out = vec![0xee; 8 + 4 * self.scenario.cells];
        for (from, to) in pairs.into_iter().map(|pair| (pair / parts, pair % parts)) {
            if let Some(message) = self.write(from, to as u32 + 1, &mut out) {
                let _ = self.calls.take(&mut self.states[to], &message);
            }
        }
        for state in &mut self.states {
            try_points(self.calls, random, state);
            let _ = self.calls.advance(state);
        }
        // Old messages stay among the written ones for a while, to be tried when they are stale.
        let stale = self.written.len().saturating_sub(400);
        self.written.drain(..stale);
    }

    fn at_the_last_rounds(&self, random: &mut Random, part: usize) {
        let round = *random.pick(&[LAST_ROUND - 1, LAST_ROUND, LAST_ROUND + 1]);
        let mut state = traffic::at_round(&self.states[part], round);
        try_points(self.calls, random, &state);
        let _ = self.calls.advance(&mut state);
        let _ = self.calls.advance(&mut state);
        let _ = self.calls.collect(&state, LAST_ROUND as u32, &mut vec![0xee; 4 * self.scenario.cells]);
    }

    fn collect(&self, random: &mut Random, part: usize) {
        let round = round_of(&self.states[part]);
        let asked = *random.pick(&[round, round, round, round + 1, round.wrapping_sub(1), round + 65_536]);
        let mut field = buffer(random, 4 * self.scenario.cells);
        let _ = self.calls.collect(&self.states[part], asked, &mut field);
    }
}

/// The round in bytes that are perhaps a state.
fn round_of(state: &[u8]) -> u32 {
    word(state, word(state, 0)) as u32
}

/// The calls over a state, over broken copies of it, and over copies with each byte damaged in turn if they are few.
fn try_state(calls: &dyn Calls, random: &mut Random, state: &[u8]) {
    try_state_calls(calls, random, state);
    for _ in 0..4 {
        let broken = traffic::broken_state(random, state);
        try_state_calls(calls, random, &broken);
    }
    if state.len() < 600 && random.one_in(8) {
        for at in 0..state.len() {
            let mut broken = state.to_vec();
            broken[at] = damaged_byte(random, broken[at]);
            try_state_calls(calls, random, &broken);
        }
    }
}

fn try_state_calls(calls: &dyn Calls, random: &mut Random, state: &[u8]) {
    let mut out = random.bytes(200);
    let _ = calls.write(&mut state.to_vec(), number(random, 16), &mut out);
    let fitting = traffic::message_for(random, state);
    let message = traffic::message(random, &[fitting]);
    let _ = calls.take(&mut state.to_vec(), &message);
    let _ = calls.advance(&mut state.to_vec());
    let _ = calls.collect(state, round_of(state), &mut random.bytes(300));
    try_points(calls, random, state);
}

/// The points of bytes that are perhaps a state, with an output of about the length that their count asks for.
fn try_points(calls: &dyn Calls, random: &mut Random, state: &[u8]) {
    let points = Sizes::read(state).points.min(MOST_ELEMENTS);
    let mut out = buffer(random, 6 * points);
    let _ = calls.points(state, &mut out);
}
