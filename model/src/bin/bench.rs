//! Every call on the engine, the model and the tuned calls in turns, at growing sizes and for 1, 4 and 16 parts. Prints the
//! tables of docs/BENCHMARKS.md: least times, and instructions where valgrind is there. Where JEMLAYOS_STACK names the
//! program of .ci/stack.c, the bytes of stack that it measures stand in the first table.

use std::collections::BTreeMap;
use std::hint::black_box;
use std::process::Command;
use std::time::{Duration, Instant};
use std::{env, fs};

use jemlayos_model::calls::{engine, tuned, Calls, List, Model};
use jemlayos_model::generate::random::Random;
use jemlayos_model::generate::scenarios::{field, stencil_through, Deal, Scenario};
use jemlayos_model::generate::shapes::Shape;
use jemlayos_model::mesh::Mesh;
use jemlayos_model::refusal::Answer;
use jemlayos_model::split::Range;
use jemlayos_model::state::Sizes;
use jemlayos_model::walks::{Reaches, Stencil};

const PARTS: [u32; 3] = [1, 4, 16];

/// How long a call is tried on one input in each pass, and how often at least. After a block of calls it is the next
/// one's turn.
const PASSES: usize = 3;
const TRIED: Duration = Duration::from_millis(50);
const LEAST_BLOCKS: usize = 2;
const BLOCK: usize = 5;
const LONGEST_BLOCK: Duration = Duration::from_millis(2);

/// With this argument the program makes each call once, for valgrind to count.
const COUNT: &str = "count";

/// One for each implementation.
type Three<T> = [T; 3];
const ENGINE: usize = 0;
const PLAIN: usize = 1;
const TUNED: usize = 2;

fn main() {
    // Without the engine the model stands in its place.
    let implementations: Three<&dyn Calls> = [engine().unwrap_or(&Model), &Model, tuned()];
    let families = families();
    if env::args().nth(1).as_deref() == Some(COUNT) {
        // A call that nothing counts goes first, since it pays for what the allocator has to tidy up.
        let (call, case) = (&CALLS[0], &families[0].cases[0][0]);
        let _ = (call.make)(case, &Model, &mut (call.lend)(case));
        tables(&families, |call, case| {
            for calls in implementations {
                made(call, case, calls, &mut (call.lend)(case));
            }
            Cost::default()
        });
        return;
    }
    let mut counts = counted_instructions().map(Vec::into_iter);
    // Whatever else the machine does for a while spoils one pass at most.
    let mut passes = [(); PASSES].map(|()| {
        let mut times = Vec::new();
        tables(&families, |call, case| {
            times.push(least_times(call, case, implementations));
            Cost::default()
        });
        times.into_iter()
    });
    let tables = tables(&families, |_, _| {
        let times = passes.each_mut().map(|times| times.next().expect("a time for each call"));
        let mut next = || counts.as_mut().map(|counts| counts.next().expect("a count for each call"));
        Cost {
            times: [ENGINE, PLAIN, TUNED].map(|which| times.iter().map(|pass| pass[which]).fold(f64::MAX, f64::min)),
            instructions: implementations.map(|_| next()),
        }
    });
    print_worst(&tables);
    tables.iter().for_each(print_table);
}

/// What a call on one input costs: microseconds, and instructions if they are counted.
#[derive(Default)]
struct Cost {
    times: Three<f64>,
    instructions: Three<Option<f64>>,
}

impl Cost {
    fn time_ratio(&self, to: usize) -> Option<f64> {
        Some(self.times[ENGINE] / self.times[to])
    }

    fn instruction_ratio(&self, to: usize) -> Option<f64> {
        Some(self.instructions[ENGINE]? / self.instructions[to]?)
    }
}

/// The engine's cost divided by another's.
type Ratio = fn(&Cost) -> Option<f64>;

const RATIOS: [(&str, Ratio); 4] = [
    ("time : plain", |cost| cost.time_ratio(PLAIN)),
    ("time : tuned", |cost| cost.time_ratio(TUNED)),
    ("instructions : plain", |cost| cost.instruction_ratio(PLAIN)),
    ("instructions : tuned", |cost| cost.instruction_ratio(TUNED)),
];

/// The costs on the inputs of a family for one number of parts.
struct Table<'a> {
    family: &'a Family,
    cases: &'a [Case],
    lines: Vec<Line>,
}

struct Line {
    call: &'static Call,
    /// At each size.
    costs: Vec<Cost>,
    /// The power of the work by which the engine's cost grows at the last step of a growing family.
    growth: Option<f64>,
}

fn tables(families: &[Family], mut find: impl FnMut(&Call, &Case) -> Cost) -> Vec<Table<'_>> {
    let mut tables = Vec::new();
    for family in families {
        for cases in &family.cases {
            // One part alone writes and takes nothing, and not every stencil leads to all cells at a point.
            let is_accepted = |call: &Call, case: &Case| (call.make)(case, tuned(), &mut (call.lend)(case)).is_ok();
            let measured = |call: &&Call| {
                let named = family.only.is_empty() || family.only.contains(&call.name);
                named && cases.iter().all(|case| is_accepted(call, case))
            };
            let mut line = |call: &'static Call| {
                let costs: Vec<Cost> = cases.iter().map(|case| find(call, case)).collect();
                let growth = family.grows.then(|| growth(call, cases, &costs));
                Line { call, costs, growth }
            };
            tables.push(Table { family, cases, lines: CALLS.iter().filter(measured).map(&mut line).collect() });
        }
    }
    tables
}

fn growth(call: &Call, cases: &[Case], costs: &[Cost]) -> f64 {
    let cost = |cost: &Cost| cost.instructions[ENGINE].unwrap_or(cost.times[ENGINE]);
    let last_step = |numbers: &[f64]| (numbers[numbers.len() - 1] / numbers[numbers.len() - 2]).ln();
    let costs: Vec<f64> = costs.iter().map(cost).collect();
    let work: Vec<f64> = cases.iter().map(|case| (call.work)(case) as f64).collect();
    last_step(&costs) / last_step(&work)
}

/// One accepted call, which is what valgrind counts.
#[inline(never)]
fn made(call: &Call, case: &Case, calls: &dyn Calls, lent: &mut [u8]) {
    black_box((call.make)(case, calls, lent)).expect("an accepted call");
}

/// The least times of a call in microseconds, each time over a fresh copy of the lent bytes.
fn least_times(call: &Call, case: &Case, implementations: Three<&dyn Calls>) -> Three<f64> {
    let left = implementations.map(|calls| {
        let mut lent = (call.lend)(case);
        made(call, case, calls, &mut lent);
        lent
    });
    assert!(left.iter().all(|lent| *lent == left[PLAIN]), "{} leaves other bytes", call.name);
    let clock = (0..1_000).map(|_| Instant::now().elapsed()).min().unwrap_or_default();
    let mut least = [Duration::MAX; 3];
    let began = Instant::now();
    let mut blocks = 0;
    while blocks < LEAST_BLOCKS || began.elapsed() < TRIED {
        blocks += 1;
        for (calls, least) in implementations.into_iter().zip(&mut least) {
            let block_began = Instant::now();
            for _ in 0..BLOCK {
                let mut lent = (call.lend)(case);
                let call_began = Instant::now();
                made(call, case, calls, black_box(&mut lent));
                *least = call_began.elapsed().min(*least);
                if block_began.elapsed() > LONGEST_BLOCK {
                    break;
                }
            }
        }
    }
    least.map(|time| (time - clock).as_secs_f64() * 1e6)
}

/// The instructions of each call in the order in which they are made, if there is a valgrind to count them. It writes a
/// file for each.
fn counted_instructions() -> Option<Vec<f64>> {
    let folder = env::temp_dir().join(format!("jemlayos-bench-{}", std::process::id()));
    fs::create_dir(&folder).expect("a folder for the counts");
    let counting = Command::new("valgrind")
        // A pattern serves one option alone, so there are two for the same function.
        .args([
            "--tool=callgrind",
            "--collect-atstart=no",
            "--toggle-collect=bench::made*",
            "--dump-after=*bench::made",
        ])
        // Else memset and memcpy are instructions that valgrind counts once for each byte.
        .env(
            "GLIBC_TUNABLES",
            "glibc.cpu.x86_rep_stosb_threshold=100000000:glibc.cpu.x86_rep_movsb_threshold=100000000",
        )
        .arg(format!("--callgrind-out-file={}/count", folder.display()))
        .arg(env::current_exe().expect("this program"))
        .arg(COUNT)
        .output();
    let counts = (1..).map_while(|number| {
        let dump = fs::read_to_string(folder.join(format!("count.{number}"))).ok()?;
        dump.lines().find_map(|line| line.strip_prefix("totals: ")?.trim().parse().ok())
    });
    let counts = counts.collect();
    fs::remove_dir_all(&folder).expect("the folder of the counts");
    counting.is_ok_and(|output| output.status.success()).then_some(counts)
}

/// The first table: the worst of each call over the growing families.
fn print_worst(tables: &[Table]) {
    let stack = measured_stack();
    let worst = |numbers: &mut dyn Iterator<Item = f64>| shown(numbers.reduce(f64::max));
    print_heads(["call"].into_iter().chain(RATIOS.map(|(name, _)| name)).chain(["growth", "stack, bytes"]));
    for call in &CALLS {
        let growing = tables.iter().filter(|table| table.family.grows).flat_map(|table| &table.lines);
        let lines: Vec<&Line> = growing.filter(|line| line.call.name == call.name).collect();
        let costs = || lines.iter().flat_map(|line| &line.costs);
        let mut row = vec![call.name.to_string()];
        row.extend(RATIOS.map(|(_, ratio)| worst(&mut costs().filter_map(ratio))));
        row.push(worst(&mut lines.iter().filter_map(|line| line.growth)));
        row.push(stack.get(call.c_name).map_or("–".to_string(), String::clone));
        print_row(row);
    }
}

fn print_table(table: &Table) {
    let sizes = |size: fn(&Case) -> usize| joined(table.cases.iter().map(|case| size(case).to_string()));
    let (cells, records, reached) = (sizes(|c| c.scenario.cells), sizes(|c| c.records), sizes(|c| c.reached));
    let parts = table.cases[0].scenario.parts;
    println!("\n{}; P = {parts}; {cells} cells, {records} records, {reached} reached\n", table.family.name);
    print_heads(["call", "engine, µs"].into_iter().chain(RATIOS.map(|(name, _)| name)).chain(["growth"]));
    for line in &table.lines {
        let each = |number: &dyn Fn(&Cost) -> String| joined(line.costs.iter().map(number));
        let mut row = vec![line.call.name.to_string(), each(&|cost| format!("{:.1}", cost.times[ENGINE]))];
        row.extend(RATIOS.map(|(_, ratio)| each(&|cost| shown(ratio(cost)))));
        row.push(shown(line.growth));
        print_row(row);
    }
}

fn print_heads<'a>(heads: impl Iterator<Item = &'a str> + Clone) {
    print_row(heads.clone().map(str::to_string));
    print_row(heads.map(|_| "---".to_string()));
}

fn print_row(row: impl IntoIterator<Item = String>) {
    println!("| {} |", row.into_iter().collect::<Vec<_>>().join(" | "));
}

fn joined(numbers: impl Iterator<Item = String>) -> String {
    numbers.collect::<Vec<_>>().join(" / ")
}

fn shown(number: Option<f64>) -> String {
    number.map_or("–".to_string(), |number| format!("{number:.2}"))
}

/// The bytes of stack of each function of the header, if the program that measures them is named.
fn measured_stack() -> BTreeMap<String, String> {
    let Some(program) = env::var_os("JEMLAYOS_STACK") else { return BTreeMap::new() };
    let printed = Command::new(program).output().expect("the program that measures the stack runs").stdout;
    let printed = String::from_utf8(printed).expect("text");
    let name_and_bytes = |line: &str| {
        let mut words = line.split_whitespace().map(str::to_string);
        Some((words.next()?, words.next()?))
    };
    printed.lines().filter_map(name_and_bytes).collect()
}

/// Inputs of one kind.
struct Family {
    name: &'static str,
    /// Whether the inputs are the same at growing sizes.
    grows: bool,
    /// The calls that are measured on it, or none for all of them.
    only: &'static [&'static str],
    /// For each number of parts.
    cases: [Vec<Case>; 3],
}

fn families() -> [Family; 5] {
    let family = |name, grows, stencil: &[u8], shapes: &[Shape]| {
        let cases = PARTS.map(|parts| shapes.iter().map(|shape| Case::over(shape, stencil, parts)).collect());
        Family { name, grows, only: &[], cases }
    };
    let rows = [100, 450, 900].map(|cells| Shape::row(cells, 0));
    let triangles = [[5, 5], [10, 10], [15, 18]].map(|sides| Shape::grid(&sides));
    let tetrahedra = [2, 3, 4].map(|side| Shape::grid(&[side; 3]));
    // Through points a cell reaches many others, so that fewer cells are within the limit.
    let through_points = [[2, 2, 2], [3, 3, 2], [3, 3, 3]].map(|sides| Shape::grid(&sides));
    let worst = [Shape::star(89), Shape::dense(150, 80)];
    [
        family("Cells in a row, stencil 1 0 1 0 1 0 1", true, &stencil_through(1, &[0; 3]), &rows),
        family("Triangles in a grid, stencil 2 1 2 1 2", true, &stencil_through(2, &[1; 2]), &triangles),
        family("Tetrahedra in a grid, stencil 3 2 3 2 3", true, &stencil_through(3, &[2; 2]), &tetrahedra),
        Family {
            only: &["state size", "start", "points"],
            ..family("Tetrahedra in a grid, stencil 3 0 3", true, &stencil_through(3, &[0]), &through_points)
        },
        family(
            "A star, and cells on the same points, stencil 1 0 1 0 1 0 1 0 1",
            false,
            &stencil_through(1, &[0; 4]),
            &worst,
        ),
    ]
}

/// The inputs of every call at one size, for one number of parts, as the tuned calls make them. No value is a gap where
/// nothing else is said.
struct Case {
    scenario: Scenario,
    records: usize,
    /// The sizes of all cells' reaches together.
    reached: usize,
    /// The part whose calls are measured: a middle one, which imports and exports if there are others.
    part: u32,
    /// The sizes of the reaches of the part's own cells together.
    entries: usize,
    /// The part's state as start left it.
    state: Vec<u8>,
    sender: u32,
    /// From the sender to the part.
    message: Vec<u8>,
    /// The part's state with all messages taken and written.
    ready: Vec<u8>,
    /// A field in which half of the cells are gaps, and the state that `ready` is from it.
    half_gaps: Vec<u8>,
    ready_half_gaps: Vec<u8>,
}

impl Case {
    fn over(shape: &Shape, stencil: &[u8], parts: u32) -> Case {
        let random = &mut Random::new(1);
        let mut scenario = Scenario::over(random, shape, parts as usize, Deal::Blocks, stencil.to_vec());
        scenario.kind = 1;
        scenario.weights = [0, 1].repeat(stencil.len() / 2 + 1);
        scenario.field = field(random, scenario.cells, 0);
        let half_gaps = field(random, scenario.cells, 50);
        let part = parts.div_ceil(2);
        let (ready, sender, message) = exchanged(&scenario, &scenario.field, part);
        let (ready_half_gaps, ..) = exchanged(&scenario, &half_gaps, part);
        Case {
            records: shape.records(),
            reached: reached(&scenario, |_| true),
            part,
            entries: reached(&scenario, |owner| owner == part),
            state: started(&scenario, &scenario.field, part),
            sender,
            message,
            ready,
            half_gaps,
            ready_half_gaps,
            scenario,
        }
    }

    fn list(&self, calls: &dyn Calls, list: List, out: &mut [u8]) -> Answer {
        calls.list(self.scenario.part(self.part), list, out)
    }

    fn round(&self, calls: &dyn Calls, field: &[u8], out: &mut [u8]) -> Answer {
        calls.round(&self.scenario.mesh, &self.scenario.stencil, self.scenario.rule(), field, out)
    }
}

/// The state of a part as start leaves it.
fn started(scenario: &Scenario, field: &[u8], part: u32) -> Vec<u8> {
    let length = tuned().state_size(scenario.part(part)).expect("an accepted size");
    let mut state = vec![0; length as usize];
    tuned().start(scenario.part(part), scenario.rule(), field, &mut state).expect("a start");
    state
}

/// The state of a part with all messages of round 0 taken and written, the last sender, and its message.
fn exchanged(scenario: &Scenario, field: &[u8], part: u32) -> (Vec<u8>, u32, Vec<u8>) {
    let mut state = started(scenario, field, part);
    let mut last = (0, Vec::new());
    for other in (1..=scenario.parts).filter(|&other| other != part) {
        let mut message = vec![0; 8 + 4 * scenario.cells];
        // Parts that share nothing have no messages.
        let _ = tuned().write(&mut state, other, &mut message);
        if let Ok(length) = tuned().write(&mut started(scenario, field, other), part, &mut message) {
            message.truncate(length as usize);
            tuned().take(&mut state, &message).expect("a fitting message");
            last = (other, message);
        }
    }
    (state, last.0, last.1)
}

/// The sizes of the reaches of some owners' cells together.
fn reached(scenario: &Scenario, wanted: impl Fn(u32) -> bool) -> usize {
    let mesh = Mesh::read(&scenario.mesh).expect("a mesh");
    let stencil = Stencil::read(&scenario.stencil, mesh.top()).expect("a stencil");
    let reaches = Reaches::find(&mesh, &stencil).expect("reaches within the limit");
    let cells = mesh.cells().zip(&scenario.owners).filter(|&(_, &owner)| wanted(owner.into()));
    cells.map(|(cell, _)| reaches.of(cell).len()).sum()
}

struct Call {
    name: &'static str,
    /// Its name in the header.
    c_name: &'static str,
    /// What its cost may grow with.
    work: fn(&Case) -> usize,
    /// The bytes that it may change.
    lend: fn(&Case) -> Vec<u8>,
    make: fn(&Case, &dyn Calls, &mut [u8]) -> Answer,
}

const CALLS: [Call; 13] = [
    Call {
        name: "check mesh",
        c_name: "jem_check_mesh",
        work: |case| case.records,
        lend: |_| Vec::new(),
        make: |case, calls, _| calls.check_mesh(&case.scenario.mesh),
    },
    Call {
        name: "local order",
        c_name: "jem_locals",
        work: |case| case.reached,
        lend: |case| vec![0; case.scenario.mesh.len()],
        make: |case, calls, out| case.list(calls, List::Locals, out),
    },
    Call {
        name: "exposed points",
        c_name: "jem_exposed",
        work: |case| case.reached,
        lend: |case| vec![0; case.scenario.mesh.len()],
        make: |case, calls, out| case.list(calls, List::Range(Range::Exposed, 0), out),
    },
    Call {
        name: "undivided round",
        c_name: "jem_round",
        work: |case| case.reached,
        lend: |case| case.scenario.field.clone(),
        make: |case, calls, out| case.round(calls, &case.scenario.field, out),
    },
    Call {
        name: "undivided round, half gaps",
        c_name: "jem_round",
        work: |case| case.reached,
        lend: |case| case.half_gaps.clone(),
        make: |case, calls, out| case.round(calls, &case.half_gaps, out),
    },
    Call {
        name: "state size",
        c_name: "jem_state_size",
        work: |case| case.reached,
        lend: |_| Vec::new(),
        make: |case, calls, _| calls.state_size(case.scenario.part(case.part)),
    },
    Call {
        name: "start",
        c_name: "jem_start",
        work: |case| case.reached,
        lend: |case| vec![0; case.state.len()],
        make: |case, calls, state| {
            calls.start(case.scenario.part(case.part), case.scenario.rule(), &case.scenario.field, state)
        },
    },
    Call {
        name: "write",
        c_name: "jem_write",
        work: |case| case.entries,
        // The state, and behind it the room for a message.
        lend: |case| [&case.state[..], &vec![0; 8 + 4 * case.scenario.cells]].concat(),
        make: |case, calls, lent| {
            let (state, out) = lent.split_at_mut(case.state.len());
            calls.write(state, case.sender, out)
        },
    },
    Call {
        name: "take",
        c_name: "jem_take",
        work: |case| case.entries,
        lend: |case| case.state.clone(),
        make: |case, calls, state| calls.take(state, &case.message),
    },
    Call {
        name: "advance",
        c_name: "jem_advance",
        work: |case| case.entries,
        lend: |case| case.ready.clone(),
        make: |_, calls, state| calls.advance(state),
    },
    Call {
        name: "advance, half gaps",
        c_name: "jem_advance",
        work: |case| case.entries,
        lend: |case| case.ready_half_gaps.clone(),
        make: |_, calls, state| calls.advance(state),
    },
    Call {
        name: "collect",
        c_name: "jem_collect",
        work: |case| case.entries,
        lend: |case| case.scenario.field.clone(),
        make: |case, calls, field| calls.collect(&case.state, 0, field),
    },
    Call {
        name: "points",
        c_name: "jem_points",
        work: |case| {
            let sizes = Sizes::read(&case.state);
            sizes.entries + sizes.point_cells
        },
        lend: |case| vec![0; 6 * Sizes::read(&case.state).points],
        make: |case, calls, out| calls.points(&case.ready, out),
    },
];
