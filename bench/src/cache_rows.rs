//! The tables of the cache's calls.

use crate::both::Both;
use crate::by_hand::Runs;
use crate::figures::{grouped, ratio, time};
use crate::shape::{Call, MOST_BYTES, Order, Shape};
use crate::timing::{Budget, Run, Taken, interleaved, median_of, on_each};
use std::time::{Duration, Instant};

/// Templates and bodies: a few templates, many, one, and one body each.
const GRID: [(usize, usize); 14] = [
    (16, 16),
    (16, 256),
    (16, 4_096),
    (16, 65_536),
    (16, 262_144),
    (1_024, 1_024),
    (1_024, 4_096),
    (1_024, 65_536),
    (1_024, 262_144),
    (1, 16),
    (1, 256),
    (1, 4_096),
    (1, 65_536),
    (1, 262_144),
];

/// The length of each body where it is of no matter.
pub const LENGTH: usize = 64;

/// A call, with or without a TTL, and the most scalar sums that it is to take: of many templates,
/// and of one.
pub struct Table {
    pub call: Call,
    pub ttl: bool,
    pub name: &'static str,
    most: Option<(f64, f64)>,
}

const QUERY: Option<(f64, f64)> = Some((1.25, 2.0));
const OFFER: Option<(f64, f64)> = Some((2.5, 2.5));
const DRAIN: Option<(f64, f64)> = Some((3.5, 3.5));

const fn table(call: Call, ttl: bool, name: &'static str, most: Option<(f64, f64)>) -> Table {
    Table { call, ttl, name, most }
}

pub const TABLES: [Table; 22] = [
    table(Call::Open, false, "open", None),
    table(Call::WouldAccept, false, "would_accept", QUERY),
    table(Call::WouldAccept, true, "would_accept, with a TTL", QUERY),
    table(Call::Figures, false, "figures", QUERY),
    table(Call::PlaceHandedOut, false, "place_handed_out, of the last body", QUERY),
    table(Call::OfferHeld, false, "offer to a held id", OFFER),
    table(Call::OfferHeld, true, "offer to a held id, with a TTL", OFFER),
    table(Call::OfferNew, false, "offer to a new id", OFFER),
    table(Call::OfferNew, true, "offer to a new id, with a TTL", OFFER),
    table(Call::OfferFull, false, "offer refused with 20", OFFER),
    table(Call::OfferLong, false, "offer refused with 6", OFFER),
    table(Call::OfferExpired, true, "offer to a held id whose bodies are expired", OFFER),
    table(Call::OfferPrunes, true, "offer to a new id that prunes all bodies", None),
    table(Call::OfferEvicts, false, "offer to a new id that evicts a template", None),
    table(Call::Drain, false, "drain", DRAIN),
    table(Call::Drain, true, "drain, with a TTL", DRAIN),
    table(Call::DrainExpired, true, "drain of an id whose bodies are expired", DRAIN),
    table(Call::PutBack, false, "put-back of all that was handed out", None),
    table(Call::Resize, false, "resize that changes nothing", None),
    table(Call::ResizeHalves, false, "resize to half the templates", None),
    table(Call::Clear, false, "clear", None),
    table(Call::OfferEvictsBytes, false, "offer that evicts for its bytes and packs", None),
];

impl Table {
    pub fn shape(&self, templates: usize, bodies: usize) -> Shape {
        Shape::new(self.call, templates, bodies, self.ttl, LENGTH)
    }

    /// One template has no half, and its eviction leaves nothing to pack.
    pub fn has(&self, templates: usize) -> bool {
        templates > 1 || !matches!(self.call, Call::OfferEvictsBytes | Call::ResizeHalves)
    }
}

/// The most scalar sums that a call took, and where.
#[derive(Clone, Copy, Default)]
struct Most {
    ratio: f64,
    templates: usize,
    bodies: usize,
}

impl Most {
    fn or(self, ratio: f64, shape: &Shape) -> Self {
        let (templates, bodies) = (shape.templates, shape.bodies());
        if ratio > self.ratio { Self { ratio, templates, bodies } } else { self }
    }

    fn shown(&self) -> String {
        if self.templates == 0 {
            return "-".to_string();
        }
        let (templates, bodies) = (grouped(self.templates), grouped(self.bodies));
        format!("{} ({templates} / {bodies})", ratio(self.ratio))
    }
}

/// Prints the tables whose name has the word, and then what each call took at most.
pub fn print(budget: Budget, word: &str) {
    let mut summary = Vec::new();
    for table in TABLES.iter().filter(|table| table.name.contains(word)) {
        println!("\n### {}\n", table.name);
        println!(
            "| templates | bodies | ours | Rust | ours / Rust | scalar sum | ours / scalar sum \
             | ours / vectorised sum | per body |"
        );
        println!("|---:|---:|---:|---:|---:|---:|---:|---:|---:|");
        let (mut many, mut one) = (Most::default(), Most::default());
        for (templates, bodies) in GRID.into_iter().filter(|at| table.has(at.0)) {
            let shape = table.shape(templates, bodies);
            let sums = print_row(budget, shape);
            let most = if templates == 1 { &mut one } else { &mut many };
            *most = most.or(sums, &shape);
        }
        summary.push((table, many, one));
    }
    println!("\n### At most, in scalar sums (templates / bodies)\n");
    println!("| call | 16 or 1,024 templates | to reach | one template | to reach |");
    println!("|---|---:|---:|---:|---:|");
    for (table, many, one) in summary {
        let (of_many, of_one) = match table.most {
            Some((many, one)) => (many.to_string(), one.to_string()),
            None => ("-".to_string(), "-".to_string()),
        };
        println!("| {} | {} | {of_many} | {} | {of_one} |", table.name, many.shown(), one.shown());
    }
}

/// The figures of the queries alone, for `placed::print`; on one cache each, since each placement has
/// caches of its own.
pub fn print_plain_queries(budget: Budget) {
    for table in TABLES.iter().filter(|table| table.most == QUERY) {
        for (templates, bodies) in GRID {
            let shape = table.shape(templates, bodies);
            let sides: &mut [Run<'_, Both>] = &mut [&mut Both::ours, &mut Both::scalar];
            let taken = interleaved(budget, &mut Both::new(shape), sides);
            let (ours, scalar) = (taken[0].figure(), taken[1].figure());
            let (templates, bodies) = (grouped(templates), grouped(shape.bodies()));
            println!("{} | {templates} | {bodies}\t{ours}\t{scalar}", table.name);
        }
    }
}

/// Other orders of arrival.
pub fn print_orders(budget: Budget) {
    println!("\n### Order of arrival\n");
    println!(
        "| call, order | templates | bodies | ours | Rust | ours / Rust | scalar sum \
         | ours / scalar sum | ours / vectorised sum | per body |"
    );
    println!("|---|---:|---:|---:|---:|---:|---:|---:|---:|---:|");
    for call in [Call::WouldAccept, Call::Figures, Call::OfferHeld, Call::OfferEvicts, Call::Drain]
    {
        for order in [Order::Turns, Order::Blocks, Order::Chance] {
            for templates in [16, 1_024] {
                print!("| {call:?}, {order:?} ");
                let shape = Shape::new(call, templates, 65_536, false, LENGTH);
                print_row(budget, Shape { order, ..shape });
            }
        }
    }
}

/// Few templates, with labels for which less is cleared and with greater ones.
pub fn print_labels(budget: Budget) {
    println!("\n### Few templates with great labels\n");
    println!(
        "| call, first label | templates | bodies | ours | Rust | ours / Rust | scalar sum \
         | ours / scalar sum | ours / vectorised sum | per body |"
    );
    println!("|---|---:|---:|---:|---:|---:|---:|---:|---:|---:|");
    for call in [Call::WouldAccept, Call::Figures, Call::OfferHeld, Call::OfferNew, Call::Drain] {
        for bodies in [16, 256] {
            for first_label in [0, 1_000] {
                print!("| {call:?}, {} ", grouped(first_label));
                let shape = Shape::new(call, 16, bodies, false, LENGTH);
                print_row(budget, Shape { first_label, ..shape });
            }
        }
    }
}

/// Which pages a cache lies on moves the time of a call, so each row is measured on so many caches,
/// each for as long as one. All are kept until the end, so that no two have the same place.
const PLACES: usize = 3;

fn caches<S>(new: impl Fn() -> S) -> Vec<S> {
    (0..PLACES).map(|_| new()).collect()
}

/// Prints a row; gives how many scalar sums the call takes.
fn print_row(budget: Budget, shape: Shape) -> f64 {
    let taken = on_each(
        budget,
        &mut caches(|| Both::new(shape)),
        &mut [&mut Both::ours, &mut Both::rust, &mut Both::scalar, &mut Both::vectorised],
    );
    let [ours, rust, scalar, vectorised] = &taken[..] else { unreachable!("four sides") };
    let [ours, rust, scalar, vectorised] = [ours, rust, scalar, vectorised].map(Taken::figure);
    let (rust_time, rust_ratio) = match shape.call {
        Call::PlaceHandedOut => ("-".to_string(), "-".to_string()),
        _ => (time(rust), ratio(ours / rust)),
    };
    println!(
        "| {} | {} | {} | {rust_time} | {rust_ratio} | {} | {} | {} | {:.2} ns |",
        grouped(shape.templates),
        grouped(shape.bodies()),
        time(ours),
        time(scalar),
        ratio(ours / scalar),
        ratio(ours / vectorised),
        ours / shape.bodies() as f64,
    );
    ours / scalar
}

/// What an export packet has room for: a body of it is at most so long.
const PACKET: usize = 1_500;

/// Nearly the longest body that is accepted by default, 65,531 bytes. That is a few bytes less than
/// 16 pages: moved by so much, the C library's `memmove` was some fifteen times as slow on one AMD
/// processor, and a ratio to it would say little.
const LONG: usize = 65_000;

/// Bodies, their length, and a gap that is shorter: source and target overlap.
const GAPS: [(usize, usize, usize); 6] = [
    (256, 1_500, 1),
    (256, 1_500, 100),
    (44_000, 1_500, 1),
    (44_000, 1_500, 31),
    (44_000, 1_500, 100),
    (44_000, 64, 1),
];

/// Offers that move what others left, beside `memmove`s of the same bytes, an offer that moves
/// nothing, and the entries and bodies brought to the same places by hand. Such large moves hang on
/// what else uses the memory in that moment, so the ratios are medians of those of the rounds.
pub fn print_moves(budget: Budget) {
    println!("\n### Offers that move bodies or entries\n");
    println!(
        "| moved | templates | bodies | of bytes | gap | bytes moved | memmoves | offer | ours \
         | (ours - offer) / memmoves | of the least times | ours / memmoves | by hand / memmoves \
         | one memmove | (ours - offer) / one memmove |"
    );
    println!("|---|---:|---:|---:|---:|---:|---:|---:|---:|---:|---:|---:|---:|---:|---:|");
    for length in [PACKET, LONG, LENGTH] {
        for call in [Call::OfferPacks, Call::OfferEvictsBytes] {
            for (templates, bodies) in GRID.into_iter().filter(|at| at.0 > 1) {
                // As long as so many bodies, and one more, can be.
                let longest = MOST_BYTES / (bodies + 1);
                if length <= PACKET || PACKET < longest {
                    let length = length.min(longest);
                    print_move(budget, Shape::new(call, templates, bodies, false, length));
                }
            }
        }
    }
    for (templates, bodies) in GRID.into_iter().filter(|at| at.0 > 1) {
        let length = PACKET.min(MOST_BYTES / (bodies + 1));
        print_move(budget, Shape::new(Call::OfferEvictsBytes, templates, bodies, true, length));
    }
    for (bodies, length, gap) in GAPS {
        let shape = Shape::new(Call::OfferPacks, 16, bodies, false, length);
        print_move(budget, shape.with_gap(gap));
    }
    for (templates, bodies) in [(16, 256), (16, 4_096), (1_024, 4_096), (16, 44_000)] {
        let shape = Shape::new(Call::OfferEvictsBytes, templates, bodies, false, PACKET);
        print_move(budget, Shape { order: Order::LeastRecentNearEnd, ..shape });
    }
    for (templates, bodies) in GRID.into_iter().filter(|at| at.0 > 1) {
        print_move(budget, Shape::new(Call::OfferEvicts, templates, bodies, false, LENGTH));
    }
}

/// An offer that moves, its moves, and one of the same body to a cache of as many bodies that moves
/// nothing.
struct Moves {
    moving: Both,
    runs: Runs,
    at_once: Runs,
    resting: Both,
}

impl Moves {
    fn new(shape: Shape) -> Self {
        let call = if shape.call == Call::OfferEvicts { Call::OfferNew } else { Call::OfferHeld };
        let ttl = shape.limits.ttl.is_some();
        let rests = Shape::new(call, shape.templates, shape.bodies(), ttl, shape.length);
        let rests = Shape { offered: shape.offered, order: shape.order, ..rests };
        let mut moving = Both::new(shape);
        let runs = moving.runs();
        moving.check_by_hand(&runs);
        let at_once = runs.at_once();
        Self { moving, runs, at_once, resting: Both::new(rests) }
    }
}

/// What an offer moves, as the table names it.
fn what_moves(shape: &Shape) -> &'static str {
    match (shape.call, shape.order, shape.limits.ttl) {
        (Call::OfferPacks, ..) => "all bodies, to close a gap",
        (_, Order::LeastRecentNearEnd, _) => "the few bodies and entries behind those evicted",
        (Call::OfferEvictsBytes, _, Some(_)) => "bodies and entries not evicted, with a TTL",
        (Call::OfferEvictsBytes, ..) => "bodies and entries not evicted",
        _ => "entries not evicted",
    }
}

fn print_move(budget: Budget, shape: Shape) {
    let mut moves = caches(|| Moves::new(shape));
    let taken = on_each(
        budget,
        &mut moves,
        &mut [
            &mut |moves: &mut Moves| moves.moving.ours(),
            &mut |moves: &mut Moves| moves.moving.memmoves(&moves.runs),
            &mut |moves: &mut Moves| moves.moving.memmoves(&moves.at_once),
            &mut |moves: &mut Moves| moves.moving.by_hand(),
            &mut |moves: &mut Moves| moves.resting.ours(),
        ],
    );
    let moved = what_moves(&shape);
    let [ours, memmoves, .., offer] = &taken[..] else { unreachable!("five sides") };
    let [ours, memmoves, offer] = [ours, memmoves, offer].map(Taken::figure);
    println!(
        "| {moved} | {} | {} | {} | {} | {} | {} | {} | {} | {} | {} | {} | {} | {} | {} |",
        grouped(shape.templates),
        grouped(shape.bodies()),
        grouped(shape.length),
        grouped(shape.gap),
        grouped(moves[0].runs.moved()),
        time(memmoves),
        time(offer),
        time(ours),
        ratio(median_of(&taken, |round| (round[0] - round[4]) / round[1])),
        ratio((ours - offer) / memmoves),
        ratio(median_of(&taken, |round| round[0] / round[1])),
        ratio(median_of(&taken, |round| round[3] / round[1])),
        time(taken[2].figure()),
        ratio(median_of(&taken, |round| (round[0] - round[4]) / round[2])),
    );
}

/// Makes the calls of the table of this name for a second, with nothing else but what they need.
pub fn repeat(name: &str, templates: usize, bodies: usize) {
    for table in TABLES.iter().filter(|table| table.name == name) {
        let mut both = Both::new(table.shape(templates, bodies));
        let start = Instant::now();
        while start.elapsed() < Duration::from_secs(1) {
            both.ours();
        }
    }
}
