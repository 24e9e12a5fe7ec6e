//! The rows of the table.

use crate::figures::short;
use crate::inputs::{self, Lent};
use crate::plain::{self, skipping};
use crate::timing::{in_turns, row, Row};
use simulator::record::Kind;
use std::slice::from_ref;

fn validate(name: &'static str, lent: &[Lent]) -> Row {
    row(name, lent, |l| birnsket::validate(&l.itinerary), |l| plain::validate(&l.itinerary))
}

fn climb(name: &'static str, lent: &[Lent]) -> Row {
    row(
        name,
        lent,
        |l| birnsket::climb(&l.itinerary, &l.policy, l.number),
        |l| plain::climb(&l.itinerary, &l.policy, l.number),
    )
}

fn sheet(name: &'static str, lent: &[Lent]) -> Row {
    row(
        name,
        lent,
        |l| birnsket::sheet(&l.itinerary, &l.table, &mut l.sheet),
        |l| plain::sheet(&l.itinerary, &l.table, &mut l.sheet),
    )
}

fn step(name: &'static str, lent: &[Lent]) -> Row {
    row(
        name,
        lent,
        |l| birnsket::step(&mut l.itinerary, l.number, l.partner),
        |l| plain::step(&mut l.itinerary, l.number, l.partner),
    )
}

fn moves(name: &'static str, lent: &[Lent]) -> Row {
    row(
        name,
        lent,
        |l| birnsket::moves(&l.itinerary, &mut l.list),
        |l| plain::moves(&l.itinerary, &mut l.list),
    )
}

fn run(name: &'static str, lent: &[Lent]) -> Row {
    row(
        name,
        lent,
        |l| birnsket::run(&mut l.itinerary, &l.script, &mut l.answers),
        |l| plain::run(&mut l.itinerary, &l.script, &mut l.answers),
    )
}

fn copy(name: &'static str, lent: &[Lent]) -> Row {
    row(
        name,
        lent,
        |l| birnsket::copy(&mut l.itinerary, l.number),
        |l| plain::copy(&mut l.itinerary, l.number),
    )
}

fn check(name: &'static str, lent: &[Lent]) -> Row {
    row(
        name,
        lent,
        |l| birnsket::check(&l.itinerary, &l.policy, &l.table),
        |l| plain::check(&l.itinerary, &l.policy, &l.table),
    )
}

fn join(name: &'static str, lent: &[Lent]) -> Row {
    row(
        name,
        lent,
        |l| {
            let (members, policy, table, joined) = l.set();
            birnsket::join(members, policy, table, joined)
        },
        |l| {
            let (members, policy, table, joined) = l.set();
            plain::join(members, policy, table, joined)
        },
    )
}

fn make(name: &'static str, lent: &[Lent]) -> Row {
    row(
        name,
        lent,
        |l| birnsket::make(&l.itinerary, &l.policy, &mut l.table),
        |l| plain::make(&l.itinerary, &l.policy, &mut l.table),
    )
}

fn verdict(name: &'static str, lent: &[Lent]) -> Row {
    row(
        name,
        lent,
        |l| birnsket::verdict(&l.itinerary, &l.policy, &l.table),
        |l| plain::verdict(&l.itinerary, &l.policy, &l.table),
    )
}

fn exposed(name: &'static str, lent: &[Lent]) -> Row {
    row(
        name,
        lent,
        |l| birnsket::exposed(&l.itinerary, &l.policy, &l.table),
        |l| plain::exposed(&l.itinerary, &l.policy, &l.table),
    )
}

fn itinerary_rows() -> Vec<Row> {
    let (in_order, reversed) = ([inputs::in_order()], [inputs::reversed()]);
    let random = inputs::random();
    let (to_and_fro, opens) = (inputs::to_and_fro(), inputs::opens());
    vec![
        validate("validate, chain in file order", &in_order),
        validate("validate, chain reversed", &reversed),
        validate("validate, random", &random),
        climb("climb, random", &random),
        climb("climb, 1,022 capabilities up", &[inputs::deep()]),
        sheet("sheet, chain in file order", &in_order),
        sheet("sheet, chain reversed", &reversed),
        sheet("sheet, random", &random),
        step("step, in", from_ref(&to_and_fro)),
        step("step, open", from_ref(&opens)),
        run("run, 1,022 ins and outs", from_ref(&to_and_fro)),
        run("run, 511 opens", from_ref(&opens)),
        run("run, 255 opens that each move 512 records", &[inputs::carried()]),
        run("run, 1,024 refused at depth 1,023", &[inputs::refused()]),
    ]
}

fn table_rows() -> Vec<Row> {
    let (random, dense) = (inputs::random(), inputs::dense());
    let (deep, relay) = ([inputs::deep()], [inputs::relay()]);
    vec![
        check("check, random", &random),
        check("check, dense", &dense),
        check("check, deep", &deep),
        check("check, relay", &relay),
        make("make, random", &random),
        make("make, dense", &dense),
        make("make, deep", &deep),
        make("make, relay", &relay),
        verdict("verdict, random", &random),
        verdict("verdict, dense", &dense),
        verdict("verdict, relay", &relay),
        exposed("exposed, random", &random),
        exposed("exposed, dense", &dense),
        exposed("exposed, relay", &relay),
    ]
}

/// Beside Rust that skips climbs where every parent has a lower number.
fn validate_skipping(name: &'static str, lent: &[Lent]) -> Row {
    row(name, lent, |l| birnsket::validate(&l.itinerary), |l| skipping::validate(&l.itinerary))
}

fn climb_skipping(name: &'static str, lent: &[Lent]) -> Row {
    row(
        name,
        lent,
        |l| birnsket::climb(&l.itinerary, &l.policy, l.number),
        |l| skipping::climb(&l.itinerary, &l.policy, l.number),
    )
}

fn sheet_skipping(name: &'static str, lent: &[Lent]) -> Row {
    row(
        name,
        lent,
        |l| birnsket::sheet(&l.itinerary, &l.table, &mut l.sheet),
        |l| skipping::sheet(&l.itinerary, &l.table, &mut l.sheet),
    )
}

fn step_skipping(name: &'static str, lent: &[Lent]) -> Row {
    row(
        name,
        lent,
        |l| birnsket::step(&mut l.itinerary, l.number, l.partner),
        |l| skipping::step(&mut l.itinerary, l.number, l.partner),
    )
}

/// On inputs in file order: beside Rust as above, and beside Rust that skips climbs.
fn file_order_rows() -> Vec<[Row; 2]> {
    let (chain, filed) = ([inputs::in_order()], inputs::filed());
    let (to_and_fro, opens) = (inputs::to_and_fro(), inputs::opens());
    let mut rows = Vec::new();
    for (lent, names) in [
        (&filed[..], ["validate, random in file order", "sheet, random in file order"]),
        (&chain[..], ["validate, chain in file order", "sheet, chain in file order"]),
    ] {
        rows.push([validate(names[0], lent), validate_skipping(names[0], lent)]);
        rows.push([sheet(names[1], lent), sheet_skipping(names[1], lent)]);
    }
    let name = "climb, random in file order";
    rows.push([climb(name, &filed), climb_skipping(name, &filed)]);
    for (name, lent) in [("step, in", &to_and_fro), ("step, open", &opens)] {
        rows.push([step(name, from_ref(lent)), step_skipping(name, from_ref(lent))]);
    }
    rows
}

/// Measures and prints the rows of inputs in file order.
pub fn print_file_order() {
    println!("| call and input | library | Rust | ratio | Rust that skips climbs | ratio |");
    println!("|---|---:|---:|---:|---:|---:|");
    for [row, skipping] in file_order_rows() {
        let [library, plain, other] =
            [row.library, row.plain, skipping.plain].map(|time| short(time / 1000.0));
        let ratios = (row.ratio(), skipping.ratio());
        println!(
            "| {} | {library} µs | {plain} µs | {:.2} | {other} µs | {:.2} |",
            row.name, ratios.0, ratios.1
        );
    }
}

/// What is asked of moves, joins and copies: at most that many times Rust. And of moves on 1,024 records: at most that many times
/// a loop that compares one byte of all pairs.
const TIMES_RUST: f64 = 1.3;
const TIMES_LOOP: f64 = 10.0;

/// Each with the times of the library and of that loop, in turns.
fn moves_rows() -> Vec<(Row, f64, f64)> {
    let random: Vec<Lent> = inputs::random().into_iter().map(Lent::with_list).collect();
    let inputs: [(&'static str, Vec<Lent>); 6] = [
        ("moves, 8 actors can act", vec![inputs::few_ready()]),
        ("moves, random", random),
        ("moves, 262,144 pairs listed", vec![inputs::half_opens()]),
        ("moves, all answer 12", vec![inputs::alike(Kind::Open)]),
        ("moves, all answer 10", vec![inputs::alike(Kind::Ambient)]),
        ("moves, inactive at the end of a long way", vec![inputs::waiting()]),
    ];
    let measured = inputs.into_iter().map(|(name, lent)| {
        let (library, bytes) = in_turns(
            &lent,
            |l| birnsket::moves(&l.itinerary, &mut l.list),
            |l| plain::same_names(&l.itinerary),
        );
        (moves(name, &lent), library, bytes)
    });
    measured.collect()
}

/// Measures and prints the rows of moves; says whether they are as asked.
pub fn print_moves() -> bool {
    println!("| call and input | library | Rust | ratio | a byte of all pairs | ratio |");
    println!("|---|---:|---:|---:|---:|---:|");
    let mut kept = true;
    for (row, again, bytes) in moves_rows() {
        let [library, plain, other] = [row.library, row.plain, bytes].map(|time| short(time / 1000.0));
        let ratios = (row.ratio(), again / bytes);
        let good = ratios.0 <= TIMES_RUST && ratios.1 <= TIMES_LOOP;
        let word = if good { "" } else { ", TOO MUCH" };
        println!(
            "| {} | {library} µs | {plain} µs | {:.2} | {other} µs | {:.2}{word} |",
            row.name, ratios.0, ratios.1
        );
        kept &= good;
    }
    kept
}

/// Each with the times of the library's join and of its check of the joined bytes, in turns.
fn join_rows() -> Vec<(Row, f64, f64)> {
    let inputs: [(&'static str, Vec<Lent>); 3] = [
        ("join, random", inputs::random_sets()),
        ("join, dense", inputs::dense_sets()),
        ("join, deep", vec![inputs::deep_set()]),
    ];
    let measured = inputs.into_iter().map(|(name, lent)| {
        let (library, check) = in_turns(
            &lent,
            |l| {
                let (members, policy, table, joined) = l.set();
                birnsket::join(members, policy, table, joined)
            },
            |l| birnsket::check(&l.whole, &l.policy, &l.table),
        );
        (join(name, &lent), library, check)
    });
    measured.collect()
}

/// Measures and prints the rows of joins, four members of 256 records each; says whether they are as asked.
pub fn print_joins() -> bool {
    println!("| call and input | library | Rust | ratio | check of the joined bytes | ratio |");
    println!("|---|---:|---:|---:|---:|---:|");
    let mut kept = true;
    for (row, again, check) in join_rows() {
        let [library, plain, other] = [row.library, row.plain, check].map(|time| short(time / 1000.0));
        let good = row.ratio() <= TIMES_RUST;
        let word = if good { "" } else { ", TOO MUCH" };
        println!(
            "| {} | {library} µs | {plain} µs | {:.2}{word} | {other} µs | {:.2} |",
            row.name,
            row.ratio(),
            again / check
        );
        kept &= good;
    }
    kept
}

/// Measures and prints the rows of copies, each of 511 records of 1,024; says whether they are as asked.
pub fn print_copies() -> bool {
    println!("| call and input | library | Rust | ratio |\n|---|---:|---:|---:|");
    let mut kept = true;
    for row in [
        copy("copy, random", &inputs::random_to_copy()),
        copy("copy, chain in file order", &[inputs::chain_to_copy(false)]),
        copy("copy, chain reversed", &[inputs::chain_to_copy(true)]),
    ] {
        let (library, plain) = (short(row.library / 1000.0), short(row.plain / 1000.0));
        let good = row.ratio() <= TIMES_RUST;
        let word = if good { "" } else { ", TOO MUCH" };
        println!("| {} | {library} µs | {plain} µs | {:.2}{word} |", row.name, row.ratio());
        kept &= good;
    }
    kept
}

/// Measures and prints all rows.
pub fn print() {
    println!("| call and input | library | Rust | ratio |\n|---|---:|---:|---:|");
    for row in itinerary_rows().into_iter().chain(table_rows()) {
        let (library, plain) = (short(row.library / 1000.0), short(row.plain / 1000.0));
        println!("| {} | {library} µs | {plain} µs | {:.2} |", row.name, row.ratio());
    }
    for (name, lent) in inputs::for_tables() {
        println!("The maker's passes, {name}: {}.", plain::passes(&lent.itinerary, &lent.policy));
    }
}
