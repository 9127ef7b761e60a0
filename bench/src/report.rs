//! docs/BENCH.md: the prose that stays, and tables of what was measured.

use crate::clock::{ratio, Ratio, Times};
use crate::questions::{self, Supertype};
use crate::{comparisons, original, others, port, process, sheets, stack};
use std::fmt::Write;
use std::hint::black_box;
use std::path::Path;

const HEAD: &str = include_str!("../prose/head.md");
const VERDICT: &str = include_str!("../prose/verdict.md");
const RESOLVE: &str = include_str!("../prose/resolve.md");
const LISTS: &str = include_str!("../prose/lists.md");
const LISTING: &str = include_str!("../prose/listing.md");
const COMPARISONS: &str = include_str!("../prose/comparisons.md");
const STACK: &str = include_str!("../prose/stack.md");
const CAUSES: &str = include_str!("../prose/causes.md");

pub fn page() -> String {
    let machine = std::env::var("BENCH_MACHINE").unwrap_or_else(|_| "an unnamed machine".into());
    let mut page = HEAD.replace("MACHINE", &machine);
    for (prose, table) in [
        (VERDICT, verdicts()),
        (RESOLVE, resolves()),
        (LISTS, lists()),
        (LISTING, listing()),
        (COMPARISONS, comparisons()),
        (STACK, stacks()),
    ] {
        write!(page, "\n{}\n{}", prose, table).unwrap();
    }
    page + "\n" + CAUSES
}

/// Three significant digits
fn number(value: f64) -> String {
    let digits = (2 - value.abs().log10().floor() as i32).clamp(0, 3);
    format!("{:.*}", digits as usize, value)
}

fn micros(times: &Times) -> String {
    format!(
        "{} ({})",
        number(1e6 * times.least()),
        number(1e6 * times.median())
    )
}

fn faster(Ratio { least, from, to }: &Ratio) -> String {
    format!("{} ({} to {})", number(*least), number(*from), number(*to))
}

fn met(reached: f64, target: f64) -> String {
    let said = if reached >= target { "met" } else { "missed" };
    format!("{}: {}", number(target), said)
}

fn verdicts() -> String {
    let mut table = String::from(
        "| Bytes | Rust, reading | port, verdict | ns a byte | times faster | target |\n|---|---|---|---|---|---|\n",
    );
    for sheet in questions::growing() {
        let [rust, port] = questions::verdict(&sheet);
        let faster_by = ratio(&rust, &port);
        let per_byte = 1e9 * port.least() / sheet.len() as f64;
        let cells = [
            sheet.len().to_string(),
            micros(&rust),
            micros(&port),
            number(per_byte),
            faster(&faster_by),
            met(faster_by.least, 1.0),
        ];
        writeln!(table, "| {} |", cells.join(" | ")).unwrap();
    }
    table
}

fn resolves() -> String {
    let mut table = String::from(
        "| Bytes | Rust, namespace at hand | Rust, from the tree | Rust, from the bytes | port, from the bytes | times faster, both from the bytes | target |\n|---|---|---|---|---|---|---|\n",
    );
    for sheet in questions::growing() {
        let [at_hand, tree, bytes, port] =
            questions::resolve(&sheet, &questions::last_name(&sheet));
        let faster_by = ratio(&bytes, &port);
        let cells = [
            sheet.len().to_string(),
            micros(&at_hand),
            micros(&tree),
            micros(&bytes),
            micros(&port),
            faster(&faster_by),
            met(faster_by.least, 1.0),
        ];
        writeln!(table, "| {} |", cells.join(" | ")).unwrap();
    }
    table
}

fn lists() -> String {
    let mut table = String::from(
        "| List | parts | Rust, from the tree | Rust, from the bytes | port, from the bytes | times faster than from the tree | target |\n|---|---|---|---|---|---|---|\n",
    );
    for asked in questions::supertypes() {
        let (parts, [tree, bytes, port]) = questions::list(&asked);
        let faster_by = ratio(&tree, &port);
        let cells = [
            asked.what.to_string(),
            parts.to_string(),
            micros(&tree),
            micros(&bytes),
            micros(&port),
            faster(&faster_by),
            met(faster_by.least, asked.target),
        ];
        writeln!(table, "| {} |", cells.join(" | ")).unwrap();
    }
    table
}

const LISTING_TARGET: f64 = 10.0;

fn listing() -> String {
    let mut table = String::from(
        "| Bytes | lines | Rust | port | times faster | target |\n|---|---|---|---|---|---|\n",
    );
    let sheet = sheets::at_every_limit();
    let lines = original::listing(&sheet).lines().count();
    let own = std::env::current_exe().expect("this program's path");
    let rust = process::least(&own, &["listing"], &sheet);
    let program = std::env::var("BENCH_LISTING").unwrap_or_default();
    let (port, faster_by, target) = if Path::new(&program).is_file() {
        agree(Path::new(&program), &sheet);
        let port = process::least(Path::new(&program), &[], &sheet);
        let reached = rust / port;
        (
            number(1e6 * port),
            number(reached),
            met(reached, LISTING_TARGET),
        )
    } else {
        let none = "not built yet".to_string();
        (none, String::from("-"), number(LISTING_TARGET))
    };
    let cells = [
        sheet.len().to_string(),
        lines.to_string(),
        number(1e6 * rust),
        port,
        faster_by,
        target,
    ];
    writeln!(table, "| {} |", cells.join(" | ")).unwrap();
    table
}

/// The two texts have the same lines; the Rust's supertypes stand in a HashMap's order.
fn agree(program: &Path, sheet: &[u8]) {
    let sorted = |text: &str| {
        let mut lines: Vec<String> = text.lines().map(str::to_string).collect();
        lines.sort();
        lines
    };
    let port = String::from_utf8(process::output(program, &[], sheet)).expect("ASCII");
    assert_eq!(sorted(&original::listing(sheet)), sorted(&port));
}

fn comparisons() -> String {
    let mut table = String::from("| List | Rust, at least | port |\n|---|---|---|\n");
    for Supertype {
        what, sheet, query, ..
    } in questions::supertypes()
    {
        let path = original::path(&query);
        let schema = path.scope.to_string();
        let made = comparisons::in_list(&original::read(&sheet), &schema, &path.name);
        writeln!(table, "| {} | {} | {} |", what, made.rust, made.port).unwrap();
    }
    table
}

fn stacks() -> String {
    let sheet = sheets::at_every_limit();
    let query = questions::last_name(&sheet);
    let read = stack::peak(|| {
        black_box(original::read(&sheet));
    });
    let mut rows = vec![
        row("verdict", read, stack::peak(|| port::verdict(&sheet))),
        row(
            "resolve",
            resolving(&sheet, &query),
            stack::peak(|| {
                port::resolve(&sheet, &query);
            }),
        ),
    ];
    rows.extend(questions::supertypes().iter().map(|asked| {
        let mut memory = port::Memory::new();
        let port = stack::peak(|| {
            memory.list(&asked.sheet, &asked.query);
        });
        row(&format!("list, {}", asked.what), listing_one(asked), port)
    }));
    format!(
        "| Question | Rust | port |\n|---|---|---|\n{}\nThe port's other questions: {}.\n",
        rows.concat(),
        other_stacks(&sheet).join(", ")
    )
}

fn row(what: &str, rust: usize, port: usize) -> String {
    format!("| {} | {} | {} |\n", what, rust, port)
}

/// What the questions take that are not timed
fn other_stacks(sheet: &[u8]) -> Vec<String> {
    let schema = sheets::long('s', 7);
    let path = sheets::entity_path(&schema, &sheets::long('e', 17));
    let scope = sheets::query(&[(0x67, &schema)]);
    let full = questions::supertypes().pop().expect("the last is the full");
    let mut taken = others::of_names(sheet, &path, &scope);
    taken.extend(others::of_supertypes(&full));
    taken.extend(others::of_rows());
    taken
        .iter()
        .map(|(question, bytes)| format!("{} {}", question, bytes))
        .collect()
}

fn resolving(sheet: &[u8], query: &[u8]) -> usize {
    let asked = original::reference(query);
    stack::peak(|| {
        let tree = original::read(sheet);
        let ns = crate::ir::Namespace::new(&tree);
        black_box(original::resolve(&ns, &asked));
    })
}

fn listing_one(asked: &Supertype) -> usize {
    let path = original::path(&asked.query);
    stack::peak(|| {
        black_box(original::list(&original::read(&asked.sheet), &path));
    })
}
