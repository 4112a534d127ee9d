//! Prints, as Markdown: nanoseconds per enter, take, ask and word beside
//! hand-written C, of all orders of a state by one word beside an ask for each, per
//! ask beside a reduction, the times of builds and of trials of a supplier's table
//! beside the second implementation, the instructions of a stepped build's calls beside
//! those of a build in one call, and the figures of document 000, section 6.2.

use std::hint::black_box;

use benchmarks::by_hand;
use benchmarks::held_words::{kinds, merged};
use benchmarks::instructions::{made_calls, of_merges, of_queries};
use benchmarks::large_queries::{slow_to_settle, Sizes};
use benchmarks::reduction::PlanNode;
use benchmarks::report::{self, instructions, number, outcome, share};
use benchmarks::timing::{take_turns, Builds};
use order_tables::raw as proved;
use reference::builder::table_of;
use reference::construction::of_pairs;
use reference::query::Order;
use reference::random::Random;
use reference::samples::renumbered;
use reference::table::Table;
use reference::{trials, Implementation, Query, Reference};

/// How often two ways to look up take turns: long enough that other work of the
/// machine passes.
const TURNS: usize = 5000;
/// How often builds and trials of a table take turns.
const BUILD_TURNS: usize = 500;
/// Lookups per turn.
const LOOKUPS: usize = 4096;
/// The queries whose tables are looked up: few, some and the most rows.
const LOOKED_UP: [&str; 3] = ["listing_example", "six_joins", "seven_sets"];
/// The queries that are asked by reduction too. In the last two a table and a
/// reduction differ often.
const REDUCED: [&str; 6] = [
    "listing_example",
    "trip_reports",
    "six_joins",
    "seven_sets",
    "reduction_not_confluent",
    "set_remembered",
];
/// The queries whose tables are put on trial: small ones, ones of many pairs and
/// few rows, and ones of the most rows.
const SUPPLIED: [&str; 8] = [
    "constant",
    "listing_example",
    "trip_reports",
    "six_joins",
    "slowest_build",
    "tpcr_query_8",
    "seven_sets",
    "eight_sets_built",
];
/// The queries whose stepped builds are counted: small ones, ones of many pairs and few
/// rows, ones of the most rows, and one that is refused with 8.
const STEPPED: [&str; 8] = [
    "listing_example",
    "trip_reports",
    "six_joins",
    "slowest_build",
    "tpcr_query_8",
    "seven_sets",
    "eight_sets_built",
    "eight_sets",
];

fn main() {
    if made_calls() {
        return;
    }
    println!("# Benchmarks");
    println!();
    report::setting();
    lookups();
    all_orders();
    reduction();
    builds();
    supplied_tables();
    stepped_builds();
    section_6_2();
}

/// The table of a query, built by the proved library.
fn built(query: &[u8]) -> Vec<u8> {
    let mut builds = Builds::new();
    let length = builds.proved(query);
    builds.table(length).to_vec()
}

/// Random pairs of numbers below two limits.
fn pairs(one: u8, other: u8) -> Vec<(u8, u8)> {
    let mut random = Random::new(1);
    (0..LOOKUPS)
        .map(|_| [one, other].map(|limit| random.below(limit.into()) as u8))
        .map(|[one, other]| (one, other))
        .collect()
}

/// Nanoseconds per lookup of two ways to look up a table, on the same handles.
fn lookup_times(
    table: &[u8],
    handles: &[(u8, u8)],
    one: impl Fn(&[u8], u8, u8) -> u32,
    other: impl Fn(&[u8], u8, u8) -> u32,
) -> [f64; 2] {
    let mut one_way = || {
        for &(a, b) in handles {
            black_box(one(black_box(table), a, b));
        }
    };
    let mut other_way = || {
        for &(a, b) in handles {
            black_box(other(black_box(table), a, b));
        }
    };
    take_turns(TURNS, handles.len(), [&mut one_way, &mut other_way])
}

/// Lookups of the proved library beside the same in C.
fn lookups() {
    println!("## Lookups, ns");
    println!();
    let mut rows = Vec::new();
    for name in LOOKED_UP {
        let table = built(&trials::named(name).query);
        let &[states, produced, tested, sets] = table.first_chunk().expect("a table has sizes");
        let enter = lookup_times(
            &table,
            &pairs(produced, 1),
            |table, order, _| proved::table_enter(table, order),
            |table, order, _| by_hand::enter(table, order),
        );
        let by_set = pairs(states, sets);
        let take = lookup_times(&table, &by_set, proved::table_take, by_hand::take);
        let by_order = pairs(states, produced + tested);
        let ask = lookup_times(&table, &by_order, proved::table_ask, by_hand::ask);
        let word = lookup_times(
            &table,
            &pairs(states, 1),
            |table, state, _| proved::table_word(table, state),
            |table, state, _| by_hand::word(table, state),
        );
        for (lookup, [proved, by_hand]) in [
            ("enter", enter),
            ("take", take),
            ("ask", ask),
            ("word", word),
        ] {
            rows.push([
                format!("{lookup}, table of {} bytes", table.len()),
                number(proved),
                number(by_hand),
                number(proved / by_hand),
            ]);
        }
    }
    report::table(["Lookup", "Proved", "C by hand", "Ratio"], &rows);
}

/// All interesting orders of a state by one word of the proved library, beside an
/// ask for each. Both ways hand on whether each order is held.
fn all_orders() {
    println!("## All orders of a state, ns");
    println!();
    println!("One word and each order's bit in it, beside an ask for each order.");
    println!();
    let mut rows = Vec::new();
    for name in LOOKED_UP {
        let table = built(&trials::named(name).query);
        let &[states, produced, tested, _] = table.first_chunk().expect("a table has sizes");
        let orders = produced + tested;
        let states = pairs(states, 1);
        let mut by_word = || {
            for &(state, _) in &states {
                let word = proved::table_word(black_box(&table[..]), state);
                for order in 0..orders {
                    black_box(word >> order & 1);
                }
            }
        };
        let mut by_asks = || {
            for &(state, _) in &states {
                let table = black_box(&table[..]);
                for order in 0..orders {
                    black_box(proved::table_ask(table, state, order));
                }
            }
        };
        let [word, asks] = take_turns(TURNS, LOOKUPS, [&mut by_word, &mut by_asks]);
        rows.push([
            name.to_owned(),
            orders.to_string(),
            number(word),
            number(asks),
            number(asks / word),
        ]);
    }
    report::table(
        ["Trial", "Orders", "One word", "An ask for each", "Ratio"],
        &rows,
    );
}

/// One ask of a plan: by its state, and by its produced order and sets.
struct Ask {
    state: u8,
    node: PlanNode,
    handle: u8,
    order: Order,
}

/// Asks of random plans that take up to three sets.
fn asks(query: &Query, table: &[u8]) -> Vec<Ask> {
    let mut random = Random::new(2);
    let orders: Vec<&Order> = query.interesting().collect();
    (0..LOOKUPS)
        .map(|_| {
            let produced = random.below(query.produced.len());
            let sets: Vec<u8> = (0..random.below(4))
                .map(|_| random.below(query.sets.into()) as u8)
                .collect();
            let state = Reference::follow(table, produced as u8, &sets);
            let mut node = PlanNode::new(&query.produced[produced]);
            sets.iter().for_each(|&set| node.take(query, set));
            let handle = random.below(orders.len());
            Ask {
                state: state.expect("the table is of this query"),
                node,
                handle: handle as u8,
                order: orders[handle].clone(),
            }
        })
        .collect()
}

/// Asks of the proved library beside those of a reduction.
fn reduction() {
    println!("## Asks by a table and by reduction, ns");
    println!();
    let mut rows = Vec::new();
    for name in REDUCED {
        let query = trials::named(name).query;
        let table = built(&query);
        let query = Query::read(&query).expect("the trial's query is read");
        let asks = asks(&query, &table);
        let by_table = |ask: &Ask| proved::table_ask(black_box(&table), ask.state, ask.handle);
        let by_reduction = |ask: &Ask| u32::from(black_box(&ask.node).ask(&ask.order));
        let agreed = asks.iter().filter(|ask| by_table(ask) == by_reduction(ask));
        let agreed = agreed.count();
        let mut one_way = || {
            for ask in &asks {
                black_box(by_table(ask));
            }
        };
        let mut other_way = || {
            for ask in &asks {
                black_box(by_reduction(ask));
            }
        };
        let [proved, reduction] = take_turns(TURNS, LOOKUPS, [&mut one_way, &mut other_way]);
        rows.push([
            format!("{name}, {} dependencies", query.dependencies.len()),
            number(proved),
            number(reduction),
            number(reduction / proved),
            format!("{agreed} of {LOOKUPS}"),
        ]);
    }
    report::table(
        ["Query", "Proved", "Reduction", "Ratio", "Same answer"],
        &rows,
    );
}

/// Builds of the proved library beside those of the second implementation: of every
/// trial that has a table.
fn builds() {
    println!("## Builds, µs");
    println!();
    println!(
        "Every trial that has a table. Pairs are those of a produced order and a choice of sets in force; \
         rows are those of the table."
    );
    println!();
    let mut rows = Vec::new();
    for trial in trials::all() {
        let Ok(table) = table_of(&trial.query) else {
            continue;
        };
        let query = Query::read(&trial.query).expect("the trial's query is read");
        let [proved, second] = Builds::new().both_times(BUILD_TURNS, &trial.query);
        rows.push([
            trial.name,
            of_pairs(&query).states.len().to_string(),
            table.states.len().to_string(),
            number(proved / 1000.0),
            number(second / 1000.0),
            number(proved / second),
        ]);
    }
    report::table(
        ["Trial", "Pairs", "Rows", "Proved", "Second", "Ratio"],
        &rows,
    );
}

/// Trials of a supplier's table by the proved library beside those of the second
/// implementation, and beside the proved library's builds. The table is the
/// query's own with other state numbers.
fn supplied_tables() {
    println!("## Trials of a supplier's table, µs");
    println!();
    println!("The table is the query's own with other state numbers.");
    println!();
    let mut random = Random::new(3);
    let mut rows = Vec::new();
    for name in SUPPLIED {
        let query = trials::named(name).query;
        let own = Table::read(&built(&query)).expect("a built table has the form");
        let supplied = std::iter::repeat_with(|| renumbered(&mut random, &own))
            .find(|supplied| *supplied != own)
            .expect("the table has two rows");
        let [proved, second, build] =
            Builds::new().trial_times(BUILD_TURNS, &query, &supplied.write());
        rows.push([
            name.to_owned(),
            own.states.len().to_string(),
            number(proved / 1000.0),
            number(second / 1000.0),
            number(proved / second),
            number(build / 1000.0),
            number(proved / build),
        ]);
    }
    report::table(
        [
            "Trial",
            "Rows",
            "Proved",
            "Second",
            "Ratio",
            "Proved build",
            "Ratio to the build",
        ],
        &rows,
    );
}

/// The instructions of a stepped build's calls, beside those of a build in one call.
fn stepped_builds() {
    println!("## A stepped build, instructions");
    println!();
    println!(
        "Counted by callgrind, the same in every run. A settling call does the checks 1 to 6 and settles one pair; \
         the last call does them, merges and writes. Shares are of the build in one call; that of all calls is of \
         every settling call and the last."
    );
    println!();
    if let Err(error) = steps().and_then(|()| merges()) {
        println!("Nothing is counted: {error}.");
        println!();
    }
}

/// The calls of stepped builds.
fn steps() -> Result<(), String> {
    let mut queries: Vec<(String, Vec<u8>)> = STEPPED
        .map(|name| (name.to_owned(), trials::named(name).query))
        .to_vec();
    queries.push((
        "long checks".to_owned(),
        Sizes::LARGEST.long_checks().write(),
    ));
    queries.push(("slow to settle".to_owned(), slow_to_settle().write()));
    let bytes: Vec<&[u8]> = queries.iter().map(|(_, query)| &query[..]).collect();
    let mut rows = Vec::new();
    for ((name, query), counted) in queries.iter().zip(of_queries(&bytes)?) {
        let query = Query::read(query).expect("the query is read");
        let settling = counted.longest_settling;
        rows.push([
            name.clone(),
            query.pairs().to_string(),
            instructions(counted.build),
            instructions(counted.checks),
            instructions(settling),
            instructions(settling - counted.checks),
            instructions(counted.last),
            share(counted.checks, counted.build),
            share(settling, counted.build),
            share(counted.last, counted.build),
            share(counted.all, counted.build),
        ]);
    }
    report::table(
        [
            "Query",
            "Pairs",
            "Build in one call",
            "Checks",
            "Longest settling call",
            "Without the checks",
            "Last call",
            "Checks, %",
            "Settling, %",
            "Last, %",
            "All calls, %",
        ],
        &rows,
    );
    Ok(())
}

/// The last call on other held words than a build leaves in the scratch.
fn merges() -> Result<(), String> {
    println!(
        "The last call of the query with long checks, on other held words than its build settles:"
    );
    println!();
    let query = Sizes::LARGEST.long_checks().write();
    let build = of_queries(&[&query])?[0].build;
    let kinds = kinds();
    let counts = of_merges(kinds.iter().map(|(_, words)| (&query[..], &words[..])))?;
    let rows = kinds.iter().zip(counts).map(|((kind, words), last)| {
        [
            (*kind).to_owned(),
            outcome(merged(&query, words)),
            instructions(last),
            share(last, build),
        ]
    });
    let rows: Vec<[String; 4]> = rows.collect();
    report::table(["Words", "Outcome", "Last call", "Of the build, %"], &rows);
    Ok(())
}

/// The figures of document 000 for query 8 of TPC-R, beside those that it has here.
fn section_6_2() {
    println!("## Document 000, section 6.2");
    println!();
    let here = |what: &str, name: &str| {
        let table = built(&trials::named(name).query);
        [
            format!("here, {what}"),
            table[0].to_string(),
            table.len().to_string(),
        ]
    };
    let rows = [
        ["without pruning", "80", "3040"].map(str::to_owned),
        ["with pruning", "24", "912"].map(str::to_owned),
        here("cut to 8 produced orders and 8 sets", "tpcr_query_8"),
        here("six of its joins from two indexes", "six_joins"),
    ];
    report::table(["Query 8 of TPC-R", "States", "Bytes"], &rows);
}
