//! Two rows for an order that is not held.

use order_tables_tool::failure::Failure;
use reference::builder::table_of;
use reference::counterexample::{check_printed, Asked, Question};
use reference::random::Random;
use reference::refusal::{HANDLE, STATES};
use reference::samples::{self, Shape};
use reference::{trials, Entry, Query};

use crate::refused::check_query_refused;
use crate::words::{column_name, listed, order_text, order_texts, set_names};
use crate::{is_taken_for_text, tool, STANDARD_INPUT, WORDS};

/// What the tool shows for an order looked for.
fn counterexample(query: &[u8], [produced, sets, order]: [&str; 3]) -> Result<String, Failure> {
    tool(&["counterexample", "-", produced, sets, order], query)
}

/// What is asked of a query for two rows, in names.
struct Named<'q> {
    query: &'q Query,
    produced: String,
    sets: Vec<String>,
    order: &'q [Entry],
}

impl<'q> Named<'q> {
    /// What is asked of a query, with the sets in a random sequence.
    fn new(random: &mut Random, query: &'q Query, asked: Asked) -> Self {
        let mut sets = query.chosen(asked.sets.into());
        random.shuffle(&mut sets);
        let order = query.interesting().nth(asked.order.into());
        Self {
            query,
            produced: order_text(&query.produced[usize::from(asked.produced)]),
            sets: set_names(sets),
            order: order.expect("the order is in the query"),
        }
    }

    /// The arguments that ask for this, with commas and descending columns written so.
    fn arguments(&self, comma: &str, desc: &str) -> [String; 3] {
        let sets = match self.sets.is_empty() {
            true => "none".to_owned(),
            false => self.sets.join(", "),
        };
        let arguments = [self.produced.clone(), sets, order_text(self.order)];
        arguments.map(|argument| argument.replace(" desc", desc).replace(", ", comma))
    }

    /// What is printed where the order is held.
    fn held(&self) -> String {
        let obeying = match listed(self.sets.clone(), "and") {
            none if none.is_empty() => String::new(),
            sets => format!(" and obey {sets}"),
        };
        let (produced, order) = (&self.produced, order_text(self.order));
        format!(
            "none: all rows that stand in {produced}{obeying} stand in {order}, and no sort is \
             needed.\n"
        )
    }

    /// What is printed where these rows show that it is not.
    fn shown(&self, rows: &[Vec<String>; 2]) -> String {
        let line = |head: &str, cells: &[String]| format!("{head}  {}\n", cells.join("  "));
        let [first, second] = rows;
        let names: Vec<String> = (0..self.query.columns).map(column_name).collect();
        let head = line("      ", &names);
        let table = [head, line("first ", first), line("second", second)].concat();
        let obeyed = match listed(self.sets.clone(), "and") {
            none if none.is_empty() => "with no set in force".to_owned(),
            sets => format!("obey {sets}"),
        };
        let (produced, order) = (&self.produced, order_text(self.order));
        let why = self.why(rows);
        format!(
            "{table}\nThese rows stand in {produced}, {obeyed}, and do not stand in {order}:\n\
             {why}\nSo a sort by {order} is needed.\n"
        )
    }

    /// In which column of the order the first row belongs behind the second: there it has
    /// the larger value where the column ascends, and the smaller one where it descends.
    fn why(&self, [first, second]: &[Vec<String>; 2]) -> String {
        let is_alike = |entry: &&Entry| {
            let [one, other] = [first, second].map(|row| &row[usize::from(entry.column)]);
            one == other
        };
        let alike = self.order.iter().take_while(is_alike).count();
        let (alike, behind) = self.order.split_at(alike);
        let values = match behind[0].descends {
            false => "the first has 1 and the second 0",
            true => "the first has 0 and the second 1",
        };
        let why = format!("in {} {values}.", told(&behind[0]));
        match listed(alike.iter().map(told).collect(), "and") {
            none if none.is_empty() => why,
            alike => format!("they are alike in {alike}, and {why}"),
        }
    }
}

/// A column, and which way it compares.
fn told(entry: &Entry) -> String {
    let way = match entry.descends {
        false => "ascending",
        true => "descending",
    };
    format!("{} ({way})", column_name(entry.column))
}

/// The values of two rows that are shown, behind the heads of their lines; none where
/// there is one line alone.
fn values_in(shown: &str) -> Option<[Vec<String>; 2]> {
    let values = |line: &str| {
        let words = line.split_whitespace().skip(1);
        words.map(str::to_owned).collect()
    };
    let mut lines = shown.lines().skip(1);
    Some([lines.next()?, lines.next()?].map(values))
}

/// Compares what the tool shows for what is asked of a query, and says whether that is
/// two rows.
fn compare_asked(random: &mut Random, query: &Query, asked: Asked) -> bool {
    let (bytes, case) = (query.write(), format!("{asked:?} {query:?}"));
    let named = Named::new(random, query, asked);
    let comma = [", ", ",", " ,\t "][random.below(3)];
    let desc = [" desc", "\tDESC", "  Desc"][random.below(3)];
    let arguments = named.arguments(comma, desc);
    let given = counterexample(&bytes, arguments.each_ref().map(String::as_str));
    let given = given.unwrap_or_else(|failure| panic!("{failure:?} {case}"));

    let rows = values_in(&given);
    let values = match &rows {
        Some(rows) => rows.iter().map(|row| row.join(" ") + "\n").collect(),
        None => "none\n".to_owned(),
    };
    let checked = check_printed(&bytes, asked, &values);
    assert_eq!(checked, Ok(()), "{given} {case}");
    let expected = rows.as_ref().map(|rows| named.shown(rows));
    assert_eq!(given, expected.unwrap_or_else(|| named.held()), "{case}");
    rows.is_some()
}

#[test]
fn two_rows_or_none() {
    let mut random = Random::new(8);
    let (mut shown, mut queries, mut descending) = ([0; 2], 0, 0);
    let mut count_in = |query: &Query| {
        queries += 1;
        descending += usize::from(query.descends());
    };
    for (shape, count) in [(Shape::SMALL, 80), (Shape::CHAINS, 80), (Shape::MIDDLE, 2)] {
        for _ in 0..count {
            let query = samples::query_of_chains(&mut random, shape);
            count_in(&query);
            for asked in samples::all_asked(&query) {
                shown[usize::from(compare_asked(&mut random, &query, asked))] += 1;
            }
        }
    }
    // Of large queries some of what can be asked, whether or not they have a table.
    let mut without_table = 0;
    for _ in 0..40 {
        let query = match random.below(2) {
            0 => samples::query(&mut random, Shape::LARGEST),
            _ => samples::query_of_chains(&mut random, Shape::FULL),
        };
        count_in(&query);
        without_table += usize::from(table_of(&query.write()) == Err(STATES));
        let mut all: Vec<Asked> = samples::all_asked(&query).collect();
        random.shuffle(&mut all);
        for &asked in all.iter().take(30) {
            shown[usize::from(compare_asked(&mut random, &query, asked))] += 1;
        }
    }
    let [none, two_rows] = shown;
    println!(
        "{two_rows} two rows, {none} none; of {queries} queries {descending} have descending \
         columns, {without_table} no table"
    );
    assert!(two_rows > 2000 && none > 2000 && without_table > 5);
    assert!(2 * descending >= queries);
}

/// An order that is not among these: any one, or else one that has a column twice.
fn order_not_among(random: &mut Random, query: &Query, orders: &[String]) -> String {
    let columns = samples::some_columns(random, query.columns, (0, 5));
    let any = columns
        .iter()
        .map(|&column| Entry::either(column)[random.below(2)]);
    let any = order_text(&any.collect::<Vec<Entry>>());
    match orders.contains(&any) {
        true => order_text(&Entry::either(0)),
        false => any,
    }
}

/// Names, quoted, of which any one would do.
fn any_of(names: Vec<String>) -> String {
    listed(names.iter().map(|name| format!("`{name}`")).collect(), "or")
}

/// What the query does not have in these arguments, in which one is replaced.
fn ask_for_another(random: &mut Random, query: &Query, arguments: &mut [String; 3]) -> String {
    let produced = order_texts(&query.produced);
    let interesting = order_texts(query.interesting());
    match random.below(4) {
        0 => {
            let no_column = column_name(query.columns);
            arguments[[0, 2][random.below(2)]] = format!("(a, {no_column})");
            let columns = any_of((0..query.columns).map(column_name).collect());
            format!("`{no_column}` is no column; {columns} would do")
        }
        1 => {
            arguments[1] = set_names(0..=query.sets).join(",");
            let mut sets = set_names(0..query.sets);
            sets.push("none".to_owned());
            format!("`s{}` is no set; {} would do", query.sets, any_of(sets))
        }
        2 => {
            let order = order_not_among(random, query, &interesting);
            arguments[2] = order.clone();
            let orders = listed(interesting, "or");
            format!("{order} is no interesting order; {orders} would do")
        }
        _ => {
            let order = order_not_among(random, query, &produced);
            arguments[0] = order.clone();
            let orders = listed(produced, "or");
            format!("{order} is no produced order; {orders} would do")
        }
    }
}

#[test]
fn orders_and_sets_that_are_not_in_the_query() {
    let mut random = Random::new(9);
    let mut compared = Vec::new();
    for round in 0..1000 {
        let query = samples::query(&mut random, [Shape::SMALL, Shape::FULL][round % 2]);
        let bytes = query.write();
        let named = Named::new(&mut random, &query, Asked::default());
        let mut arguments = named.arguments(", ", " desc");
        let what = ask_for_another(&mut random, &query, &mut arguments);
        let given = counterexample(&bytes, arguments.each_ref().map(String::as_str));
        let words = format!("{STANDARD_INPUT}: refused {HANDLE}, handle: {what}");
        let refused = Failure::Refused(words);
        assert_eq!(refused.status(), 1);
        assert_eq!(given, Err(refused), "{arguments:?} {query:?}");
        compared.push(what);
    }
    for no in ["column", "set", "interesting order", "produced order"] {
        let no = format!(" is no {no}; ");
        let count = compared.iter().filter(|what| what.contains(&no)).count();
        println!("{count} times{no}");
        assert!(count > 100);
    }
}

#[test]
fn two_rows_of_refused_queries() {
    let mut random = Random::new(10);
    let mut by_refusal = [0; WORDS.len()];
    for _ in 0..2000 {
        let query = samples::any_query(&mut random);
        let refusal = Question::read(&query, Asked::default()).err();
        let Some(refusal) = refusal.filter(|_| !is_taken_for_text(&query)) else {
            continue;
        };
        let given = counterexample(&query, ["(a)", "none", "(unknown)"]);
        check_query_refused(STANDARD_INPUT, &query, refusal, &given);
        by_refusal[usize::from(refusal)] += 1;
    }
    println!("two rows of refused queries, by refusal: {by_refusal:?}");
    assert!(by_refusal[1..=6].iter().all(|&count| count > 5));
}

/// Arguments that are no order.
const NO_ORDERS: [&str; 20] = [
    "",
    " ",
    "a",
    "a, b",
    "(a",
    "a)",
    "(a b)",
    "(a,)",
    "(,a)",
    "(a))",
    "(a) (b)",
    "[a]",
    "(0)",
    "2",
    "(desc)",
    "(Asc)",
    "(desc a)",
    "(a desc asc)",
    "(a) desc",
    "(a DESC",
];

/// Arguments that are no list of sets.
const NO_SETS: [&str; 16] = [
    "", " ", "s0 s1", "s0,", ",s0", "s0,,s1", "none,s0", "none s0", "s0,none", "(s0)", "s0;s1",
    "0", "3", "desc", "s0,ASC", "s0 desc",
];

#[test]
fn arguments_that_are_no_orders_or_sets() {
    let query = trials::example().query;
    let usage = "usage: order_tables counterexample QUERY PRODUCED SETS ORDER\n";
    let orders = NO_ORDERS.map(|order| (order, [order, "none", "(a)"]));
    let tested = NO_ORDERS.map(|order| (order, ["(a)", "none", order]));
    let sets = NO_SETS.map(|sets| (sets, ["(a)", sets, "(a)"]));
    for (argument, arguments) in [&orders[..], &tested, &sets].concat() {
        let given = counterexample(&query, arguments);
        let Err(failure @ Failure::Unusable(_)) = given else {
            panic!("{given:?} {arguments:?}");
        };
        assert_eq!(failure.status(), 2);
        let head = format!("order_tables: in `{argument}`, character ");
        let told = failure.words().strip_prefix(&head);
        let told = told.and_then(|told| told.strip_suffix(usage));
        assert!(
            told.is_some_and(|told| told.lines().count() == 1),
            "{failure:?}"
        );
    }
    for option in ["-1", "-", "--none"] {
        let given = counterexample(&query, ["(a)", option, "(a)"]);
        assert!(matches!(given, Err(Failure::Unusable(_))), "{given:?}");
    }
}
