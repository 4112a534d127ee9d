//! Two rows that show why an order is not held, as a small table.

use order_tables::{Direction, OrderHandle, SetChoice, TwoRows, TWO_ROWS_BYTES};

use crate::failure::Failure;
use crate::load::Loaded;
use crate::near::one_of;
use crate::query::{Entry, Order, Query};
use crate::refusals::refused;
use crate::words::{joined, quoted};

/// What is asked, in names that the query need not have.
#[derive(Clone, Debug, PartialEq, Eq)]
pub struct Asked {
    /// The columns of the order that the rows are in.
    pub produced: Vec<Entry<String>>,
    /// The sets in force.
    pub sets: Vec<String>,
    /// The columns of the order looked for.
    pub order: Vec<Entry<String>>,
}

/// The number of an order that no query has.
const NO_ORDER: OrderHandle = OrderHandle(u8::MAX);

/// What is asked, as the query has it.
struct Found<'q> {
    query: &'q Query,
    produced: (OrderHandle, &'q Order),
    /// The places of the sets among the query's, each once.
    sets: Vec<usize>,
    order: (OrderHandle, &'q Order),
}

/// Two rows that break an order as a table with what they show, or that there are none.
pub fn counterexample(query: &Loaded, asked: &Asked) -> Result<String, Failure> {
    let found = Found::new(&query.query, asked);
    // What the query does not have is asked for as an order that no query has.
    let (produced, sets, order) = match &found {
        Ok(found) => (found.produced.0, found.choice(), found.order.0),
        Err(_) => (NO_ORDER, SetChoice(0), NO_ORDER),
    };
    let mut rows = [0; TWO_ROWS_BYTES];
    let shown = order_tables::counterexample(&query.bytes, produced, sets, order, &mut rows);
    match (shown, found) {
        (Ok(None), Ok(found)) => Ok(found.none()),
        (Ok(Some(two_rows)), Ok(found)) => {
            let table = table(&query.query, two_rows);
            Ok(format!("{table}\n{}", found.why(two_rows)))
        }
        (Err(refusal), Err(what)) => Err(refused(&query.file, refusal, &what)),
        (shown, _) => {
            unreachable!("what the query has is not refused, and nothing else is shown: {shown:?}")
        }
    }
}

impl<'q> Found<'q> {
    /// What is asked, or what of it the query does not have.
    fn new(query: &'q Query, asked: &Asked) -> Result<Self, String> {
        let produced: Vec<&Order> = query.produced.iter().collect();
        let interesting: Vec<&Order> = query.interesting().collect();
        Ok(Self {
            query,
            produced: find_order(query, &asked.produced, &produced, "produced order")?,
            sets: find_sets(query, &asked.sets)?,
            order: find_order(query, &asked.order, &interesting, "interesting order")?,
        })
    }

    /// The sets as a choice.
    fn choice(&self) -> SetChoice {
        SetChoice(self.sets.iter().fold(0, |choice, set| choice | 1 << set))
    }

    /// The names of the sets in a sentence.
    fn set_names(&self) -> String {
        let names: Vec<String> = self
            .sets
            .iter()
            .map(|&set| self.query.sets[set].clone())
            .collect();
        joined(&names, "and")
    }

    /// The produced order and the order looked for, as the text has them.
    fn orders(&self) -> [String; 2] {
        [self.produced, self.order].map(|(_, order)| self.query.order_text(order))
    }

    /// That there are no rows that break the order.
    fn none(&self) -> String {
        let [produced, order] = self.orders();
        let obeying = match &self.sets[..] {
            [] => String::new(),
            _ => format!(" and obey {}", self.set_names()),
        };
        let all = format!("all rows that stand in {produced}{obeying} stand in {order}");
        format!("none: {all}, and no sort is needed.\n")
    }

    /// What two rows show: what they stand in and obey, and the first column of the order
    /// looked for in which they differ. Each column is told with the way it compares.
    fn why(&self, TwoRows { first, second }: TwoRows) -> String {
        let (_, entries) = self.order;
        let differ = |entry: &Entry<usize>| first[entry.column] != second[entry.column];
        let place = entries.iter().position(differ);
        let place = place.expect("rows that break an order differ in one of its columns");
        let alike = entries[..place].iter().map(|entry| self.compared(entry));
        let alike = match &alike.collect::<Vec<String>>()[..] {
            [] => String::new(),
            alike => format!("they are alike in {}, and ", joined(alike, "and")),
        };
        let differing = &entries[place];
        let name = self.compared(differing);
        let [one, other] = [first, second].map(|row| row[differing.column]);
        let [produced, order] = self.orders();
        let obeying = match &self.sets[..] {
            [] => "with no set in force".to_owned(),
            _ => format!("obey {}", self.set_names()),
        };
        [
            format!("These rows stand in {produced}, {obeying}, and do not stand in {order}:\n"),
            format!("{alike}in {name} the first has {one} and the second {other}.\n"),
            format!("So a sort by {order} is needed.\n"),
        ]
        .concat()
    }

    /// A column with the way it compares, in a sentence.
    fn compared(&self, entry: &Entry<usize>) -> String {
        let way = match entry.direction {
            Direction::Ascending => "ascending",
            Direction::Descending => "descending",
        };
        format!("{} ({way})", self.query.columns[entry.column])
    }
}

/// An order among some of the query's, with its number, or what would do.
fn find_order<'q>(
    query: &Query,
    asked: &[Entry<String>],
    orders: &[&'q Order],
    what: &str,
) -> Result<(OrderHandle, &'q Order), String> {
    let asked = asked.iter().map(|entry| {
        let name = &entry.column;
        let column = query.columns.iter().position(|column| column == name);
        let column = column.ok_or_else(|| {
            let would_do = one_of(name, &query.columns, None);
            format!("{} is no column; {would_do} would do", quoted(name))
        })?;
        let direction = entry.direction;
        Ok(Entry { column, direction })
    });
    let asked = asked.collect::<Result<Order, String>>()?;
    let mut numbered = (0..).map(OrderHandle).zip(orders);
    let found = numbered.find(|(_, order)| ***order == asked);
    found
        .map(|(handle, order)| (handle, *order))
        .ok_or_else(|| {
            let asked = query.order_text(&asked);
            let would_do = joined(&query.order_texts(orders.iter().copied()), "or");
            format!("{asked} is no {what}; {would_do} would do")
        })
}

/// The places of some sets among the query's, each once, or what would do in place of
/// one that is none.
fn find_sets(query: &Query, names: &[String]) -> Result<Vec<usize>, String> {
    let mut sets = Vec::new();
    for name in names {
        let set = query.sets.iter().position(|set| set == name);
        let set = set.ok_or_else(|| {
            let would_do = one_of(name, &query.sets, Some("`none`"));
            format!("{} is no set; {would_do} would do", quoted(name))
        })?;
        if !sets.contains(&set) {
            sets.push(set);
        }
    }
    Ok(sets)
}

/// Two rows under the names of the columns.
fn table(query: &Query, TwoRows { first, second }: TwoRows) -> String {
    let values = |row: &[u8]| row.iter().map(u8::to_string).collect::<Vec<String>>();
    let lines = [
        ("", query.columns.clone()),
        ("first", values(first)),
        ("second", values(second)),
    ];
    let lines = lines.map(|(head, cells)| {
        let cells = cells.iter().zip(&query.columns);
        let cells = cells.map(|(cell, name)| format!("  {cell:>width$}", width = name.len()));
        format!("{head:6}{}\n", cells.collect::<String>())
    });
    lines.concat()
}
