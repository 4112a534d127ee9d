//! A query from a file, and its table.

use order_tables::{build, Query as Proved, Table, LONGEST_TABLE, SCRATCH_BYTES};

use crate::failure::Failure;
use crate::names::Numbers;
use crate::query::Query;
use crate::refusals::{of_query, refused};
use crate::sizes::most_states;
use crate::states::States;
use crate::text::{self, looks_like_text, Text};
use crate::words::joined;

/// A query that passes the checks 1 to 6.
#[derive(Clone, Debug, PartialEq, Eq)]
pub struct Loaded {
    /// What the file is called that it is from.
    pub file: String,
    /// The query, with names.
    pub query: Query,
    /// Its bytes.
    pub bytes: Vec<u8>,
}

impl Loaded {
    /// The query of a file, as text or as bytes.
    pub fn new(file: &str, content: Vec<u8>) -> Result<Self, Failure> {
        match text::is_text(&content) {
            true => Self::of_text(file.to_owned(), &content),
            false => Self::of_bytes(file.to_owned(), content),
        }
    }

    /// The query that a text says. The proved reader must find in its bytes what the text
    /// says.
    fn of_text(file: String, content: &[u8]) -> Result<Self, Failure> {
        let text = text::read(content);
        let text = text.map_err(|error| Failure::Refused(error.shown(&file, content)))?;
        let bytes = text.query.write();
        let read = Proved::new(&bytes)
            .map_err(|refusal| refused(&file, refusal, &of_query(refusal, &bytes, &text)))?;
        let Text { query, .. } = text;
        let read = Query {
            columns: query.columns.clone(),
            sets: query.sets.clone(),
            ..Query::of(read)
        };
        assert_eq!(read, query, "the bytes say what the text says");
        Ok(Self { file, query, bytes })
    }

    /// The query that some bytes are.
    fn of_bytes(file: String, bytes: Vec<u8>) -> Result<Self, Failure> {
        let read = Proved::new(&bytes).map_err(|refusal| {
            let what = match looks_like_text(&bytes) {
                true => read_as_bytes(bytes[0]),
                false => of_query(refusal, &bytes, &Numbers),
            };
            refused(&file, refusal, &what)
        })?;
        let query = Query::of(read);
        Ok(Self { file, query, bytes })
    }

    /// The bytes of the query's table.
    pub fn table(&self) -> Result<Vec<u8>, Failure> {
        let mut output = vec![0; LONGEST_TABLE];
        let built = build(&self.bytes, &mut [0; SCRATCH_BYTES], &mut output);
        // With room enough, a query that passes the checks 1 to 6 is refused with 8 alone.
        let length = built.map_err(|refusal| {
            let produced = joined(&self.query.order_texts(&self.query.produced), "and");
            let sets = joined(&self.query.sets, "and");
            let of = format!("for rows in {produced} and the sets {sets}");
            let what = format!("the smallest table has more than {} states", most_states());
            refused(&self.file, refusal, &format!("{what}, {of}"))
        })?;
        output.truncate(length);
        Ok(output)
    }

    /// The states of a table that has the form and the query's sizes.
    pub fn states<'t>(&'t self, table: &'t [u8]) -> States<'t> {
        States {
            query: &self.query,
            table: Table::new(table),
        }
    }
}

/// Why what looks like text is none.
fn read_as_bytes(first: u8) -> String {
    format!("it looks like text and is read as bytes, since the first one is {first} and a text's is 32 to 126")
}
