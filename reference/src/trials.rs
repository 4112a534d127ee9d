//! The trials: queries, each with what has to come out. trials/README.md says
//! how their files are written.

use std::fs;
use std::path::{Path, PathBuf};

use crate::buffers::SCRATCH_BYTES;
use crate::counterexample::{self, Asked};
use crate::implementation::Implementation;
use crate::lookups::{table_answers, Answer, Lookup};

/// The words that a listing's lines begin with.
const LISTING_WORDS: [&str; 4] = ["states", "start", "state", "refused"];

/// More bytes than any table or listing has.
const ROOM: usize = 8192;

/// A query and what has to come out.
#[derive(Clone, Debug, Default, PartialEq, Eq)]
pub struct Trial {
    /// The file's name without its ending.
    pub name: String,
    /// The query's bytes.
    pub query: Vec<u8>,
    /// Lines of the listing, in their sequence.
    pub lines: Vec<String>,
    /// Whether the listing has no other lines.
    pub whole: bool,
    /// The length of the table.
    pub table_length: Option<usize>,
    /// The table's bytes; none when the trial doesn't say them.
    pub table: Vec<u8>,
    /// Lists of lookups that end in an ask, and whether that says held. Where it does
    /// not, two rows show it.
    pub asks: Vec<(Vec<Lookup>, bool)>,
    /// Produced orders, and of each two lists of sets that lead to one state of
    /// the table.
    pub same: Vec<(u8, [Vec<u8>; 2])>,
    /// A length of scratch, and the refusal with so much.
    pub scratch: Option<(usize, u8)>,
    /// The rows of the smallest table, if 8 were never given.
    pub without_limits: Option<usize>,
    /// The held bytes of the pairs, in their sequence; none when the trial doesn't say
    /// them.
    pub pairs: Vec<u8>,
    /// Held bytes that the last call of a stepped build may find, and the table that it
    /// merges them into.
    pub merged: Vec<[Vec<u8>; 2]>,
    /// A supplier's table; empty when the trial has none.
    pub supplied: Vec<u8>,
    /// What verifying that table gives: nothing when it is accepted, or the
    /// refusal.
    pub verified: Option<Result<(), u8>>,
}

impl Trial {
    /// Reads a trial's text, or says what of it can't be read.
    pub fn read(name: &str, text: &str) -> Result<Self, String> {
        let mut trial = Self {
            name: name.to_owned(),
            ..Self::default()
        };
        for line in text.lines() {
            let said = line.split('#').next().unwrap_or_default().trim_end();
            let read = match said.strip_prefix("= ") {
                Some(expected) => trial.expect(expected),
                None => numbers(said).map(|bytes| trial.query.extend(bytes)),
            };
            read.ok_or_else(|| format!("can't read the line `{line}`"))?;
        }
        if trial.supplied.is_empty() == trial.verified.is_none() {
            Ok(trial)
        } else {
            Err("a supplied table and what verifying it gives go together".to_owned())
        }
    }

    /// Takes in what a line says has to come out.
    fn expect(&mut self, expected: &str) -> Option<()> {
        if expected == "whole" {
            self.whole = true;
        } else if let Some(length) = expected.strip_prefix("table ") {
            self.table_length = Some(length.parse().ok()?);
        } else if let Some(bytes) = expected.strip_prefix("bytes ") {
            self.table.extend(numbers(bytes)?);
        } else if let Some(after) = expected.strip_prefix("after ") {
            self.expect_after(after)?;
        } else if let Some(scratch) = expected.strip_prefix("scratch ") {
            let (length, refusal) = scratch.split_once(" refused ")?;
            self.scratch = Some((length.parse().ok()?, refusal.parse().ok()?));
        } else if let Some(states) = expected.strip_prefix("without limits states ") {
            self.without_limits = Some(states.parse().ok()?);
        } else if let Some(bytes) = expected.strip_prefix("pairs ") {
            self.pairs.extend(numbers(bytes)?);
        } else if let Some(merged) = expected.strip_prefix("merged ") {
            let (held, table) = merged.split_once(" to ")?;
            self.merged.push([numbers(held)?, numbers(table)?]);
        } else if let Some(bytes) = expected.strip_prefix("supplied ") {
            self.supplied.extend(numbers(bytes)?);
        } else if let Some(verified) = expected.strip_prefix("verified ") {
            self.verified = Some(match verified.strip_prefix("refused ") {
                Some(refusal) => Err(refusal.parse().ok()?),
                None => (verified == "accepted").then_some(Ok(()))?,
            });
        } else if LISTING_WORDS.contains(&expected.split(' ').next()?) {
            self.lines.push(expected.to_owned());
        } else {
            return None;
        }
        Some(())
    }

    /// Takes in what a line says of the state after an entry and some takes.
    fn expect_after(&mut self, after: &str) -> Option<()> {
        let (produced, after) = after.split_once(':')?;
        let produced = produced.parse().ok()?;
        if let Some((one, other)) = after.split_once(" same as") {
            self.same.push((produced, [numbers(one)?, numbers(other)?]));
            return Some(());
        }
        let (after, order) = after.split_once(" held ")?;
        let (sets, held) = match after.strip_suffix(" not") {
            Some(sets) => (sets, false),
            None => (after, true),
        };
        let takes = numbers(sets)?.into_iter().map(Lookup::Take);
        let mut lookups = vec![Lookup::Enter(produced)];
        lookups.extend(takes);
        lookups.push(Lookup::Ask(order.parse().ok()?));
        self.asks.push((lookups, held));
        Some(())
    }

    /// The whole listing.
    ///
    /// # Panics
    ///
    /// When the trial doesn't say all of its lines.
    pub fn listing(&self) -> String {
        assert!(self.whole, "trial {} has not the whole listing", self.name);
        self.lines.iter().flat_map(|line| [line, "\n"]).collect()
    }

    /// Whether a listing is as this trial says.
    pub fn agrees_with(&self, listing: &str) -> bool {
        let mut lines = listing.lines();
        let in_sequence = self
            .lines
            .iter()
            .all(|expected| lines.any(|line| line == expected));
        in_sequence && (!self.whole || listing.lines().count() == self.lines.len())
    }

    /// The refusal 1 to 8, if the listing is one.
    fn refusal(&self) -> Option<u8> {
        self.lines.first()?.strip_prefix("refused ")?.parse().ok()
    }

    /// Puts the trial to an implementation, or says what comes out otherwise.
    pub fn check<I: Implementation>(&self) -> Result<(), String> {
        let listing = self.listed::<I>(SCRATCH_BYTES).unwrap_or_default();
        ensure(self.agrees_with(&listing), || format!("listing {listing}"))?;
        let built = self.built_by(I::build, SCRATCH_BYTES);
        let refusal = built.as_ref().err().copied();
        ensure(refusal == self.refusal(), || format!("build {built:?}"))?;
        let in_steps = self.built_by(I::build_in_steps, SCRATCH_BYTES);
        ensure(in_steps == built, || format!("in steps {in_steps:?}"))?;
        let table = built.unwrap_or_default();
        let same_length = self.table_length.is_none_or(|length| length == table.len());
        let same_bytes = self.table.is_empty() || self.table == table;
        ensure(same_length && same_bytes, || format!("table {table:?}"))?;
        for (lookups, held) in &self.asks {
            let answer = table_answers::<I>(&table, lookups).pop();
            let as_said = answer == Some(Answer::Held(*held));
            ensure(as_said, || format!("{lookups:?} {answer:?}"))?;
            let shown = self.shown::<I>(lookups);
            ensure(shown == Ok(!held), || format!("{lookups:?} {shown:?}"))?;
        }
        for (produced, lists) in &self.same {
            let states = lists
                .each_ref()
                .map(|sets| I::follow(&table, *produced, sets));
            let as_said = states[0].is_ok() && states[0] == states[1];
            ensure(as_said, || format!("after {produced} {lists:?} {states:?}"))?;
        }
        if let Some(expected) = self.verified {
            let verified = self.verify::<I>(SCRATCH_BYTES);
            ensure(verified == expected, || format!("verified {verified:?}"))?;
        }
        if let Some((length, refusal)) = self.scratch {
            let refused = [
                self.built_by(I::build, length).err(),
                self.built_by(I::build_in_steps, length).err(),
                self.listed::<I>(length).err(),
                self.verify::<I>(length).err(),
            ];
            let as_said = refused == [Some(refusal); 4];
            ensure(as_said, || format!("scratch {length}: {refused:?}"))?;
        }
        Ok(())
    }

    /// The table that is built so with so much scratch.
    fn built_by(
        &self,
        build: impl Fn(&[u8], &mut [u8], &mut [u8]) -> Result<usize, u8>,
        scratch: usize,
    ) -> Result<Vec<u8>, u8> {
        let mut output = vec![0; ROOM];
        let length = build(&self.query, &mut vec![0; scratch], &mut output)?;
        output.truncate(length);
        Ok(output)
    }

    /// Whether an implementation shows two rows for the orders and sets of some lookups,
    /// or what is wrong.
    fn shown<I: Implementation>(&self, lookups: &[Lookup]) -> Result<bool, String> {
        let mut asked = Asked::default();
        for lookup in lookups {
            match lookup {
                Lookup::Enter(produced) => asked.produced = *produced,
                Lookup::Take(set) => asked.sets |= 1 << set,
                Lookup::Ask(order) => asked.order = *order,
            }
        }
        let before = [7; ROOM];
        let mut rows = before;
        let shown = I::counterexample(&self.query, asked, &mut rows);
        let checked = counterexample::check(&self.query, asked, shown, &before, &rows);
        checked.map_err(|wrong| format!("wrong {wrong:?}"))?;
        shown.map_err(|refusal| format!("refused {refusal}"))
    }

    /// What verifying the supplied table gives with so much scratch.
    fn verify<I: Implementation>(&self, scratch: usize) -> Result<(), u8> {
        I::verify(&self.query, &self.supplied, &mut vec![0; scratch])
    }

    /// What an implementation lists with so much scratch.
    fn listed<I: Implementation>(&self, scratch: usize) -> Result<String, u8> {
        let mut text = vec![0; ROOM];
        let length = I::list(&self.query, &mut vec![0; scratch], &mut text)?;
        text.truncate(length);
        Ok(String::from_utf8_lossy(&text).into_owned())
    }
}

/// Numbers below 256 separated by white space.
fn numbers(text: &str) -> Option<Vec<u8>> {
    text.split_whitespace()
        .map(|number| number.parse().ok())
        .collect()
}

/// Nothing when it is as said, or else what came out.
fn ensure(as_said: bool, came_out: impl Fn() -> String) -> Result<(), String> {
    if as_said {
        Ok(())
    } else {
        Err(format!("comes out otherwise: {}", came_out()))
    }
}

/// The folder of the repository.
pub fn repository() -> PathBuf {
    Path::new(env!("CARGO_MANIFEST_DIR")).join("..")
}

/// All trials, sorted by their names.
///
/// # Panics
///
/// When the folder or a file can't be read.
pub fn all() -> Vec<Trial> {
    let entries = fs::read_dir(repository().join("trials")).expect("the folder trials/ is there");
    let mut paths: Vec<PathBuf> = entries
        .map(|entry| entry.expect("the folder trials/ can be read").path())
        .filter(|path| path.extension().is_some_and(|extension| extension == "txt"))
        .collect();
    paths.sort();
    paths.iter().map(|path| read_file(path)).collect()
}

/// The trial of this name.
///
/// # Panics
///
/// When its file can't be read.
pub fn named(name: &str) -> Trial {
    read_file(&repository().join(format!("trials/{name}.txt")))
}

/// The trial of the listing's example.
pub fn example() -> Trial {
    named("listing_example")
}

fn read_file(path: &Path) -> Trial {
    let name = path.file_stem().unwrap_or_default().to_string_lossy();
    let text = fs::read_to_string(path).unwrap_or_else(|error| panic!("{name}: {error}"));
    Trial::read(&name, &text).unwrap_or_else(|error| panic!("{name}: {error}"))
}
