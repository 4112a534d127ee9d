//! What the documents quote stands where they say: of trials, examples, the crates, the
//! map of the scratch, the kit and the landings.

use std::collections::{BTreeMap, BTreeSet};
use std::fs;

use reference::buffers::SCRATCH_BYTES;
use reference::builder::table_of;
use reference::construction::of_pairs;
use reference::query::order;
use reference::trials::{self, repository, Trial};
use reference::{counterexample, stepped, table, verification};
use reference::{Implementation, Query, Reference};

/// The bytes of a file of the repository.
fn file(path: &str) -> Vec<u8> {
    fs::read(repository().join(path)).unwrap_or_else(|error| panic!("{path}: {error}"))
}

fn document(path: &str) -> String {
    String::from_utf8(file(path)).unwrap_or_else(|error| panic!("{path}: {error}"))
}

/// What a document has under a heading.
fn section<'a>(document: &'a str, heading: &str) -> &'a str {
    let heading = format!("\n## {heading}\n");
    let (_, section) = document.split_once(&heading).expect("the heading is there");
    section.split("\n## ").next().unwrap_or_default()
}

/// The cells of a table's rows, without the head.
fn rows(section: &str) -> impl Iterator<Item = Vec<&str>> {
    let rows = section.lines().skip_while(|line| !line.starts_with("|--"));
    let rows = rows.skip(1).take_while(|line| line.starts_with('|'));
    rows.map(|row| row.trim_matches('|').split('|').map(str::trim).collect())
}

/// The bytes that the rows of a table quote, in their sequence. Where a row says
/// at which place they are, they must be there.
fn quoted_bytes(section: &str) -> Vec<u8> {
    let mut bytes = Vec::new();
    for row in rows(section) {
        let quoted = row.iter().find(|cell| cell.starts_with('`'));
        let quoted = quoted.expect("the row has bytes").trim_matches('`');
        if let Ok(place) = row[0].parse::<usize>() {
            assert_eq!(place, bytes.len(), "{row:?}");
        }
        let numbers = quoted.split(' ').map(|byte| byte.parse::<u8>());
        bytes.extend(numbers.map(|byte| byte.expect("a byte")));
    }
    bytes
}

/// The lists of five numbers or more that a text of Rattle has, as in
/// `0 ∷ 1 ∷ []`.
fn lists(text: &str) -> Vec<Vec<u8>> {
    let mut lists = Vec::new();
    let mut list = Vec::new();
    for word in text.split_whitespace() {
        match word.trim_matches(['(', ')']) {
            "∷" => {}
            "[]" if list.len() >= 5 => lists.push(std::mem::take(&mut list)),
            word => match word.parse() {
                Ok(number) => list.push(number),
                Err(_) => list.clear(),
            },
        }
    }
    lists
}

/// The name of a trial that has a table, the pairs of its query and the table's rows.
fn counts(trial: &Trial) -> Option<[String; 3]> {
    let table = table_of(&trial.query).ok()?;
    let query = Query::read(&trial.query).ok()?;
    let [pairs, rows] = [of_pairs(&query), table].map(|table| table.states.len().to_string());
    Some([trial.name.clone(), pairs, rows])
}

/// The bytes of an array that a program has from `begin` to `end`, without the comments
/// behind its lines.
fn array(program: &str, begin: &str, end: &str, comment: &str) -> Vec<u8> {
    let (_, array) = program.split_once(begin).expect("the array is there");
    let (array, _) = array.split_once(end).expect("the array ends");
    let lines = array.lines().filter_map(|line| line.split(comment).next());
    let bytes = lines.flat_map(|line| line.split(',').map(str::trim));
    let bytes = bytes.filter(|byte| !byte.is_empty());
    bytes.map(|byte| byte.parse().expect("a byte")).collect()
}

#[test]
fn the_examples_have_the_query() {
    let query = trials::example().query;
    assert_eq!(file("examples/first.query"), query);
    for (path, name) in [("plan", "query"), ("steps", "old_query")] {
        let program = document(&format!("examples/{path}.c"));
        let begin = format!(" {name}[{}] = {{\n", query.len());
        assert_eq!(array(&program, &begin, "};", "/*"), query, "{path}");
    }

    // The query with a tested order more, (time, code).
    let mut new_query = Query::read(&query).expect("not refused");
    new_query.tested.push(order(&[0, 2]));
    let new_query = new_query.write();
    let begin = format!(" new_query[{}] = {{\n", new_query.len());
    let in_c = array(&document("examples/steps.c"), &begin, "};", "/*");
    let in_rust = document("wrapper/examples/steps.rs");
    let in_rust = array(&in_rust, " NEW_QUERY: &[u8] = &[\n", "];", "//");
    assert_eq!([&in_c, &in_rust], [&new_query; 2]);
}

/// What verifying a table's file for a query's file gives.
fn verified(query: &str, table: &str) -> Result<(), u8> {
    Reference::verify(&file(query), &file(table), &mut [0; SCRATCH_BYTES])
}

#[test]
fn the_example_tables_are_what_is_said_of_them() {
    let query = "examples/first.query";
    let [first, renumbered, unmerged, damaged] =
        ["first", "renumbered", "unmerged", "damaged"].map(|name| format!("examples/{name}.table"));
    assert_eq!(file(&first), trials::example().table);
    assert_eq!(verified(query, &first), Ok(()));

    let supplied = trials::named("supplied_renumbered").supplied;
    assert_eq!(file(&renumbered), supplied);
    assert_ne!(file(&renumbered), file(&first));
    assert_eq!(verified(query, &renumbered), Ok(()));

    let supplied = trials::named("supplied_unmerged").supplied;
    assert_eq!(file(&unmerged), supplied);
    assert!(file(&unmerged).len() > file(&first).len());
    assert_eq!(verified(query, &unmerged), Ok(()));

    // State 0, in which a scan in (a) is, holds (a,b), order 2, besides.
    let mut changed = file(&first);
    changed[14] |= 1 << 2;
    assert_eq!(file(&damaged), changed);
    assert_ne!(file(&damaged), file(&first));
    assert_eq!(table::check(&file(&damaged)), Ok(()));
    assert_eq!(verified(query, &damaged), Err(13));
}

/// The words of each command that a section shows, with what it prints.
fn commands(section: &str) -> Vec<(Vec<&str>, String)> {
    let (_, shown) = section.split_once("\n```\n").expect("the block begins");
    let (shown, _) = shown.split_once("\n```\n").expect("the block ends");
    let mut commands: Vec<(Vec<&str>, String)> = Vec::new();
    for line in shown.lines() {
        match line.strip_prefix("$ ") {
            Some(command) => commands.push((command.split(' ').collect(), String::new())),
            None => {
                let (_, printed) = commands.last_mut().expect("a command comes first");
                printed.push_str(line);
                printed.push('\n');
            }
        }
    }
    commands
}

#[test]
fn the_programs_page_shows_how_the_example_tables_come_out() {
    let programs = document("docs/PROGRAMS.md");
    let shown = section(&programs, "`order_verify`: a supplier's table on trial");
    let commands = commands(shown);
    for (command, printed) in &commands {
        match command[..] {
            ["crates/order_verify/out/order_verify", query, table] => {
                let outcome = verification::printed(verified(query, table));
                assert_eq!(*printed, outcome, "{command:?}");
            }
            _ => panic!("another command: {command:?}"),
        }
    }
    let outcomes: Vec<&str> = commands.iter().map(|(_, printed)| &printed[..]).collect();
    let [accepted, refused] = ["accepted\n", "refused 13\n"];
    assert_eq!(outcomes, [accepted, accepted, accepted, refused]);
}

#[test]
fn the_programs_page_shows_rows_that_break_the_order_and_where_there_are_none() {
    let programs = document("docs/PROGRAMS.md");
    let heading = "`order_counterexample`: two rows that show why a sort is needed";
    let commands = commands(section(&programs, heading));
    for (command, printed) in &commands {
        match command[..] {
            ["crates/order_counterexample/out/order_counterexample", query, produced, sets, order] =>
            {
                let asked = [produced, sets, order].map(|number| number.parse::<u8>());
                let asked = asked.map(|number| number.expect("a byte")).into();
                let checked = counterexample::check_printed(&file(query), asked, printed);
                assert_eq!(checked, Ok(()), "{command:?}");
            }
            _ => panic!("another command: {command:?}"),
        }
    }
    let lines = commands.iter().map(|(_, printed)| printed.lines().count());
    assert_eq!(lines.collect::<Vec<_>>(), [2, 1, 2, 1]);
}

#[test]
fn the_programs_page_has_the_listing() {
    let programs = document("docs/PROGRAMS.md");
    let shown = section(&programs, "`order_listing`: a table's numbers");
    let program = "crates/order_listing/out/order_listing";
    let command = format!("$ ./order_tables encode examples/first.txt | {program}");
    let quoted = format!("\n{command}\n{}```\n", trials::example().listing());
    assert!(shown.contains(&quoted));
}

#[test]
fn the_example_has_the_lines_that_the_readme_quotes() {
    let (readme, plan) = (document("README.md"), document("examples/plan.c"));
    let (_, quoted) = readme
        .split_once("\n```c\n")
        .expect("lines of C are quoted");
    for line in quoted.lines().take_while(|line| *line != "```") {
        assert!(plan.lines().any(|other| other == line), "{line}");
    }
}

#[test]
fn the_trials_that_documents_link_to_are_there() {
    let mut links = 0;
    for path in ["docs/ARCHITECTURE.md", "docs/FORMAT.md", "docs/PROGRAMS.md"] {
        let document = document(path);
        let targets = document.split("](").skip(1);
        let targets = targets.filter_map(|rest| rest.split(')').next());
        for target in targets.filter(|target| target.ends_with(".txt")) {
            let name = target.rsplit('/').next().unwrap_or_default();
            trials::named(name.trim_end_matches(".txt"));
            links += 1;
        }
    }
    assert!(links >= 6, "only {links} links");
}

#[test]
fn the_format_has_the_query_and_the_table() {
    let example = trials::example();
    let format = document("docs/FORMAT.md");
    assert_eq!(quoted_bytes(section(&format, "Query")), example.query);
    assert_eq!(quoted_bytes(section(&format, "Table")), example.table);
    let supplied = quoted_bytes(section(&format, "A supplier's table"));
    assert_eq!(supplied, trials::named("supplied_renumbered").supplied);
}

#[test]
fn the_format_has_the_scratch_of_a_stepped_build() {
    let query = Query::read(&trials::example().query);
    let mut scratch = [7; SCRATCH_BYTES];
    assert_eq!(stepped::begin(&query, &mut scratch), Ok(()));
    for _ in 0..8 {
        let settled = stepped::continue_build(&query, &mut scratch, &mut []);
        assert_eq!(settled, Ok(None));
    }
    let format = document("docs/FORMAT.md");
    let quoted = quoted_bytes(section(&format, "The scratch of a stepped build"));
    let (first, rest) = scratch.split_at(quoted.len());
    assert_eq!(quoted, first);
    assert!(rest.iter().all(|&byte| byte == 0));
}

#[test]
fn the_proved_trials_have_the_queries_and_the_table() {
    let trials = trials::all();
    let of = |name: &str| lists(&document(&format!("crates/trials/specs/{name}.antt")));
    let (first, stepped) = (of("Trials"), of("StepTrials"));
    assert!(first.len() > 10, "only {} lists", first.len());
    assert!(stepped.len() > 3, "only {} lists", stepped.len());
    for list in first.into_iter().chain(stepped) {
        let known = |trial: &Trial| {
            let said = [&trial.query, &trial.table, &trial.supplied, &trial.pairs];
            said.contains(&&list) || trial.merged.as_flattened().contains(&list)
        };
        assert!(trials.iter().any(known), "{list:?}");
    }
}

#[test]
fn the_benchmarks_have_the_counts() {
    let benchmarks = document("docs/BENCHMARKS.md");
    let built: Vec<[String; 3]> = trials::all().iter().filter_map(counts).collect();
    let builds: Vec<_> = rows(section(&benchmarks, "Builds, µs")).collect();
    let named: Vec<&[&str]> = builds.iter().map(|row| &row[..3]).collect();
    assert_eq!(named, built);

    let table = |name: &str| table_of(&trials::named(name).query).expect("the trial has a table");
    let verified = section(&benchmarks, "Trials of a supplier's table, µs");
    let verified: Vec<_> = rows(verified).collect();
    assert_eq!(verified.len(), 8);
    for row in &verified {
        assert_eq!(row[1], table(row[0]).states.len().to_string(), "{row:?}");
    }
    let all_orders: Vec<_> = rows(section(&benchmarks, "All orders of a state, ns")).collect();
    assert_eq!(all_orders.len(), 3);
    for row in &all_orders {
        assert_eq!(row[1], table(row[0]).interesting().to_string(), "{row:?}");
    }
    let figures: Vec<_> = rows(section(&benchmarks, "Document 000, section 6.2")).collect();
    for (row, name) in figures[2..].iter().zip(["tpcr_query_8", "six_joins"]) {
        let table = table(name);
        let expected = [table.states.len(), table.write().len()].map(|count| count.to_string());
        assert_eq!(row[1..], expected, "trial {name}");
    }
    assert_eq!(figures.len(), 4);
}

#[test]
fn the_readme_is_short_and_names_the_kit() {
    let readme = document("README.md");
    assert!(readme.lines().count() <= 150);
    assert!(readme.contains(&format!("`{}`", document("KIT").trim_end())));
    let first = readme
        .lines()
        .filter_map(|line| line.strip_prefix("    ./"));
    let expected = ["order_tables explain examples/first.txt", "check.sh"];
    assert_eq!(first.take(2).collect::<Vec<_>>(), expected);
}

/// The words of a cell, each in backquotes.
fn quoted(cell: &str) -> BTreeSet<&str> {
    cell.split('`').skip(1).step_by(2).collect()
}

#[test]
fn the_architecture_lists_the_crates() {
    let listed = document("crates.txt");
    let listed = listed.lines().filter(|line| !line.starts_with('#'));
    let listed: BTreeMap<&str, BTreeSet<&str>> = listed
        .filter_map(|line| line.split_once(':'))
        .map(|(name, others)| {
            // Behind a static library's name stands that it is one.
            let name = name.split(' ').next().unwrap_or_default();
            (name, others.split_whitespace().collect())
        })
        .collect();

    // What the crates of a line depend on counts too, and these stand above it. A crate of the kit counts where it is named alone.
    let architecture = document("docs/ARCHITECTURE.md");
    let mut described: BTreeMap<&str, BTreeSet<&str>> = BTreeMap::new();
    for row in rows(section(&architecture, "The crates")) {
        let [name, about, named] = row[..] else {
            panic!("{row:?}")
        };
        assert!(!about.is_empty(), "{name}");
        let name = quoted(name).pop_first().expect("the row names a crate");
        let named = quoted(named);
        let below = named.iter().filter_map(|other| described.get(other));
        let below = below.flatten().filter(|other| listed.contains_key(**other));
        let below = below.chain(&named).copied().collect();
        assert!(described.insert(name, below).is_none(), "{name} twice");
    }
    assert_eq!(described, listed);
}

#[test]
fn the_architecture_has_the_map_of_the_scratch() {
    let architecture = document("docs/ARCHITECTURE.md");
    let map = rows(section(&architecture, "The map of the scratch"));
    let drawn: Vec<String> = map
        .filter(|row| row[1].starts_with('`'))
        .map(|row| format!("{}: usize = {}", row[1].trim_matches('`'), row[0]))
        .collect();
    let numbers = document("crates/numbers/src/scratch.rt");
    let named = numbers.lines().filter_map(|line| {
        let constant = line.strip_prefix("pub const ")?.strip_suffix(';')?;
        constant.contains("_PART:").then(|| constant.to_owned())
    });
    assert_eq!(drawn, named.collect::<Vec<_>>());
}

#[test]
fn each_landing_has_a_short_note() {
    let changes = document("docs/CHANGES.md");
    let notes: Vec<&str> = changes.split("\n## ").skip(1).collect();
    let headings: Vec<&str> = notes
        .iter()
        .filter_map(|note| note.lines().next())
        .collect();
    let mut requests = headings
        .iter()
        .filter(|heading| heading.starts_with("Req "));
    for (number, heading) in (1..).zip(requests.by_ref().take(7)) {
        assert!(
            heading.starts_with(&format!("Req 0{number}: ")),
            "{heading}"
        );
    }
    let different: BTreeSet<&str> = headings.iter().copied().collect();
    assert_eq!(different.len(), headings.len());
    for (note, heading) in notes.iter().zip(headings) {
        assert!(note.lines().count() <= 40, "{heading}");
        let words = note.to_lowercase();
        for word in ["moved", "stayed", "before", "after"] {
            assert!(words.contains(word), "{heading}: {word}");
        }
    }
}

/// The crate and the name of every must-fail edit.
fn must_fail_edits() -> BTreeSet<(String, String)> {
    let mut edits = BTreeSet::new();
    let crates = fs::read_dir(repository().join("crates")).expect("the crates are there");
    for folder in crates.map(|entry| entry.expect("a crate").path()) {
        let Ok(files) = fs::read_dir(folder.join("must-fail")) else {
            continue;
        };
        for file in files.map(|entry| entry.expect("an edit").path()) {
            let names = [folder.file_name(), file.file_stem()];
            let [folder, edit] = names.map(|name| name.expect("a name").to_string_lossy());
            edits.insert((folder.into_owned(), edit.into_owned()));
        }
    }
    edits
}

#[test]
fn the_claims_name_each_wrong_program_that_is_kept() {
    let edits = must_fail_edits();
    assert!(edits.len() > 130, "only {} edits", edits.len());
    let claims = document("docs/CLAIMS.md");
    let named = quoted(&claims);
    for (folder, edit) in &edits {
        let whole = format!("{folder}/{edit}");
        assert!(
            named.contains(&whole[..]) || named.contains(&edit[..]),
            "{whole} is not named"
        );
    }
    // A name with a full stop or a slash at its end is of a file or a folder.
    let folders: BTreeSet<&str> = edits.iter().map(|(folder, _)| &folder[..]).collect();
    let of_edits = named.iter().filter_map(|name| name.split_once('/'));
    for (folder, edit) in of_edits.filter(|(folder, _)| folders.contains(folder)) {
        let kept = edits.contains(&(folder.to_owned(), edit.to_owned()));
        let elsewhere = edit.is_empty() || edit.contains('.');
        assert!(kept || elsewhere, "{folder}/{edit} is not kept");
    }
}
