//! Prints what a fetch would do: git ls-remote origin | planner [SPEC..] [-- CONFIGURED..]
//!
//! Without SPEC the configured refspecs are fetched, those of `git config --get-all remote.origin.fetch`. Ends with status 1
//! if a source is missing, refs are in conflict, or a text isn't a refspec.
use refspec::{plan, Operation, Origin, Plan, Spec, Update, Verdict, Wish};
use std::error::Error;
use std::io::{self, BufRead, Write};
use std::os::unix::ffi::OsStringExt;
use std::process::ExitCode;

fn word_of(update: &Update) -> &'static str {
    match update.verdict {
        Verdict::Written if update.destination.is_none() => "fetch",
        Verdict::Written if update.forced => "force",
        Verdict::Written => "write",
        Verdict::InConflict => "conflict",
        Verdict::Overruled => "overruled",
        Verdict::DirectoryConflict => "directory conflict",
        _ => "left out",
    }
}

/// The refspec whose source is missing.
fn missing_source<'w>(origin: Origin, wish: &Wish<'w>) -> &'w [u8] {
    match origin {
        Origin::Given(index) => wish.given[index].text(),
        Origin::Configured(index) => wish.configured[index].text(),
        _ => b"HEAD",
    }
}

fn show(plan: &Plan, wish: &Wish<'_>) -> io::Result<()> {
    let mut out = io::BufWriter::new(io::stdout().lock());
    let mut line = |word: &str, source: &[u8], destination: Option<&[u8]>| {
        out.write_all(&[word.as_bytes(), source, destination.unwrap_or(b"-")].join(&b'\t'))?;
        out.write_all(b"\n")
    };
    for update in &plan.updates {
        line(word_of(update), &update.source, update.destination.as_deref())?;
    }
    for origin in &plan.missing {
        line("missing", missing_source(*origin, wish), None)?;
    }
    out.flush()
}

fn fetches(texts: &[Vec<u8>]) -> Result<Vec<Spec>, refspec::ParseError> {
    texts.iter().map(|text| Spec::parse(text, Operation::Fetch)).collect()
}

fn run() -> Result<bool, Box<dyn Error>> {
    let texts: Vec<Vec<u8>> = std::env::args_os().skip(1).map(OsStringExt::into_vec).collect();
    let split = texts.iter().position(|text| text == b"--").unwrap_or(texts.len());
    let (given, configured) = (fetches(&texts[..split])?, fetches(texts.get(split + 1..).unwrap_or_default())?);
    let mut names = Vec::new();
    for line in io::stdin().lock().split(b'\n') {
        // An id, a tab and a name. A line that ends with `^{}` names no ref.
        match line?.splitn(2, |byte| *byte == b'\t').nth(1) {
            Some(name) if !name.ends_with(b"^{}") => names.push(name.to_vec()),
            _ => {}
        }
    }
    let wish = Wish { given: &given, configured: &configured, merges: &[], tags: false };
    let plan = plan(&wish, &names)?;
    show(&plan, &wish)?;
    Ok(plan.is_carried_out())
}

fn main() -> ExitCode {
    match run() {
        Ok(true) => ExitCode::SUCCESS,
        Ok(false) => ExitCode::FAILURE,
        Err(error) => {
            eprintln!("{error}");
            ExitCode::FAILURE
        }
    }
}
