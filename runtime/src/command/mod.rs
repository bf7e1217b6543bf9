//! The command `gate`.

mod batch;
mod help;
mod show;

use crate::cards::{Card, Outcome};
use crate::refusal::Refusal;
use crate::{json, svg};
use std::ffi::{OsStr, OsString};
use std::fs;
use std::io::{ErrorKind, Write};

/// Exit code: every plan was accepted, the node was shown, or what was asked for was given.
pub const ACCEPTED: u8 = 0;
/// Exit code: a plan was refused, or a node, and no file was malformed.
pub const REFUSED: u8 = 1;
/// Exit code: the command was used wrongly, or a file is malformed or cannot be read.
pub const UNUSABLE: u8 = 2;

/// What a command wants to be written, and how it ends.
struct Reply {
    out: String,
    err: String,
    code: u8,
}

impl Reply {
    fn good(out: impl Into<String>) -> Reply {
        Reply { out: out.into(), err: String::new(), code: ACCEPTED }
    }

    /// A wrong use: what is wrong, and where help is.
    fn wrong(what: &str, help: &str) -> Reply {
        let err = format!("gate: {what}; see `{help}`\n");
        Reply { out: String::new(), err, code: UNUSABLE }
    }
}

/// Runs the command on its arguments, without the program's name, and gives the exit code.
///
/// ```
/// let (mut out, mut err) = (Vec::new(), Vec::new());
/// let code = gate_runtime::command::run(&["explain".into(), "23".into()], &mut out, &mut err);
/// assert_eq!(code, 0);
/// assert!(out.starts_with(b"23: Divide may meet zero."));
/// ```
pub fn run(arguments: &[OsString], out: &mut dyn Write, err: &mut dyn Write) -> u8 {
    let reply = reply_to(arguments);
    // Nobody is left to tell if standard error is gone.
    let _ = err.write_all(reply.err.as_bytes());
    match out.write_all(reply.out.as_bytes()).and_then(|()| out.flush()) {
        Ok(()) => reply.code,
        // The reader has seen enough, as with `gate cards PLAN | head`.
        Err(error) if error.kind() == ErrorKind::BrokenPipe => reply.code,
        Err(error) => {
            let _ = writeln!(err, "gate: standard output: {error}");
            UNUSABLE
        }
    }
}

fn reply_to(arguments: &[OsString]) -> Reply {
    let Some((first, rest)) = arguments.split_first() else {
        let mut reply = Reply::wrong("no command given", "gate --help");
        reply.err.push_str(help::USAGE);
        return reply;
    };
    if rest.iter().take_while(|a| *a != "--").any(|a| a == "--help" || a == "-h") {
        return help_on(std::slice::from_ref(first));
    }
    match first.to_string_lossy().as_ref() {
        "cards" => cards(rest),
        "show" => show::show(rest),
        "explain" => explain(rest),
        "help" => help_on(rest),
        "--help" | "-h" => help_on(&[]),
        "--version" | "-V" => Reply::good(help::version()),
        other => Reply::wrong(&format!("no command `{other}`"), "gate --help"),
    }
}

fn help_on(topics: &[OsString]) -> Reply {
    let Some(topic) = topics.first() else {
        return Reply::good(help::GENERAL);
    };
    match topic.to_string_lossy().as_ref() {
        "cards" => Reply::good(help::CARDS),
        "show" => Reply::good(help::SHOW),
        "explain" => Reply::good(help::EXPLAIN),
        "format" => Reply::good(help::FORMAT),
        "help" | "--help" | "-h" | "--version" | "-V" => Reply::good(help::GENERAL),
        other => Reply::wrong(&format!("no help on `{other}`"), "gate --help"),
    }
}

fn explain(arguments: &[OsString]) -> Reply {
    let [number] = arguments else {
        if arguments.is_empty() {
            let lines: Vec<String> = Refusal::all().map(|r| format!("{:>2}  {}\n", r.code(), r.sentence())).collect();
            return Reply::good(lines.concat());
        }
        return Reply::wrong("explain takes one number", "gate help explain");
    };
    let number = number.to_string_lossy();
    match number.parse().ok().and_then(Refusal::from_code) {
        Some(refusal) => Reply::good(help::explanation(refusal)),
        None => Reply::wrong(&format!("no refusal `{number}`, they are 1 to {}", Refusal::all().count()), "gate explain"),
    }
}

/// What `gate cards` was asked for.
#[derive(Default)]
struct Request {
    json: bool,
    svg: Option<OsString>,
    files: Vec<OsString>,
}

fn request(arguments: &[OsString]) -> Result<Request, String> {
    let mut request = Request::default();
    let mut rest = arguments.iter();
    let mut options = true;
    while let Some(argument) = rest.next() {
        let text = argument.to_string_lossy();
        match text.as_ref() {
            "--" if options => options = false,
            "--json" if options => request.json = true,
            "--svg" if options => match rest.next() {
                Some(file) => request.svg = Some(file.clone()),
                None => return Err("--svg needs a file to write".to_string()),
            },
            text if options && text.starts_with("--svg=") => request.svg = Some(OsString::from(&text["--svg=".len()..])),
            text if options && text.starts_with('-') && text != "-" => return Err(format!("no option `{text}`")),
            _ => request.files.push(argument.clone()),
        }
    }
    if request.files.is_empty() {
        return Err("cards needs a plan's file".to_string());
    }
    if request.svg.is_some() && request.files.len() > 1 {
        return Err("--svg draws one plan".to_string());
    }
    Ok(request)
}

fn cards(arguments: &[OsString]) -> Reply {
    let request = match request(arguments) {
        Ok(request) => request,
        Err(what) => return Reply::wrong(&what, "gate help cards"),
    };
    let cards = batch::cards_of(&request.files);
    let mut reply = if request.json { in_json(&cards) } else { in_words(&cards) };
    reply.code = cards.iter().map(Card::exit_code).max().unwrap_or(ACCEPTED);
    if let (Some(file), [card]) = (&request.svg, &cards[..]) {
        draw(file, card, &mut reply);
    }
    reply
}

fn in_json(cards: &[Card]) -> Reply {
    Reply::good(json::document(cards).write())
}

/// An empty line between two cards of one stream.
fn in_words(cards: &[Card]) -> Reply {
    let mut reply = Reply::good("");
    for card in cards {
        let (out, err) = card.render();
        for (all, one) in [(&mut reply.out, out), (&mut reply.err, err)] {
            if !all.is_empty() && !one.is_empty() {
                all.push('\n');
            }
            all.push_str(&one);
        }
    }
    reply
}

/// Writes the picture, if there is a plan to draw.
fn draw(file: &OsStr, card: &Card, reply: &mut Reply) {
    let Outcome::Walked(walked) = &card.outcome else {
        return;
    };
    if let Err(error) = fs::write(file, svg::picture(&card.file, walked)) {
        reply.err.push_str(&format!("gate: {}: {error}\n", file.to_string_lossy()));
        reply.code = UNUSABLE;
    }
}
