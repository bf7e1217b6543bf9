//! `gate show`: one node, for one reader.

use super::batch::bytes_of;
use super::Reply;
use crate::json;
use crate::rinks::Rinks;
use crate::text::read_rinks;
use crate::view::View;
use std::ffi::OsString;
use std::slice::Iter;

/// What `gate show` was asked for.
struct Request {
    json: bool,
    reader: Rinks,
    file: OsString,
    node: String,
}

pub(super) fn show(arguments: &[OsString]) -> Reply {
    let request = match request(arguments) {
        Ok(request) => request,
        Err(what) => return Reply::wrong(&what, "gate help show"),
    };
    let name = request.file.to_string_lossy();
    let view = match bytes_of(&request.file) {
        Ok(bytes) => View::of(&name, &bytes, request.reader, &request.node),
        Err(error) => View::unreadable(&name, error.to_string()),
    };
    let (out, err) = if request.json { (json::view(&view).write(), String::new()) } else { view.render() };
    Reply { out, err, code: view.exit_code() }
}

fn request(arguments: &[OsString]) -> Result<Request, String> {
    let (mut json, mut reader, mut words) = (false, None, Vec::new());
    let mut rest = arguments.iter();
    let mut options = true;
    while let Some(argument) = rest.next() {
        let text = argument.to_string_lossy();
        match text.as_ref() {
            "--" if options => options = false,
            "--json" if options => json = true,
            text if options && (text == "--reader" || text.starts_with("--reader=")) => {
                if reader.replace(reader_of(text.strip_prefix("--reader="), &mut rest)?).is_some() {
                    return Err("--reader is given twice".to_string());
                }
            }
            text if options && text.starts_with('-') && text != "-" => return Err(format!("no option `{text}`")),
            _ => words.push(argument.clone()),
        }
    }
    let reader = reader.ok_or("show needs --reader and a set of rinks such as '{3, 17}'")?;
    match <[OsString; 2]>::try_from(words) {
        Ok([file, node]) => Ok(Request { json, reader, file, node: node.to_string_lossy().into_owned() }),
        Err(_) => Err("show takes a plan's file and one node".to_string()),
    }
}

/// The reader's set. A shell hands over `{3, 17}` as two arguments: it goes on up to the one with the brace that ends it.
fn reader_of(first: Option<&str>, rest: &mut Iter<OsString>) -> Result<Rinks, String> {
    let next = |rest: &mut Iter<OsString>| rest.next().map(|word| word.to_string_lossy().into_owned());
    let first = first.map(str::to_string).or_else(|| next(rest));
    let mut text = first.ok_or("--reader needs a set of rinks such as '{3, 17}'")?;
    while text.starts_with('{') && !text.contains('}') {
        let Some(more) = next(rest) else {
            break;
        };
        text = format!("{text} {more}");
    }
    read_rinks(&text).map_err(|problem| {
        // `{3,17}` without quotes comes from a shell as two words without braces.
        let hint = if text.starts_with('{') { "" } else { "; in a shell write '{3,17}' with its quotes" };
        format!("--reader: expected {}, found {}{hint}", problem.expected, problem.found)
    })
}
