//! Any bytes as a text: what is shown says which bytes they are, and never is a character that a screen obeys or hides.

use crate::{json_reader, unseen, xml_reader};
use gate_runtime::cards::{Card, Outcome};
use gate_runtime::quotes::{quoted, unescaped};
use gate_runtime::show::{nature, width};
use gate_runtime::{json, svg, text, Nature};

/// Characters that an output could obey or hide, and some that are as good as any.
const CHARACTERS: &str = "\u{0}\u{7}\u{1b}\u{7f}\u{85}\u{9b}\u{a0}\u{ad}\u{301}\u{34f}\u{61c}\u{115f}\u{17b4}\u{180e}\u{200b}\u{200c}\u{200d}\
\u{200e}\u{200f}\u{2028}\u{2029}\u{202a}\u{202b}\u{202c}\u{202d}\u{202e}\u{2060}\u{2061}\u{2062}\u{2063}\u{2064}\u{2066}\u{2067}\u{2068}\u{2069}\
\u{206a}\u{2800}\u{3000}\u{3164}\u{e000}\u{fe0f}\u{feff}\u{ffa0}\u{fff9}\u{fffd}\u{fffe}\u{ffff}\u{1d173}\u{e0001}\u{e0041}\u{e0100}\u{10ffff}\
aé冰ßא\u{1f9ca}\"'<>&\\#{}[],:`$";

/// Every byte alone, every character alone and between letters, and bytes that are cut characters.
fn all_texts() -> Vec<Vec<u8>> {
    let mut texts: Vec<Vec<u8>> = (0..=255).map(|byte| vec![byte]).collect();
    texts.extend(CHARACTERS.chars().flat_map(|c| [c.to_string(), format!("a{c}b"), format!("{c}{c}\u{202e}")]).map(String::into_bytes));
    texts.extend(
        [&b"\xe2\x82"[..], b"\xe2\x82\xac", b"\xed\xa0\x80", b"\xf4\x90\x80\x80", b"\xc0\x80", b"a\xffb\xfe", b"\\xff", b"\\", b""]
            .map(<[u8]>::to_vec),
    );
    texts
}

fn card_of(texts: &[Vec<u8>]) -> Card {
    let words: Vec<String> = texts.iter().map(|text| quoted(text)).collect();
    Card::of("f", format!("leaf a : str, text {{{}}}, rows 1, releasable\n", words.join(", ")).as_bytes())
}

/// The range or categories of the only node as its card prints them, its lines put together.
fn cell(card: &Card) -> String {
    let out = card.render().0;
    let lines: Vec<&str> = out.lines().skip(2).take_while(|line| !line.is_empty()).collect();
    let heading = lines[0];
    let (from, to) = (heading.find("range or categories").expect("the heading"), heading.find("columns").expect("the heading"));
    let within = |line: &str| {
        let at = |cells: usize| line.char_indices().map(|(at, _)| at).find(|at| width(&line[..*at]) >= cells).unwrap_or(line.len());
        line[at(from)..at(to)].trim().to_string()
    };
    lines[1..].iter().map(|line| within(line)).collect::<Vec<String>>().join(" ")
}

fn lists(nature: &Nature) -> &[Vec<Vec<u8>>] {
    match nature {
        Nature::TextCategories(lists) => lists,
        other => panic!("no texts: {other:?}"),
    }
}

#[test]
fn no_text_is_shown_raw() {
    for bytes in all_texts() {
        let card = card_of(std::slice::from_ref(&bytes));
        let Outcome::Walked(walked) = &card.outcome else { panic!("{bytes:?}: {:?}", card.outcome) };
        let outputs = [card.render().0, json::document(std::slice::from_ref(&card)).write(), svg::picture("f", walked)];
        assert_eq!(outputs.each_ref().map(|output| unseen(output)), [None; 3], "{bytes:?}");
        assert!(outputs.iter().all(|output| output.chars().all(|c| !('\u{e000}'..='\u{f8ff}').contains(&c))), "{bytes:?}");
        xml_reader::read(&outputs[2]).unwrap_or_else(|error| panic!("{bytes:?}: {error}"));
    }
}

/// Text, plan, sheet, card, and a plan of what the card prints: the same bytes.
#[test]
fn what_a_card_prints_can_be_pasted_into_a_plan() {
    let texts = all_texts();
    for texts in texts.chunks(7).chain(texts.chunks(1)) {
        let card = card_of(texts);
        let Outcome::Walked(walked) = &card.outcome else { panic!("{texts:?}: {:?}", card.outcome) };
        let sheet = walked.sheet(0).expect("the leaf stands");
        assert_eq!(lists(&sheet.nature), [texts.to_vec()]);
        let again = text::read(&format!("leaf a : str, text {}\n", cell(&card))).unwrap_or_else(|problems| panic!("{}", problems[0]));
        assert_eq!(lists(&again.leaves[0].nature), [texts.to_vec()]);
    }
}

/// A text is never cut or broken, however long it is.
#[test]
fn a_long_text_stands_on_one_line() {
    let long = vec![vec![0xff; 1000], vec![b'a'; 24]];
    let card = card_of(&long);
    let shown = cell(&card);
    assert_eq!(shown, format!("{{{}, {}}}", quoted(&long[0]), quoted(&long[1])));
    let out = card.render().0;
    assert!(out.lines().any(|line| line.contains(&format!("{{{},", quoted(&long[0])))));
    let again = text::read(&format!("leaf a : str, text {shown}\n")).unwrap();
    assert_eq!(lists(&again.leaves[0].nature), [long]);
}

#[test]
fn several_lists_come_back_from_one_line() {
    let wanted = Nature::text_categories(&[&["a, b", "{\"}"], &[], &["\\x41", "\u{200f}"]]);
    let line = nature(&wanted);
    assert_eq!(line, r#"{"a, b", "{\"}"} {} {"\\x41", "\u{200f}"}"#);
    let plan = text::read(&format!("leaf a : str, text {line}\n")).unwrap();
    assert_eq!(lists(&plan.leaves[0].nature), lists(&wanted));
}

/// JSON has the same escapes in its strings, so that it says which bytes there are.
#[test]
fn json_says_which_bytes() {
    for texts in all_texts().chunks(9) {
        let document = json_reader::read(&json::document(&[card_of(texts)]).write()).unwrap();
        let sheet = document.at("plans").list()[0].at("nodes").list()[0].at("sheet").clone();
        assert_eq!((sheet.at("nature").text(), sheet.at("ranges")), ("text categories", &json_reader::Value::Null));
        let list = sheet.at("categories").list()[0].clone();
        let bytes: Vec<Vec<u8>> = list.list().iter().map(|text| unescaped(text.text()).unwrap()).collect();
        assert_eq!(bytes, texts);
    }
}

#[test]
fn pictures_hold_the_texts_as_cards_do() {
    let source = "leaf a : str, text {\"<b>&\\\"'\", \"\\xff\\u{202e}\"}, rows 1, releasable\nb = add a a\n";
    let card = Card::of("f", source.as_bytes());
    let Outcome::Walked(walked) = &card.outcome else { panic!("a plan") };
    let picture = svg::picture("f", walked);
    assert!(picture.contains(r"&lt;b&gt;&amp;\&quot;&apos;"), "{picture}");
    let shown = xml_reader::read(&picture).unwrap();
    assert!(shown.contains(&r#"{"<b>&\"'", "\xff\u{202e}"}"#.to_string()), "{shown:?}");
}

#[test]
fn a_note_explains_escapes_by_number() {
    let notes = |items: &str| match &Card::of("f", format!("leaf a : str, {items}\n").as_bytes()).outcome {
        Outcome::Walked(walked) => walked.notes(),
        other => panic!("{other:?}"),
    };
    let note = r"in a text \xHH stands for one byte, and \u{..} for a character that is not shown.";
    assert_eq!(notes(r#"text {"caf\xe9"}"#), [note]);
    assert_eq!(notes(r#"text {"a", "\u{200f}"}"#), [note]);
    assert_eq!(notes(r#"text {"a\\x", "\"\n\t", "\u{e9}", "\x41"}"#), [""; 0]);
}

/// A problem quotes its line, which may hold what a screen obeys.
#[test]
fn problems_show_nothing_raw() {
    for c in CHARACTERS.chars() {
        for source in
            [format!("leaf a : str, text {{\"{c}\\q\"}}\n"), format!("leaf a : str, text {{\"{c}\" x\n"), format!("leaf {c}\u{202e}\n")]
        {
            let card = Card::of("f", source.as_bytes());
            let err = card.render().1;
            let document = json::document(std::slice::from_ref(&card)).write();
            assert_eq!([&err, &document].map(|output| unseen(output)), [None; 2], "{source:?}");
            json_reader::read(&document).unwrap();
        }
    }
}
