//! JSON and pictures say what the card says.

use crate::{example_names, gate, json_reader, root, unseen, xml_reader};
use gate_runtime::cards::{Card, Outcome};
use gate_runtime::{json, svg};
use std::fs;

fn card(name: &str) -> Card {
    let file = format!("examples/{name}.plan");
    Card::of(&file, &fs::read(root().join(&file)).unwrap())
}

fn picture(card: &Card) -> Vec<String> {
    let Outcome::Walked(walked) = &card.outcome else { panic!("{} has no picture", card.file) };
    xml_reader::read(&svg::picture(&card.file, walked)).unwrap()
}

#[test]
fn json_of_every_example_can_be_read() {
    for name in example_names() {
        let run = gate(&["cards", "--json", &format!("examples/{name}.plan")]);
        let document = json_reader::read(&run.out).unwrap_or_else(|error| panic!("{name}: {error}"));
        let plan = &document.at("plans").list()[0];
        assert_eq!(plan.at("file").text(), format!("examples/{name}.plan"));
        let codes = [("accepted", 0), ("refused", 1), ("malformed", 2)];
        let code = codes.iter().find(|(word, _)| *word == plan.at("outcome").text()).expect("a known outcome").1;
        assert_eq!(run.code, Some(code));
        assert_eq!(run.err, "");
    }
}

#[test]
fn json_says_what_the_card_says() {
    let document = json_reader::read(&json::document(&[card("ratio")]).write()).unwrap();
    let plan = &document.at("plans").list()[0];
    let flow = &plan.at("nodes").list()[1];
    assert_eq!(flow.at("name").text(), "flow");
    let second = &flow.at("sheet").at("ranges").list()[1];
    assert_eq!((second.at("lower"), second.at("upper").number()), (&json_reader::Value::Null, "4.0"));
    assert_eq!(second.at("text").text(), "[-inf, +4.0]");
    let refusal = plan.at("refusal");
    assert_eq!((refusal.at("number").number(), refusal.at("name").text()), ("23", "per_flow"));
    assert!(refusal.at("causes").list()[0].text().starts_with("column 2: left `heat`"));
    let problems = json_reader::read(&json::document(&[card("misspelt")]).write()).unwrap();
    let problems = problems.at("plans").list()[0].at("problems").list().to_vec();
    assert_eq!(problems.len(), 4);
    assert_eq!(problems[3].at("help").text(), "did you mean `sum`?");
}

#[test]
fn json_and_picture_tell_an_infinite_end_from_an_absent_one() {
    let card = card("overflow");
    let document = json_reader::read(&json::document(std::slice::from_ref(&card)).write()).unwrap();
    let plan = &document.at("plans").list()[0];
    let gap = plan.at("nodes").list()[2].at("sheet").at("ranges").list()[0].clone();
    assert_eq!((gap.at("lower").text(), gap.at("upper").number(), gap.at("text").text()), ("-inf", "1.0", "[-overflow, +1.0]"));
    let refusal = plan.at("refusal");
    assert_eq!((refusal.at("number").number(), refusal.at("name").text()), ("5", "distance"));
    assert_eq!(refusal.at("causes").list()[0].text(), "operand `gap`, column 1: [-overflow, +1.0]: the lower end is infinite");
    assert!(picture(&card).contains(&"[-overflow, +1.0]".to_string()));
}

#[test]
fn json_and_picture_show_lists_that_do_not_go_with_the_columns() {
    let card = card("third_pump");
    let document = json_reader::read(&json::document(std::slice::from_ref(&card)).write()).unwrap();
    let plan = &document.at("plans").list()[0];
    let speed = plan.at("nodes").list()[0].at("sheet").clone();
    assert_eq!((speed.at("categories").list().len(), speed.at("columns").number()), (2, "3"));
    let refusal = plan.at("refusal");
    assert_eq!((refusal.at("number").number(), refusal.at("name").text()), ("29", "setting"));
    assert_eq!(refusal.at("sentence").text(), "The number of category lists is neither one nor the output's column count.");
    let causes: Vec<&str> = refusal.at("causes").list().iter().map(|cause| cause.text()).collect();
    assert_eq!(causes, ["left `speed`: 2 category lists, while the output has 3 columns: one list is wanted, or one for each column"]);
    let texts = picture(&card);
    assert!(texts.contains(&"2: {+0, +1}".to_string()) && texts.contains(&"all: {+0, +1}".to_string()), "{texts:?}");
}

/// What is plotted from the document has one bar for -3 and 3.
#[test]
fn json_and_picture_show_each_distance_once() {
    let card = card("set_point");
    let document = json_reader::read(&json::document(std::slice::from_ref(&card)).write()).unwrap();
    let nodes = document.at("plans").list()[0].at("nodes").list().to_vec();
    let lists = |node: usize| -> Vec<Vec<&str>> {
        let lists = nodes[node].at("sheet").at("categories").list();
        lists.iter().map(|list| list.list().iter().map(|value| value.number()).collect()).collect()
    };
    assert_eq!(lists(0), [vec!["-3", "3"], vec!["3", "-1", "1", "0"]]);
    assert_eq!(lists(2), [vec!["3"], vec!["3", "1", "0"]]);
    assert_eq!(lists(3), [vec!["30"], vec!["30", "10", "0"]]);
    let texts = picture(&card);
    assert!(texts.contains(&"1: {+3}".to_string()) && texts.contains(&"2: {+3, +1, +0}".to_string()), "{texts:?}");
}

#[test]
fn json_and_picture_show_pool_by_its_word() {
    let card = card("twin_plants");
    let document = json_reader::read(&json::document(std::slice::from_ref(&card)).write()).unwrap();
    let plan = &document.at("plans").list()[0];
    let both = &plan.at("nodes").list()[5];
    assert_eq!((both.at("component").text(), both.at("state").text()), ("pool", "derived"));
    let operands: Vec<&str> = both.at("operands").list().iter().map(|node| node.number()).collect();
    assert_eq!(operands, ["0", "1"]);
    assert_eq!((both.at("sheet").at("rows").number(), both.at("sheet").at("dataset")), ("136", &json_reader::Value::Null));
    let alarms = &plan.at("nodes").list()[8];
    assert_eq!(alarms.at("sheet").at("nature").text(), "bool categories");
    assert!(plan.at("notes").list()[0].text().starts_with("node 5 `both`: its dataset id is absent"));
    assert!(picture(&card).contains(&"5: pool north south".to_string()));
}

#[test]
fn json_keeps_every_number_exact() {
    let source = format!("leaf a : int, whole [{}, {}], rows 1, releasable\n", i64::MIN, i64::MAX)
        + "leaf b : float, float {nan, -inf, 0.1, -0.0}, sample nan\nleaf c : float, float [1e308, 1.7e308], rows 1, releasable\nd = add c c\n";
    let text = json::document(&[Card::of("a \"quoted\"\\ name\u{1}", source.as_bytes())]).write();
    let document = json_reader::read(&text).unwrap();
    let plan = &document.at("plans").list()[0];
    assert_eq!(plan.at("file").text(), "a \"quoted\"\\ name\u{1}");
    let sheet = |node: usize| plan.at("nodes").list()[node].at("sheet").clone();
    let range = sheet(0).at("ranges").list()[0].clone();
    assert_eq!((range.at("lower").number(), range.at("upper").number()), ("-9223372036854775808", "9223372036854775807"));
    let list = sheet(1).at("categories").list()[0].clone();
    assert_eq!((list.list()[0].text(), list.list()[1].text()), ("nan", "-inf"));
    assert_eq!((list.list()[2].number(), list.list()[3].number()), ("0.1", "-0.0"));
    assert_eq!(sheet(3).at("ranges").list()[0].at("upper").text(), "inf");
    assert_eq!(sheet(3).at("ranges").list()[0].at("text").text(), "[+overflow, +overflow]");
}

#[test]
fn pictures_of_all_plans_are_well_formed_and_hold_the_ranges() {
    for name in example_names().iter().filter(|name| *name != "misspelt") {
        let card = card(name);
        let texts = picture(&card);
        let Outcome::Walked(walked) = &card.outcome else { panic!("{name} is a plan") };
        for node in 0..walked.nodes() {
            assert!(texts.iter().any(|text| text == walked.name(node)), "{name}: node {node}");
            assert!(texts.contains(&format!("{node}: {}", walked.origin(node))), "{name}: node {node}");
        }
        if let Some(stop) = walked.stop() {
            assert!(texts.contains(&format!("Refused: {}", stop.place)), "{name}: {}", stop.place);
        }
    }
    assert!(picture(&card("pumps")).contains(&"1: [-0.612, +14.484]".to_string()));
}

#[test]
fn a_file_name_cannot_break_a_picture_or_json() {
    let name = "<&\"'>\u{1}\u{ffff}\u{202e}\u{e0001}.plan";
    let card = Card::of(name, b"leaf a : int, whole [-5, 3]\nb = add a a\n");
    assert!(picture(&card).contains(&"<&\"'>\u{fffd}\u{fffd}\u{fffd}\u{fffd}.plan: accepted".to_string()));
    let text = json::document(&[card]).write();
    assert_eq!((unseen(&text), json_reader::read(&text).unwrap().at("plans").list()[0].at("file").text()), (None, name));
}

/// The deepest and the widest plan: boxes of a layer never overlap.
#[test]
fn boxes_do_not_overlap() {
    let mut deep = "leaf n0 : int, whole [0, 1], rows 1, releasable\n".to_string();
    (1..32).for_each(|k| deep += &format!("n{k} = add n{} n0\n", k - 1));
    let mut wide: String = (0..16).map(|k| format!("leaf n{k} : int, whole [0, 1], rows 1, releasable\n")).collect();
    (16..32).for_each(|k| wide += &format!("n{k} = multiply n{} n{}\n", k - 16, (k * 7) % 16));
    for source in [deep, wide] {
        let card = Card::of("f", source.as_bytes());
        let Outcome::Walked(walked) = &card.outcome else { panic!("a plan") };
        let text = svg::picture("f", walked);
        let attribute = |tag: &str, name: &str| -> f64 {
            let value = tag.split_once(&format!(" {name}=\"")).expect("the attribute").1;
            value.split('"').next().and_then(|v| v.parse().ok()).expect("a number")
        };
        let boxes: Vec<[f64; 4]> = text
            .lines()
            .filter(|line| line.starts_with("<rect") && !line.contains("paper"))
            .map(|line| ["x", "y", "width", "height"].map(|name| attribute(line, name)))
            .collect();
        assert_eq!(boxes.len(), 32);
        for (place, a) in boxes.iter().enumerate() {
            for b in &boxes[place + 1..] {
                let apart = a[0] + a[2] < b[0] || b[0] + b[2] < a[0] || a[1] + a[3] < b[1] || b[1] + b[3] < a[1];
                assert!(apart, "{a:?} and {b:?}");
            }
        }
    }
}
