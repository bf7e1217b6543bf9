//! The oracle as a whole: named cases, seeded calls, the decided difference.

use oracle_list::cases;
use oracle_list::form::{Call, Mark, MISCOUNTED, POOL, SUBTRACT};
use oracle_list::generate::call_of;
use oracle_list::random::Random;
use oracle_list::sheet::{Sheet, LONGEST};
use oracle_list::stats::reachable;
use oracle_list::text::bytes;
use oracle_original::select::{drawn, fresh, perhaps_fresh};
use oracle_original::{answer, asked};

#[test]
fn named_cases_answer_as_expected() {
    let mut faults = Vec::new();
    for case in cases::all() {
        let line = fresh(case.call.clone());
        if let Err(fault) = case.check(&line.answer) {
            faults.push(fault);
        }
    }
    assert!(faults.is_empty(), "{:#?}", faults);
}

/// Every result is a sheet of the byte form, of at most the longest length, and
/// every answer is one its component can give.
#[test]
fn seeded_calls_give_sheets() {
    let mut random = Random::new(5);
    for _ in 0..20_000 {
        let line = drawn(&mut random);
        let code = line.answer.code;
        if code == 0 {
            let sheet = Sheet::decode_unordered(&line.answer.bytes);
            assert_eq!(sheet.map(|s| s.encode()), Ok(line.answer.bytes.clone()));
            assert!(line.answer.bytes.len() <= LONGEST);
        } else {
            assert!(reachable(line.call.component).contains(&code), "{}", line);
            assert!(line.answer.bytes.is_empty());
        }
    }
}

/// One byte less than the result's length is 27, its length is not.
#[test]
fn outputs_are_exact() {
    let mut random = Random::new(6);
    for _ in 0..5_000 {
        let mut line = drawn(&mut random);
        let Call { out_len, .. } = &mut line.call;
        *out_len = line.answer.bytes.len();
        assert_eq!(fresh(line.call.clone()), line);
        if line.answer.code == 0 {
            line.call.out_len -= 1;
            let answer = fresh(line.call).answer;
            assert_eq!((answer.code, answer.bytes.len()), (27, 0));
        }
    }
}

fn log(data: &str, base: &str) -> (u32, Mark) {
    let answer = answer(7, 1, &bytes(data), &bytes(base), LONGEST);
    (answer.code, answer.mark)
}

#[test]
fn log_over_whole_ranges_is_decided() {
    for data in ["W[2,3]", "W[0,3]", "W[2,3] columns=_", "W[2,3]*3"] {
        let data = format!("{} type=Float", data);
        assert_eq!(log(&data, "W[2,2]"), (15, Mark::Decided), "{}", data);
    }
    let private = "W[2,3] type=Float releasable=0 groups=1:i1";
    assert_eq!(log(private, "W[2,2] releasable=0"), (15, Mark::Decided));
}

#[test]
fn log_is_the_originals_elsewhere() {
    assert_eq!(log("W[2,3] type=Float", "W[1,2]"), (16, Mark::Rust));
    assert_eq!(log("W[2,3] type=Float", "W[2,_]"), (15, Mark::Rust));
    assert_eq!(log("W[_,3] type=Float", "W[2,2]"), (15, Mark::Rust));
    assert_eq!(log("W[2,3]", "W[2,2]"), (14, Mark::Rust));
    assert_eq!(log("W[2,3] type=Float", "F[2.0,2.0]"), (17, Mark::Rust));
    assert_eq!(log("F[2.0,3.0] type=Float", "F[2.0,2.0]"), (0, Mark::Rust));
}

/// Pool's sheets are checked as all are; two that pass have no answer.
#[test]
fn pool_is_not_answered() {
    let code = |left, right| answer(POOL, 1, &bytes(left), &bytes(right), LONGEST).code;
    assert_eq!(code("W[1,2]", "empty"), 3);
    assert_eq!(code("W[1,2] @25=1", "empty"), 4);
    assert_eq!(code("W[1,2]", "W[2,1]"), 5);
    let ended = std::panic::catch_unwind(|| code("W[1,2]", "W[1,2]"));
    let payload = ended.expect_err("no answer");
    let text = payload.downcast_ref::<String>().expect("a text");
    assert!(text.starts_with("oracle failure: the original has no Pool; the call: 10 1 "));
}

/// Ranges under Subtract are answered up to 17; their ends are document 02's.
#[test]
fn range_subtract_is_not_answered() {
    let code = |left, right| {
        let answer = asked(SUBTRACT, 1, &bytes(left), &bytes(right), LONGEST);
        answer.map(|answer| answer.code)
    };
    assert_eq!(code("W[1,2]", "W[2,1]"), Some(5));
    let private = "W[1,2] releasable=0 groups=1:i1";
    assert_eq!(code(private, "W[1,2] releasable=0"), Some(8));
    assert_eq!(code("W[1,2]*3", "W[1,2] type=Float"), Some(14));
    assert_eq!(code("W[1,2]*3", "F[1.0,2.0]"), Some(17));
    assert_eq!(code("W[1,2]", "W{1}"), Some(0));
    assert_eq!(code("W{1}", "W{1}"), Some(0));
    let least = "W[-9223372036854775808,0]";
    for (left, right) in [
        ("W[0,1]", "W[0,5]"),
        ("F[0.0,1.0]", "F[0.0,5.0]"),
        ("W[1,2]*3", "W[1,2]"),
        (least, "W[1,1]"),
        ("W[_,_]", "W[_,_]"),
    ] {
        assert_eq!(code(left, right), None, "{} - {}", left, right);
    }
    let short = asked(SUBTRACT, 1, &bytes("W[0,1]"), &bytes("W[0,5]"), 0);
    assert_eq!(short, None);
    let call = || answer(SUBTRACT, 1, &bytes("W[0,1]"), &bytes("W[0,5]"), LONGEST);
    let payload = std::panic::catch_unwind(call).expect_err("no answer");
    let text = payload.downcast_ref::<String>().expect("a text");
    assert!(text
        .starts_with("oracle failure: range Subtract is held against document 02; the call: 3 1 "));
}

/// What leaves the runs is Subtract's of two ranges of one kind alone.
#[test]
fn no_other_call_is_passed_over() {
    let mut random = Random::new(8);
    let mut kept = [0; 2];
    for component in 1..=9 {
        for _ in 0..1000 {
            let call = call_of(&mut random, component);
            let natures = (call.left.get(6).copied(), call.right.get(6).copied());
            let line = perhaps_fresh(call);
            assert!(line.is_some() || component == SUBTRACT);
            if component == SUBTRACT {
                kept[usize::from(line.is_some())] += 1;
            }
            if let (None, (left, right)) = (line, natures) {
                assert!(left == right && (left == Some(1) || left == Some(2)));
            }
        }
    }
    assert!(kept[0] > 200 && kept[1] > 400, "{:?}", kept);
}

/// Texts that are no UTF-8 are checked as all are, and have no answer behind that.
#[test]
fn other_bytes_are_not_answered() {
    let code = |left, right| answer(2, 1, &bytes(left), &bytes(right), LONGEST).code;
    assert_eq!(code("T{a}", "T{\\c3\\a9}"), 0);
    assert_eq!(code("T{\\e2\\82}", "empty"), 3);
    assert_eq!(code("T{\\e2\\82} @25=1", "T{a}"), 4);
    for operands in [["T{\\e2\\82}", "T{a}"], ["T{a}", "T{\\ac}"]] {
        let ended = std::panic::catch_unwind(|| code(operands[0], operands[1]));
        let payload = ended.expect_err("no answer");
        let text = payload.downcast_ref::<String>().expect("a text");
        assert!(text.starts_with("oracle failure: a text is no UTF-8; the call: 2 1 "));
    }
}

/// 22 of texts is the original's; 26 and 28 are added, in this order.
#[test]
fn texts_that_are_refused() {
    let mark = |component, left, right| {
        let answer = answer(component, 1, &bytes(left), &bytes(right), LONGEST);
        (answer.code, answer.mark)
    };
    for component in [1, 3, 4, 5, 9] {
        assert_eq!(mark(component, "T{a}", "T{a}"), (22, Mark::Rust));
    }
    assert_eq!(mark(2, "T{a*600}", "T{a*424}"), (0, Mark::Rust));
    assert_eq!(mark(2, "T{a*600}", "T{a*425}"), (28, Mark::Added));
    assert_eq!(mark(2, "T{12#50}", "T{11#50}"), (26, Mark::Added));
}

/// 29 is added where the original would map or combine such lists, or refuse them
/// behind 20; what it refuses before, and mixed natures, stay its own.
#[test]
fn lists_are_counted() {
    let mark = |component, left, right| {
        let answer = answer(component, 1, &bytes(left), &bytes(right), LONGEST);
        (answer.code, answer.mark)
    };
    let (two, one) = ("W{1}{2} columns=3", "W{1} columns=3");
    for component in [1, 2, 3, 4, 5, 9] {
        assert_eq!(mark(component, two, one), (29, Mark::Added));
    }
    for other in ["F{1.0} columns=3", "Wlists columns=3", "B{1} columns=3"] {
        assert_eq!(mark(2, two, other), (29, Mark::Added), "{}", other);
    }
    assert_eq!(mark(2, "F{1.0} columns=3", two), (19, Mark::Rust));
    assert_eq!(mark(2, "Wlists columns=3", two), (20, Mark::Rust));
    assert_eq!(mark(2, "B{1} columns=3", two), (29, Mark::Added));
    assert_eq!(mark(2, two, "W{1} type=Float"), (14, Mark::Rust));
    assert_eq!(mark(6, two, two), (15, Mark::Rust));
    for mixed in ["W[1,2] columns=3", "absent columns=3"] {
        assert_eq!(mark(2, two, mixed), (0, Mark::Rust), "{}", mixed);
        assert_eq!(mark(2, mixed, two), (0, Mark::Rust), "{}", mixed);
    }
    assert_eq!(mark(2, "W{1}{2}", "W{1} columns=2"), (0, Mark::Rust));
}

/// Abs and Negative answer with first occurrences, list by list, and 26 counts them;
/// where one went the answer is not the original's own. 24 comes before 26.
#[test]
fn mapped_lists_lose_repeats() {
    let mapped = |component, left: &str| {
        let found = answer(component, 1, &bytes(left), &[], LONGEST);
        (found.code, found.mark, found.bytes)
    };
    let (added, rust) = (Mark::Added, Mark::Rust);
    let pairs = |columns| format!("W{{+-1..64}} columns={}", columns);
    for (component, left, mark, derived) in [
        (1, "W{-3,3}", added, "W{3}"),
        (1, "W{2,-3,3,-2,2}", added, "W{2,3}"),
        (1, "W{0,-1,1}{5,-5} columns=2", added, "W{0,1}{5} columns=2"),
        (1, "W{3}{-3} columns=2", rust, "W{3}{3} columns=2"),
        // The original takes the operand's own repeats out itself.
        (1, "W{1*128} columns=2", rust, "W{1}*2 columns=2"),
        (1, &pairs(2), added, "W{1..64}*2 columns=2"),
        (9, "W{3,3,-3}", rust, "W{-3,3}"),
    ] {
        assert_eq!(mapped(component, left), (0, mark, bytes(derived)));
    }
    for (component, left, code) in [
        (1, &pairs(3)[..], 26),
        (9, &pairs(2), 26),
        (1, "W{1,-1,-9223372036854775808}", 24),
        (1, "W{1..127,-9223372036854775808} columns=2", 24),
        (1, "W{-3,3}{1} columns=3", 29),
    ] {
        assert_eq!(mapped(component, left), (code, added, Vec::new()));
    }
}

/// Among seeded calls 29 stands where lists are miscounted, and nowhere else.
#[test]
fn seeded_lists_are_counted() {
    let mut random = Random::new(9);
    let mut counted = 0;
    for _ in 0..20_000 {
        let line = drawn(&mut random);
        let refused = line.answer.code == MISCOUNTED;
        assert_eq!(line.miscounted().is_some(), refused, "{}", line);
        counted += usize::from(refused);
    }
    assert!(counted > 500, "{}", counted);
}

/// 24 by a checked operation is the original's; by a panic it is added.
#[test]
fn overflows_are_told_apart() {
    let mark = |component, left, right| {
        let answer = answer(component, 1, &bytes(left), &bytes(right), LONGEST);
        (answer.code, answer.mark)
    };
    let most = "W[9223372036854775807,9223372036854775807]";
    let least = "W[-9223372036854775808,0]";
    assert_eq!(mark(2, most, "W[1,1]"), (24, Mark::Rust));
    let least_list = "W{-9223372036854775808}";
    assert_eq!(mark(3, least_list, "W{1}"), (24, Mark::Rust));
    assert_eq!(mark(5, "W{1}", "W{0}"), (24, Mark::Rust));
    assert_eq!(mark(4, most, "W[2,2]"), (24, Mark::Added));
    assert_eq!(mark(5, least, "W[-1,-1]"), (24, Mark::Added));
    assert_eq!(mark(1, most, "empty"), (24, Mark::Added));
    assert_eq!(mark(9, least, "empty"), (24, Mark::Added));
    assert_eq!(mark(1, least_list, "empty"), (24, Mark::Added));
}
