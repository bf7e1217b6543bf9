//! Sheets and plans in bytes and back, held against the proved reader.

use crate::made::{component, joined, sheet, Draws};
use crate::refusals::cases;
use gate_runtime::{propagate_properties, propagate_property, Nature, Plan, Refusal, Sheet};

/// What the proved plan call says of one leaf: nothing, 3, 4 or 5.
fn judged(sheet: &[u8]) -> Option<Refusal> {
    let plan = Plan::new(1);
    let mut work = plan.work(&[]);
    if sheet.len() > work.len() {
        return Some(Refusal::SheetSize);
    }
    work[..sheet.len()].copy_from_slice(sheet);
    propagate_properties(&plan.encode(), &mut work).err().map(|stopped| stopped.refusal)
}

/// What the proved single call says of a sheet, which must have exactly its length.
fn judged_alone(sheet: &[u8]) -> Option<Refusal> {
    let reply = propagate_property(9, 0, sheet, &[], &mut []);
    reply.err().filter(|refusal| (3..=5).contains(&refusal.code()))
}

#[test]
fn encoded_sheets_pass_the_proved_reader_and_come_back() {
    let mut draws = Draws::new(7);
    for _ in 0..20_000 {
        let sheet = sheet(&mut draws);
        let bytes = sheet.encode();
        assert!(matches!(judged(&bytes), None | Some(Refusal::BadBound)), "{sheet:?}");
        assert_eq!(judged(&bytes), judged_alone(&bytes));
        let back = Sheet::decode(&bytes).unwrap();
        assert_eq!(back, sheet);
        assert_eq!(back.encode(), bytes);
    }
}

/// Of a text sheet, the texts in value order are the area, and any bytes come back.
#[test]
fn texts_of_any_bytes_come_back() {
    let mut draws = Draws::new(15);
    let mut seen = 0;
    for _ in 0..20_000 {
        let sheet = sheet(&mut draws);
        let Nature::TextCategories(lists) = &sheet.nature else {
            assert_eq!(sheet.encode()[26..28], [0, 0]);
            continue;
        };
        let bytes = sheet.encode();
        let area = joined(&sheet.nature);
        assert_eq!(bytes[26..28], (area.len() as u16).to_le_bytes());
        assert!(bytes.ends_with(&area));
        let back = Sheet::decode(&bytes).unwrap();
        assert!(matches!(&back.nature, Nature::TextCategories(found) if found == lists));
        assert_eq!(judged(&bytes), None, "{sheet:?}");
        seen += usize::from(std::str::from_utf8(&area).is_err());
    }
    assert!(seen > 500, "{seen} sheets with bytes that are no UTF-8");
}

/// Negative twice gives back every whole range, and its bytes.
#[test]
fn negative_twice_gives_the_range_back() {
    let mut draws = Draws::new(8);
    let mut seen = 0;
    for _ in 0..5_000 {
        let first = sheet(&mut draws);
        let mut plan = Plan::new(1);
        let once = plan.unary(gate_runtime::Component::Negative, 0);
        plan.unary(gate_runtime::Component::Negative, once);
        let walk = plan.walk(std::slice::from_ref(&first));
        if walk.outcome.is_err() || first.columns != Some(first.nature.lists() as i64) || !first.nature.is_range() {
            continue;
        }
        assert_eq!(walk.sheets[2].as_ref(), Some(&first));
        seen += 1;
    }
    assert!(seen > 500, "{seen} ranges came back");
}

/// This library's reader says 3 and 4 exactly where the proved call does, and accepted bytes come back.
#[test]
fn damaged_sheets_are_read_as_the_proved_call_reads_them() {
    let mut draws = Draws::new(9);
    let mut counts = [0; 6];
    for _ in 0..60_000 {
        let mut bytes = sheet(&mut draws).encode();
        for _ in 0..draws.below(3) {
            let at = if draws.one_in(2) { draws.below(32) } else { draws.below(bytes.len()) };
            bytes[at] = draws.pick(&[0, 1, 2, 3, 4, 5, 6, 17, 0x7f, 0x80, 0xff]);
        }
        if draws.one_in(10) {
            let length = bytes.len() + 3 - draws.below(6);
            bytes.resize(length, 0);
        }
        let number = judged_alone(&bytes).map_or(0, Refusal::code);
        counts[number as usize] += 1;
        match Sheet::decode(&bytes) {
            Ok(sheet) => {
                assert!(number == 0 || number == 5, "{number}: {bytes:?}");
                assert_eq!(sheet.encode(), bytes);
            }
            Err(fault) => assert_eq!(fault.refusal.code(), number, "{fault}: {bytes:?}"),
        }
    }
    assert!([0, 3, 4, 5].iter().all(|number| counts[*number] > 50), "{counts:?}");
}

#[test]
fn plans_come_back_and_damaged_ones_are_read_as_the_call_reads_them() {
    let mut draws = Draws::new(10);
    let (mut well, mut ill) = (0, 0);
    for _ in 0..20_000 {
        let mut plan = Plan::new(1 + draws.below(3));
        for _ in 0..draws.below(6) {
            let (left, right) = (draws.below(plan.nodes()), draws.below(plan.nodes()));
            let component = component(&mut draws);
            plan.step(component, left, if component.is_unary() { left } else { right });
        }
        let mut bytes = plan.encode();
        assert_eq!(Plan::decode(&bytes).as_ref(), Ok(&plan));
        for _ in 0..draws.below(3) {
            let at = draws.below(bytes.len());
            bytes[at] = draws.pick(&[0, 1, 2, 3, 9, 10, 0xff]);
        }
        // An empty work buffer is 27 for every plan that is not malformed.
        let refusal = propagate_properties(&bytes, &mut []).unwrap_err().refusal;
        match Plan::decode(&bytes) {
            Ok(plan) => {
                well += 1;
                assert_eq!((refusal, plan.encode()), (Refusal::OutputTooShort, bytes));
            }
            Err(fault) => {
                ill += 1;
                assert_eq!((refusal, fault.refusal), (Refusal::MalformedPlan, Refusal::MalformedPlan));
            }
        }
    }
    assert!(well > 1_000 && ill > 1_000, "{well} well formed, {ill} malformed");
}

#[test]
fn cases_of_3_and_4_are_faults_here_too() {
    for case in cases().iter().filter(|case| (3..=4).contains(&case.number)) {
        let faults = [Sheet::decode(&case.left).err(), Sheet::decode(&case.right).err()];
        let first = faults.into_iter().flatten().next().expect("one of the sheets is faulty");
        assert_eq!(first.refusal.code(), case.number);
    }
}
