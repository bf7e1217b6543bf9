//! Single calls: generated, stored, and bad ones.

use crate::draw;
use crate::guard::{Expected, Guard, Request, FILLER, SINGLES};
use crate::judge;
use crate::tally::Tally;
use oracle_list::form::{self, hex, Call, POOL};
use oracle_list::generate;
use oracle_list::random::Random;
use oracle_list::sheet::{LONGEST, MOST_TEXT};
use oracle_list::text;

fn judged(call: &Request) -> Expected {
    judge::answer(
        call.component,
        call.node,
        call.left,
        call.right,
        call.out_len,
    )
}

fn request(call: &Call) -> Request<'_> {
    Request {
        component: call.component,
        node: call.node,
        left: &call.left,
        right: &call.right,
        out_len: call.out_len,
    }
}

fn show(name: &str, fault: &str, call: &Request, wanted: &Expected) -> String {
    let (left, right) = (hex(call.left), hex(call.right));
    format!(
        "{name}: {fault}; call {} {} {left} {right} {}; wanted {} {}",
        call.component,
        call.node,
        call.out_len,
        wanted.code,
        hex(&wanted.bytes)
    )
}

/// Generated calls, answered by the proved library, the port and the oracle;
/// Pool's, those with texts that are no UTF-8 and range Subtracts by the first two.
pub fn generated(seed: u64, count: usize) -> Tally {
    let mut random = Random::new(seed);
    let (mut guard, mut tally) = (Guard::default(), Tally::default());
    for _ in 0..count {
        let mut drawn = draw::call(&mut random);
        let mut wanted = judged(&request(&drawn));
        drawn.out_len = draw::out_len(&mut random, wanted.bytes.len());
        if drawn.out_len < wanted.bytes.len() {
            wanted = judged(&request(&drawn));
        }
        hold(&mut guard, &mut tally, &request(&drawn), &wanted);
    }
    tally
}

fn hold(guard: &mut Guard, tally: &mut Tally, call: &Request, wanted: &Expected) {
    count(tally, call, wanted);
    for (name, answer) in SINGLES {
        if let Err(fault) = guard.check(answer, call, wanted) {
            tally.differ(|| show(name, &fault, call, wanted));
        }
    }
}

fn count(tally: &mut Tally, call: &Request, wanted: &Expected) {
    tally.count(wanted.code);
    let read = (call.component, call.left, call.right);
    tally.count_texts(read, wanted.code, &wanted.bytes);
    tally.count_subtract(read, wanted.code, &wanted.bytes);
    tally.count_lists(read, wanted.code, &wanted.bytes);
    tally.count_repeats(call.component, call.left, &wanted.bytes);
    tally.count_range(call.component, &wanted.bytes);
    if call.component == POOL {
        tally.count_pool(wanted.code, &wanted.bytes);
    }
}

/// The stored list, replayed by the proved library and the port.
pub fn stored(text: &str) -> Result<Tally, String> {
    let (mut guard, mut tally) = (Guard::default(), Tally::default());
    for line in form::parse_list(text)? {
        let wanted = Expected {
            code: line.answer.code,
            bytes: line.answer.bytes,
        };
        hold(&mut guard, &mut tally, &request(&line.call), &wanted);
    }
    Ok(tally)
}

/// The longest sheet without texts.
const SHORTER: usize = LONGEST - MOST_TEXT;
const LENGTHS: [usize; 8] = [
    0,
    79,
    80,
    SHORTER,
    LONGEST - 1,
    LONGEST,
    LONGEST + 1,
    70_000,
];
const OUTPUTS: [usize; 7] = [0, 79, 80, LONGEST - 1, LONGEST, LONGEST + 1, 70_000];
const COMPONENTS: [u32; 14] = [0, 1, 2, 3, 4, 5, 6, 7, 8, 9, POOL, 11, 200, u32::MAX];

/// Any bytes in any argument.
pub fn bad(seed: u64) -> Tally {
    let mut random = Random::new(seed);
    let (mut guard, mut tally) = (Guard::default(), Tally::default());
    for component in COMPONENTS {
        for left_len in LENGTHS {
            for right_len in LENGTHS {
                for out_len in OUTPUTS {
                    let left = any_bytes(&mut random, left_len);
                    let right = any_bytes(&mut random, right_len);
                    let node = random.word() as u32;
                    let call = Request {
                        component,
                        node,
                        left: &left,
                        right: &right,
                        out_len,
                    };
                    hold(&mut guard, &mut tally, &call, &judged(&call));
                }
            }
        }
    }
    shared(&mut random, &mut guard, &mut tally);
    tally
}

/// Zeros, ones, noise, small numbers, or a sheet cut or filled to the length.
fn any_bytes(random: &mut Random, length: usize) -> Vec<u8> {
    match random.below(9) {
        7 | 8 => filled(random, length),
        6 => {
            // Sizes of 0 let 80 bytes of noise come as far as check 4.
            let sizes = |at: usize| at < 6 || at == 26 || at == 27;
            let noise = |at| match sizes(at) {
                true => 0,
                false => random.word() as u8,
            };
            (0..length).map(noise).collect()
        }
        0 => vec![0; length],
        1 => vec![0xff; length],
        2 => (0..length).map(|_| random.word() as u8).collect(),
        3 => (0..length).map(|_| random.below(3) as u8).collect(),
        _ => {
            let mut bytes = generate::valid_sheet(random).encode();
            bytes.resize(length, if random.percent(50) { 0 } else { FILLER });
            bytes
        }
    }
}

/// A text sheet of about this length, whose area's size or values may depart.
fn filled(random: &mut Random, length: usize) -> Vec<u8> {
    let mut bytes = text::bytes("T{127#8,a*8} groups=1:i1,2:b1,3:s3,4:i4");
    let values = 80 + 13 * 4 + 128;
    let area = (length + MOST_TEXT).saturating_sub(LONGEST) as u16;
    match random.below(6) {
        // The area takes what the length leaves, and the texts do not fill it.
        0 => bytes[26..28].copy_from_slice(&area.to_le_bytes()),
        1 => bytes[random.pick(&[26, 27])] = random.word() as u8,
        2 => bytes[values + random.below(8 * 128)] ^= 1 << random.below(8),
        3 => {
            // Lengths that add up in 32 bits alone.
            let end = u32::MAX - random.below(8) as u32;
            bytes[values + 4..values + 8].copy_from_slice(&end.to_le_bytes());
            bytes[values + 8..values + 12].copy_from_slice(&end.to_le_bytes());
            let rest = 16u32.wrapping_sub(end);
            bytes[values + 12..values + 16].copy_from_slice(&rest.to_le_bytes());
        }
        _ => (),
    }
    bytes.resize(length, random.word() as u8);
    bytes
}

/// Operands that share bytes: one slice twice, and shifted parts of one buffer.
fn shared(random: &mut Random, guard: &mut Guard, tally: &mut Tally) {
    for component in COMPONENTS {
        for _ in 0..400 {
            let sheet = generate::valid_sheet(random).encode();
            let length = sheet.len();
            let same = [(0, length), (0, length)];
            hold_shared(guard, tally, component, &sheet, same, length + 2000);
            let shift = random.below(length);
            for parts in [
                [(0, length), (shift, length - shift)],
                [(shift, length - shift), (0, length)],
                [(0, length - shift), (shift, length - shift)],
            ] {
                hold_shared(guard, tally, component, &sheet, parts, LONGEST);
            }
        }
        let (buffer, parts) = tail_is_a_head();
        hold_shared(guard, tally, component, &buffer, parts, 200);
    }
}

/// Two permitted sheets, the second of which begins inside the first: left's
/// last 18 bytes (an absent lower, an upper) are the front of right's head.
pub fn tail_is_a_head() -> (Vec<u8>, [(usize, usize); 2]) {
    let mut buffer = text::bytes("W[_,257] type=Unknown");
    let right =
        text::bytes("absent type=Unknown notempty=1 ordered=1 c=0 aggregator=0 rows=1 columns=1");
    let start = buffer.len() - 18;
    buffer.extend(&right[18..]);
    (buffer, [(0, start + 18), (start, right.len())])
}

fn hold_shared(
    guard: &mut Guard,
    tally: &mut Tally,
    component: u32,
    buffer: &[u8],
    parts: [(usize, usize); 2],
    out_len: usize,
) {
    let [(left, left_len), (right, right_len)] = parts;
    let call = Request {
        component,
        node: 7,
        left: &buffer[left..left + left_len],
        right: &buffer[right..right + right_len],
        out_len,
    };
    let wanted = judged(&call);
    count(tally, &call, &wanted);
    for (name, answer) in SINGLES {
        if let Err(fault) = guard.check_shared(answer, &call, buffer, parts, &wanted) {
            tally.differ(|| show(name, &fault, &call, &wanted));
        }
    }
}

#[cfg(test)]
mod tests {
    use super::*;
    use oracle_list::cases;
    use oracle_list::form::{Answer, Mark};
    use oracle_list::stats::reachable;

    #[test]
    fn generated_calls_agree() {
        let tally = generated(1, 8000);
        assert_eq!(tally.differences, 0, "{tally}");
        for code in reachable(POOL) {
            assert!(tally.of_pool(*code) > 0, "no {code} of Pool: {tally}");
        }
        assert!(tally.pooled().iter().all(|count| *count > 20), "{tally}");
        let texts = tally.texts();
        assert!(
            texts.joined > 20 && texts.united > 20 && texts.other > 50,
            "{tally}"
        );
        assert!(texts.long_joins > 2 && texts.long_unions > 1, "{tally}");
        for code in [0, 18, 24, 27] {
            assert!(tally.of_subtract(code) > 0, "no {code} of ranges: {tally}");
        }
        let results = tally.subtracted();
        assert!(results.iter().all(|count| *count > 20), "{tally}");
        let ranges = tally.ranges();
        assert!(ranges.of.iter().all(|count| *count > 20), "{tally}");
        assert!(ranges.infinite > 2, "{tally}");
        let counts = tally.counts();
        assert!(counts.sides.iter().min() > Some(&40), "{tally}");
        assert!(counts.kinds.iter().min() > Some(&20), "{tally}");
        assert!(counts.taken.iter().min() > Some(&3), "{tally}");
        assert!(counts.unused > 20, "{tally}");
        assert!(tally.listed().iter().min() > Some(&20), "{tally}");
        let repeats = tally.repeats();
        assert!(repeats.lost > 10 && repeats.repeating > 10, "{tally}");
        assert!(repeats.spared > 0 && repeats.spared_own > 0, "{tally}");
        assert!(
            tally.of(0) > 400 && tally.of(3) > 100 && tally.of(4) > 100 && tally.of(27) > 20,
            "{tally}"
        );
    }

    /// The named cases that no oracle answers: Pool's, texts of any bytes, and range
    /// Subtracts.
    #[test]
    fn cases_without_an_oracle_answer_as_expected() {
        let others = cases::raw().into_iter().chain(cases::differences());
        for case in cases::pool().into_iter().chain(others) {
            for (name, answer) in SINGLES {
                let call = &case.call;
                let mut bytes = vec![FILLER; call.out_len];
                let (component, node) = (call.component, call.node);
                let (code, length) = answer(component, node, &call.left, &call.right, &mut bytes);
                assert!(bytes[length as usize..].iter().all(|byte| *byte == FILLER));
                bytes.truncate(length as usize);
                let mark = Mark::Added;
                let checked = case.check(&Answer { code, bytes, mark });
                assert_eq!(checked, Ok(()), "{name}");
            }
        }
    }

    #[test]
    fn overlapping_sheets_are_permitted() {
        let (buffer, [left, right]) = tail_is_a_head();
        let part = |(at, len): (usize, usize)| &buffer[at..at + len];
        assert_eq!(plain_port::check_sheet(part(left)), 0);
        assert_eq!(plain_port::check_sheet(part(right)), 0);
        let answer = oracle_original::answer(2, 7, part(left), part(right), 200);
        assert_eq!(answer.code, 0);
    }

    /// A wrong answer is seen: the reply, a byte of the result, a byte behind it.
    #[test]
    fn a_wrong_answer_is_a_difference() {
        let call = Call {
            component: 2,
            node: 1,
            left: text::bytes("W[1,2]"),
            right: text::bytes("W[10,20]"),
            out_len: 120,
        };
        let wanted = judged(&request(&call));
        let check = |answer| Guard::default().check(answer, &request(&call), &wanted);
        assert!(check(plain_port::propagate_property).is_ok());
        assert!(check(|c, n, l, r, out| (
            0,
            plain_port::propagate_property(c, n, l, r, out).1 + 1
        ))
        .is_err());
        assert!(check(|c, n, l, r, out| {
            let reply = plain_port::propagate_property(c, n, l, r, out);
            out[97] ^= 1;
            reply
        })
        .is_err());
        assert!(check(|c, n, l, r, out| {
            let reply = plain_port::propagate_property(c, n, l, r, out);
            out[98] ^= 1;
            reply
        })
        .is_err());
    }
}
