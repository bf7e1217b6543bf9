//! One call on guarded buffers: whatever must not change is looked at.

use crate::{proved, Reply};

/// Bytes before and behind every lent buffer.
const MARGIN: usize = 48;
/// What stands in `out` and in the margins before a call.
pub const FILLER: u8 = 0xa5;

pub type Single = fn(u32, u32, &[u8], &[u8], &mut [u8]) -> Reply;

/// The two that are held against the judge.
pub const SINGLES: [(&str, Single); 2] = [
    ("proved", proved::propagate_property),
    ("port", plain_port::propagate_property),
];

/// A call over operands that may share bytes.
pub struct Request<'a> {
    pub component: u32,
    pub node: u32,
    pub left: &'a [u8],
    pub right: &'a [u8],
    pub out_len: usize,
}

/// What the judge says of a call.
pub struct Expected {
    pub code: u32,
    pub bytes: Vec<u8>,
}

/// A buffer as it is lent: a margin on both sides.
#[derive(Clone)]
pub struct Lent(Vec<u8>);

impl Lent {
    pub fn new(bytes: &[u8]) -> Lent {
        let margin = [FILLER; MARGIN];
        Lent([&margin, bytes, &margin].concat())
    }

    pub fn bytes(&self) -> &[u8] {
        &self.0[MARGIN..self.0.len() - MARGIN]
    }

    pub fn bytes_mut(&mut self) -> &mut [u8] {
        let end = self.0.len() - MARGIN;
        &mut self.0[MARGIN..end]
    }

    /// Whether both margins are as they were.
    pub fn is_kept(&self) -> bool {
        let (before, behind) = (&self.0[..MARGIN], &self.0[self.0.len() - MARGIN..]);
        before == [FILLER; MARGIN] && behind == [FILLER; MARGIN]
    }
}

/// Buffers used again from call to call.
#[derive(Default)]
pub struct Guard {
    operands: Vec<u8>,
    copy: Vec<u8>,
    out: Vec<u8>,
}

impl Guard {
    /// Runs a call on copies of the operands; what is wrong, if anything.
    pub fn check(
        &mut self,
        answer: Single,
        call: &Request,
        wanted: &Expected,
    ) -> Result<(), String> {
        self.operands.clear();
        self.operands.resize(MARGIN, FILLER);
        self.operands.extend(call.left);
        self.operands.resize(self.operands.len() + MARGIN, FILLER);
        let right = self.operands.len();
        self.operands.extend(call.right);
        self.operands.resize(self.operands.len() + MARGIN, FILLER);
        let parts = [(MARGIN, call.left.len()), (right, call.right.len())];
        self.run(answer, call, parts, wanted)
    }

    /// Runs a call on two parts of one buffer, which may overlap.
    pub fn check_shared(
        &mut self,
        answer: Single,
        call: &Request,
        buffer: &[u8],
        parts: [(usize, usize); 2],
        wanted: &Expected,
    ) -> Result<(), String> {
        self.operands.clear();
        self.operands.extend(buffer);
        self.run(answer, call, parts, wanted)
    }

    fn run(
        &mut self,
        answer: Single,
        call: &Request,
        [(left, left_len), (right, right_len)]: [(usize, usize); 2],
        wanted: &Expected,
    ) -> Result<(), String> {
        self.copy.clone_from(&self.operands);
        self.out.clear();
        self.out.resize(call.out_len + 2 * MARGIN, FILLER);
        let reply = answer(
            call.component,
            call.node,
            &self.operands[left..left + left_len],
            &self.operands[right..right + right_len],
            &mut self.out[MARGIN..MARGIN + call.out_len],
        );
        if reply != (wanted.code, wanted.bytes.len() as u32) {
            return Err(format!("reply {reply:?}"));
        }
        let (before, rest) = self.out.split_at(MARGIN);
        let (written, behind) = rest.split_at(wanted.bytes.len());
        if written != wanted.bytes {
            return Err("other bytes written".to_string());
        }
        if before.iter().chain(behind).any(|byte| *byte != FILLER) {
            return Err("bytes beside the result changed".to_string());
        }
        if self.copy != self.operands {
            return Err("an operand's buffer changed".to_string());
        }
        Ok(())
    }
}
