//! Negative and Abs of float ranges as the original answers them: the port's tests with another answering (document 02, S-3, changes no answer).

#[allow(dead_code)]
#[path = "../../../port/tests/examples/made.rs"]
mod made;
#[path = "../../../port/tests/examples/sign.rs"]
mod sign;

/// Who answers.
mod answering {
    pub fn propagate_property(
        component: u32,
        node: u32,
        left: &[u8],
        right: &[u8],
        out: &mut [u8],
    ) -> (u32, u32) {
        let answer = oracle_original::answer(component, node, left, right, out.len());
        let length = answer.bytes.len();
        out[..length].copy_from_slice(&answer.bytes);
        (answer.code, length as u32)
    }
}
