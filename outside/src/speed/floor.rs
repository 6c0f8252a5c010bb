//! The floor: a loop that only decodes records and writes answers, reasons and origins. No table is judged and no move is made.
use outside::rules::lent::Lent;
use std::hint::black_box;

pub fn run(_table: &[u8], schedule: &[u8], lent: Lent<&mut [u8]>) -> u64 {
    let records = schedule[3..].chunks_exact(6);
    let told = lent.reasons.iter_mut().zip(lent.origins.chunks_exact_mut(2));
    for ((record, bytes), (reason, origin)) in records.zip(lent.answers.chunks_exact_mut(6)).zip(told) {
        let &[kind, a, w0, w1, w2, w3] = record else { unreachable!("six bytes") };
        // Each number in a register of its own: the loop is no copy of bytes.
        let (code, a, word) = (black_box(kind), black_box(a), black_box(u32::from_be_bytes([w0, w1, w2, w3])));
        let [w0, w1, w2, w3] = word.to_be_bytes();
        bytes.copy_from_slice(&[code, a, w0, w1, w2, w3]);
        *reason = 4 * code;
        origin.copy_from_slice(&[a, code]);
    }
    0
}
