//! What the C header declares, and its answers.

use crate::{Accessed, Refusal};

/// `struct gemcotton_answer`.
#[repr(C)]
#[derive(Debug, Clone, Copy)]
pub(crate) struct Answer {
    refusal: usize,
    value: usize,
    nodes: usize,
}

impl Answer {
    /// The value and the nodes opened, or the refusal. Panics where the C header has no such answer.
    #[inline]
    pub(crate) fn outcome(self) -> Result<(usize, usize), Refusal> {
        if self.refusal == 0 {
            return Ok((self.value, self.nodes));
        }
        match Refusal::new(self.refusal, self.value) {
            Some(refusal) if self.nodes == 0 => Err(refusal),
            _ => panic!("the C header has no such answer: {self:?}"),
        }
    }

    /// As `outcome`, of a call that counts no nodes.
    #[inline]
    pub(crate) fn value(self) -> Result<usize, Refusal> {
        let (value, nodes) = self.outcome()?;
        assert_eq!(nodes, 0, "the call counts no nodes");
        Ok(value)
    }

    /// As `outcome`, of a call that gives the nodes alone.
    #[inline]
    pub(crate) fn nodes(self) -> Result<usize, Refusal> {
        let (value, nodes) = self.outcome()?;
        assert_eq!(value, 0, "the call gives the nodes alone");
        Ok(nodes)
    }

    /// As `outcome`, of a call that gives a time.
    #[inline]
    pub(crate) fn time(self) -> Result<Accessed, Refusal> {
        let (time, nodes) = self.outcome()?;
        let time = u32::try_from(time).expect("a time has 32 bits");
        assert_ne!(nodes, 0, "a time has nodes, from the root on");
        Ok(Accessed { time, nodes })
    }

    /// As `time`, of a call that may say end, which is none.
    #[inline]
    pub(crate) fn time_or_end(self) -> Result<Option<Accessed>, Refusal> {
        match self.outcome()? {
            (0, 0) => Ok(None),
            _ => self.time().map(Some),
        }
    }
}

extern "C" {
    pub(crate) fn gemcotton_height(n: usize) -> usize;
    pub(crate) fn gemcotton_root_place(n: usize) -> usize;
    pub(crate) fn gemcotton_rank(n: usize, node: usize) -> usize;
    pub(crate) fn gemcotton_pack(out: *mut u8, out_length: usize, times: *const u32, times_length: usize) -> Answer;
    pub(crate) fn gemcotton_access(strip: *const u8, strip_length: usize, i: usize) -> Answer;
    pub(crate) fn gemcotton_search(strip: *const u8, strip_length: usize, target: u32) -> Answer;
    pub(crate) fn gemcotton_up_to(strip: *const u8, strip_length: usize, time: u32) -> Answer;
    pub(crate) fn gemcotton_sweep(
        answers: *mut u32,
        answers_length: usize,
        strip: *const u8,
        strip_length: usize,
        targets: *const u32,
        targets_length: usize,
    ) -> Answer;
    pub(crate) fn gemcotton_check(strip: *const u8, strip_length: usize) -> Answer;
    pub(crate) fn gemcotton_unpack(out: *mut u32, out_length: usize, strip: *const u8, strip_length: usize) -> Answer;
    pub(crate) fn gemcotton_repeat(strip: *const u8, strip_length: usize, r: u32) -> Answer;
    pub(crate) fn gemcotton_step(next: *mut usize, strip: *const u8, strip_length: usize) -> Answer;
}

#[cfg(test)]
mod tests {
    use super::*;
    use std::panic::catch_unwind;

    /// Whether the answer of these three numbers panics where a call like this reads it.
    fn panics<T>([refusal, value, nodes]: [usize; 3], read: fn(Answer) -> T) -> bool {
        let answer = Answer { refusal, value, nodes };
        catch_unwind(|| read(answer)).is_err()
    }

    #[test]
    fn answers_that_the_header_does_not_have_panic() {
        // No refusal of this number, one that carries nothing, and nodes at a refusal.
        for answer in [[999, 0, 0], [5, 1, 0], [9, 1, 1]] {
            assert!(panics(answer, Answer::outcome));
        }
        assert!(!panics([9, 1, 0], Answer::outcome));
        // Nodes of a call that counts none, and a value of one that gives the nodes alone.
        assert!(panics([0, 7, 1], Answer::value) && !panics([0, 7, 0], Answer::value));
        assert!(panics([0, 1, 3], Answer::nodes) && !panics([0, 0, 3], Answer::nodes));
        // A time without nodes, and one of more than 32 bits. End is not a time.
        assert!(panics([0, 7, 0], Answer::time) && panics([0, 1 << 32, 3], Answer::time));
        assert!(!panics([0, 7, 3], Answer::time) && !panics([0, 0, 0], Answer::time_or_end));
    }
}
