//! The pin walker.

use std::iter::FusedIterator;

use crate::header::gemcotton_step;
use crate::{Accessed, Refusal};

/// A pin walker: the strip that it walks, and the next position, 0 at the start.
///
/// [`step`](Walker::step) gives the time at the next position and moves the walker on by one. In a `for` loop a walker
/// gives the times from its next position on; [`Times`] says where the loop ends. A walker takes any strip, and does
/// not look whether it is accepted, as [`check`](crate::check) does. Each step opens the strip and goes down from the
/// root, while [`unpack`](crate::unpack) reads each level once.
///
/// ```
/// use gemcotton::{pack, Refusal, Walker};
///
/// let mut out = [0; 64];
/// let length = pack(&mut out, &[100, 250, 250, 400, 1000])?;
/// let strip = &out[..length];
///
/// let mut times = Vec::new();
/// for accessed in Walker::new(strip) {
///     times.push(accessed?.time);
/// }
/// assert_eq!(times, [100, 250, 250, 400, 1000]);
///
/// // From the third strike on.
/// let later = Walker { strip, next: 2 };
/// assert_eq!(later.into_iter().count(), 3);
/// # Ok::<(), Refusal>(())
/// ```
#[derive(Debug, Clone, PartialEq, Eq)]
pub struct Walker<'a> {
    /// The strip, bytes of any content and length.
    pub strip: &'a [u8],
    /// The next position, which may be set to any number.
    pub next: usize,
}

impl<'a> Walker<'a> {
    /// A walker at the start of the strip. The strip is not opened yet, so nothing is refused.
    #[inline]
    pub fn new(strip: &'a [u8]) -> Walker<'a> {
        Walker { strip, next: 0 }
    }

    /// Gives the time at the next position and the nodes opened, 1 or more, as [`access`](crate::access) does there,
    /// and moves the walker on by one. Gives none, which is end, where the next position is at or beyond the pin count.
    ///
    /// Refused as in [opening](crate#opening), also at the end, then by [`Fetch`](Refusal::Fetch) or
    /// [`Time`](Refusal::Time) at the first node that has it. End and refusals do not move the walker, so another step
    /// gives the same.
    ///
    /// ```
    /// use gemcotton::{pack, Accessed, Refusal, Walker};
    ///
    /// let mut out = [0; 64];
    /// let length = pack(&mut out, &[100, 250])?;
    ///
    /// let mut walker = Walker::new(&out[..length]);
    /// assert_eq!(walker.step()?, Some(Accessed { time: 100, nodes: 2 }));
    /// assert_eq!(walker.step()?, Some(Accessed { time: 250, nodes: 1 }));
    /// assert_eq!(walker.step()?, None);
    /// assert_eq!(walker.next, 2);
    ///
    /// let mut walker = Walker::new(&out[..length - 1]);
    /// assert_eq!(walker.step(), Err(Refusal::Length));
    /// assert_eq!(walker.next, 0);
    /// # Ok::<(), Refusal>(())
    /// ```
    #[inline]
    pub fn step(&mut self) -> Result<Option<Accessed>, Refusal> {
        // SAFETY: `next` is one entry, and the other pointer and the length are a slice's, so not null. Only `next` is
        // written, and it overlaps nothing.
        let answer = unsafe { gemcotton_step(&mut self.next, self.strip.as_ptr(), self.strip.len()) };
        answer.time_or_end()
    }
}

impl<'a> IntoIterator for Walker<'a> {
    type Item = Result<Accessed, Refusal>;
    type IntoIter = Times<'a>;

    /// The times from the next position on.
    #[inline]
    fn into_iter(self) -> Times<'a> {
        Times { walker: self, over: false }
    }
}

/// The times that a [`Walker`] gives from its next position on, each with the nodes opened.
///
/// Each item is what a [`step`](Walker::step) gives. There are no more items at the end, nor after the first refusal,
/// which is the last item: a refused walker does not move, so it would be refused for ever. So every `for` loop over it
/// ends, and where no item is a refusal, the walker has come to the end.
///
/// ```
/// use gemcotton::{pack, Refusal, Walker};
///
/// let mut out = [0; 64];
/// let length = pack(&mut out, &[100, 250, 250, 400, 1000])?;
///
/// let mut cut = Walker::new(&out[..length - 1]).into_iter();
/// assert_eq!(cut.next(), Some(Err(Refusal::Length)));
/// assert_eq!(cut.next(), None);
/// # Ok::<(), Refusal>(())
/// ```
#[derive(Debug, Clone)]
#[must_use = "no step is made until an item is asked for"]
pub struct Times<'a> {
    walker: Walker<'a>,
    /// Whether the walker has said end or has been refused.
    over: bool,
}

impl Iterator for Times<'_> {
    type Item = Result<Accessed, Refusal>;

    #[inline]
    fn next(&mut self) -> Option<Self::Item> {
        if self.over {
            return None;
        }
        let item = self.walker.step().transpose();
        self.over = !matches!(item, Some(Ok(_)));
        item
    }
}

impl FusedIterator for Times<'_> {}
