//! Images, batches and claims (docs/SPECIFICATION.md, 4.10 to 4.12 and section 5).
use crate::ffi::*;
use crate::{P32E2, Q32E2};
use core::fmt;

/// Why the desk says no. Everything that was lent is then as it was.
///
/// ```
/// use stallhitch::{Q32E2, Refusal};
///
/// let refusal = Q32E2::ONE.write_image(&mut [0; 63]).unwrap_err();
/// assert_eq!(refusal, Refusal::BufferTooShort);
/// assert_eq!(refusal.number(), 2);
/// assert_eq!(refusal.to_string(), "the buffer is shorter than 64 bytes");
/// ```
#[derive(Clone, Copy, Debug, PartialEq, Eq, Hash)]
#[repr(u32)]
pub enum Refusal {
    /// An image to read, or a claim, is not 64 bytes long.
    WrongLength = 1,
    /// The buffer for an image has fewer than 64 bytes.
    BufferTooShort = 2,
    /// The two lists of a batch differ in length.
    UnequalLists = 3,
    /// A batch has more than 16,384 pairs.
    TooManyPairs = 4,
    /// The claim is not the image of its batch.
    ClaimDiffers = 5,
}

impl Refusal {
    /// The number of the refusal, 1 to 5.
    #[inline]
    pub const fn number(self) -> u32 {
        self as u32
    }

    /// What the number that was answered stands for; 0 is no refusal.
    #[inline]
    fn answered(number: u32) -> Result<(), Refusal> {
        Err(match number {
            0 => return Ok(()),
            1 => Refusal::WrongLength,
            2 => Refusal::BufferTooShort,
            3 => Refusal::UnequalLists,
            4 => Refusal::TooManyPairs,
            5 => Refusal::ClaimDiffers,
            _ => unreachable!("no other number is answered"),
        })
    }
}

impl fmt::Display for Refusal {
    fn fmt(&self, f: &mut fmt::Formatter) -> fmt::Result {
        f.write_str(match self {
            Refusal::WrongLength => "the bytes are not 64",
            Refusal::BufferTooShort => "the buffer is shorter than 64 bytes",
            Refusal::UnequalLists => "the two lists differ in length",
            Refusal::TooManyPairs => "there are more than 16384 pairs",
            Refusal::ClaimDiffers => "the claim is not the image of the batch",
        })
    }
}

impl std::error::Error for Refusal {}

// A P32E2 lies in memory as its pattern does, so a list of them is lent as a list of patterns.
impl Q32E2 {
    /// Writes the image into the first 64 bytes of the buffer: word 0 first, each word high byte first. The bytes behind them stay.
    ///
    /// ```
    /// use stallhitch::Q32E2;
    ///
    /// let mut image = [0; 64];
    /// Q32E2::ONE.write_image(&mut image)?;
    /// assert_eq!(image[33], 1);
    /// let mut q = Q32E2::init();
    /// q.read_image(&image)?;
    /// assert_eq!(q, Q32E2::ONE);
    /// # Ok::<(), stallhitch::Refusal>(())
    /// ```
    #[inline]
    pub fn write_image(&self, buffer: &mut [u8]) -> Result<(), Refusal> {
        // SAFETY: pointer and length are of one slice, lent to be written.
        Refusal::answered(unsafe { stallhitch_write_image(&self.0, buffer.as_mut_ptr(), buffer.len()) })
    }

    /// Becomes the state whose image the bytes are. Any 64 bytes are the image of one state.
    #[inline]
    pub fn read_image(&mut self, bytes: &[u8]) -> Result<(), Refusal> {
        // SAFETY: pointer and length are of one slice.
        Refusal::answered(unsafe { stallhitch_read_image(&mut self.0, bytes.as_ptr(), bytes.len()) })
    }

    /// Adds the exact product of each pair, from the front. The lists are equally long and have at most 16,384 patterns each.
    ///
    /// ```
    /// use stallhitch::{P32E2, Q32E2, Refusal};
    ///
    /// let mut q = Q32E2::init();
    /// q.add_batch(&[P32E2::ONE, P32E2::MAX], &[P32E2::ONE, P32E2::ZERO])?;
    /// assert_eq!(q, Q32E2::ONE);
    /// assert_eq!(q.add_batch(&[P32E2::ONE], &[]), Err(Refusal::UnequalLists));
    /// assert_eq!(q, Q32E2::ONE);
    /// # Ok::<(), stallhitch::Refusal>(())
    /// ```
    #[inline]
    pub fn add_batch(&mut self, a: &[P32E2], b: &[P32E2]) -> Result<(), Refusal> {
        // SAFETY: each pointer and its length are of one slice, and a P32E2 is transparent over 32 bits.
        Refusal::answered(unsafe {
            stallhitch_add_batch(&mut self.0, a.as_ptr().cast(), a.len(), b.as_ptr().cast(), b.len())
        })
    }
}

/// Whether the claim is the image of the batch of a and b from zero. All its 64 bytes are compared. Where several refusals apply,
/// the first of these is given: unequal lists, too many pairs, a wrong length, a claim that differs.
///
/// ```
/// use stallhitch::{check_claim, P32E2, Q32E2, Refusal};
///
/// let (hours, rates) = ([P32E2::ONE; 3], [P32E2::ONE; 3]);
/// let mut total = Q32E2::init();
/// total.add_batch(&hours, &rates)?;
/// let mut claim = [0; 64];
/// total.write_image(&mut claim)?;
/// check_claim(&hours, &rates, &claim)?;
/// claim[63] ^= 1;
/// assert_eq!(check_claim(&hours, &rates, &claim), Err(Refusal::ClaimDiffers));
/// # Ok::<(), stallhitch::Refusal>(())
/// ```
#[inline]
pub fn check_claim(a: &[P32E2], b: &[P32E2], claim: &[u8]) -> Result<(), Refusal> {
    // SAFETY: each pointer and its length are of one slice, and a P32E2 is transparent over 32 bits.
    Refusal::answered(unsafe {
        stallhitch_check_claim(a.as_ptr().cast(), a.len(), b.as_ptr().cast(), b.len(), claim.as_ptr(), claim.len())
    })
}
