//! What a viewer sees of a slice: the new picture where it was accepted, the held one where it was refused.

use crate::ffi;
use crate::refused::{Refused, Verdict};

/// The slice's sixteen rows out of the new plane if the slice was accepted, out of the held one if not. Refused: 4, 5
/// (both planes must reach to the slice's end), 14.
///
/// ```
/// use vmx::{shown_rows, Refused};
/// let (new, held) = ([1u8; 256], [2u8; 256]);
/// assert_eq!(shown_rows(&new, &held, 8, 1, Ok(()))?, &new[128..]);
/// assert_eq!(shown_rows(&new, &held, 8, 1, Err(Refused::Code))?, &held[128..]);
/// assert_eq!(shown_rows(&new, &held, 8, 2, Ok(())), Err(Refused::Rows));
/// # Ok::<(), Refused>(())
/// ```
pub fn shown_rows<'a, S>(
    new: &'a [S],
    held: &'a [S],
    stride: usize,
    slice: usize,
    verdict: Verdict,
) -> Result<&'a [S], Refused> {
    let (from_new, offset, len) = ffi::shown_rows(new.len(), held.len(), stride, slice, verdict)?;
    let picture = if from_new { new } else { held };
    Ok(&picture[offset..offset + len])
}

/// Puts the rows that are shown into the new plane: nothing to do for an accepted slice, the held rows for a refused
/// one. Refused: as [`shown_rows`].
pub fn show<S: Copy>(new: &mut [S], held: &[S], stride: usize, slice: usize, verdict: Verdict) -> Verdict {
    let (from_new, offset, len) = ffi::shown_rows(new.len(), held.len(), stride, slice, verdict)?;
    if !from_new {
        new[offset..offset + len].copy_from_slice(&held[offset..offset + len]);
    }
    Ok(())
}

/// The time that is shown: the new one if the slice was accepted, the held one if not.
///
/// ```
/// assert_eq!(vmx::shown_time(20, 10, Ok(())), 20);
/// assert_eq!(vmx::shown_time(20, 10, Err(vmx::Refused::Code)), 10);
/// ```
pub fn shown_time(new: u64, held: u64, verdict: Verdict) -> u64 {
    ffi::shown_time(new, held, verdict)
}

#[cfg(test)]
mod tests {
    use super::*;

    #[test]
    fn a_refused_slice_gets_the_held_rows() {
        let (mut new, held) = (vec![1u16; 384], vec![2u16; 384]);
        show(&mut new, &held, 8, 0, Ok(())).unwrap();
        show(&mut new, &held, 8, 1, Err(Refused::Code)).unwrap();
        assert_eq!((&new[..128], &new[128..256], &new[256..]), (&[1; 128][..], &[2; 128][..], &[1; 128][..]));
        assert_eq!(show(&mut new, &held, 7, 1, Ok(())), Err(Refused::Stride));
        assert_eq!(show(&mut new, &held, 8, usize::MAX, Ok(())), Err(Refused::Rows));
        assert_eq!(show(&mut new, &held, 8, 3, Err(Refused::Code)), Err(Refused::Rows));
    }
}
