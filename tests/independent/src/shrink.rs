//! Shortening what fails to the little that still does.

use crate::transcript::Line;

/// Takes out chunks, ever smaller ones, as long as the rest still fails.
pub fn shorten<T: Clone>(items: &[T], fails: &mut dyn FnMut(&[T]) -> bool) -> Vec<T> {
    let mut kept = items.to_vec();
    let mut size = kept.len();
    while size > 0 {
        if !take_out_chunks(&mut kept, size, fails) || size > 1 {
            size /= 2;
        }
    }
    kept
}

/// Whether some chunk of this size could go.
fn take_out_chunks<T: Clone>(
    kept: &mut Vec<T>,
    size: usize,
    fails: &mut dyn FnMut(&[T]) -> bool,
) -> bool {
    let mut shorter = false;
    let mut start = 0;
    while start < kept.len() {
        let end = (start + size).min(kept.len());
        let rest = [&kept[..start], &kept[end..]].concat();
        if fails(&rest) {
            *kept = rest;
            shorter = true;
        } else {
            start = end;
        }
    }
    shorter
}

/// Shortens a script by whole lines, then by the bytes of its calls.
pub fn shorten_script(script: &[Line], fails: &mut dyn FnMut(&[Line]) -> bool) -> Vec<Line> {
    let mut kept = shorten(script, fails);
    for place in 0..kept.len() {
        let Some(bytes) = kept[place].bytes_mut().cloned() else {
            continue;
        };
        let with_bytes = |kept: &[Line], bytes: &[u8]| {
            let mut changed = kept.to_vec();
            if let Some(old) = changed[place].bytes_mut() {
                *old = bytes.to_vec();
            }
            changed
        };
        let fewest = shorten(&bytes, &mut |fewer| fails(&with_bytes(&kept, fewer)));
        kept = with_bytes(&kept, &fewest);
    }
    shorten(&kept, fails)
}
