//! The attaching rule.   (01, Attaching rule)

/// The parent of each line, given every line's start and number of entries in file order; or the first variation that
/// finds no entry to hang on, with its ply.
pub fn parents(lines: &[(u64, usize)]) -> Result<Vec<usize>, (u64, u64)> {
    let mut parents = vec![0; lines.len().min(1)];
    for (k, &(start, _)) in lines.iter().enumerate().skip(1) {
        let parent = parent(&lines[..k], start);
        let (parent_start, entries) = lines[parent];
        if start - parent_start >= entries as u64 {
            return Err((k as u64, start));
        }
        parents.push(parent);
    }
    Ok(parents)
}

/// The nearest earlier line whose start is at or below this one; line 0 starts at 0, so there is one.
pub fn parent(earlier: &[(u64, usize)], start: u64) -> usize {
    earlier.iter().rposition(|&(other, _)| other <= start).unwrap_or(0)
}
