//! The plainest planner: windows in table order, each placed on the first receiver that is free and that its mark
//! allows. What it gives is a plan; it can hear too few rows, and miss a plan that exists.

use crate::port::allows;
use crate::{Kind, Refusal};

/// Whether a window with the gap after it covers a tick. A window that ends at its start is `ticks` long; in a run the
/// gap after the last tick does not come back to the first.
pub fn reaches(kind: Kind, ticks: u16, gap: u16, [start, end]: [u16; 2], tick: u16) -> bool {
    let (ticks, gap, start, end, tick) = (ticks as u32, gap as u32, start as u32, end as u32, tick as u32);
    let circle = if kind == Kind::Round { ticks } else { ticks + gap };
    (tick + circle - start) % circle < (end + circle - start - 1) % circle + 1 + gap
}

/// Plans a table that passes its checks.
#[inline(never)]
pub fn plan(
    kind: Kind,
    ticks: u16,
    gap: u16,
    starts: &[u16],
    ends: &[u16],
    marks: &[u8],
    labels: &mut [u8],
) -> Result<usize, Refusal> {
    let mut count = 0;
    labels.fill(0);
    for i in 0..starts.len() {
        let reaches_start = |i: usize, j: usize| reaches(kind, ticks, gap, [starts[i], ends[i]], starts[j]);
        let too_close = |j: usize| reaches_start(i, j) || reaches_start(j, i);
        let open = |receiver: usize| match kind {
            Kind::Round => true,
            Kind::Run(hours) => hours[receiver][0] <= starts[i] && ends[i] <= hours[receiver][1],
        };
        let free = |label: u8| {
            allows(marks[i], label) && open(label as usize - 1) && !(0..i).any(|j| labels[j] == label && too_close(j))
        };
        let label = if free(1) {
            1
        } else if free(2) {
            2
        } else {
            0
        };
        if label == 0 && !allows(marks[i], 0) {
            return Err(Refusal::NoPlan);
        }
        labels[i] = label;
        count += usize::from(label > 0);
    }
    Ok(count)
}
