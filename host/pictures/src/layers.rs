//! Places the boxes of a picture in levels, so that every line runs down from level to level through gaps between them.

use std::collections::{BTreeMap, BTreeSet};

const SWEEPS: usize = 40;

/// A box, or a gap that lines to one box further down pass through.
pub struct Place {
    pub level: usize,
    /// The box, by its index; none for a gap.
    pub shown: Option<usize>,
    /// The places one level down that lines lead to.
    pub below: BTreeSet<usize>,
    /// Its middle, from the left.
    pub x: f64,
}

/// Room that boxes and gaps take, and the least space between two of them.
pub struct Widths {
    pub shown: f64,
    pub gap: f64,
    pub space: f64,
}

/// Places the boxes: `levels` says on which level each stands, `lines` to which lower ones lines lead.
pub fn place(levels: &[usize], lines: &[BTreeSet<usize>], widths: &Widths) -> Vec<Place> {
    let mut places = through_gaps(levels, lines);
    let rows = ordered(&places);
    spread(&mut places, &rows, widths);
    places
}

/// Boxes first, in their order; then the gaps. Lines to one box share the gaps of each level.
fn through_gaps(levels: &[usize], lines: &[BTreeSet<usize>]) -> Vec<Place> {
    let boxed = |(index, &level)| Place { level, shown: Some(index), below: BTreeSet::new(), x: 0.0 };
    let mut places: Vec<Place> = levels.iter().enumerate().map(boxed).collect();
    let mut gaps = BTreeMap::new();
    for (upper, lowers) in lines.iter().enumerate() {
        for &lower in lowers {
            let mut from = upper;
            for level in (levels[lower] + 1..levels[upper]).rev() {
                let gap = *gaps.entry((lower, level)).or_insert(places.len());
                if gap == places.len() {
                    places.push(Place { level, shown: None, below: BTreeSet::new(), x: 0.0 });
                }
                places[from].below.insert(gap);
                from = gap;
            }
            places[from].below.insert(lower);
        }
    }
    places
}

/// The places of each level from left to right, so that few lines cross: by where their neighbours stand, again and again.
fn ordered(places: &[Place]) -> Vec<Vec<usize>> {
    let above = above(places);
    let top = places.iter().map(|place| place.level).max().unwrap_or(0);
    let on = |level| (0..places.len()).filter(|&place| places[place].level == level).collect();
    let mut rows: Vec<Vec<usize>> = (0..=top).map(on).collect();
    let mut best = (crossings(places, &rows), rows.clone());
    for sweep in 0..SWEEPS {
        let upward = sweep % 2 == 0;
        let mut order: Vec<usize> = (0..=top).collect();
        if !upward {
            order.reverse();
        }
        for level in order {
            let rank = ranks(places.len(), &rows);
            let middle = |place: &usize| {
                let near = if upward { &places[*place].below } else { &above[*place] };
                let sum: f64 = near.iter().map(|&near| rank[near]).sum();
                if near.is_empty() {
                    rank[*place]
                } else {
                    sum / near.len() as f64
                }
            };
            rows[level].sort_by(|one, other| middle(one).total_cmp(&middle(other)));
        }
        let crossed = crossings(places, &rows);
        if crossed < best.0 {
            best = (crossed, rows.clone());
        }
    }
    best.1
}

/// Where each place stands in its level, from 0 to 1.
fn ranks(count: usize, rows: &[Vec<usize>]) -> Vec<f64> {
    let mut ranks = vec![0.0; count];
    for row in rows {
        for (at, &place) in row.iter().enumerate() {
            ranks[place] = (at as f64 + 0.5) / row.len() as f64;
        }
    }
    ranks
}

fn above(places: &[Place]) -> Vec<BTreeSet<usize>> {
    let mut above = vec![BTreeSet::new(); places.len()];
    for (upper, place) in places.iter().enumerate() {
        for &lower in &place.below {
            above[lower].insert(upper);
        }
    }
    above
}

fn crossings(places: &[Place], rows: &[Vec<usize>]) -> usize {
    let rank = ranks(places.len(), rows);
    let mut count = 0;
    for row in rows {
        let lines: Vec<(f64, f64)> = row
            .iter()
            .flat_map(|&upper| places[upper].below.iter().map(move |&lower| (upper, lower)))
            .map(|(upper, lower)| (rank[upper], rank[lower]))
            .collect();
        for (at, one) in lines.iter().enumerate() {
            count += lines[at..].iter().filter(|other| (one.0 - other.0) * (one.1 - other.1) < 0.0).count();
        }
    }
    count
}

/// Moves every place towards the middle of its neighbours, as far as the order and the widths allow.
fn spread(places: &mut [Place], rows: &[Vec<usize>], widths: &Widths) {
    let above = above(places);
    let half = |place: &Place| if place.shown.is_some() { widths.shown / 2.0 } else { widths.gap / 2.0 };
    for _ in 0..SWEEPS {
        for row in rows.iter().chain(rows.iter().rev()) {
            let mut left = 0.0;
            let mut wanted = Vec::with_capacity(row.len());
            let mut offsets = Vec::with_capacity(row.len());
            for (at, &index) in row.iter().enumerate() {
                if at > 0 {
                    left += half(&places[row[at - 1]]) + widths.space + half(&places[index]);
                }
                let near: Vec<usize> = places[index].below.iter().chain(&above[index]).copied().collect();
                let sum: f64 = near.iter().map(|&near| places[near].x).sum();
                wanted.push(sum / near.len().max(1) as f64 - left);
                offsets.push(left);
            }
            for ((&index, x), offset) in row.iter().zip(rising(&wanted)).zip(offsets) {
                places[index].x = x + offset;
            }
        }
    }
    let first = places.iter().map(|place| place.x - half(place)).fold(f64::INFINITY, f64::min);
    places.iter_mut().for_each(|place| place.x -= first);
}

/// The numbers that never fall and are nearest to the wanted ones, by the sum of squares: neighbours that fall take their mean.
fn rising(wanted: &[f64]) -> Vec<f64> {
    let mut blocks: Vec<(f64, usize)> = Vec::new();
    for &number in wanted {
        let (mut sum, mut count) = (number, 1);
        while let Some(&(before, many)) = blocks.last() {
            if before / many as f64 <= sum / count as f64 {
                break;
            }
            blocks.pop();
            sum += before;
            count += many;
        }
        blocks.push((sum, count));
    }
    blocks.into_iter().flat_map(|(sum, count)| vec![sum / count as f64; count]).collect()
}

#[cfg(test)]
mod tests {
    use super::*;

    #[test]
    fn rising_numbers_stay_and_falling_ones_meet() {
        assert_eq!(rising(&[1.0, 2.0, 5.0]), [1.0, 2.0, 5.0]);
        assert_eq!(rising(&[3.0, 1.0, 2.0, 9.0]), [2.0, 2.0, 2.0, 9.0]);
    }

    #[test]
    fn lines_go_down_one_level_at_a_time_and_nothing_overlaps() {
        let levels = [0, 1, 2, 3, 0, 3];
        let lines = [vec![], vec![0], vec![1, 4], vec![0, 2], vec![], vec![0, 4]];
        let lines: Vec<BTreeSet<usize>> = lines.into_iter().map(BTreeSet::from_iter).collect();
        let widths = Widths { shown: 100.0, gap: 10.0, space: 5.0 };
        let places = place(&levels, &lines, &widths);
        let width = |place: &Place| if place.shown.is_some() { widths.shown } else { widths.gap };
        for (index, one) in places.iter().enumerate() {
            assert!(one.below.iter().all(|&lower| places[lower].level + 1 == one.level));
            for other in places[index + 1..].iter().filter(|other| other.level == one.level) {
                let apart = (width(one) + width(other)) / 2.0 + widths.space;
                assert!((one.x - other.x).abs() > apart - 0.001);
            }
        }
    }
}
