//! A small grid of a wall chart: the grid of a list, with one smallest write quorum filled in.

use crate::svg::{line, text};

pub const LIGHT: &str = ".whole { fill: #0b4f9e }
.one { fill: #a33a00 }
.off { fill: none; stroke: #8c959f; stroke-width: 1 }
.number { font-size: 12px; font-weight: 700; fill: #ffffff }
.spare { font-size: 11px; fill: #6e7781 }";
pub const DARK: &str = ".spare { fill: #9198a1 }
.whole { fill: #79b8ff }
.one { fill: #ffa657 }
.off { stroke: #656c76 }
.number { fill: #0d1117 }";

/// What the looks of a machine mean.
pub const LEGEND: [(Look, &str); 3] = [
    (Look::Whole, "must be on: a whole column"),
    (Look::One, "must be on: one of each other column"),
    (Look::Off, "may be off"),
];

/// How a machine looks: filled squares and discs must be on.
#[derive(Clone, Copy)]
pub enum Look {
    Whole,
    One,
    Off,
}

/// The grid of a list: its machines, in name order, fill it row by row.
#[derive(Clone, Copy, Debug, PartialEq, Eq)]
pub struct SmallGrid {
    pub machines: usize,
    pub columns: usize,
}

impl SmallGrid {
    pub fn rows(&self) -> usize {
        self.machines.div_ceil(self.columns)
    }

    /// Where a position lies: its row and its column, both from 0 on.
    pub fn place(&self, position: usize) -> (usize, usize) {
        ((position - 1) / self.columns, (position - 1) % self.columns)
    }

    /// The positions of a column, counted from 0.
    pub fn column(&self, column: usize) -> u16 {
        (column..self.machines).step_by(self.columns).fold(0, |set, place| set | 1 << place)
    }

    /// The quorums by the first column that they have whole.
    pub fn by_column(&self, quorums: &[u16]) -> Vec<Vec<u16>> {
        let whole = |quorum: u16| (0..self.columns).find(|&column| self.column(column) & !quorum == 0);
        let of = |column| quorums.iter().copied().filter(|&set| whole(set) == Some(column)).collect();
        (0..self.columns).map(of).filter(|group: &Vec<u16>| !group.is_empty()).collect()
    }

    fn look(&self, quorum: u16, position: usize) -> Look {
        match quorum >> (position - 1) & 1 {
            0 => Look::Off,
            _ if self.column(self.place(position).1) & !quorum == 0 => Look::Whole,
            _ => Look::One,
        }
    }
}

/// The size of a machine, and from one to the next.
pub struct Cells {
    pub width: f64,
    pub height: f64,
    pub gap: f64,
}

impl Cells {
    /// The size of a grid.
    pub fn extent(&self, grid: &SmallGrid) -> (f64, f64) {
        let length = |cell: f64, count: usize| (cell + self.gap) * count as f64 - self.gap;
        (length(self.width, grid.columns), length(self.height, grid.rows()))
    }

    /// Draws the grid with this quorum; `label` names a position.
    pub fn draw(
        &self,
        svg: &mut String,
        (x, y): (f64, f64),
        grid: &SmallGrid,
        quorum: u16,
        label: &dyn Fn(usize) -> String,
    ) {
        for position in 1..=grid.machines {
            let (row, column) = grid.place(position);
            let at = (x + (self.width + self.gap) * column as f64, y + (self.height + self.gap) * row as f64);
            self.cell(svg, at, grid.look(quorum, position), &label(position));
        }
    }

    /// Draws one machine.
    pub fn cell(&self, svg: &mut String, (x, y): (f64, f64), look: Look, label: &str) {
        let Cells { width, height, .. } = *self;
        let (class, round, inset) = match look {
            Look::Whole => ("whole", 1.5, 0.0),
            Look::One => ("one", height / 2.0, 0.0),
            Look::Off => ("off", 1.5, 0.5),
        };
        let (left, top) = (x + inset, y + inset);
        let (wide, high) = (width - 2.0 * inset, height - 2.0 * inset);
        line(
            svg,
            &format!("<rect class=\"{class}\" x=\"{left:.1}\" y=\"{top:.1}\" width=\"{wide}\" height=\"{high}\" rx=\"{round}\"/>"),
        );
        if !label.is_empty() {
            let class = if let Look::Off = look { "spare" } else { "number" };
            text(svg, x + width / 2.0, y + height / 2.0 + 4.2, class, "middle", label);
        }
    }
}
