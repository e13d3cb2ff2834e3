//! Bytes side by side in a strip, each field with its name, its size and where it begins.

use crate::pictures::svg;

pub struct Cell {
    pub name: String,
    pub remark: String,
    /// how many bytes, where that is fixed
    pub long: Option<usize>,
    /// what the cell leads to
    pub anchor: Option<String>,
}

const WIDE: f64 = 860.0;
const HIGH: f64 = 44.0;
/// how wide a cell is at least, so that its words fit, where there is room
const LEAST: f64 = 108.0;
/// what a cell of no fixed size counts for
const ANY: usize = 60;

pub fn bytes(n: usize) -> String {
    if n == 1 {
        "1 byte".to_string()
    } else {
        format!("{n} bytes")
    }
}

pub fn draw(label: &str, cells: &[Cell]) -> String {
    let mut inside = String::new();
    let mut x = 1.0;
    // unknown after a cell of no fixed size
    let mut at = Some(0);
    for (cell, width) in cells.iter().zip(widths(cells)) {
        inside.push_str(&one(cell, x, width));
        inside.push_str(&begins(at, x + 2.0, "small start"));
        at = at.and_then(|at| Some(at + cell.long?));
        x += width;
    }
    inside.push_str(&begins(at, x, "small end"));
    svg::picture(WIDE, HIGH + 20.0, label, &inside)
}

fn begins(at: Option<usize>, x: f64, class: &str) -> String {
    at.map_or(String::new(), |at| {
        svg::text(x, 11.0, class, &at.to_string())
    })
}

fn one(cell: &Cell, x: f64, width: f64) -> String {
    let middle = x + width / 2.0;
    let drawn = svg::rect(x, 16.0, width, HIGH, "box")
        + &svg::text(middle, 35.0, "name", &cell.name)
        + &svg::text(middle, 51.0, "small", &cell.remark);
    match &cell.anchor {
        Some(anchor) => svg::link(anchor, &drawn),
        None => drawn,
    }
}

/// Widths that fill the strip: in proportion, as far as words fit into each.
fn widths(cells: &[Cell]) -> Vec<f64> {
    let longs: Vec<usize> = cells.iter().map(|cell| cell.long.unwrap_or(ANY)).collect();
    let least = (WIDE / (longs.len() as f64 + 1.0)).min(LEAST);
    let spare = WIDE - 2.0 - least * longs.len() as f64;
    let all = longs.iter().sum::<usize>().max(1) as f64;
    let width = |long: &usize| least + spare * *long as f64 / all;
    longs.iter().map(width).collect()
}

#[cfg(test)]
mod tests {
    use super::*;

    fn cell(long: Option<usize>) -> Cell {
        Cell {
            name: "x".to_string(),
            remark: String::new(),
            long,
            anchor: None,
        }
    }

    #[test]
    fn the_strip_is_filled_and_no_cell_is_too_narrow() {
        let cells: Vec<Cell> = [Some(4), Some(72), Some(1), Some(636)]
            .into_iter()
            .map(cell)
            .collect();
        let widths = widths(&cells);
        assert!((widths.iter().sum::<f64>() - (WIDE - 2.0)).abs() < 0.01);
        assert!(widths.iter().all(|width| *width >= LEAST));
    }

    #[test]
    fn places_are_told_as_far_as_they_are_known() {
        let html = draw(
            "",
            &[cell(Some(1)), cell(Some(2)), cell(None), cell(Some(1))],
        );
        let texts: Vec<&str> = html
            .split("small start\">")
            .skip(1)
            .filter_map(|rest| rest.split('<').next())
            .collect();
        assert_eq!(texts, ["0", "1", "3"]);
        assert!(!html.contains("small end"));
    }
}
