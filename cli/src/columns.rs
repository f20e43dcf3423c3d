//! Lines in columns. Widths count in characters, so that `°` and `µ` are one.

#[derive(Clone, Copy, Debug, PartialEq, Eq)]
pub enum Side {
    Left,
    Right,
}

/// The widest column: a longer cell moves the rest of its own line alone.
const LIMIT: usize = 28;

/// Two blanks between the columns, none at the end of a line. The last cell of a line has the width that it
/// has: it makes no column wider.
pub fn aligned(lines: &[Vec<String>], sides: &[Side]) -> String {
    let widths = widths(lines, sides.len());
    let mut text = String::new();
    for line in lines {
        let start = text.len();
        for (index, cell) in line.iter().enumerate() {
            let blanks = match index + 1 == line.len() && sides[index] == Side::Left {
                true => 0,
                false => widths[index].saturating_sub(width(cell)),
            };
            let blanks = " ".repeat(blanks);
            text += match index {
                0 => "",
                _ => "  ",
            };
            match sides[index] {
                Side::Left => text.extend([cell.as_str(), &blanks]),
                Side::Right => text.extend([&blanks, cell.as_str()]),
            }
        }
        let end = text[start..].trim_end_matches(' ').len();
        text.truncate(start + end);
        text.push('\n');
    }
    text
}

fn widths(lines: &[Vec<String>], count: usize) -> Vec<usize> {
    let mut widths = vec![0; count];
    for line in lines {
        let before_last = line.len().saturating_sub(1);
        for (widest, cell) in widths.iter_mut().zip(&line[..before_last]) {
            let width = width(cell);
            if width <= LIMIT {
                *widest = width.max(*widest);
            }
        }
    }
    widths
}

fn width(cell: &str) -> usize {
    cell.chars().count()
}

#[cfg(test)]
mod tests {
    use super::{LIMIT, Side, aligned};

    fn lines(lines: &[&[&str]]) -> Vec<Vec<String>> {
        let line = |cells: &&[&str]| cells.iter().map(|cell| cell.to_string()).collect();
        lines.iter().map(line).collect()
    }

    #[test]
    fn cells_stand_below_each_other() {
        let lines = lines(&[&["1", "µ", "x"], &["10", "abc", ""], &["2", "longer"]]);
        let sides = [Side::Right, Side::Left, Side::Left];
        assert_eq!(aligned(&lines, &sides), " 1  µ    x\n10  abc\n 2  longer\n");
    }

    #[test]
    fn a_long_cell_moves_its_own_line_alone() {
        let long = "w".repeat(LIMIT + 1);
        let lines = lines(&[&["a", "b"], &[&long, "b"]]);
        let sides = [Side::Left, Side::Left];
        assert_eq!(aligned(&lines, &sides), format!("a  b\n{long}  b\n"));
    }
}
