//! Columns of text: a cell that is too long for its column pushes those to its right.

pub enum Side {
    Left,
    Right,
}

pub struct Column {
    pub title: &'static str,
    pub width: usize,
    pub side: Side,
}

pub struct Table {
    columns: Vec<Column>,
}

impl Table {
    pub fn new(columns: Vec<Column>) -> Table {
        Table { columns }
    }

    pub fn head(&self) -> String {
        self.row(&self.columns.iter().map(|column| column.title).collect::<Vec<_>>())
    }

    /// Makes a column at least so wide.
    pub fn widen(&mut self, column: usize, width: usize) {
        let column = &mut self.columns[column];
        column.width = column.width.max(width);
    }

    /// One line; there may be fewer cells than columns.
    pub fn row(&self, cells: &[&str]) -> String {
        let mut line = String::new();
        for (n, (column, cell)) in self.columns.iter().zip(cells).enumerate() {
            if n > 0 {
                line.push_str("  ");
            }
            match column.side {
                Side::Left => line.push_str(&format!("{:w$}", cell, w = column.width)),
                Side::Right => line.push_str(&format!("{:>w$}", cell, w = column.width)),
            }
        }
        line
    }

    /// Spaces up to a column, for a line that belongs under it.
    pub fn indent(&self, columns: usize) -> String {
        let width: usize = self.columns[..columns].iter().map(|column| column.width + 2).sum();
        " ".repeat(width)
    }
}

#[cfg(test)]
mod tests {
    use super::*;

    #[test]
    fn rows() {
        let column = |title, width, side| Column { title, width, side };
        let table = Table::new(vec![column("n", 3, Side::Right), column("name", 4, Side::Left), column("x", 1, Side::Left)]);
        assert_eq!(table.head(), "  n  name  x");
        assert_eq!(table.row(&["7", "longer", "y"]), "  7  longer  y");
        assert_eq!(table.row(&["7", "a"]), "  7  a   ");
        assert_eq!(table.indent(2), " ".repeat(11));
    }
}
