//! What was read of memory in one exchange, kept so that it can be read again without asking.
use crate::library::{Column, Library, Memory};

/// Which parts of memory are kept, in rising order, and where each starts in the kept bytes.
#[derive(Clone)]
pub struct Shape {
    columns: Vec<Column>,
    starts: Vec<usize>,
    len: usize,
}

/// The bytes of these parts.
pub struct Image<'a> {
    pub shape: &'a Shape,
    pub bytes: &'a [u8],
}

/// An image with its own shape and bytes.
pub struct Kept {
    shape: Shape,
    bytes: Vec<u8>,
}

/// What is kept is read from the image, all else from the program.
pub struct Near<'a> {
    pub image: Image<'a>,
    pub library: &'a mut Library,
}

impl Shape {
    pub fn of(mut columns: Vec<Column>) -> Shape {
        columns.sort_by_key(|column| column.span());
        let mut len = 0;
        let mut start = |column: &Column| {
            let (from, to) = column.span();
            len += to - from;
            len - (to - from)
        };
        let starts = columns.iter().map(&mut start).collect();
        Shape {
            columns,
            starts,
            len,
        }
    }

    pub fn columns(&self) -> &[Column] {
        &self.columns
    }

    /// So many bytes are kept.
    pub fn len(&self) -> usize {
        self.len
    }

    pub fn is_empty(&self) -> bool {
        self.len == 0
    }

    /// Where the column's bytes are kept, if all of them are.
    fn find(&self, column: Column) -> Option<(usize, usize)> {
        let (from, to) = column.span();
        let next = self.columns.partition_point(|kept| kept.span().0 <= from);
        let place = next.checked_sub(1)?;
        let (start, end) = self.columns[place].span();
        (to <= end).then(|| {
            let at = self.starts[place] + from - start;
            (at, at + to - from)
        })
    }

    /// The part of the kept bytes that are the column's.
    pub fn range(&self, column: Column) -> std::ops::Range<usize> {
        let (from, to) = self.find(column).expect("the column is kept");
        from..to
    }
}

impl Kept {
    /// What was asked for by the shape's columns.
    pub fn receive(shape: Shape, library: &mut Library) -> Kept {
        let mut bytes = vec![0; shape.len()];
        library.receive(&mut bytes);
        Kept { shape, bytes }
    }

    pub fn near<'a>(&'a self, library: &'a mut Library) -> Near<'a> {
        let image = Image {
            shape: &self.shape,
            bytes: &self.bytes,
        };
        Near { image, library }
    }
}

impl Memory for Image<'_> {
    fn read(&mut self, columns: &[Column]) -> Vec<Vec<u8>> {
        let bytes = |column: &Column| self.bytes[self.shape.range(*column)].to_vec();
        columns.iter().map(bytes).collect()
    }
}

impl Memory for Near<'_> {
    fn read(&mut self, columns: &[Column]) -> Vec<Vec<u8>> {
        let kept = |column: &Column| self.image.shape.find(*column).is_some();
        match columns.iter().all(kept) {
            true => self.image.read(columns),
            false => self.library.read(columns),
        }
    }
}
