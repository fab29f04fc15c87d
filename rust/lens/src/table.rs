use crate::{sys, Camera, Job, Pixel, Point, Refusal, Region};

/// A finished table of `f32` cells, over memory of any kind: a `Vec<f32>`, a `&[f32]`, a boxed slice.
///
/// ```
/// use lens::{Camera, Pixel, Point, Refusal, Table};
///
/// let camera = Camera::Affine { fx: 1.0, fy: 1.0, cx: 0.0, cy: 0.0 };
/// let table = Table::build(&camera, 3, 2)?;
/// assert_eq!(table.lookup(Point::new(0.25, 0.5))?, Pixel::new(0.25, 0.5));
/// assert_eq!(table.lookup(Point::new(9.0, 0.0)), Err(Refusal::OutsideTable));
/// # Ok::<(), Refusal>(())
/// ```
#[derive(Debug, Clone, Copy, PartialEq)]
pub struct Table<S = Vec<f32>> {
    cells: S,
    region: Region,
    width: u32,
    height: u32,
}

impl Table {
    /// Builds a whole table at once, in memory of its own. Samples of the border that do not settle are built on.
    pub fn build(camera: &Camera, width: u32, height: u32) -> Result<Table, Refusal> {
        Table::of(Job::new(camera, width, height)?)
    }

    /// The same, but a sample that does not settle is refused: [`Refusal::SampleUnsettled`].
    pub fn build_strict(camera: &Camera, width: u32, height: u32) -> Result<Table, Refusal> {
        Table::of(Job::strict(camera, width, height)?)
    }

    fn of(mut job: Job) -> Result<Table, Refusal> {
        let mut cells = vec![0.0; job.numbers()];
        // One turn of so many units finishes, or is refused.
        job.turn(&mut cells, u64::MAX)?;
        job.table(cells).ok_or(Refusal::ImpossibleJob)
    }
}

impl<S: AsRef<[f32]>> Table<S> {
    /// A table out of its parts, such as were saved. Nothing is judged here: [`lookup`](Table::lookup) judges lengths,
    /// size and region, and that a table is finished, or a region its own, nobody can see.
    pub const fn new(cells: S, region: Region, width: u32, height: u32) -> Table<S> {
        Table { cells, region, width, height }
    }

    /// The pixel at a point, between the four cells around it: each of its two numbers lies from the least to the
    /// greatest of that number in these cells.
    pub fn lookup(&self, point: Point) -> Result<Pixel, Refusal> {
        sys::lookup(self.numbers(), self.region.into(), self.width, self.height, point.into())
    }

    /// The pixel that a cell holds; `None` if there is no such cell.
    pub fn cell(&self, column: u32, row: u32) -> Option<[f32; 2]> {
        if column >= self.width || row >= self.height {
            return None;
        }
        let at = (row as usize).checked_mul(self.width as usize)?.checked_add(column as usize)?.checked_mul(2)?;
        match self.numbers().get(at..)? {
            [u, v, ..] => Some([*u, *v]),
            _ => None,
        }
    }

    /// Every row of cells, from the top.
    ///
    /// ```
    /// use lens::{Camera, Refusal, Table};
    ///
    /// let camera = Camera::Affine { fx: 1.0, fy: 1.0, cx: 0.0, cy: 0.0 };
    /// let table = Table::build(&camera, 3, 2)?;
    /// let rows: Vec<Vec<[f32; 2]>> = table.rows().map(Iterator::collect).collect();
    /// assert_eq!(rows[1], [[-2.0, 2.5], [1.0, 2.5], [4.0, 2.5]]);
    /// # Ok::<(), Refusal>(())
    /// ```
    pub fn rows(&self) -> impl Iterator<Item = impl Iterator<Item = [f32; 2]> + '_> + '_ {
        let row = (2 * self.width as usize).max(1);
        self.numbers().chunks_exact(row).map(|row| row.chunks_exact(2).map(|cell| [cell[0], cell[1]]))
    }

    /// The numbers of all cells, two for each, row by row.
    pub fn numbers(&self) -> &[f32] {
        self.cells.as_ref()
    }

    /// The box of points that it covers.
    pub const fn region(&self) -> Region {
        self.region
    }

    /// How many columns of cells there are.
    pub const fn width(&self) -> u32 {
        self.width
    }

    /// How many rows of cells there are.
    pub const fn height(&self) -> u32 {
        self.height
    }

    /// The memory of its cells.
    pub fn into_cells(self) -> S {
        self.cells
    }
}
