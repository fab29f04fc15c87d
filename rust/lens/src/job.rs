use crate::sys::header::*;
use crate::sys::{self, Record, TurnAnswer};
use crate::{Camera, Refusal, Table};
use std::fmt;
use std::marker::PhantomData;

/// What a table's cells are made of: `f32`, or `i16` in thirty-seconds of a pixel. A cell is two of them.
pub trait Number: Copy + Default + sealed::Turns {
    /// The number of a pixel that it stands for.
    fn pixels(self) -> f64;
}

impl Number for f32 {
    fn pixels(self) -> f64 {
        f64::from(self)
    }
}

impl Number for i16 {
    fn pixels(self) -> f64 {
        f64::from(self) / LENS_PER_PIXEL as f64
    }
}

mod sealed {
    use super::*;

    pub trait Turns: Sized {
        fn turn(job: &mut Record, table: &mut [Self], units: u64) -> Result<TurnAnswer, Refusal>;
    }

    impl Turns for f32 {
        fn turn(job: &mut Record, table: &mut [f32], units: u64) -> Result<TurnAnswer, Refusal> {
            sys::turn(job, table, units)
        }
    }

    impl Turns for i16 {
        fn turn(job: &mut Record, table: &mut [i16], units: u64) -> Result<TurnAnswer, Refusal> {
            sys::turn16(job, table, units)
        }
    }
}

/// The box of points that a table covers.
#[derive(Debug, Clone, Copy, PartialEq)]
pub struct Region {
    /// Its lower x.
    pub left: f64,
    /// Its lower y.
    pub top: f64,
    /// Its upper x.
    pub right: f64,
    /// Its upper y.
    pub bottom: f64,
}

impl From<[f64; 4]> for Region {
    fn from([left, top, right, bottom]: [f64; 4]) -> Region {
        Region { left, top, right, bottom }
    }
}

impl From<Region> for [f64; 4] {
    fn from(region: Region) -> [f64; 4] {
        [region.left, region.top, region.right, region.bottom]
    }
}

/// How far a build has come. A unit is a border sample or a cell; all samples come first.
#[derive(Debug, Clone, Copy, PartialEq, Eq)]
pub struct Progress {
    /// Units done, of all turns.
    pub done: u64,
    /// Units in all.
    pub units: u64,
    /// Newton's updates, of all samples done.
    pub updates: u64,
    /// How many of the samples done have not settled.
    pub unsettled: u64,
    /// Which sample was the first of these, counted from 1.
    pub first: Option<u64>,
}

/// What a turn came to.
#[derive(Debug, Clone, Copy, PartialEq)]
pub enum Turn {
    /// There are units left.
    Running(Progress),
    /// Every cell is there, and this is the table's region.
    Finished(Region),
}

/// A table that is being built, a few units at a time.
///
/// The job is begun with a camera and a size, and lent a table in each turn: always the same one, unaltered. It may be
/// cloned, saved ([`as_bytes`](Job::as_bytes)) and brought back ([`from_bytes`](Job::from_bytes)). However the units
/// are split over turns, cells and job come out the same.
///
/// The type says what the cells are made of, so that a job can't be lent a table of the other kind.
///
/// ```
/// use lens::{Camera, Job, Point, Refusal, Turn};
///
/// let camera = Camera::Affine { fx: 1.0, fy: 1.0, cx: 0.0, cy: 0.0 };
/// let mut job = Job::new(&camera, 3, 2)?;
/// let mut cells = vec![0f32; job.numbers()];
/// let region = loop {
///     match job.turn(&mut cells, 5)? {
///         Turn::Running(progress) => assert!(progress.done < progress.units),
///         Turn::Finished(region) => break region,
///     }
/// };
/// assert_eq!((region.left, region.right), (-2.0, 4.0));
/// assert_eq!(cells[..4], [-2.0, -1.5, 1.0, -1.5]);
/// let table = job.table(&cells).expect("finished");
/// assert_eq!(table.lookup(Point::new(0.25, 0.5))?.u, 0.25);
/// # Ok::<(), Refusal>(())
/// ```
///
/// The same in sixteen bits, where a number counts thirty-seconds of a pixel:
///
/// ```
/// # use lens::{Camera, Job, Number, Refusal, Turn};
/// # let camera = Camera::Affine { fx: 1.0, fy: 1.0, cx: 0.0, cy: 0.0 };
/// let mut job = Job::new(&camera, 3, 2)?;
/// let mut cells = vec![0i16; job.numbers()];
/// assert!(matches!(job.turn(&mut cells, u64::MAX)?, Turn::Finished(_)));
/// assert_eq!(cells[..4], [-64, -48, 32, -48]);
/// assert_eq!(cells[1].pixels(), -1.5);
/// # Ok::<(), Refusal>(())
/// ```
///
/// ```compile_fail,E0308
/// # use lens::{Camera, Job};
/// # let camera = Camera::Affine { fx: 1.0, fy: 1.0, cx: 0.0, cy: 0.0 };
/// let mut job = Job::<f32>::new(&camera, 3, 2).unwrap();
/// job.turn(&mut [0i16; 12], 1); // not a table of f32
/// ```
pub struct Job<N: Number = f32> {
    record: Record,
    kind: PhantomData<N>,
}

impl<N: Number> Job<N> {
    /// How many bytes a saved job has.
    pub const BYTES: usize = LENS_JOB_BYTES;

    /// A fresh job for a table of width by height cells. Samples of the border that do not settle are counted, and
    /// built on.
    pub fn new(camera: &Camera, width: u32, height: u32) -> Result<Job<N>, Refusal> {
        Job::begin(camera, width, height, false)
    }

    /// The same, but strict: the first sample that does not settle ends the build, with [`Refusal::SampleUnsettled`].
    pub fn strict(camera: &Camera, width: u32, height: u32) -> Result<Job<N>, Refusal> {
        Job::begin(camera, width, height, true)
    }

    fn begin(camera: &Camera, width: u32, height: u32, strict: bool) -> Result<Job<N>, Refusal> {
        let (model, params) = camera.parts();
        Ok(Job { record: sys::job_new(model, &params, width, height, strict)?, kind: PhantomData })
    }

    /// Does so many units, or fewer if no more are left or one is refused; 0 is fine, and does none. The table has
    /// [`numbers`](Job::numbers) numbers.
    ///
    /// An error is one of two kinds. [`Refusal::WrongLength`]: the table's length is wrong, and nothing was done. All
    /// others are those of a unit, the one after those done, and for good: each further turn that does a unit answers
    /// the same. Then the units before it are done, and [`progress`](Job::progress) counts them.
    pub fn turn(&mut self, table: &mut [N], units: u64) -> Result<Turn, Refusal> {
        let answer = N::turn(&mut self.record, table, units)?;
        Ok(if answer.status == LENS_STATUS_FINISHED as u64 {
            Turn::Finished(self.whole_region())
        } else {
            let TurnAnswer { done, units, updates, unsettled, first, .. } = answer;
            Turn::Running(Progress { done, units, updates, unsettled, first: place(first) })
        })
    }

    /// How far the build has come.
    pub fn progress(&self) -> Progress {
        let Record { done, updates, unsettled, first, .. } = self.record;
        let (width, height) = (u64::from(self.width()), u64::from(self.height()));
        Progress {
            done,
            units: 2 * (width + height) + width * height,
            updates: updates.into(),
            unsettled: unsettled.into(),
            first: place(first.into()),
        }
    }

    /// The table's region, once the table is finished.
    pub fn region(&self) -> Option<Region> {
        let progress = self.progress();
        (progress.done == progress.units).then(|| self.whole_region())
    }

    fn whole_region(&self) -> Region {
        self.record.region.map(f64::from_bits).into()
    }

    /// How many columns of cells the table has.
    pub fn width(&self) -> u32 {
        self.record.width
    }

    /// How many rows of cells the table has.
    pub fn height(&self) -> u32 {
        self.record.height
    }

    /// How many numbers the table has: two for each cell. The cell in column u and row v stands at 2 (v width + u).
    pub fn numbers(&self) -> usize {
        // A job has a size from 2 to 4,096 both ways: whatever made it judged that.
        2 * self.width() as usize * self.height() as usize
    }

    /// Whether it was begun strict.
    pub fn is_strict(&self) -> bool {
        self.record.strict != 0
    }

    /// The job as bytes, to save it. Save the table with it: no turn does a cell again that is done.
    pub fn as_bytes(&self) -> &[u8] {
        self.record.bytes()
    }

    /// A job that was saved, with the table that it was saved with. Bytes that no build can have come to are refused,
    /// as are a table or bytes of another length; a check word sees any damage within one word of 8 bytes.
    ///
    /// The bytes do not say what the cells are made of: bring a job back as what it was.
    ///
    /// ```
    /// use lens::{Camera, Job, Refusal};
    ///
    /// let camera = Camera::Affine { fx: 1.0, fy: 1.0, cx: 0.0, cy: 0.0 };
    /// let mut job = Job::new(&camera, 3, 2)?;
    /// let mut cells = vec![0f32; job.numbers()];
    /// job.turn(&mut cells, 12)?;
    ///
    /// let mut saved = job.as_bytes().to_vec();
    /// assert_eq!(Job::from_bytes(&saved, &mut cells)?, job);
    /// saved[100] ^= 1;
    /// assert_eq!(Job::from_bytes(&saved, &mut cells), Err(Refusal::ImpossibleJob));
    /// # Ok::<(), Refusal>(())
    /// ```
    pub fn from_bytes(bytes: &[u8], table: &mut [N]) -> Result<Job<N>, Refusal> {
        let mut record = Record::of_bytes(bytes).ok_or(Refusal::WrongLength)?;
        // A turn of no units judges the job and the table's length, and does nothing else.
        N::turn(&mut record, table, 0)?;
        Ok(Job { record, kind: PhantomData })
    }
}

impl Job<f32> {
    /// The finished table over its cells, to look points up; `None` as long as it is not finished.
    pub fn table<S: AsRef<[f32]>>(&self, cells: S) -> Option<Table<S>> {
        let region = self.region()?;
        Some(Table::new(cells, region, self.width(), self.height()))
    }
}

/// Counted from 1, with 0 for none.
fn place(first: u64) -> Option<u64> {
    (first != 0).then_some(first)
}

impl<N: Number> Clone for Job<N> {
    fn clone(&self) -> Job<N> {
        Job { record: self.record, kind: PhantomData }
    }
}

impl<N: Number> PartialEq for Job<N> {
    fn eq(&self, other: &Job<N>) -> bool {
        self.record == other.record
    }
}

impl<N: Number> Eq for Job<N> {}

impl<N: Number> fmt::Debug for Job<N> {
    fn fmt(&self, f: &mut fmt::Formatter<'_>) -> fmt::Result {
        f.debug_struct("Job")
            .field("width", &self.width())
            .field("height", &self.height())
            .field("strict", &self.is_strict())
            .field("progress", &self.progress())
            .field("region", &self.region())
            .finish()
    }
}
