//! Lines of the picture whose points hang on columns and on stations' lines, so that they can follow when events are put in another order
//! and when a station is folded.
use super::text::n;

/// A point of a path: x as the way from a slot's place, and y as the way from a station's line, or from the upper or the lower edge.
#[derive(Clone, Copy)]
pub struct Point {
    pub slot: usize,
    pub beside: f64,
    pub row: usize,
    pub off: f64,
}

pub fn at(slot: usize, beside: f64, row: usize, off: f64) -> Point {
    Point { slot, beside, row, off }
}

/// Where the slots and the rows are; the rows of the stations come first, then those of the upper and the lower edge.
pub struct Places {
    pub xs: Vec<f64>,
    pub rows: Vec<f64>,
}

/// How places are written: page.js finds them, or they are given.
pub enum Writing<'a> {
    Moving,
    Fixed(&'a Places),
}

impl Writing<'_> {
    /// The attribute of a path.
    pub fn path(&self, path: &Path) -> String {
        match self {
            Writing::Moving => {
                format!("data-d=\"{}\"", path.written(&|p| format!("{}{},{}:{}", p.slot, signed(p.beside), p.row, n(p.off))))
            }
            Writing::Fixed(places) => {
                format!("d=\"{}\"", path.written(&|p| format!("{},{}", n(places.xs[p.slot] + p.beside), n(places.rows[p.row] + p.off))))
            }
        }
    }

    /// The attribute of what stands in a slot.
    pub fn place(&self, slot: usize, y: f64) -> String {
        match self {
            Writing::Moving => format!("data-x=\"{slot}\" data-y=\"{}\"", n(y)),
            Writing::Fixed(places) => format!("transform=\"translate({},{})\"", n(places.xs[slot]), n(y)),
        }
    }
}

/// A number with its sign, and 0 as nothing.
fn signed(x: f64) -> String {
    match n(x) {
        zero if zero == "0" => String::new(),
        x if x.starts_with('-') => x,
        x => format!("+{x}"),
    }
}

/// Letters of an SVG path, each with its points.
#[derive(Clone, Default)]
pub struct Path(Vec<(char, Vec<Point>)>);

impl Path {
    pub fn from(start: Point) -> Path {
        Path(vec![('M', vec![start])])
    }

    pub fn line(mut self, to: Point) -> Path {
        self.0.push(('L', vec![to]));
        self
    }

    pub fn curve(mut self, leaving: Point, arriving: Point, to: Point) -> Path {
        self.0.push(('C', vec![leaving, arriving, to]));
        self
    }

    /// Whether some of it is between two x.
    pub fn meets(&self, xs: &[f64], left: f64, right: f64) -> bool {
        let has = |holds: &dyn Fn(f64) -> bool| self.0.iter().flat_map(|(_, points)| points).any(|p| holds(xs[p.slot] + p.beside));
        has(&|x| x >= left) && has(&|x| x <= right)
    }

    fn written(&self, point: &dyn Fn(&Point) -> String) -> String {
        let points = |points: &[Point]| points.iter().map(point).collect::<Vec<String>>().join(" ");
        self.0.iter().map(|(letter, of_letter)| format!("{letter}{}", points(of_letter))).collect()
    }
}
