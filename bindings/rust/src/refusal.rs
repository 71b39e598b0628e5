//! Refusals and their sentences: the repository's refusal table, which a test holds this one against, and the few that
//! are the crate's own.

use std::error::Error;
use std::fmt;

/// Why a call turned its input away. Nothing that was lent to it has changed, except the first words of work ([`work_used`](crate::work_used)).
///
/// Its number is one of the constants below. Those under 100 are the library's; from 100 on they are this crate's own,
/// and the library never answers them. Displayed, it is the table's sentence with number and place before it:
///
/// ```
/// let refusal = ynv::parse(b"no pages", &[]).unwrap_err();
/// assert_eq!(refusal.number, ynv::Refusal::NO_HEADER);
/// assert_eq!(refusal.to_string(), "refused 30: The pages have no whole header.");
/// ```
#[derive(Debug, Clone, Copy, PartialEq, Eq, Hash)]
#[non_exhaustive]
pub struct Refusal {
    /// The number in the refusal table.
    pub number: u32,
    /// The place, 0 where the table names none: a word of the strip, a polygon, a leaf or a list.
    pub place: u64,
}

/// A row of the table; `counted` is what the place counts, "" where there is none.
struct Row {
    number: u32,
    counted: &'static str,
    sentence: &'static str,
    advice: &'static str,
}

/// Each row once: it makes the constant and the table's line.
macro_rules! refusals {
    ($($name:ident = $number:literal, $counted:literal, $sentence:literal, $advice:literal;)*) => {
        /// The numbers, each with its sentence.
        impl Refusal {
            $(#[doc = $sentence] pub const $name: u32 = $number;)*
        }

        const TABLE: &[Row] =
            &[$(Row { number: $number, counted: $counted, sentence: $sentence, advice: $advice }),*];
    };
}

#[rustfmt::skip]
refusals! {
    TOO_LITTLE_WORK = 1, "", "The work memory is too small: lend at least four words for each word of the strip.", "The program lent too little work: four words for each word of the strip.";
    TOO_SHORT = 2, "", "The output is too short for the result.", "The program lent too little room for the result: it has to lend more and call again.";
    BAD_STRIP = 3, "word", "The strip is badly formed at this record: the bad record's first word; the strip's length if it ends early; the first word after its end if more follow.", "The program that made the strip is at fault; tell its maker the word.";
    LONG_INPUT = 4, "", "The program's input is longer than 65,536 bytes.", "Give the program a shorter file.";
    NO_SUCH_CELL = 5, "", "The cell coordinate is above 99.", "Give coordinates from 0 to 99.";
    BOX_NOT_FINITE = 10, "", "The cell's box (min, max or size) has a number that is infinite or not a number.", "Give the box (min, max and size) numbers that are neither infinite nor NaN.";
    MANY_POLYGONS = 11, "", "The cell has more than 16,383 polygons.", "Keep to 16,383 polygons: join some, or give some to another cell.";
    VERTEX_COUNT = 12, "polygon", "The polygon has fewer than 3 or more than 2,047 vertices.", "Give this polygon 3 to 2,047 vertices: delete it, or cut it in two.";
    VERTEX_START = 13, "polygon", "The polygons before this one have more than 65,535 vertices together.", "Simplify or move some of the polygons before this one, until they have at most 65,535 vertices together.";
    MANY_VERTICES = 14, "polygon", "The cell would need a 65,537th distinct vertex.", "Weld vertices that lie close together: up to this polygon the cell has more than 65,536 different ones.";
    MANY_AREAS = 15, "polygon", "The cell's edges would name a 33rd area.", "Let edges name fewer other areas: of 32, up to 6 are taken by the cell's own, its four neighbours' and 16383.";
    MANY_LINKS_OF_POLYGON = 16, "polygon", "The polygon has more than 7 portal links.", "Leave this polygon at most 7 portal links.";
    MANY_POLYGONS_IN_LEAF = 17, "leaf", "More than 8,192 polygons touch this leaf of the cell's quadtree (a sixteenth of a map cell, or all of a vehicle).", "Join or move polygons that touch this leaf, until they are at most 8,192.";
    MANY_POINTS_IN_LEAF = 18, "leaf", "More than 2,048 points lie in this leaf.", "Move or delete points in this leaf, until they are at most 2,048.";
    MANY_PORTALS = 19, "", "The cell has more than 585 portals.", "Keep to 585 portals in the cell.";
    MANY_LINKS = 20, "", "The cell has more than 8,192 portal links.", "Keep to 8,192 portal links in the cell, over all polygons.";
    NO_HEADER = 30, "", "The pages have no whole header.", "This is no system section of a cell, or it is cut off: unpack the file again.";
    NO_TREE = 31, "", "The pages have no sector tree.", "This is no system section of a cell, or it is damaged: unpack the file again.";
    BAD_SECTOR = 32, "", "A sector does not lie inside its section.", "The pages are cut off or damaged: unpack the file again.";
    MANY_SECTORS = 33, "", "The sector tree has more than 4,096 sectors, or goes in a circle.", "The pages are damaged: unpack the file again.";
    BAD_SECTOR_DATA = 34, "", "A sector's data or points do not lie inside their section.", "The pages are cut off or damaged: unpack the file again.";
    BAD_LIST = 35, "list", "The list's header, part table or a part does not lie inside its section.", "The pages are cut off or damaged: unpack the file again.";
    LIST_COUNT = 36, "list", "The list's parts do not add up to its count.", "The pages are damaged: unpack the file again.";
    BAD_RUN = 37, "polygon", "The polygon's run does not lie inside the indices and the edges.", "The pages are damaged: unpack the file again.";
    BAD_INDEX = 38, "polygon", "The polygon names a vertex that isn't there.", "The pages are damaged: unpack the file again.";
    BAD_PORTALS = 39, "", "The portals do not lie inside their section.", "The pages are cut off or damaged: unpack the file again.";
    PAGES_BOX_NOT_FINITE = 40, "", "The box in the pages has a number that is infinite or not a number.", "The pages are damaged, or their maker is at fault: unpack the file again, or tell the maker.";
    THIN_POLYGON = 41, "polygon", "The polygon has fewer than 3 vertices, so there is nothing of it to draw.", "Delete this polygon, or give it 3 vertices or more.";
    NO_SUCH_POLYGON = 42, "", "The strip has no polygon of this number to start from.", "Start from a polygon of the cell; they are counted from 0.";
    FEW_MARKS = 43, "", "There are fewer bytes for marks than the strip has polygons.", "The program that calls lends too few bytes: it takes one for each polygon. Tell its maker.";
    VERTICES_UNFIT = 100, "polygon", "The polygon has more than 4,095 vertices, and a strip holds no more.", "Cut this polygon in pieces; one of 3 to 2,047 vertices can be saved.";
    EDGES_UNFIT = 101, "polygon", "The polygon has more than 4,095 edges, and a strip holds no more.", "Remove this polygon's edges beyond its vertices; saving ignores them.";
    LINKS_UNFIT = 102, "polygon", "The polygon has more than 15 portal links, and a strip holds no more.", "Leave this polygon at most 7 portal links; no more can be saved.";
    NO_MEMORY = 103, "", "There is not enough memory for the cell.", "Allow the program more memory. A cell that can be saved takes a few megabytes, unless it has points or edges that saving drops.";
    OVER_CAP = 104, "", "The cell that the pages hold is longer than the caller's limit.", "Pages that let many polygons share their vertices can hold so long a cell: allow a longer one if you trust them.";
}

/// The lists by their places in 35 and 36.
const LISTS: [&str; 4] = ["vertices", "indices", "edges", "polygons"];

impl Refusal {
    /// The refusal of this number at this place, for those who answer refusals of their own.
    #[must_use]
    pub const fn new(number: u32, place: u64) -> Self {
        Self { number, place }
    }

    /// The sentence of the refusal table.
    ///
    /// ```
    /// assert_eq!(ynv::parse(&[], &[]).unwrap_err().sentence(), "The pages have no whole header.");
    /// ```
    #[must_use]
    pub fn sentence(&self) -> &'static str {
        self.row().map_or("The refusal table has no such number.", |row| row.sentence)
    }

    /// What to do about it, for the person at the screen; "" for a number that the table doesn't have.
    ///
    /// ```
    /// let refusal = ynv::Refusal::new(ynv::Refusal::MANY_LINKS_OF_POLYGON, 3);
    /// assert_eq!(refusal.advice(), "Leave this polygon at most 7 portal links.");
    /// ```
    #[must_use]
    pub fn advice(&self) -> &'static str {
        self.row().map_or("", |row| row.advice)
    }

    fn row(&self) -> Option<&'static Row> {
        TABLE.iter().find(|row| row.number == self.number)
    }

    fn list(&self) -> Option<&'static str> {
        let index = usize::try_from(self.place).ok()?.checked_sub(1)?;
        LISTS.get(index).copied()
    }
}

impl fmt::Display for Refusal {
    fn fmt(&self, f: &mut fmt::Formatter<'_>) -> fmt::Result {
        let Refusal { number, place } = self;
        write!(f, "refused {number}")?;
        match (self.row().map_or("", |row| row.counted), self.list()) {
            ("", _) => {}
            ("list", Some(list)) => write!(f, " at the list of {list}")?,
            (counted, _) => write!(f, " at {counted} {place}")?,
        }
        write!(f, ": {}", self.sentence())
    }
}

impl Error for Refusal {}

#[cfg(test)]
mod tests {
    use super::*;
    use std::fs;

    /// The repository's refusal table: a paper of its own, or a part of the README.
    fn paper() -> String {
        let root = concat!(env!("CARGO_MANIFEST_DIR"), "/../../");
        let of_its_own = fs::read_to_string(format!("{root}docs/REFUSALS.md"));
        of_its_own.unwrap_or_else(|_| {
            let readme = fs::read_to_string(format!("{root}README.md")).unwrap();
            readme.split_once("## Refusals").expect("the README's table").1.to_string()
        })
    }

    /// What a place of the paper's table counts.
    fn counted(place: &str) -> &'static str {
        let kinds = [("–", ""), ("word", "word"), ("polygon", "polygon"), ("leaf", "leaf"), ("1 ", "list")];
        kinds.into_iter().find(|(start, _)| place.starts_with(start)).expect("a new kind of place").1
    }

    #[test]
    fn sentences_are_those_of_the_paper() {
        let paper = paper();
        let rows = paper.lines().filter_map(|line| {
            let cells: Vec<&str> = line.trim().trim_matches('|').split('|').map(str::trim).collect();
            let [number, place, sentence, ..] = cells[..] else { return None };
            Some((number.parse::<u32>().ok()?, counted(place), sentence.to_string()))
        });
        // The crate's own numbers need not stand in the paper.
        let of_library = |number: &u32| *number < Refusal::VERTICES_UNFIT;
        let rows: Vec<_> = rows.filter(|(number, ..)| of_library(number)).collect();
        let table = TABLE.iter().filter(|row| of_library(&row.number));
        assert_eq!(rows, table.map(|row| (row.number, row.counted, row.sentence.to_string())).collect::<Vec<_>>());
    }

    #[test]
    fn numbers_stand_once_and_say_what_to_do() {
        assert!(TABLE.windows(2).all(|rows| rows[0].number < rows[1].number));
        assert!(TABLE.iter().all(|row| row.sentence.ends_with('.') && row.advice.ends_with('.')));
    }

    #[test]
    fn places_are_shown_where_there_are_any() {
        let shown = |number, place| Refusal { number, place }.to_string();
        assert_eq!(shown(2, 0), "refused 2: The output is too short for the result.");
        assert!(shown(3, 14).starts_with("refused 3 at word 14: The strip is badly formed"));
        assert!(shown(18, 0).starts_with("refused 18 at leaf 0: More than"));
        assert!(shown(36, 3).starts_with("refused 36 at the list of edges: "));
        assert!(shown(36, 0).starts_with("refused 36 at list 0: "));
        assert_eq!(shown(99, 7), "refused 99: The refusal table has no such number.");
    }
}
