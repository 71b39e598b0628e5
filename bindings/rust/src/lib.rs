//! Navmesh cells: unpacked pages of a `.ynv` to polygons, and polygons to pages.
//!
//! Safe calls over libynv.a, each function of which is proved: it takes every input, ends, and keeps its promise
//! (docs/PROMISES.md of the repository). A call either accepts or answers a [`Refusal`].
//!
//! [`Ynv`] is a cell with the names of rage-formats' `ynv.rs`; [`parse_ynv`] opens one and [`serialize_ynv`] saves one:
//!
//! ```
//! use ynv::{NavEdge, NavPoly, Vec3, Ynv};
//!
//! let mut cell = Ynv::new_cell(4040, Vec3::ZERO, Vec3::new(150.0, 150.0, 50.0));
//! let corners = [(0.0, 0.0), (150.0, 0.0), (150.0, 150.0)].map(|(x, y)| Vec3::new(x, y, 7.0));
//! let mut floor = NavPoly::new(corners.to_vec());
//! floor.edges[1] = NavEdge::neighbour(4041, 12); // across x = 150 lies polygon 12 of the next cell
//! cell.polys.push(floor);
//!
//! let saved = ynv::serialize_ynv(&cell)?;
//! let opened = ynv::parse_ynv(&saved.pages, &[])?;
//! assert_eq!(opened.polys[0].edges[1].a.area_id, 4041);
//! # Ok::<(), ynv::Refusal>(())
//! ```
//!
//! Below it lie strips: a cell as 32-bit words, one record after the other (include/ynv.h of the repository has the
//! layout). [`parse`] and [`serialize`] go between pages and strips and make the memory that they need;
//! [`parse_into`] and [`serialize_into`] use the caller's and allocate nothing. A call uses less than 1 MB of stack.
//!
//! ```
//! let mut strip = vec![0; 15];
//! strip[0] = 1 << 28; // kind 1, the cell
//! strip[1] = ynv::CONTENT_VEHICLE;
//! strip[2] = ynv::AREA_ALONE;
//! strip[14] = 5 << 28; // kind 5, the end
//!
//! let (pages, written) = ynv::serialize(&strip)?;
//! assert_eq!((pages.len(), written.points_stored, written.points_dropped), (688, 0, 0));
//!
//! let (again, counts) = ynv::parse(&pages, &[])?;
//! assert_eq!(again, strip);
//! assert_eq!((counts.polys, counts.sectors), (0, 1));
//! # Ok::<(), ynv::Refusal>(())
//! ```

#![deny(missing_docs, unsafe_code)]

mod cell;
#[allow(unsafe_code)]
mod ffi;
mod refusal;
mod vec3;
mod words;

pub use cell::{
    cell_file_name, NavEdge, NavEdgeEnd, NavPoint, NavPoly, NavPortal, Ynv, ADJACENT_NONE, AREA_ALONE, CELL_ORIGIN,
    CELL_SIZE, CELL_VERSION, CONTENT_POLYGONS, CONTENT_PORTALS, CONTENT_VEHICLE, NAVMESH_VFT,
};
pub use refusal::Refusal;
pub use vec3::Vec3;

use ffi::Answer;

/// Words that any strip takes which is read from pages that [`serialize`] wrote: 16,383 polygons, 67,582 vertices and
/// edges, 8,192 links, 585 portals and 32,768 points make so many.
pub const MOST_WORDS: usize = 819_484;

/// Bytes that any written cell takes: at most 200 blocks, and a block moves the end by at most 32,768.
pub const MOST_BYTES: usize = 200 * 32_768;

/// Words of the longest strip that [`parse`] makes: 64 MiB, twenty times [`MOST_WORDS`]. [`parse_within`] sets another.
pub const PARSE_WORDS: usize = 1 << 24;

/// How much a cell that was read has.
#[derive(Debug, Clone, Copy, PartialEq, Eq)]
pub struct Counts {
    /// Words of the strip.
    pub words: usize,
    /// Polygons.
    pub polys: usize,
    /// Portals.
    pub portals: usize,
    /// Points.
    pub points: usize,
    /// Sectors visited; one that is reached twice counts twice.
    pub sectors: usize,
}

/// What saving wrote, and what became of the points: a point is stored once, in the first leaf that contains it in x and
/// y, borders included, and dropped where none does. The two counts add up to how many points the strip has, which is proved.
/// A coordinate outside the box is pushed to its border, which is told too.
#[derive(Debug, Clone, Copy, PartialEq, Eq)]
#[non_exhaustive]
pub struct Written {
    /// Bytes of the pages.
    pub length: usize,
    /// Points that are in the pages.
    pub points_stored: usize,
    /// Points that lie in no leaf, outside the box or with a NaN, and are not in the pages.
    pub points_dropped: usize,
    /// Coordinates that lie outside the box or are a NaN: of the vertices of all polygons as often as they stand there, of
    /// both ends of all portals and of all points, dropped ones too. In the pages they stand at the border, a NaN at
    /// `bb_min`. What rounding brings to the border is inside, and no coordinate counts on a side below 2⁻²³.
    pub coordinates_pushed: usize,
}

/// The answer of an accepted call, or the refusal with its place.
fn accepted(number: u32, answer: Answer) -> Result<Answer, Refusal> {
    match number {
        0 => Ok(answer),
        number => Err(Refusal::new(number, answer[0])),
    }
}

/// The memory that a call is lent, or the refusal where there is none.
fn lent<T: ffi::Zero>(count: usize) -> Result<Vec<T>, Refusal> {
    ffi::zeros(count).ok_or(Refusal::new(Refusal::NO_MEMORY, 0))
}

/// Opens a cell: its pages, system and graphics section, as a typed cell.
///
/// # Errors
/// As [`parse`].
pub fn parse_ynv(system: &[u8], graphics: &[u8]) -> Result<Ynv, Refusal> {
    let (strip, _) = parse(system, graphics)?;
    Ynv::from_strip(&strip)
}

/// A cell that was saved: its pages, and what they could not keep. That positions inside the box move to its steps is not
/// counted here.
#[derive(Debug, Clone, PartialEq, Eq)]
#[non_exhaustive]
pub struct Saved {
    /// The system section; there is no graphics section.
    pub pages: Vec<u8>,
    /// Points that are in the pages.
    pub points_stored: usize,
    /// Points that lie in no leaf of the cell, outside its box or with a NaN. With those stored they are all.
    pub points_dropped: usize,
    /// Coordinates of vertices, portal ends and points that were pushed to the border of the box, as in [`Written`].
    pub coordinates_pushed: usize,
    /// Edges beyond the number of their polygon's vertices.
    pub edges_dropped: usize,
    /// Numbers that have lost upper bits, being too large for their field in the pages: of an edge's half `poly` above
    /// 16,383, `unk2` above 3 and `unk3` above 2,047; of a portal `area_from` and `area_to` above 16,383 and
    /// `area_unk` above 15.
    pub numbers_cut: usize,
}

/// Saves a typed cell.
///
/// # Errors
/// What [`Ynv::to_strip`] refuses before any call, then as [`serialize`].
///
/// ```
/// use ynv::{NavPoint, Vec3, Ynv};
/// let mut cell = Ynv::new_cell(4040, Vec3::ZERO, Vec3::new(150.0, 150.0, 50.0));
/// for x in [75.0, 151.0] {
///     cell.points.push(NavPoint { position: Vec3::new(x, 75.0, 0.0), angle: 0, kind: 0 });
/// }
/// let saved = ynv::serialize_ynv(&cell)?;
/// assert_eq!((saved.points_stored, saved.points_dropped), (1, 1)); // one lies outside the box
/// assert_eq!(saved.coordinates_pushed, 1); // by its x
/// assert_eq!(ynv::parse_ynv(&saved.pages, &[])?.points.len(), 1);
/// # Ok::<(), ynv::Refusal>(())
/// ```
pub fn serialize_ynv(cell: &Ynv) -> Result<Saved, Refusal> {
    let (pages, written) = serialize(&cell.to_strip()?)?;
    let Written { points_stored, points_dropped, coordinates_pushed, .. } = written;
    let (edges_dropped, numbers_cut) = (surplus_edges(cell), large_numbers(cell));
    Ok(Saved { pages, points_stored, points_dropped, coordinates_pushed, edges_dropped, numbers_cut })
}

fn surplus_edges(cell: &Ynv) -> usize {
    cell.polys.iter().map(|poly| poly.edges.len().saturating_sub(poly.vertices.len())).sum()
}

/// Numbers of a cell that are larger than their field in the pages; surplus edges have no field.
fn large_numbers(cell: &Ynv) -> usize {
    let edges = cell.polys.iter().flat_map(|poly| poly.edges.iter().take(poly.vertices.len()));
    let of_ends =
        edges.flat_map(|edge| [edge.a, edge.b]).map(|end| [end.poly > 0x3FFF, end.unk2 > 3, end.unk3 > 0x7FF]);
    let of_portals = cell.portals.iter().map(|p| [p.area_from > 0x3FFF, p.area_to > 0x3FFF, p.area_unk > 0xF]);
    of_ends.chain(of_portals).flatten().filter(|&large| large).count()
}

/// Reads a cell's pages, system and graphics section, into a new strip of at most [`PARSE_WORDS`].
///
/// # Errors
/// The refusals of pages, [`Refusal::NO_HEADER`] to [`Refusal::PAGES_BOX_NOT_FINITE`]; [`Refusal::OVER_CAP`] where the
/// strip would be longer; [`Refusal::NO_MEMORY`].
///
/// ```
/// let refusal = ynv::parse(b"no pages", &[]).unwrap_err();
/// assert_eq!(refusal.number, 30);
/// assert_eq!(refusal.to_string(), "refused 30: The pages have no whole header.");
/// ```
pub fn parse(system: &[u8], graphics: &[u8]) -> Result<(Vec<u32>, Counts), Refusal> {
    parse_within(system, graphics, PARSE_WORDS)
}

/// Reads a cell's pages into a new strip of at most `most_words`.
///
/// It lends [`strip_words`] first, which is enough for pages that [`serialize`] wrote. Pages from elsewhere may hold a
/// longer cell, since polygons may share what they name: then it lends sixteen times as much and asks again, until the
/// strip fits or `most_words` were lent. Memory that is lent and not used costs address space alone on most systems.
///
/// # Errors
/// As [`parse`], with [`Refusal::OVER_CAP`] where the strip would be longer than `most_words`.
///
/// ```
/// # let mut strip = vec![0; 15];
/// # (strip[0], strip[1], strip[14]) = (1 << 28, 4, 5 << 28);
/// # let (pages, _) = ynv::serialize(&strip)?;
/// assert_eq!(ynv::parse_within(&pages, &[], 15)?.0.len(), 15);
/// assert_eq!(ynv::parse_within(&pages, &[], 14).unwrap_err().number, ynv::Refusal::OVER_CAP);
/// # Ok::<(), ynv::Refusal>(())
/// ```
pub fn parse_within(system: &[u8], graphics: &[u8], most_words: usize) -> Result<(Vec<u32>, Counts), Refusal> {
    let mut words = strip_words(system, graphics).min(most_words);
    loop {
        match parse_lending(words, system, graphics) {
            Err(refusal) if refusal.number == Refusal::TOO_SHORT => {}
            answer => return answer,
        }
        if words == most_words {
            return Err(Refusal::new(Refusal::OVER_CAP, 0));
        }
        words = words.saturating_mul(16).min(most_words);
    }
}

fn parse_lending(words: usize, system: &[u8], graphics: &[u8]) -> Result<(Vec<u32>, Counts), Refusal> {
    let mut strip = lent(words)?;
    let counts = parse_into(system, graphics, &mut strip)?;
    strip.truncate(counts.words);
    strip.shrink_to_fit();
    Ok((strip, counts))
}

/// Reads a cell's pages into the lent strip, whose first `words` words are the cell then; the others stay as they were,
/// and a refusal changes none.
///
/// # Errors
/// The refusals of pages, [`Refusal::NO_HEADER`] to [`Refusal::PAGES_BOX_NOT_FINITE`], then [`Refusal::TOO_SHORT`] for
/// the lent strip.
///
/// ```
/// # let mut strip = vec![0; 15];
/// # (strip[0], strip[1], strip[14]) = (1 << 28, 4, 5 << 28);
/// # let (pages, _) = ynv::serialize(&strip)?;
/// let mut lent = [7; 20];
/// let counts = ynv::parse_into(&pages, &[], &mut lent)?;
/// assert_eq!(lent[..counts.words], strip);
/// assert_eq!(lent[counts.words..], [7; 5]);
///
/// let too_short = ynv::parse_into(&pages, &[], &mut lent[..14]).unwrap_err();
/// assert_eq!(too_short.number, 2);
/// # Ok::<(), ynv::Refusal>(())
/// ```
pub fn parse_into(system: &[u8], graphics: &[u8], strip: &mut [u32]) -> Result<Counts, Refusal> {
    let mut answer = [0; 8];
    let number = ffi::parse(system, graphics, strip, &mut answer);
    let [words, polys, portals, points, sectors, ..] = accepted(number, answer)?.map(|count| count as usize);
    Ok(Counts { words, polys, portals, points, sectors })
}

/// Writes a strip's cell as pages, a system section, and says how many points it stored and dropped, and how many
/// coordinates it pushed to the border of the box.
///
/// It lends [`work_words`] and [`pages_bytes`], so it is refused neither with 1 nor with 2, which is proved.
///
/// # Errors
/// [`Refusal::BAD_STRIP`]; the reasons why a cell can't be saved, [`Refusal::BOX_NOT_FINITE`] to
/// [`Refusal::MANY_LINKS`]; [`Refusal::NO_MEMORY`].
///
/// ```
/// // A cell from 0 to 150 in x and y with a point at (150, 75), on its border, and one at (151, 75).
/// let mut strip = vec![0; 14];
/// strip[0] = 1 << 28;
/// strip[8..14].fill(150f32.to_bits());
/// for x in [150f32, 151.0] {
///     strip.extend([4 << 28, x.to_bits(), 75f32.to_bits(), 0]);
/// }
/// strip.push(5 << 28);
/// let (pages, written) = ynv::serialize(&strip)?;
/// assert_eq!((written.points_stored, written.points_dropped), (1, 1));
/// assert_eq!(written.coordinates_pushed, 1); // the x of the second
/// assert_eq!(written.length, pages.len());
///
/// let refusal = ynv::serialize(&[1 << 28]).unwrap_err();
/// assert_eq!((refusal.number, refusal.place), (3, 1)); // the cell's record ends early
/// # Ok::<(), ynv::Refusal>(())
/// ```
pub fn serialize(strip: &[u32]) -> Result<(Vec<u8>, Written), Refusal> {
    // What is no strip is refused before memory is asked for on its behalf.
    count_seams(strip)?;
    let mut work = lent(work_words(strip))?;
    let mut pages = lent(pages_bytes(strip))?;
    let written = serialize_into(strip, &mut work, &mut pages)?;
    pages.truncate(written.length);
    pages.shrink_to_fit();
    Ok((pages, written))
}

/// Writes a strip's cell into the lent pages, whose first `length` bytes are the cell then; the others stay as they were,
/// and a refusal changes none. Work may hold anything before; after the call its first [`work_used`] words may hold
/// anything, and those behind them are what they were, accepted or refused, which is proved. So the half behind may hold
/// something else meanwhile.
///
/// # Errors
/// [`Refusal::BAD_STRIP`], [`Refusal::TOO_LITTLE_WORK`]; the reasons why a cell can't be saved,
/// [`Refusal::BOX_NOT_FINITE`] to [`Refusal::MANY_LINKS`]; [`Refusal::TOO_SHORT`] for the lent pages.
///
/// ```
/// # let mut strip = vec![0; 15];
/// # (strip[0], strip[1], strip[14]) = (1 << 28, 4, 5 << 28);
/// let mut work = vec![0; ynv::work_words(&strip)];
/// let mut pages = [0; 1000];
/// let written = ynv::serialize_into(&strip, &mut work, &mut pages)?;
/// assert_eq!((written.length, written.points_stored, written.points_dropped), (688, 0, 0));
///
/// let refused = |work: &mut [u32], pages: &mut [u8]| ynv::serialize_into(&strip, work, pages).unwrap_err().number;
/// assert_eq!(refused(&mut work[1..], &mut pages), 1);
/// assert_eq!(refused(&mut work, &mut pages[..687]), 2);
/// # Ok::<(), ynv::Refusal>(())
/// ```
pub fn serialize_into(strip: &[u32], work: &mut [u32], pages: &mut [u8]) -> Result<Written, Refusal> {
    let mut answer = [0; 8];
    let number = ffi::serialize(strip, work, pages, &mut answer);
    let [length, points_stored, points_dropped, coordinates_pushed, ..] =
        accepted(number, answer)?.map(|count| count as usize);
    Ok(Written { length, points_stored, points_dropped, coordinates_pushed })
}

/// Counts the seams of a strip: halves of its edges, surplus ones too, whose area touches the cell's. Two areas below
/// 10000 touch when they differ by 100, or by 1 within the same row of a hundred: when their cells share a side. An area
/// of 10000 or more touches none.
///
/// # Errors
/// [`Refusal::BAD_STRIP`] alone: so this call is also the test whether words are a strip.
///
/// ```
/// // Cell 4040 with a triangle that has one edge: half a names cell 4041, half b the cell itself.
/// let triangle = [2 << 28 | 1 << 12 | 3, 0, 0, 0];
/// let edge = [4041, 0, 0, 4040, 0, 0];
/// let mut strip = vec![0; 14];
/// (strip[0], strip[2]) = (1 << 28, 4040);
/// strip.extend(triangle);
/// strip.extend([0; 9]); // its vertices
/// strip.extend(edge);
/// strip.push(5 << 28);
/// assert_eq!(ynv::count_seams(&strip)?, 1);
///
/// // At the east edge of the map cell 4100 is no neighbour of 4099: it lies at the far west of the next row.
/// (strip[2], strip[27]) = (4099, 4100);
/// assert_eq!(ynv::count_seams(&strip)?, 0);
/// # Ok::<(), ynv::Refusal>(())
/// ```
pub fn count_seams(strip: &[u32]) -> Result<u64, Refusal> {
    let mut answer = [0; 8];
    let number = ffi::count_seams(strip, &mut answer);
    Ok(accepted(number, answer)?[0])
}

/// The spot (x, y) of a position, for [`pick_poly`]: the shorts that saving stores of a vertex there, from 0 at
/// `bb_min` up to 65535 at the other end of a side of `bb_size`, and 0 everywhere on a side below 2^-23. What lies
/// outside the box goes to its border, and a NaN to 0: so test first whether the cursor is in the box, or it may pick a
/// polygon at the near border.
///
/// # Errors
/// [`Refusal::BAD_STRIP`] and [`Refusal::BOX_NOT_FINITE`].
///
/// ```
/// // A cell from 0 to 2 in x and y.
/// let mut strip = vec![0; 15];
/// (strip[0], strip[14]) = (1 << 28, 5 << 28);
/// strip[11..13].fill(2f32.to_bits());
/// assert_eq!(ynv::spot_for_position(&strip, 1.0, 2.0)?, (32_768, 65_535));
/// assert_eq!(ynv::spot_for_position(&strip, -1.0, f32::NAN)?, (0, 0));
/// # Ok::<(), ynv::Refusal>(())
/// ```
pub fn spot_for_position(strip: &[u32], x: f32, y: f32) -> Result<(u16, u16), Refusal> {
    let mut answer = [0; 8];
    let number = ffi::spot_for_position(strip, x, y, &mut answer);
    let [x, y, ..] = accepted(number, answer)?.map(|short| short as u16);
    Ok((x, y))
}

/// The lowest-numbered polygon that contains a spot, or none. [`spot_for_position`] makes the spot. A rectangle
/// contains the spots from its least x and y on and below its greatest. At 65535, the far sides of the box and half a
/// step before them, there is no polygon.
///
/// # Errors
/// [`Refusal::BAD_STRIP`] and [`Refusal::BOX_NOT_FINITE`].
///
/// ```
/// // A cell from 0 to 150 in x and y with one triangle, (0, 0), (150, 0), (0, 150).
/// let far = 150f32.to_bits();
/// let mut strip = vec![0; 14];
/// strip[0] = 1 << 28;
/// strip[11..14].fill(far);
/// strip.extend([2 << 28 | 3, 0, 0, 0]);
/// strip.extend([0, 0, 0, far, 0, 0, 0, far, 0]);
/// strip.push(5 << 28);
///
/// let (x, y) = ynv::spot_for_position(&strip, 20.0, 70.0)?;
/// assert_eq!(ynv::pick_poly(&strip, x, y)?, Some(0));
/// assert_eq!(ynv::pick_poly(&strip, 65_535, 0)?, None);
/// # Ok::<(), ynv::Refusal>(())
/// ```
pub fn pick_poly(strip: &[u32], x: u16, y: u16) -> Result<Option<usize>, Refusal> {
    let mut answer = [0; 8];
    let number = ffi::pick_poly(strip, x, y, &mut answer);
    let [found, poly, ..] = accepted(number, answer)?;
    Ok((found == 1).then_some(poly as usize))
}

/// A strip's polygons as Wavefront OBJ text, which any modelling program opens: `v X Y Z` for each vertex of each
/// polygon in order, in shorts from 0 to 65535 of the cell's box as saving stores them, then `f` and its vertices'
/// numbers for each polygon, counted from 1 through the whole text. Vertices are not shared; portals and points are
/// left behind.
///
/// It lends [`obj_bytes`], so it is not refused with 2, which is proved.
///
/// # Errors
/// [`Refusal::BAD_STRIP`], [`Refusal::BOX_NOT_FINITE`], [`Refusal::THIN_POLYGON`], in this order;
/// [`Refusal::NO_MEMORY`].
///
/// ```
/// // A cell from 0 to 150 in x and y with one triangle, (0, 0), (150, 0), (0, 150).
/// let far = 150f32.to_bits();
/// let mut strip = vec![0; 14];
/// strip[0] = 1 << 28;
/// strip[11..14].fill(far);
/// strip.extend([2 << 28 | 3, 0, 0, 0]);
/// strip.extend([0, 0, 0, far, 0, 0, 0, far, 0]);
/// strip.push(5 << 28);
/// assert_eq!(ynv::export_obj(&strip)?, "v 0 0 0\nv 65535 0 0\nv 0 65535 0\nf 1 2 3\n");
///
/// strip[14] = 2 << 28 | 2; // two vertices, and three words too many
/// strip.drain(24..27);
/// let refusal = ynv::export_obj(&strip).unwrap_err();
/// assert_eq!((refusal.number, refusal.place), (ynv::Refusal::THIN_POLYGON, 0));
/// # Ok::<(), ynv::Refusal>(())
/// ```
pub fn export_obj(strip: &[u32]) -> Result<String, Refusal> {
    // What is no strip is refused before memory is asked for on its behalf.
    count_seams(strip)?;
    let mut text = lent(obj_bytes(strip))?;
    let length = export_obj_into(strip, &mut text)?;
    text.truncate(length);
    text.shrink_to_fit();
    Ok(String::from_utf8(text).expect("letters, digits, spaces and newlines"))
}

/// The same into the lent text, whose first bytes, as many as are answered, are the drawing then; the others stay as they
/// were, and a refusal changes none. With less than [`obj_bytes`] the vertices may be gone through twice, since the text's
/// length is decided before a byte is written.
///
/// # Errors
/// [`Refusal::BAD_STRIP`], [`Refusal::BOX_NOT_FINITE`], [`Refusal::THIN_POLYGON`], then [`Refusal::TOO_SHORT`] for the
/// lent text.
///
/// ```
/// # let far = 150f32.to_bits();
/// # let mut strip = vec![0; 14];
/// # strip[0] = 1 << 28;
/// # strip[11..14].fill(far);
/// # strip.extend([2 << 28 | 3, 0, 0, 0]);
/// # strip.extend([0, 0, 0, far, 0, 0, 0, far, 0]);
/// # strip.push(5 << 28);
/// let mut text = [b'?'; 42];
/// assert_eq!(ynv::export_obj_into(&strip, &mut text)?, 40);
/// assert!(text.ends_with(b"f 1 2 3\n??"));
/// assert_eq!(ynv::export_obj_into(&strip, &mut text[..39]).unwrap_err().number, 2);
/// # Ok::<(), ynv::Refusal>(())
/// ```
pub fn export_obj_into(strip: &[u32], text: &mut [u8]) -> Result<usize, Refusal> {
    let mut answer = [0; 8];
    let number = ffi::export_obj(strip, text, &mut answer);
    Ok(accepted(number, answer)?[0] as usize)
}

/// Which polygons a walker can get to from one of them: `true` for each to which some chain of steps leads, the start
/// included. A step goes over a half of an edge, either one, whose area is the cell's own id and whose poly, cut to 14
/// bits, is below 16383 and a polygon of the strip; only edges below the vertex count serve. A portal whose two areas are
/// the own id is a step from `poly_from` to `poly_to`, one way; a cell whose id is 65536 or more has none. Other cells are
/// not looked at.
///
/// It takes 0.2 ms with 5,000 polygons, and at most 0.4 MB of stack. With more than 65,535 portals the time grows with the
/// polygons marked times the polygons and portals that there are, to 23 s with 131,070 of them made to cost much: for
/// pages from strangers look at [`Counts::portals`] first. A cell that can be saved has at most 585.
///
/// # Errors
/// [`Refusal::BAD_STRIP`], then [`Refusal::NO_SUCH_POLYGON`]; [`Refusal::NO_MEMORY`].
///
/// ```
/// // Cell 4040 with three triangles, each with one edge: 0 leads to 2, and 2 nowhere; nothing leads to 1.
/// let mut strip = vec![0; 14];
/// (strip[0], strip[2]) = (1 << 28, 4040);
/// for to in [2, 16_383, 16_383] {
///     strip.extend([2 << 28 | 1 << 12 | 3, 0, 0, 0]);
///     strip.extend([0; 9]); // its vertices
///     strip.extend([4040, to, 0, 4040, to, 0]);
/// }
/// strip.push(5 << 28);
/// assert_eq!(ynv::reachable(&strip, 0)?, [true, false, true]);
/// assert_eq!(ynv::reachable(&strip, 2)?, [false, false, true]);
/// assert_eq!(ynv::reachable(&strip, 3).unwrap_err().number, ynv::Refusal::NO_SUCH_POLYGON);
/// # Ok::<(), ynv::Refusal>(())
/// ```
pub fn reachable(strip: &[u32], start: usize) -> Result<Vec<bool>, Refusal> {
    // Lent no byte, the call tells what is wrong with strip or start before it tells that bytes are missing.
    match reachable_into(strip, start, &mut []) {
        Err(refusal) if refusal.number != Refusal::FEW_MARKS => return Err(refusal),
        _ => {}
    }
    let mut marks = lent(words::polygons(strip))?;
    reachable_into(strip, start, &mut marks)?;
    Ok(marks.iter().map(|&mark| mark == 1).collect())
}

/// The same into the lent bytes, one to a polygon: 1 for each to which some chain of steps leads, 0 for the others; and
/// how many are marked. Bytes behind the polygons stay as they were, and a refusal changes none.
///
/// # Errors
/// [`Refusal::BAD_STRIP`], [`Refusal::NO_SUCH_POLYGON`], [`Refusal::FEW_MARKS`], in this order.
///
/// ```
/// # let mut strip = vec![0; 14];
/// # (strip[0], strip[2]) = (1 << 28, 4040);
/// # for to in [2, 16_383, 16_383] {
/// #     strip.extend([2 << 28 | 1 << 12 | 3, 0, 0, 0]);
/// #     strip.extend([0; 9]); // its vertices
/// #     strip.extend([4040, to, 0, 4040, to, 0]);
/// # }
/// # strip.push(5 << 28);
/// let mut marks = [7; 5];
/// assert_eq!(ynv::reachable_into(&strip, 0, &mut marks)?, 2);
/// assert_eq!(marks, [1, 0, 1, 7, 7]);
/// assert_eq!(ynv::reachable_into(&strip, 0, &mut marks[..2]).unwrap_err().number, ynv::Refusal::FEW_MARKS);
/// # Ok::<(), ynv::Refusal>(())
/// ```
pub fn reachable_into(strip: &[u32], start: usize, marks: &mut [u8]) -> Result<usize, Refusal> {
    let mut answer = [0; 8];
    let number = ffi::reachable(strip, start as u64, marks, &mut answer);
    Ok(accepted(number, answer)?[0] as usize)
}

/// The cell (x, y) of the map's grid in which a position lies: 100 by 100 cells of 150 from -6000. A position outside
/// the map gives the nearest cell, a NaN coordinate 0.
///
/// ```
/// assert_eq!(ynv::cell_for_position(-1500.0, 2000.0), (30, 53));
/// assert_eq!(ynv::cell_for_position(f32::INFINITY, f32::NAN), (99, 0));
/// ```
#[must_use]
pub fn cell_for_position(x: f32, y: f32) -> (u32, u32) {
    let mut answer = [0; 8];
    // This call refuses nothing.
    ffi::cell_for_position(x, y, &mut answer);
    (answer[0] as u32, answer[1] as u32)
}

/// The bounds of a cell of the grid: min x, min y, max x, max y.
///
/// # Errors
/// [`Refusal::NO_SUCH_CELL`] for a coordinate above 99.
///
/// ```
/// assert_eq!(ynv::cell_bounds(30, 53)?, (-1500.0, 1950.0, -1350.0, 2100.0));
/// assert_eq!(ynv::cell_bounds(0, 100).unwrap_err().number, 5);
/// # Ok::<(), ynv::Refusal>(())
/// ```
pub fn cell_bounds(cx: u32, cy: u32) -> Result<(f32, f32, f32, f32), Refusal> {
    let mut answer = [0; 8];
    let number = ffi::cell_bounds(cx, cy, &mut answer);
    let [x0, y0, x1, y1, ..] = accepted(number, answer)?.map(|bits| f32::from_bits(bits as u32));
    Ok((x0, y0, x1, y1))
}

/// Words of strip to lend for pages that [`serialize`] wrote: one for each byte, since every record takes at least as
/// many bytes in pages as words in a strip; at most [`MOST_WORDS`]. That it is enough is proved.
///
/// ```
/// assert_eq!(ynv::strip_words(&[0; 688], &[]), 688);
/// ```
#[must_use]
pub fn strip_words(system: &[u8], graphics: &[u8]) -> usize {
    system.len().saturating_add(graphics.len()).min(MOST_WORDS)
}

/// Words of work to lend for a strip: four for each of its words. Saving writes to the first [`work_used`] of them alone.
///
/// ```
/// assert_eq!(ynv::work_words(&[0; 15]), 60);
/// ```
#[must_use]
pub fn work_words(strip: &[u32]) -> usize {
    strip.len().saturating_mul(4)
}

/// Words at the front of work that [`serialize_into`] may change: two for each word of the strip. It changes none behind
/// them, accepted or refused, whatever the refusal, which is proved.
///
/// ```
/// # let mut strip = vec![0; 15];
/// # (strip[0], strip[1], strip[14]) = (1 << 28, 4, 5 << 28);
/// let mut work = vec![7; ynv::work_words(&strip)];
/// ynv::serialize_into(&strip, &mut work, &mut [0; 1000])?;
/// assert!(work[ynv::work_used(&strip)..].iter().all(|&word| word == 7));
/// # Ok::<(), ynv::Refusal>(())
/// ```
#[must_use]
pub fn work_used(strip: &[u32]) -> usize {
    strip.len().saturating_mul(2)
}

/// Bytes of pages to lend for a strip, from its length alone: 20 for each word and 8,192, at most [`MOST_BYTES`].
///
/// That it is enough is proved. A block and what is skipped before it take at most twice its bytes and 15. The dearest
/// words are a triangle's, 128 bytes to 13 words; header, list headers and sectors, which every cell has, take less
/// than 8,192 bytes with what is skipped.
///
/// ```
/// assert_eq!(ynv::pages_bytes(&[0; 15]), 8_492);
/// ```
#[must_use]
pub fn pages_bytes(strip: &[u32]) -> usize {
    strip.len().saturating_mul(20).saturating_add(8_192).min(MOST_BYTES)
}

/// Bytes of text to lend for a strip's drawing: 14 for each of its words. A vertex takes three words, 20 bytes of its line
/// and 21 of its number at most. That it is enough is proved.
///
/// ```
/// assert_eq!(ynv::obj_bytes(&[0; 15]), 210);
/// ```
#[must_use]
pub fn obj_bytes(strip: &[u32]) -> usize {
    strip.len().saturating_mul(14)
}

#[cfg(test)]
mod tests {
    use super::*;

    #[test]
    fn memory_that_is_not_there_is_refused() {
        let none = Err(Refusal::new(Refusal::NO_MEMORY, 0));
        assert_eq!(lent::<u32>(usize::MAX), none);
        assert_eq!(lent::<u32>(usize::MAX / 8), none);
        assert_eq!(lent::<u32>(0), Ok(vec![]));
        assert_eq!(lent::<u32>(3), Ok(vec![0; 3]));
        assert_eq!(lent::<u8>(3), Ok(vec![0; 3]));
    }
}
