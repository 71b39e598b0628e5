//! A program written for rage-formats' names. Its body compiles against `ynv.rs` of rage-formats as well, with that
//! crate's `use` lines in place of ours (docs/COMING-FROM-RAGE-FORMATS.md).

use ynv::*;

fn cell_of_everything() -> Ynv {
    let (cx, cy) = cell_for_position(75.0, 80.0);
    assert_eq!(cell_file_name(cx, cy), "navmesh[120][120].ynv");
    let min = Vec3::new(CELL_ORIGIN + cx as f32 * CELL_SIZE, CELL_ORIGIN + cy as f32 * CELL_SIZE, 0.0);
    let max = min + Vec3::X * CELL_SIZE + Vec3::Y * CELL_SIZE + Vec3::Z * 50.0;
    let mut cell = Ynv::new_cell(cy * 100 + cx, min, max);
    cell.content_flags = CONTENT_POLYGONS | CONTENT_PORTALS;
    assert_eq!((cell.vft, cell.version_unk2), (NAVMESH_VFT, 0x85CB_3561));
    assert_eq!((cell.cell(), cell.is_vehicle()), (Some((cx, cy)), false));

    let mut poly = NavPoly::new(vec![min, min + Vec3::new(90.0, 0.0, 3.0), min + Vec3::new(90.0, 70.0, 3.0)]);
    poly.edges[1] = NavEdge::neighbour(cell.area_id + 1, 4);
    poly.edges[2] = NavEdge { a: NavEdgeEnd { area_id: 7, poly: 9, unk2: 1, unk3: 5 }, b: NavEdgeEnd::NONE };
    assert!(poly.edges[0] == NavEdge::NONE && poly.edges[0].a.is_none() && poly.edges[0].b.area_id == ADJACENT_NONE);
    poly.set_interior(true);
    poly.flags2 = 77;
    poly.portal_links = vec![0];
    let (low, high) = poly.bounds();

    let area = cell.area_id as u16;
    cell.points.push(NavPoint { position: poly.centroid(), angle: 9, kind: 8 });
    cell.portals.push(NavPortal {
        kind: 1,
        angle: 2,
        flags_unk: 3,
        from: low,
        to: high,
        poly_from: 0,
        poly_to: 0,
        area_from: area,
        area_to: area,
        area_unk: 6,
    });
    cell.polys.push(poly);
    cell
}

#[test]
fn opens_as_it_was_saved() {
    let cell = cell_of_everything();
    let saved = serialize_ynv(&cell).unwrap();
    assert_eq!((saved.points_dropped, saved.edges_dropped, saved.numbers_cut), (0, 0, 0));
    let opened = parse_ynv(&saved.pages, &[]).unwrap();
    // All but the positions, which have moved to the nearest step.
    assert_eq!((opened.bb_min, opened.bb_max, opened.bb_size), (cell.bb_min, cell.bb_max, cell.bb_size));
    assert_eq!((&opened.polys[0].edges, opened.polys[0].flags2), (&cell.polys[0].edges, 77));
    assert_eq!((opened.portals[0].area_unk, opened.points[0].kind), (6, 8));
    assert!((opened.polys[0].vertices[2] - cell.polys[0].vertices[2]).length() < 0.01);
    // And nothing moves any more.
    assert!(parse_ynv(&serialize_ynv(&opened).unwrap().pages, &[]).unwrap().same_bits(&opened));
}

/// What `anyhow` and `Box<dyn Error + Send + Sync>` ask of an error, so that `?` works.
#[test]
fn refusals_pass_through_the_question_mark() {
    fn open(pages: &[u8]) -> Result<Ynv, Box<dyn std::error::Error + Send + Sync + 'static>> {
        Ok(parse_ynv(pages, &[])?)
    }
    let error = open(&[]).unwrap_err();
    assert_eq!(error.downcast_ref::<Refusal>().unwrap().number, Refusal::NO_HEADER);
}
