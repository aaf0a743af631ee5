//! Pegs at their limits: which bins are nearest, what is ignored, and what a refusal leaves.

use body_finisher::{
    lent, nearest_bins, places_of, read_plan, BinId, Body, FaceId, Place, PlaceError, Point, Refusal, MOST_OFFSET, MOST_ROWS, PEG_REACH,
};

/// A body of a row for each bin, whose vertices no triangle uses.
fn yard(rows: &[(u32, &[Point])]) -> Body {
    let mut body = Body::default();
    for (bin, points) in rows {
        body.push_patch(0, FaceId(0), BinId(*bin), points, &vec![[0.0; 3]; points.len()], &[]).expect("one normal a vertex");
    }
    body
}

/// A bin of 3 m by 2.5 m, 6 m high, from y = front on: its eight corners.
fn bin_corners(front: f64) -> [Point; 8] {
    let side = |k: u32, axis: u32, length: f64| if k >> axis & 1 == 1 { length } else { 0.0 };
    std::array::from_fn(|k| k as u32).map(|k| [side(k, 0, 3000.0) as f32, (front + side(k, 1, 2500.0)) as f32, side(k, 2, 6000.0) as f32])
}

/// The numbers of the nearest bins.
fn nearest(body: &Body, places: &[Place], peg: Place) -> Vec<u32> {
    nearest_bins(body.view(), places, peg).expect("a body, places and a peg within the limits").iter().map(|bin| bin.0).collect()
}

#[test]
fn twin_bins_are_told_apart_where_they_are_placed_and_not_where_they_are_drawn() {
    let plan = read_plan(include_bytes!("../../../examples/twin-bins.plan")).expect("the example is a plan");
    let placed = yard(&[(1, &bin_corners(0.0)), (2, &bin_corners(0.0))]);
    let places = places_of(placed.view(), &plan).expect("each bin is placed once");
    let drawn = yard(&[(1, &bin_corners(4_000_000.0)), (2, &bin_corners(4_002_500.1))]);
    for (off, bins) in [(30, vec![1]), (49, vec![1]), (50, vec![1, 2]), (51, vec![2]), (70, vec![2])] {
        let peg = [0, 4_002_500_000 + off, 0];
        assert_eq!(nearest(&placed, &places, peg), bins, "{off} micrometres from bin 1's wall");
        assert_eq!(nearest(&drawn, &[[0; 3]; 2], peg), [1, 2], "both walls are drawn at one place");
    }
    assert_eq!(nearest(&placed, &places, [-1_000_000, 4_002_500_050, 0]), []);
}

#[test]
fn a_vertex_is_rounded_before_its_place_is_added() {
    // -62.5 micrometres are -63, halves going away from zero; the sum of 1.5 would have been 2.
    let body = yard(&[(7, &[[-0.0625, 0.0, 0.0]]), (8, &[[0.0; 3]])]);
    assert_eq!(nearest(&body, &[[64, 0, 0], [1, 0, 0]], [1, 0, 0]), [7, 8]);
    let halves = yard(&[(7, &[[0.0625, 0.0, 0.0]]), (8, &[[0.063, 0.0, 0.0]])]);
    assert_eq!(nearest(&halves, &[[0; 3]; 2], [63, 0, 0]), [7, 8]);
}

#[test]
fn near_is_within_the_reach_on_every_axis() {
    let body = yard(&[(7, &[[1.0, -2.0, 3.0]])]);
    for axis in 0..3 {
        for sign in [-1, 1] {
            let mut peg = [1_000 + PEG_REACH, -2_000 - PEG_REACH, 3_000 + PEG_REACH];
            assert_eq!(nearest(&body, &[[0; 3]], peg), [7], "a corner of the cube");
            peg = [1_000, -2_000, 3_000];
            peg[axis] += sign * PEG_REACH;
            assert_eq!(nearest(&body, &[[0; 3]], peg), [7]);
            peg[axis] += sign;
            assert_eq!(nearest(&body, &[[0; 3]], peg), []);
        }
    }
}

#[test]
fn the_sum_of_squares_decides_and_not_the_largest_difference() {
    let body = yard(&[(1, &[[0.0, 0.0, 0.004]]), (2, &[[0.003, 0.003, 0.003]]), (3, &[[0.0, 0.005, 0.0]]), (4, &[[0.003, 0.0, 0.004]])]);
    assert_eq!(nearest(&body, &[[0; 3]; 4], [0; 3]), [1], "16 is below 27");
    assert_eq!(nearest(&body, &[[PEG_REACH + 1; 3], [0; 3], [0; 3], [0; 3]], [0; 3]), [3, 4], "both 25");
}

#[test]
fn bins_ascend_and_each_is_named_once() {
    let rows: [(u32, &[Point]); 5] =
        [(900, &[[0.0; 3]; 3]), (7, &[[0.0; 3]]), (65_535, &[[0.0; 3]]), (900, &[[0.0; 3]]), (0, &[[0.0; 3], [1.0; 3]])];
    assert_eq!(nearest(&yard(&rows), &[[5; 3]; 5], [5; 3]), [0, 7, 900, 65_535]);
    let most = vec![(9, [[0.0; 3]].as_slice()); MOST_ROWS];
    assert_eq!(nearest(&yard(&most), &vec![[0; 3]; MOST_ROWS], [0; 3]), [9]);
}

#[test]
fn a_coordinate_beyond_32_bits_of_micrometres_is_just_far_and_one_whose_cell_clamps_is_refused() {
    // 2^43 mm are a multiple of 2^32 micrometres; the others are the last whose cells don't clamp, of bits 550637BD.
    let (wraps, most) = ([8_796_093_022_208.0, 0.0, 0.0], [0.0, 9_223_372_013_568.0, -9_223_372_013_568.0]);
    let body = yard(&[(1, &[wraps, most]), (2, &[[4.0, 0.0, 0.0]])]);
    assert_eq!(nearest(&body, &[[0; 3]; 2], [0; 3]), [2]);
    // The next ones, 2^64 mm, which are a multiple of 2^64 micrometres, and the largest.
    for clamped in [9_223_373_062_144.0, 18_446_744_073_709_551_616.0, f32::MAX] {
        for vertex in [[clamped, 0.0, 0.0], [0.0, -clamped, 0.0], [0.0, 0.0, clamped]] {
            let body = yard(&[(1, &[[4.0, 0.0, 0.0]]), (2, &[[0.0; 3], vertex])]);
            assert_eq!(nearest_bins(body.view(), &[[0; 3]; 2], [0; 3]), Err(Refusal::Clamped));
        }
    }
    let tiny = yard(&[(1, &[[f32::from_bits(1), -0.0, f32::MIN_POSITIVE]])]);
    assert_eq!(nearest(&tiny, &[[MOST_OFFSET; 3]], [MOST_OFFSET; 3]), [1]);
}

#[test]
fn a_place_out_of_range_or_missing_is_refused_with_65() {
    let mut body = yard(&[(1, &[[0.0; 3]])]);
    body.push_failure(0, FaceId(0), BinId(2), 40).expect("a failure's number");
    let ask = |places: &[Place], peg: Place| nearest_bins(body.view(), places, peg);
    for axis in 0..3 {
        for far in [MOST_OFFSET + 1, -MOST_OFFSET - 1, i64::MAX, i64::MIN] {
            let (mut place, mut edge) = ([0; 3], [0; 3]);
            (place[axis], edge[axis]) = (far, MOST_OFFSET * far.signum());
            assert_eq!(ask(&[[0; 3]; 2], place), Err(Refusal::Peg));
            assert_eq!(ask(&[place, [0; 3]], [0; 3]), Err(Refusal::Peg));
            assert_eq!(ask(&[[0; 3], place], [0; 3]), Err(Refusal::Peg), "a failed row's place is looked at");
            assert_eq!(ask(&[edge; 2], edge), Ok(vec![BinId(1)]), "2^40 itself is within the range");
            assert_eq!(ask(&[[0; 3], [0; 3], place], [0; 3]), Ok(vec![BinId(1)]), "a place of no row isn't");
        }
    }
    assert_eq!(ask(&[[0; 3]], [0; 3]), Err(Refusal::Peg));
    assert_eq!(nearest(&Body::default(), &[], [0; 3]), []);
    assert_eq!(nearest_bins(Body::default().view(), &[], [0, 0, MOST_OFFSET + 1]), Err(Refusal::Peg));
}

#[test]
fn a_bin_list_that_is_too_short_is_refused_with_66() {
    let body = yard(&[(5, &[[0.0; 3]]), (3, &[[0.0; 3]]), (5, &[[0.0; 3]]), (4, &[[0.001; 3]])]);
    let ask = |peg: Place, bins: &mut [BinId]| lent::nearest_bins(body.view(), &[[0; 3]; 4], peg, bins);
    let mut bins = [BinId(9); 3];
    assert_eq!(ask([0; 3], &mut bins[..1]), Err(Refusal::BinList));
    assert_eq!(bins, [BinId(9); 3], "a refusal leaves the list as it was");
    assert_eq!(ask([0; 3], &mut bins), Ok(2), "two of three rows are of one bin");
    assert_eq!(bins, [BinId(3), BinId(5), BinId(9)], "what stands behind the bins stays as it was");
    assert_eq!(ask([0; 3], &mut []), Err(Refusal::BinList));
    assert_eq!(ask([9_000, 0, 0], &mut []), Ok(0), "no bins fit an empty list");
}

#[test]
fn a_body_is_looked_at_before_the_places_and_these_before_the_bin_list() {
    let mut body = yard(&[(1, &[[0.0; 3]])]);
    assert_eq!(lent::nearest_bins(body.view(), &[], [0; 3], &mut []), Err(Refusal::Peg));
    assert_eq!(lent::nearest_bins(body.view(), &[[0; 3]], [0; 3], &mut []), Err(Refusal::BinList));
    body.positions[0][2] = f32::MIN;
    assert_eq!(lent::nearest_bins(body.view(), &[], [0; 3], &mut []), Err(Refusal::Clamped));
    body.normals[0][1] = f32::NAN;
    assert_eq!(lent::nearest_bins(body.view(), &[], [0; 3], &mut []), Err(Refusal::NotFinite));
}

#[test]
fn rows_have_the_place_of_their_bin_or_it_is_said_which_has_none() {
    let plan = read_plan(include_bytes!("../../../examples/yard.plan")).expect("the example is a plan");
    let body = yard(&[(2, &[]), (90, &[]), (2, &[])]);
    let (second, ninetieth) = ([20_000_000, 4_002_500_100, 0], [-6_000_000, 1_000_000, 0]);
    assert_eq!(places_of(body.view(), &plan), Ok(vec![second, ninetieth, second]));
    let missing = places_of(yard(&[(1, &[]), (4, &[]), (11, &[])]).view(), &plan);
    assert_eq!(missing, Err(PlaceError::Missing { bin: BinId(4) }));
    assert_eq!(missing.unwrap_err().to_string(), "bin 4: the plan doesn't place it");
    let several = places_of(yard(&[(1, &[]), (11, &[]), (4, &[])]).view(), &plan);
    assert_eq!(several, Err(PlaceError::Several { bin: BinId(11) }));
    assert_eq!(several.unwrap_err().to_string(), "bin 11: the plan places it more than once");
}
