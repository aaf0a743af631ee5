//! Pages at their limits: what is counted and listed, where entries go, and what a refusal leaves.

use body_finisher::{
    lent, Aabb, BinId, Body, FaceId, Finisher, Page, Point, Refusal, Share, WoundFace, MOST_BODIES, MOST_PAGE_COUNT, MOST_ROWS,
};

const CORNERS: [Point; 3] = [[0.0; 3], [10.0, 0.0, 0.0], [0.0, 10.0, 0.0]];

/// The same triangle on a row for each face, each in a shell of its own.
fn laid(faces: &[u32]) -> Body {
    let mut body = Body::default();
    for (shell, face) in faces.iter().enumerate() {
        body.push_patch(shell as u32, FaceId(*face), BinId(0), &CORNERS, &[[0.0; 3]; 3], &[0, 1, 2]).expect("one normal a vertex");
    }
    body
}

fn wound(face: u32, count: u32) -> WoundFace {
    WoundFace { face: FaceId(face), count }
}

/// A body added to a page, with a list of its own.
fn reported(body: &Body, page: Page, faces: &mut Vec<WoundFace>) -> Result<Page, Refusal> {
    Finisher::new().report(body.view(), Aabb::EMPTY, page, faces)
}

#[test]
fn entries_go_by_count_and_then_by_number() {
    let mut faces = Vec::new();
    let page = reported(&laid(&[6, u32::MAX, 7, 5, 5]), Page::default(), &mut faces).expect("a page");
    // The first row is met by four, and a face number that two rows have by both.
    assert_eq!(faces, [wound(6, 12), wound(5, 6), wound(7, 3), wound(u32::MAX, 3)]);
    assert_eq!((page.listed, page.accepted, page.share), (4, 5, Share { accepted: 1, faces: 1 }));
    faces.clear();
    reported(&laid(&[7, 7]), Page::default(), &mut faces).expect("a page");
    assert_eq!(faces, [wound(7, 6)]);
}

#[test]
fn the_page_of_two_lists_is_the_sum_of_their_pages() {
    let mut failed = laid(&[1]);
    failed.push_failure(0, FaceId(9), BinId(0), 255).expect("a failure");
    let (first, second) = ([laid(&[1, 2]), failed.clone()], [Body::default(), laid(&[3, 3]), failed]);
    let over = |bodies: &[&Body]| {
        let mut faces = Vec::new();
        let page = bodies.iter().try_fold(Page::default(), |page, body| reported(body, page, &mut faces)).expect("a page");
        (page, faces)
    };
    let (all, parts) = (first.iter().chain(&second).collect::<Vec<_>>(), [over(&first.each_ref()), over(&second.each_ref())]);
    let (page, faces) = over(&all);
    let sum = |count: fn(&Page) -> u64| parts.iter().map(|(page, _)| count(page)).sum::<u64>();
    assert_eq!([page.bodies, page.accepted, page.failed], [sum(|p| p.bodies), sum(|p| p.accepted), sum(|p| p.failed)]);
    assert_eq!([page.triangles, page.vertices, page.upstream], [sum(|p| p.triangles), sum(|p| p.vertices), sum(|p| p.upstream)]);
    assert_eq!((page.share, page.listed), (Share { accepted: 3, faces: 4 }, sum(|p| p.listed)));
    assert_eq!(faces, [parts[0].1.clone(), parts[1].1.clone()].concat());
}

#[test]
fn a_page_beyond_its_limits_is_refused() {
    let (body, mut faces) = (Body::default(), Vec::new());
    let of = |bodies, accepted| Page { bodies, accepted, ..Page::default() };
    assert_eq!(reported(&body, of(MOST_BODIES, 0), &mut faces), Err(Refusal::Page));
    assert_eq!(reported(&body, of(MOST_BODIES - 1, 0), &mut faces).map(|page| page.bodies), Ok(MOST_BODIES));
    assert_eq!(reported(&body, of(0, 1), &mut faces), Err(Refusal::Page));
    assert_eq!(reported(&body, of(2, 2 * MOST_PAGE_COUNT + 1), &mut faces), Err(Refusal::Page));
    assert_eq!(reported(&body, of(2, 2 * MOST_PAGE_COUNT), &mut faces).map(|page| page.accepted), Ok(2 * MOST_PAGE_COUNT));
    assert_eq!(reported(&body, Page { listed: u64::MAX, ..of(1, 0) }, &mut faces), Err(Refusal::Page));
    // The share of the page that is handed over is not looked at.
    let odd = Page { share: Share { accepted: 9, faces: 0 }, ..of(1, 3) };
    assert_eq!(reported(&body, odd, &mut faces).map(|page| page.share), Ok(Share { accepted: 1, faces: 1 }));
}

#[test]
fn a_list_without_room_is_refused_even_if_nothing_is_new() {
    let (none, two) = (Body::default(), laid(&[1, 2]));
    let (former, words) = (vec![wound(9, 9); 3], two.view().work_words());
    let page = |listed| Page { bodies: 1, listed, ..Page::default() };
    for (body, listed, room, fits) in
        [(&none, 3, 3, true), (&none, 3, 2, false), (&two, 1, 3, true), (&two, 2, 3, false), (&two, 0, 1, false)]
    {
        let (mut faces, mut work) = (former.clone(), vec![7; words + 1]);
        let answer = lent::report(body.view(), Aabb::EMPTY, page(listed), &mut faces[..room], &mut work);
        assert_eq!(answer.map(|page| page.bodies), if fits { Ok(2) } else { Err(Refusal::FaceList) }, "{listed} listed, room for {room}");
        let counted = body.view().work_words();
        assert!(
            work[..counted].iter().all(|word| *word == 0) && work[counted..].iter().all(|word| *word == 7),
            "31's words come back zero"
        );
        assert!(fits || faces == former, "after a refusal the list is as it was");
        assert_eq!(faces[..listed.min(3) as usize], former[..listed.min(3) as usize], "what stands before stays");
    }
}

#[test]
fn a_list_keeps_what_stands_behind_the_new_entries() {
    let mut faces = vec![wound(9, 9); 4];
    let page = reported(&laid(&[1, 2]), Page { bodies: 1, listed: 1, ..Page::default() }, &mut faces).expect("a page");
    assert_eq!((page.listed, faces), (3, vec![wound(9, 9), wound(1, 3), wound(2, 3), wound(9, 9)]));
    // A list that doesn't hold the page's entries has no room for more than the body's rows.
    let mut short = vec![wound(9, 9)];
    assert_eq!(reported(&laid(&[1]), Page { bodies: 1, listed: 3, ..Page::default() }, &mut short), Err(Refusal::FaceList));
    assert_eq!(short, [wound(9, 9)]);
}

#[test]
fn every_row_may_be_listed() {
    let (all, mut faces): (Vec<u32>, Vec<WoundFace>) = ((0..MOST_ROWS as u32).rev().collect(), Vec::new());
    let page = reported(&laid(&all), Page::default(), &mut faces).expect("a page");
    assert_eq!((page.listed as usize, faces.len()), (MOST_ROWS, MOST_ROWS));
    assert_eq!((faces[0], faces[1], faces[MOST_ROWS - 1]), (wound(4095, 3 * 4095), wound(0, 3), wound(4094, 3)));
}
