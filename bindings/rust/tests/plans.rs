//! Plans at their limits: what is read of a text, what is written of a list, and what a refusal leaves.

use body_finisher::{
    lent, read_plan, write_plan, BinId, PlacedBin, RawPlacedBin, Refusal, MOST_BIN, MOST_OFFSET, MOST_PLAN_ENTRIES, MOST_PLAN_LINE,
};

fn placed(bin: u32, place: [i64; 3]) -> PlacedBin {
    PlacedBin { bin: BinId(bin), place }
}

/// So many groups, each in the one before, around some lines.
fn in_groups(depth: usize, lines: &str) -> String {
    format!("{}{lines}{}", "(group 1 0 -1\n".repeat(depth), ")\n".repeat(depth))
}

#[test]
fn a_bin_stands_at_the_sum_along_its_path() {
    let text = "(bin 1 5 0 0)\n(group 100 0 0\n(bin 2 1 2 3)\n(group 0 10 0\n(bin 3 0 0 1)\n)\n)\n(bin 1 7 7 7)\n";
    let bins = [placed(1, [5, 0, 0]), placed(2, [101, 2, 3]), placed(3, [100, 10, 1]), placed(1, [7, 7, 7])];
    assert_eq!(read_plan(text.as_bytes()), Ok(bins.to_vec()));
}

#[test]
fn the_example_yard_is_read_as_it_is_listed() {
    let plan = include_bytes!("../../../examples/yard.plan");
    let listing = include_bytes!("../../../examples/yard.listing");
    let bins = read_plan(plan).expect("the example is a plan");
    assert_eq!(bins.len(), 8);
    assert_eq!(bins[5], placed(11, [38_000_000, 4_000_000_000, 1_499_750]), "the sum of its own offset and of both groups around it");
    assert_eq!(write_plan(&bins), Ok(listing.to_vec()));
    assert_eq!(read_plan(listing), Ok(bins));
}

#[test]
fn malformed_lines_are_refused_with_61() {
    let lines = [
        "(bin 0 -0 0 0)\n",
        "(bin 0 +5 0 0)\n",
        "(bin 0 05 0 0)\n",
        "(bin 0 5 0 0)\r\n",
        " (bin 0 5 0 0)\n",
        "\n",
        "(group 0 0 0)\n)\n",
        "(bin 0 1099511627777 0 0)\n",
        "(bin 0 18446744073709551616 0 0)\n",
        "(bin 65536 0 0 0)\n",
        "(bin -1 0 0 0)\n",
        "(bin 0 0 0 0)",
        ")\n",
        "(group 0 0 0\n",
    ];
    for line in lines {
        assert_eq!(read_plan(line.as_bytes()), Err(Refusal::Line), "{line:?}");
    }
}

#[test]
fn sixteen_groups_are_open_at_once_and_a_seventeenth_is_not() {
    assert_eq!(read_plan(in_groups(16, "(bin 7 0 0 0)\n").as_bytes()), Ok(vec![placed(7, [16, 0, -16])]));
    assert_eq!(read_plan(in_groups(17, "").as_bytes()), Err(Refusal::Depth));
}

#[test]
fn a_plan_of_sixteen_groups_is_read_on_a_small_stack() {
    let text = in_groups(16, "(bin 65535 -1099511627776 0 1099511627776)\n");
    let small = std::thread::Builder::new().stack_size(32 << 10);
    let read = small.spawn(move || read_plan(text.as_bytes())).expect("a thread").join().expect("enough stack");
    assert_eq!(read, Ok(vec![placed(MOST_BIN, [16 - MOST_OFFSET, 0, MOST_OFFSET - 16])]));
}

#[test]
fn only_a_bins_place_is_held_to_the_range() {
    let within = format!("(group {MOST_OFFSET} 0 0\n(group 1 0 0\n(bin 7 -1 0 0)\n)\n)\n");
    assert_eq!(read_plan(within.as_bytes()), Ok(vec![placed(7, [MOST_OFFSET, 0, 0])]));
    let beyond = format!("(group 0 0 -1\n(bin 7 0 0 -{MOST_OFFSET})\n)\n");
    assert_eq!(read_plan(beyond.as_bytes()), Err(Refusal::Place));
}

#[test]
fn bins_4096_are_listed_and_4097_refused() {
    let text = "(bin 0 0 0 0)\n".repeat(MOST_PLAN_ENTRIES);
    assert_eq!(read_plan(text.as_bytes()).map(|bins| bins.len()), Ok(MOST_PLAN_ENTRIES));
    let more = format!("{text}(bin 0 0 0 0)\n");
    assert_eq!(read_plan(more.as_bytes()), Err(Refusal::Entries));
    let mut long = vec![RawPlacedBin::default(); MOST_PLAN_ENTRIES + 1];
    assert_eq!(lent::read_plan(more.as_bytes(), &mut long), Err(Refusal::Entries), "a longer list has no more room");
    assert_eq!(write_plan(&vec![placed(0, [0; 3]); MOST_PLAN_ENTRIES]), Ok(text.into_bytes()));
    assert_eq!(write_plan(&vec![placed(0, [0; 3]); MOST_PLAN_ENTRIES + 1]), Err(Refusal::Entries));
}

#[test]
fn what_is_written_reads_back_as_it_was() {
    let most = MOST_OFFSET;
    let bins = [placed(0, [0; 3]), placed(MOST_BIN, [most, -most, most]), placed(9, [-1, 10, -100]), placed(9, [-1, 10, -100])];
    let text = write_plan(&bins).expect("entries at their limits");
    assert_eq!(read_plan(&text), Ok(bins.to_vec()));
    assert_eq!(write_plan(&[placed(MOST_BIN, [-most; 3])]).expect("the longest line").len(), MOST_PLAN_LINE);
    assert_eq!(write_plan(&[]), Ok(Vec::new()));
}

#[test]
fn the_first_entry_that_offends_decides() {
    let (bin, place) = (placed(MOST_BIN + 1, [0; 3]), placed(1, [0, MOST_OFFSET + 1, 0]));
    assert_eq!(write_plan(&[bin, place]), Err(Refusal::Line));
    assert_eq!(write_plan(&[place, bin]), Err(Refusal::Place));
    assert_eq!(write_plan(&[PlacedBin { bin: bin.bin, place: place.place }]), Err(Refusal::Line));
    let mut full = vec![placed(0, [0; 3]); MOST_PLAN_ENTRIES];
    full.push(place);
    assert_eq!(write_plan(&full), Err(Refusal::Place), "a 4,097th out of place");
    let below = [RawPlacedBin { bin: -1, place: [0; 3] }];
    assert_eq!(lent::write_plan(&below, &mut []), Err(Refusal::Line));
}

#[test]
fn a_refusal_leaves_the_list_and_the_text_as_they_were() {
    let mut list = [RawPlacedBin { bin: 9, place: [9; 3] }; 3];
    for text in ["(bin 1 2 3 4)\n)\n", "(bin 1 2 3 4)\n(group 0 0 0\n", &"(bin 1 2 3 4)\n".repeat(4)] {
        assert!(lent::read_plan(text.as_bytes(), &mut list).is_err());
        assert!(list.iter().all(|entry| *entry == RawPlacedBin { bin: 9, place: [9; 3] }), "{text:?}");
    }
    let (entries, mut out) = ([RawPlacedBin::default(); 2], [7; 28]);
    assert_eq!(lent::write_plan(&entries, &mut out[..27]), Err(Refusal::Text));
    assert_eq!(out, [7; 28]);
    assert_eq!(lent::write_plan(&entries, &mut out), Ok(28));
}
