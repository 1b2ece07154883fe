//! Demand 3 over passing packs, and that the test of it refuses records that are wrong.

use second::image::Pack;
use second::marked::{small_image, TAX_BY_DAY};
use second::promise::{accepted, cover, run, Counts};

#[test]
fn parses_of_passing_packs_keep_the_promise() {
    let counts = run(20_000, 1).expect("no violation");
    assert!(counts.parses >= 20_000);
    assert!(counts.codes[0] > 4_000, "{counts:?}");
    assert!(counts.by_group > 50, "{counts:?}");
    assert!(counts.over_layout > 50, "{counts:?}");
    assert!(counts.pieces_by_group > 50, "{counts:?}");
    assert!(counts.pieces_after_node > 20, "{counts:?}");
    assert_eq!((counts.codes[9], counts.codes[10]), (0, 0));
    for code in [7, 8, 11, 12, 13] {
        assert!(counts.codes[code] > 0, "code {code}");
    }
}

#[test]
fn wrong_records_are_refused() {
    let image = small_image();
    let pack = Pack::new(&image);
    let (query, _, records) = TAX_BY_DAY;
    let text = query.as_bytes();
    let kept = |records: &[[u16; 4]]| accepted(&pack, text, records, &mut Counts::default());
    assert_eq!(kept(&records), Ok(()));
    // Each number of each record, changed alone.
    for record in 0..4 {
        for word in 0..4 {
            for number in 0..70 {
                let mut changed = records;
                changed[record][word] = number;
                assert_eq!(kept(&changed).is_ok(), changed == records, "{changed:?}");
            }
        }
    }
    // Records left out, doubled or in another order.
    for record in 0..4 {
        let mut fewer = records.to_vec();
        fewer.remove(record);
        assert!(kept(&fewer).is_err());
        let mut more = records.to_vec();
        more.insert(record, records[record]);
        assert!(kept(&more).is_err());
        let mut turned = records.to_vec();
        turned.swap(record, (record + 1) % 4);
        assert!(kept(&turned).is_err());
    }
    assert!(kept(&[]).is_err());
    // A shorter leaf where a longer one matches.
    let short = [[2, 0, 2, 0], [64, 0, 1, 0]];
    assert!(cover(&pack, b"tax", &short, &mut Counts::default()).is_err());
    // The name `b` before the keyword's `y`: the error that began it all.
    let cut = [[2, 0, 1, 0], [64, 0, 1, 0]];
    assert!(cover(&pack, b"by", &cut, &mut Counts::default()).is_err());
}
