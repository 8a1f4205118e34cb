//! The generated cases: how many, the same each time, and nothing left out.
use runner::{
    case::{put_record, Answer, Refusal},
    cases::{each, kinds},
    report::Report,
};

#[test]
fn every_set_is_there() {
    assert_eq!(kinds().len(), 55);
    let mut report = Report::default();
    let mut count = 0u64;
    each(1, &mut |case| {
        assert_eq!(case.malformed(), None);
        report.mark(&case);
        count += 1;
    });
    assert!(count > 1_000_000, "{count}");
    assert_eq!(report.covered(), (163_350, 495));
}

#[test]
fn one_seed_gives_the_same_cases() {
    let sum = |seed| {
        let (mut sum, mut bytes, mut count) = (0xcbf2_9ce4_8422_2325u64, vec![], 0);
        each(seed, &mut |case| {
            count += 1;
            if count % 97 == 0 {
                bytes.clear();
                put_record(&mut bytes, &case, &Answer::Refused(Refusal::plain(1)));
                sum = bytes.iter().fold(sum, |h, b| (h ^ u64::from(*b)).wrapping_mul(0x100_0000_01b3));
            }
        });
        sum
    };
    assert_eq!(sum(7), sum(7));
    assert_ne!(sum(7), sum(9));
}
