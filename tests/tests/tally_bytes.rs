//! Tallies in bytes by hand: the layout, each refusal of each call with the order between them, and merging as a reduction, on both sets of calls.
use outside::proved_tally;
use outside::random::Random;
use outside::tally_calls::{Calls, CALLS};
use outside::tally_cases::{Call, Cases};

const BOTH: [(&str, Calls); 2] = [("independent", CALLS), ("proved", proved_tally::CALLS)];

/// North has the clubs, East the diamonds, South the hearts and West the spades.
fn suits() -> Vec<u8> {
    (0..52).map(|card| card / 13).collect()
}

/// The two of clubs exchanged for the two of diamonds.
fn exchanged() -> Vec<u8> {
    let mut holders = suits();
    holders.swap(0, 13);
    holders
}

/// What a call writes.
fn written(n: usize, call: impl FnOnce(&mut [u8]) -> u32) -> Vec<u8> {
    let mut out = vec![0xA5; n];
    assert_eq!(call(&mut out), 0);
    out
}

/// A tally of a board with these scores, all of one deal.
fn tally(calls: &Calls, board: u32, scores: &[i32], holders: &[u8]) -> Vec<u8> {
    scores.iter().fold(written(398, |out| (calls.fresh)(board, out)), |t, &s| written(398, |out| (calls.add)(&t, s, holders, out)))
}

/// A refusal with its place, and a buffer that stays as it was.
fn refused(n: usize, call: impl FnOnce(&mut [u8]) -> u32) -> (u32, u32) {
    let mut out = vec![0xA5; n];
    let number = call(&mut out);
    assert!(out.iter().all(|&b| b == 0xA5), "a refusal writes nothing");
    (number / 1024, number % 1024)
}

#[test]
fn layout() {
    for (name, calls) in BOTH {
        let mut due = vec![0; 398];
        due[0] = 7;
        assert_eq!(tally(&calls, 7, &[], &[]), due, "{name}");
        due[1..14].copy_from_slice(&[0x00, 0x00, 0x00, 0x15, 0x55, 0x55, 0x5A, 0xAA, 0xAA, 0xAB, 0xFF, 0xFF, 0xFF]);
        due[14..20].copy_from_slice(&[0x01, 0xC2, 0x01, 0xA4, 0xFF, 0xCE]);
        due[270..273].copy_from_slice(&[1, 2, 1]);
        assert_eq!(tally(&calls, 7, &[420, -50, 450, 420], &suits()), due, "{name}");
        let extreme = tally(&calls, 127, &[7600, -7600], &suits());
        assert_eq!(extreme[14..18], [0x1D, 0xB0, 0xE2, 0x50], "{name}");
    }
}

#[test]
fn points_and_cells() {
    for (name, calls) in BOTH {
        let t = tally(&calls, 7, &[420, -50, 450, 420], &suits());
        let points = |s| written(4, |out| (calls.matchpoints)(&t, s, &suits(), out));
        assert_eq!([points(450), points(420), points(-50)], [[0, 6, 0, 0], [0, 3, 0, 3], [0, 0, 0, 6]], "{name}");
        let cell = |s| written(9, |out| (calls.cell)(&t, s, &suits(), out));
        assert_eq!(cell(450), [0, 0x40, 0x59, 0, 0, 0, 0, 0, 0], "{name}: 100.0");
        assert_eq!(cell(420), [0, 0x40, 0x49, 0, 0, 0, 0, 0, 0], "{name}: 50.0");
        assert_eq!(cell(-50), [0; 9], "{name}: 0.0");
        let alone = tally(&calls, 7, &[420], &suits());
        assert_eq!(written(9, |out| (calls.cell)(&alone, 420, &suits(), out)), [2, 0, 0, 0, 0, 0, 0, 0, 0], "{name}");
        assert_eq!(written(9, |out| (calls.award)(40, out)), [1, 0x40, 0x44, 0, 0, 0, 0, 0, 0], "{name}: 40.0");
        let full = tally(&calls, 7, &(0..128).map(|k| 10 * k).collect::<Vec<_>>(), &suits());
        assert_eq!(written(4, |out| (calls.matchpoints)(&full, 1270, &suits(), out)), [0, 254, 0, 0], "{name}");
    }
}

#[test]
fn refusals_in_order() {
    for (name, calls) in BOTH {
        let (t, short, no_deal) = (tally(&calls, 7, &[420], &suits()), &[0u8; 397][..], &[0u8; 51][..]);
        assert_eq!(refused(397, |out| (calls.fresh)(0, out)), (1, 0), "{name}");
        assert_eq!(refused(398, |out| (calls.fresh)(128, out)), (3, 0), "{name}");
        assert_eq!(refused(398, |out| (calls.fresh)(257, out)), (3, 0), "{name}");
        for (needs, asked) in [(398, calls.add), (4, calls.matchpoints), (9, calls.cell)] {
            assert_eq!(refused(needs - 1, |out| asked(short, 421, no_deal, out)), (1, 0), "{name}");
            assert_eq!(refused(needs, |out| asked(short, 421, no_deal, out)), (17, 0), "{name}");
            assert_eq!(refused(needs, |out| asked(&t, 421, no_deal, out)), (20, 0), "{name}");
            assert_eq!(refused(needs, |out| asked(&t, 420 + 65536, no_deal, out)), (20, 0), "{name}");
            assert_eq!(refused(needs, |out| asked(&t, i32::MIN, &suits(), out)), (20, 0), "{name}");
            assert_eq!(refused(needs, |out| asked(&t, 430, no_deal, out)), (4, 4), "{name}");
            assert_eq!(refused(needs, |out| asked(&t, 430, &[0; 52], out)), (4, 0), "{name}");
            assert_eq!(refused(needs, |out| asked(&t, 430, &exchanged(), out)), (28, 0), "{name}");
        }
        assert_eq!(refused(4, |out| (calls.matchpoints)(&t, 430, &suits(), out)), (21, 0), "{name}");
        assert_eq!(refused(9, |out| (calls.cell)(&t, 430, &suits(), out)), (21, 0), "{name}");
        assert_eq!(refused(9, |out| (calls.award)(61, out)), (20, 0), "{name}");
        assert_eq!(refused(9, |out| (calls.award)(40 + 256, out)), (20, 0), "{name}");
        let full = tally(&calls, 7, &[420; 128], &suits());
        assert_eq!(refused(398, |out| (calls.add)(&full, 430, &exchanged(), out)), (28, 0), "{name}");
        assert_eq!(refused(398, |out| (calls.add)(&full, 430, &suits(), out)), (19, 0), "{name}");
        let merged = |a: &[u8], b: &[u8]| refused(398, |out| (calls.merge)(a, b, out));
        let (other, fouled) = (tally(&calls, 8, &[420], &exchanged()), tally(&calls, 7, &[420], &exchanged()));
        assert_eq!(refused(397, |out| (calls.merge)(short, short, out)), (1, 0), "{name}");
        assert_eq!([merged(&t, short), merged(short, &t), merged(&[], &t)], [(17, 0); 3], "{name}");
        assert_eq!(merged(&full, &other), (18, 0), "{name}");
        assert_eq!(merged(&full, &fouled), (28, 0), "{name}");
        assert_eq!(merged(&full, &t), (19, 0), "{name}");
    }
}

/// A board at which an addition was refused, as `section` writes it, is refused by every call.
#[test]
fn marked_boards() {
    for (name, calls) in BOTH {
        for board in 0..=255 {
            let mut marked = [255; 398];
            marked[0] = board;
            let fresh = tally(&calls, 7, &[], &[]);
            assert_eq!(refused(398, |out| (calls.add)(&marked, 0, &suits(), out)), (17, 0), "{name}");
            assert_eq!(refused(398, |out| (calls.merge)(&marked, &fresh, out)), (17, 0), "{name}");
            assert_eq!(refused(398, |out| (calls.merge)(&fresh, &marked, out)), (17, 0), "{name}");
            assert_eq!(refused(4, |out| (calls.matchpoints)(&marked, 0, &suits(), out)), (17, 0), "{name}");
            assert_eq!(refused(9, |out| (calls.cell)(&marked, 0, &suits(), out)), (17, 0), "{name}");
        }
    }
}

/// The merge with 398 zeros for a refusal.
fn reduced(calls: &Calls, a: &[u8], b: &[u8]) -> Vec<u8> {
    let mut out = vec![0; 398];
    (calls.merge)(a, b, &mut out);
    out
}

#[test]
fn reductions() {
    let mut random = Random::new(87);
    let cases = Cases::new(&mut random);
    let mut block = || loop {
        if let Call::Merge(a, _) = cases.call(&mut random) {
            return a;
        }
    };
    let mut accepted = 0;
    for _ in 0..3_000 {
        let (a, b, c) = (block(), block(), block());
        for (name, calls) in BOTH {
            let two = reduced(&calls, &a, &b);
            assert_eq!(two, reduced(&calls, &b, &a), "{name}");
            assert_eq!(reduced(&calls, &two, &c), reduced(&calls, &a, &reduced(&calls, &b, &c)), "{name}");
            assert_eq!(reduced(&calls, &[0; 398], &a), [0; 398], "{name}");
            accepted += usize::from(reduced(&calls, &two, &c) != [0; 398]);
        }
    }
    assert!(accepted > 100, "only {accepted} reductions of three that are not refused");
}

/// Shares by hand: 450 over 420, 420 and -50 is 6 of 6 matchpoints; 420 is 3 of 6; three results of 10, 0 and -10, then 17 results with one above the others:
/// 1 of 32 is 3.125 per cent, which is 313 hundredths half up, and 31 of 32 is 96.875, 9688.
#[test]
fn shares() {
    for (name, calls) in BOTH {
        let shares = |scores: &[i32], s| {
            let bytes = written(4, |out| (calls.hundredths)(&tally(&calls, 7, scores, &suits()), s, &suits(), out));
            [u16::from_be_bytes([bytes[0], bytes[1]]), u16::from_be_bytes([bytes[2], bytes[3]])]
        };
        let four = [420, -50, 450, 420];
        assert_eq!([450, 420, -50].map(|s| shares(&four, s)), [[10_000, 0], [5_000, 5_000], [0, 10_000]], "{name}");
        let mut seventeen: Vec<i32> = (0..15).map(|k| 100 + 10 * k).collect();
        seventeen.extend([0, 0]);
        assert_eq!(shares(&seventeen, 0), [313, 9_688], "{name}: 1 of 32 matchpoints");
        assert_eq!(shares(&[10, 0, -10, 20], 0), [3_333, 6_667], "{name}: a third");
        assert_eq!(shares(&[420], 420), [65_535, 65_535], "{name}: alone");
        let t = tally(&calls, 7, &four, &suits());
        let refusal = |n, t: &[u8], s, h: &[u8]| refused(n, |out| (calls.hundredths)(t, s, h, out));
        assert_eq!(refusal(3, &[], 5, &[]), (1, 0), "{name}: a short buffer first");
        assert_eq!(refusal(4, &t[..397], 5, &[]), (17, 0), "{name}: then the tally");
        assert_eq!(refusal(4, &t, 5, &[]), (20, 0), "{name}: then the score");
        assert_eq!(refusal(4, &t, 430, &[]), (4, 4), "{name}: then the deal");
        assert_eq!(refusal(4, &t, 430, &exchanged()), (28, 0), "{name}: then another deal");
        assert_eq!(refusal(4, &t, 430, &suits()), (21, 0), "{name}: then a score that no result has");
    }
}
