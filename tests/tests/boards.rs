//! Law 2 of boards, and slips through the archive: by hand, and beside the independent code.
use outside::{boards, proved};

/// Dealers and vulnerable sides of boards 1 to 16, as they are printed on boards: N, E, S, W; none, NS, EW, both.
#[rustfmt::skip]
const BOARDS: [(u32, u32); 16] = [
    (0, 0), (1, 1), (2, 2), (3, 3),
    (0, 1), (1, 2), (2, 3), (3, 0),
    (0, 2), (1, 3), (2, 0), (3, 1),
    (0, 3), (1, 0), (2, 1), (3, 2),
];

#[test]
fn boards_1_to_16() {
    for (k, due) in (1..).zip(BOARDS) {
        assert_eq!((proved::dealer(k), proved::vulnerable(k)), due, "board {k}");
    }
}

#[test]
fn all_numbers_of_boards() {
    let far = [383, 384, 65_535, 65_536, 65_537, 1 << 24, (1 << 24) + 1, u32::MAX - 1, u32::MAX];
    for board in (0..=257).chain(far) {
        assert_eq!(proved::dealer(board), boards::dealer(board), "the dealer of board {board}");
        assert_eq!(proved::vulnerable(board), boards::vulnerable(board), "the vulnerable sides of board {board}");
    }
    assert_eq!([0, 128, u32::MAX].map(proved::dealer), [3 * 1024; 3]);
    assert_eq!([0, 128, u32::MAX].map(proved::vulnerable), [3 * 1024; 3]);
}

/// The passed-out board of docs/RULES.md: a slip of six bytes, in buffers about that length, and what is refused before 22.
#[test]
fn slip_of_a_passed_out_board() {
    let record = [0x02, 0x01, 0, 0, 0, 0x15, 0x55, 0x55, 0x5A, 0xAA, 0xAA, 0xAB, 0xFF, 0xFF, 0xFF, 0x02, 0, 0, 0, 0];
    for room in 0..80 {
        let mut text = vec![0xA5; room];
        let number = proved::slip(&record, &mut text);
        let mut due = vec![0xA5; room];
        if room < 6 {
            assert_eq!(number, 22 * 1024, "room {room}");
        } else {
            due[..6].copy_from_slice(b"SUM 0\n");
            assert_eq!(number, 6, "room {room}");
        }
        assert_eq!(text, due, "room {room}");
    }
    let mut text = [0xA5; 72];
    assert_eq!(proved::slip(&record[..19], &mut text), 2 * 1024);
    assert_eq!(proved::slip(&[], &mut []), 2 * 1024);
    assert_eq!(text, [0xA5; 72]);
}
