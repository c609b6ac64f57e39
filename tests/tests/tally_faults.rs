//! A comparison that cannot fail shows nothing: calls on tallies in bytes with one fault each, every one of which it has to find.
use outside::tally_calls::{add, award, cell, fresh, hundredths, matchpoints, merge, Calls, CALLS};
use outside::tally_trial::TallyTrial;

/// Calls after which the fault has to be found.
const ENOUGH: u64 = 20_000;

fn faults() -> Vec<(&'static str, Calls)> {
    vec![
        ("drops the second tally", Calls { merge: |a, _, out| merge(a, a, out), ..CALLS }),
        (
            "keeps the first tally",
            Calls {
                merge: |a, b, out| {
                    let number = merge(a, b, out);
                    if number == 0 {
                        out[..398].copy_from_slice(a);
                    }
                    number
                },
                ..CALLS
            },
        ),
        (
            "turns the bytes of a score",
            Calls {
                add: |t, s, h, out| {
                    let number = add(t, s, h, out);
                    if number == 0 {
                        out[14..270].chunks_exact_mut(2).for_each(|two| two.swap(0, 1));
                    }
                    number
                },
                ..CALLS
            },
        ),
        (
            "turns the bytes of the points",
            Calls {
                matchpoints: |t, s, h, out| {
                    let number = matchpoints(t, s, h, out);
                    if number == 0 {
                        out[..4].reverse();
                    }
                    number
                },
                ..CALLS
            },
        ),
        (
            "says 0 of a result alone",
            Calls {
                hundredths: |t, s, h, out| {
                    let number = hundredths(t, s, h, out);
                    if number == 0 && out[..4] == [255; 4] {
                        out[..4].fill(0);
                    }
                    number
                },
                ..CALLS
            },
        ),
        (
            "makes the shares of EW what is left of 10000",
            Calls {
                hundredths: |t, s, h, out| {
                    let number = hundredths(t, s, h, out);
                    if number == 0 && out[..2] != [255; 2] {
                        let left = 10_000 - u16::from_be_bytes([out[0], out[1]]);
                        out[2..4].copy_from_slice(&left.to_be_bytes());
                    }
                    number
                },
                ..CALLS
            },
        ),
        ("takes 397 bytes", Calls { merge: |a, b, out| merge(&longer(a), b, out), ..CALLS }),
        ("takes 399 bytes", Calls { merge: |a, b, out| merge(a, &b[..b.len().min(398)], out), ..CALLS }),
        ("cuts a score to 16 bits", Calls { add: |t, s, h, out| add(t, i32::from(s as i16), h, out), ..CALLS }),
        ("cuts a board to 8 bits", Calls { fresh: |b, out| fresh(b & 255, out), ..CALLS }),
        ("cuts an award to 8 bits", Calls { award: |p, out| award(p & 255, out), ..CALLS }),
        (
            "looks at the tally before the buffer",
            Calls {
                add: |t, s, h, out| match add(t, s, h, &mut [0; 398]) {
                    0 => add(t, s, h, out),
                    number => number,
                },
                ..CALLS
            },
        ),
        (
            "writes into a short buffer",
            Calls {
                cell: |t, s, h, out| {
                    let number = cell(t, s, h, out);
                    if number == 1024 {
                        out.fill(0);
                    }
                    number
                },
                ..CALLS
            },
        ),
        (
            "clears the byte behind",
            Calls {
                cell: |t, s, h, out| {
                    let number = cell(t, s, h, out);
                    if let Some(byte) = out.get_mut(9).filter(|_| number == 0) {
                        *byte = 0;
                    }
                    number
                },
                ..CALLS
            },
        ),
        (
            "zeros on a refusal",
            Calls {
                merge: |a, b, out| {
                    let number = merge(a, b, out);
                    if number > 1024 {
                        out.fill(0);
                    }
                    number
                },
                ..CALLS
            },
        ),
        (
            "takes a fouled board",
            Calls {
                matchpoints: |t, s, h, out| match matchpoints(t, s, h, out) {
                    number if number / 1024 == 28 => 0,
                    number => number,
                },
                ..CALLS
            },
        ),
        ("takes the first 52 of more holders", Calls { add: |t, s, h, out| add(t, s, &h[..h.len().min(52)], out), ..CALLS }),
        ("cuts a holder to two bits", Calls { add: |t, s, h, out| add(t, s, &h.iter().map(|x| x & 3).collect::<Vec<_>>(), out), ..CALLS }),
        (
            "calls an alone cell played",
            Calls {
                cell: |t, s, h, out| {
                    let number = cell(t, s, h, out);
                    if number == 0 && out[0] == 2 {
                        out[0] = 0;
                    }
                    number
                },
                ..CALLS
            },
        ),
    ]
}

/// A byte put to one that lacks it.
fn longer(bytes: &[u8]) -> Vec<u8> {
    let mut bytes = bytes.to_vec();
    if bytes.len() == 397 {
        bytes.push(0);
    }
    bytes
}

fn found(calls: Calls) -> bool {
    let mut trial = TallyTrial::new(calls, 398);
    while trial.calls() < ENOUGH {
        if trial.one().is_err() {
            return true;
        }
    }
    false
}

#[test]
fn every_fault_is_found() {
    for (fault, calls) in faults() {
        assert!(found(calls), "not found: {fault}");
    }
}

#[test]
fn no_fault_is_found_in_none() {
    assert!(!found(CALLS));
}
