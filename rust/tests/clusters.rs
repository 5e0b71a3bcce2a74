//! Lines moved from one form to the other, through the library: linked on x86-64 Linux alone.
#![cfg(all(target_arch = "x86_64", target_os = "linux"))]
use gpos::*;

fn slot(number: u32, cluster: Option<u32>) -> Slot {
    Slot { glyph: 36, chain: -1, x_advance: 600, y_offset: -1 - number as i32, cluster, ..Slot::default() }
}

/// A line of three slots in both forms, each cluster its slot's number.
fn both() -> [Vec<u8>; 2] {
    let clustered = [0, 1, 2].map(|n| slot(n, Some(n)));
    let plain = clustered.map(|slot| Slot { cluster: None, ..slot });
    [line_of(Form::Plain, &plain).unwrap(), line_of(Form::Clustered, &clustered).unwrap()]
}

#[test]
fn there_and_back_changes_no_byte() {
    let [plain, clustered] = both();
    let (mut there, mut back) = (vec![255; 84], vec![255; 72]);
    assert_eq!(to_clusters(&plain, &mut there), Ok(()));
    assert_eq!(there, clustered);
    assert_eq!(from_clusters(&there, &mut back), Ok(()));
    assert_eq!(back, plain);
    assert_eq!(to_clusters(&[], &mut []), Ok(()));
    assert_eq!(from_clusters(&[], &mut []), Ok(()));
}

/// Moves a line to a target of so many bytes, which a refusal must leave as they were.
fn refused(by: fn(&[u8], &mut [u8]) -> Result<(), Refusal>, line: &[u8], target: usize) -> Refusal {
    let mut bytes = vec![255; target];
    let refusal = by(line, &mut bytes).expect_err("a refusal");
    assert!(bytes.iter().all(|byte| *byte == 255));
    refusal
}

#[test]
fn moves_that_would_lose_bytes_are_refused() {
    let [mut plain, mut clustered] = both();
    for target in [0, 83, 85] {
        assert_eq!(refused(to_clusters, &plain, target), Refusal::Move);
    }
    for target in [0, 71, 73] {
        assert_eq!(refused(from_clusters, &clustered, target), Refusal::Move);
    }
    slot(2, Some(1)).write(&mut clustered[56..]).unwrap();
    assert_eq!(refused(from_clusters, &clustered, 72), Refusal::Move);
    // The lowest number is given: these targets are no moved line's either.
    plain[2] = 8;
    clustered[2] = 8;
    assert_eq!(refused(to_clusters, &plain, 1), Refusal::Slot);
    assert_eq!(refused(from_clusters, &clustered, 1), Refusal::Slot);
    assert_eq!(refused(to_clusters, &plain[1..], 1), Refusal::Line);
    assert_eq!(refused(from_clusters, &clustered[1..], 1), Refusal::Line);
    assert_eq!(refused(to_clusters, &[0; 1025 * 24], 1025 * 28), Refusal::Line);
    assert_eq!(refused(from_clusters, &[0; 1025 * 28], 1025 * 24), Refusal::Line);
}
