//! The order of play and the columns from the tag's seat on. Both are defined for any 52 cards, in whatever hands they are.

/// Which card of a trick, in order of play, wins it by Law 44. Of one card twice the first counts.
fn winner(trick: [u8; 4], strain: u8) -> usize {
    let led = trick[0] / 13;
    let worth = |card: u8| match card / 13 {
        suit if suit == strain => 200 + card,
        suit if suit == led => 100 + card,
        _ => 0,
    };
    (1..4).fold(0, |best, k| if worth(trick[k]) > worth(trick[best]) { k } else { best })
}

/// Where each play, in order of play, stands along the lines.
pub fn places(listed: &[u8], strain: u8) -> Vec<usize> {
    let mut leads = 0;
    let mut places = Vec::with_capacity(listed.len());
    for row in (0..listed.len()).step_by(4) {
        let trick = [0, 1, 2, 3].map(|k| row + (leads + k) % 4);
        places.extend(trick);
        leads = (leads + winner(trick.map(|place| listed[place]), strain)) % 4;
    }
    places
}

/// Cards along the lines, in order of play.
pub fn played(listed: &[u8], strain: u8) -> Vec<u8> {
    places(listed, strain).into_iter().map(|place| listed[place]).collect()
}

/// Cards in order of play, along the lines.
pub fn listed(played: &[u8], strain: u8) -> Vec<u8> {
    let mut leads = 0;
    let mut listed = Vec::with_capacity(played.len());
    for trick in played.chunks_exact(4) {
        let mut row = [0; 4];
        for (k, &card) in trick.iter().enumerate() {
            row[(leads + k) % 4] = card;
        }
        listed.extend(row);
        leads = (leads + winner([trick[0], trick[1], trick[2], trick[3]], strain)) % 4;
    }
    listed
}
