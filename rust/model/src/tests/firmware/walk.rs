//! A long list of code 4 requests beside a plain account of what it leaves.

use super::{any_stage, body, image, validation, Adapter, FIRST, LINUX};
use crate::tests::adapter::sample;
use crate::tests::arbitrary::Numbers;

/// What the requests have left: the revisions staged and running, as bytes, and the stage.
struct Account {
    staged: Option<Vec<u8>>,
    running: Vec<u8>,
    stage: Vec<u8>,
}

/// A request: its body, and its image if that is sound.
enum Sent {
    Image(Vec<u8>),
    Refused(Vec<u8>, u32),
    Commit(Vec<u8>),
}

fn sent(numbers: &mut Numbers) -> Sent {
    let other_flags = numbers.next() & !1;
    let revisions = std::array::from_fn(|_| numbers.next() as u16);
    let mut image = image(1 + numbers.below(32), revisions);
    match numbers.below(8) {
        0..=2 => Sent::Commit(body(other_flags, &[])),
        3 | 4 => Sent::Image(image),
        5 => {
            let at = numbers.below(image.len());
            image[at] ^= 1 << numbers.below(8);
            Sent::Refused(validation(&image), 1)
        }
        6 => {
            image.pop();
            Sent::Refused(body(other_flags | 1, &image), 3)
        }
        _ => Sent::Refused(body(other_flags, &image), 3),
    }
}

impl Account {
    /// The code that a request has to get; and what it leaves, if that is 0.
    fn take(&mut self, sent: &Sent) -> u32 {
        match sent {
            Sent::Refused(_, code) => return *code,
            Sent::Image(image) => {
                self.stage = [image, &self.stage[image.len()..]].concat();
                self.staged = Some(image[..8].to_vec());
            }
            Sent::Commit(_) => match self.staged.take() {
                Some(revisions) => self.running = revisions,
                None => return 1,
            },
        }
        0
    }

    fn holds(&self, adapter: &Adapter) -> bool {
        let bytes = adapter.state.to_bytes();
        let mut expected = sample().to_bytes();
        expected[4817 + 133..][..8].copy_from_slice(&self.running);
        if let Some(revisions) = &self.staged {
            expected[6181] = 1;
            expected[6182..].copy_from_slice(revisions);
        }
        bytes == expected && adapter.stage == self.stage
    }
}

#[test]
fn beside_an_account() {
    let mut numbers = Numbers::new(0x2070_0000_0000_0007);
    let mut adapter = Adapter::new();
    let mut account = Account {
        staged: None,
        running: sample().controller_config[133..141].to_vec(),
        stage: any_stage(),
    };
    let mut met = [0; 4];
    for _ in 0..1_500 {
        let sent = sent(&mut numbers);
        let expected = account.take(&sent);
        let body = match sent {
            Sent::Image(image) => validation(&image),
            Sent::Refused(body, _) | Sent::Commit(body) => body,
        };
        let header = [FIRST, LINUX][numbers.below(2)];
        assert_eq!(adapter.send(&header, &body), expected);
        assert!(account.holds(&adapter));
        assert_eq!(adapter.shown()[133..141], account.running);
        met[expected as usize] += 1;
    }
    assert!([0, 1, 3].iter().all(|&code| met[code] > 100), "{met:?}");
}
