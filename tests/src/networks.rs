//! Random networks for the tests of cycles and runs.

use crate::cycles::cycle;
use crate::random::Random;

/// The lists that tell a network, as they are lent.
pub struct Lists {
    pub windows: Vec<u16>,
    pub sizes: Vec<u16>,
    pub sets: Vec<u32>,
}

impl Lists {
    pub fn new(windows: &[u16], sizes: &[u16], sets: &[u32]) -> Lists {
        Lists { windows: windows.to_vec(), sizes: sizes.to_vec(), sets: sets.to_vec() }
    }

    /// Never refused. Windows from narrow to the widest; messages that mostly do not all go.
    pub fn random(random: &mut Random) -> Lists {
        let links = random.pick(&[1, 2, 3, 5, 8, 31, 32]);
        let widest = random.pick(&[1, 4, 40, 65_535]);
        let windows: Vec<u16> = (0..links).map(|_| random.between(1, widest) as u16).collect();
        let lists = Lists::new(&windows, &[], &[]);
        let most = random.pick(&[3, 12, 64]);
        let messages = random.between(0, most);
        lists.with_messages(random, messages as usize)
    }

    /// With messages drawn below those that are there, until there are so many.
    fn with_messages(mut self, random: &mut Random, messages: usize) -> Lists {
        let spread = random.between(1, 4);
        while self.sizes.len() < messages {
            let draws = (0..random.between(1, spread)).map(|_| random.place(self.windows.len()));
            let links: Vec<usize> = draws.collect();
            let narrowest = links.iter().map(|&link| self.windows[link]).min();
            let fits = narrowest.expect("at least one link is drawn");
            self.sizes.push(random.between(1, fits.into()) as u16);
            self.sets.push(links.iter().fold(0, |set, link| set | 1 << link));
        }
        self
    }

    /// Only the messages of the highest priorities.
    pub fn first(&self, kept: usize) -> Lists {
        Lists::new(&self.windows, &self.sizes[..kept], &self.sets[..kept])
    }

    /// The messages past the first ones are others, and any number of them.
    pub fn with_others_below(&self, random: &mut Random, kept: usize) -> Lists {
        let messages = random.between(kept as u32, 64);
        self.first(kept).with_messages(random, messages as usize)
    }
}

/// Any byte but 0 means ready.
pub fn ready_bytes(random: &mut Random, messages: usize) -> Vec<u8> {
    (0..messages).map(|_| random.pick(&[0, 1, 1, 2, 255])).collect()
}

/// The taken bytes and the loads of a cycle that must be done, in buffers that fit just so.
pub fn cycled(lists: &Lists, ready: &[u8]) -> (Vec<u8>, Vec<u16>) {
    let (mut taken, mut loads) = (vec![9; lists.sizes.len()], vec![7_777; lists.windows.len()]);
    let Lists { windows, sizes, sets } = lists;
    assert_eq!(cycle(windows, sizes, sets, ready, &mut taken, &mut loads), Ok(0));
    (taken, loads)
}
