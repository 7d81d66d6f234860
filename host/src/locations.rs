//! The location of a refusal by a plain reading of the file, apart from the check: its records from start to start, the links
//! that each of them holds, and what these lead to. Where a number can be due to several records, each of them is right.

use crate::second::bytes::field;
use crate::second::rules::body;
use std::collections::BTreeSet;

const CDR: i64 = 8;

/// A record of the tiling.
#[derive(Clone, Copy, Debug, PartialEq, Eq)]
struct Tile {
    /// File offset of its start.
    offset: i64,
    /// Its type.
    record_type: i64,
}

/// A link: what stands there, the types of records that it may lead to, and whether it may be 0.
struct Link {
    to: i64,
    wanted: &'static [i64],
    may_end: bool,
}

/// A file's records from offset 8 on.
struct Tiling<'a> {
    body: &'a [u8],
    tiles: Vec<Tile>,
    stop: Stop,
}

/// Where the records stop, and why.
#[derive(Clone, Copy, Debug, PartialEq, Eq)]
enum Stop {
    /// The file ends.
    AtEnd,
    /// There is no record here.
    NoRecord(i64),
    /// There is a record of a type that is not carried.
    Uncarried(i64),
}

impl<'a> Tiling<'a> {
    /// The records of a file, up to the first offset where there is none that is carried.
    fn of(file: &'a [u8]) -> Tiling<'a> {
        let body = body(file);
        let (mut tiles, mut offset) = (Vec::new(), CDR);
        let stop = loop {
            if offset == body.len() as i64 {
                break Stop::AtEnd;
            }
            let (size, record_type) = (field(body, offset), field(body, offset + 4));
            let is_inside = |size: &i64| *size >= 8 && offset + size <= body.len() as i64;
            match (size.filter(is_inside), record_type) {
                (Some(size), Some(record_type @ (-1 | 1..=9))) => {
                    tiles.push(Tile { offset, record_type });
                    offset += size;
                }
                (Some(_), Some(10..=13)) => break Stop::Uncarried(offset),
                _ => break Stop::NoRecord(offset),
            }
        };
        Tiling { body, tiles, stop }
    }

    fn field(&self, offset: i64) -> i64 {
        field(self.body, offset).unwrap_or(0)
    }

    fn tile_at(&self, offset: i64) -> Option<&Tile> {
        self.tiles.iter().find(|tile| tile.offset == offset)
    }

    fn link(&self, at: i64, wanted: &'static [i64]) -> Link {
        Link { to: self.field(at), wanted, may_end: true }
    }

    /// The links of a record that the walk takes, VXRtail and a UIR's previous not among them.
    fn links(&self, tile: &Tile) -> Vec<Link> {
        let offsets: &[(i64, &'static [i64])] = match tile.record_type {
            1 => &[(8, &[2])],
            2 => &[(8, &[3]), (12, &[8]), (16, &[4]), (44, &[-1])],
            3 => &[(8, &[3]), (20, &[6])],
            8 => &[(8, &[8]), (20, &[6])],
            4 => &[(8, &[4]), (12, &[5]), (36, &[9])],
            5 => &[(8, &[5])],
            9 => &[(8, &[9])],
            6 => &[(8, &[6])],
            -1 => &[(8, &[-1])],
            _ => &[],
        };
        let plain = offsets.iter().map(|(at, wanted)| self.link(tile.offset + at, wanted));
        let plain = plain.map(|link| Link { may_end: tile.record_type != 1, ..link });
        let entries = if tile.record_type == 6 { self.entries(tile.offset) } else { Vec::new() };
        plain.chain(entries).collect()
    }

    /// The used offsets of a VXR.
    fn entries(&self, vxr: i64) -> Vec<Link> {
        let (entries, used) = (self.field(vxr + 12), self.field(vxr + 16));
        let at = |entry: i64| vxr + 20 + 8 * entries + 4 * entry;
        let inside = (0..used).take_while(|entry| field(self.body, at(*entry)).is_some());
        inside.map(|entry| Link { may_end: false, ..self.link(at(entry), &[6, 7]) }).collect()
    }

    /// A link does not lead to a record that it may lead to.
    fn is_broken(&self, link: &Link) -> bool {
        let leads = self.tile_at(link.to).is_some_and(|to| link.wanted.contains(&to.record_type));
        let ends = link.may_end && link.to == 0;
        !leads && !ends
    }

    /// A record holds a link that leads nowhere.
    fn holds_broken_link(&self, tile: &Tile) -> bool {
        self.links(tile).iter().any(|link| self.is_broken(link))
    }

    /// A record holds a link to a record that some link leads to besides.
    fn holds_second_link(&self, tile: &Tile) -> bool {
        let all: Vec<Link> = self.tiles.iter().flat_map(|tile| self.links(tile)).collect();
        let times = |to: i64| all.iter().filter(|link| link.to == to).count();
        self.links(tile).iter().any(|link| self.tile_at(link.to).is_some() && times(link.to) > 1)
    }

    /// The offsets of the records that links lead to from the CDR on.
    fn reached(&self) -> BTreeSet<i64> {
        let mut reached = BTreeSet::new();
        let mut open: Vec<&Tile> = self.tile_at(CDR).into_iter().collect();
        while let Some(tile) = open.pop() {
            if reached.insert(tile.offset) {
                let links = self.links(tile).into_iter().filter(|link| !self.is_broken(link));
                open.extend(links.filter_map(|link| self.tile_at(link.to)));
            }
        }
        reached
    }

    /// The first record in use that no link leads to.
    fn first_unclaimed(&self) -> Option<i64> {
        let reached = self.reached();
        let in_use = self.tiles.iter().filter(|tile| tile.record_type != -1);
        in_use.map(|tile| tile.offset).find(|offset| !reached.contains(offset))
    }

    /// The record is one that the refusal of this number can be due to.
    fn can_be_due(&self, verdict: i32, tile: &Tile) -> bool {
        match verdict {
            8 => self.holds_broken_link(tile),
            9 => self.holds_second_link(tile),
            10 => !matches!(tile.record_type, 1 | 2),
            11 => !matches!(tile.record_type, 1 | 7),
            12 if tile.record_type == 6 => true,
            12 => matches!(tile.record_type, 3 | 8) && self.field(tile.offset + 20) == 0,
            14 => matches!(tile.record_type, 3 | 8) && self.field(tile.offset + 28) & 4 != 0,
            23 => tile.record_type == 6,
            _ => false,
        }
    }

    /// The location is right for the verdict of a check from fresh with marks as long as the file.
    fn is_right(&self, verdict: i32, location: i64) -> bool {
        let is_single = self.field(CDR + 24) & 2 != 0;
        match verdict {
            0..=6 => location == 0,
            7 => self.stop == Stop::NoRecord(location),
            13 => Some(location) == self.first_unclaimed(),
            14 if !is_single => location == 0,
            14 if self.stop != Stop::AtEnd => self.stop == Stop::Uncarried(location),
            _ => self.tile_at(location).is_some_and(|tile| self.can_be_due(verdict, tile)),
        }
    }
}

/// The location is right for the verdict of a check from fresh with marks as long as the file.
pub fn is_right(file: &[u8], verdict: i32, location: u64) -> bool {
    i64::try_from(location).is_ok_and(|location| Tiling::of(file).is_right(verdict, location))
}
