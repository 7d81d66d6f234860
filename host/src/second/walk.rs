//! The walk (docs/RULES.md, section 8): one step a link, each test in the order of docs/STATE.md.

use super::bytes::{field, length};
use super::check::{End, TOO_DEEP};
use super::rules::{self, Bounds, Breach, Index, IndexEntry, Record, GDR_LINK};
use super::state::{Level, Link, Phase, Point};
use super::tables::{
    entry_kind, record_type, variable_kind, EntryKind, VariableKind, GR_ENTRIES, R_VARIABLES,
    Z_ENTRIES, Z_VARIABLES,
};

/// File offset of the CDR, which is the first record.
const CDR: i64 = 8;
/// The count of entries at which counting stops.
const MOST_ENTRIES: i64 = 2_147_483_648;

/// Where the heads of lists stand: the GDR's of attributes and of unused records, a VDR's of its index.
const ATTRIBUTES: i64 = 16;
const UNUSED: i64 = 44;
const INDEX: i64 = 20;
/// Where a member of a list has its next.
const NEXT: i64 = 8;

/// Takes one link in the body of a file: the point after it, or how it finishes the check.
pub(super) fn step(body: &[u8], marks: &mut [u8], link: Link, now: &Point) -> Result<Point, End> {
    let (claimed, next) = Step { file: body, marks, link, now }.take()?;
    let claimed = claimed.and_then(|offset| usize::try_from(offset).ok());
    if let Some(mark) = claimed.and_then(|at| marks.get_mut(at)) {
        *mark = 2;
    }
    Ok(next)
}

/// What a step leads to: the offset of the record it claims, if it does, and the point after it.
type Taken = (Option<i64>, Point);

/// A step of the walk: the file up to its end, the marks that it is lent, the link that it takes, and where it stands.
struct Step<'a> {
    file: &'a [u8],
    marks: &'a [u8],
    link: Link,
    now: &'a Point,
}

/// The refusal of this number, of the record at an offset, unless the clause is met.
fn demand(met: bool, number: i32, location: i64) -> Result<(), End> {
    if met {
        Ok(())
    } else {
        Err(End::At(number, location))
    }
}

/// What a record's rule gives; a breach is the fault of the record at an offset.
fn judged<T>(rule: Result<T, Breach>, location: i64) -> Result<T, End> {
    rule.map_err(|breach| End::of_record(breach, location))
}

impl<'a> Step<'a> {
    fn take(&self) -> Result<Taken, End> {
        match self.link {
            Link::Gdr => self.take_gdr(),
            Link::Variable => self.take_variable(),
            Link::Index => self.take_index(),
            Link::IndexEntry => self.take_index_entry(),
            Link::Attribute => self.take_attribute(),
            Link::Entry => self.take_entry(),
            Link::Unused => self.take_unused(),
        }
    }

    /// The record that holds the link which is taken now: the CDR, the VXR of an index entry, and else the record in which
    /// that link stands as a head or as a next.
    fn holder(&self) -> i64 {
        match self.link {
            Link::Gdr => CDR,
            Link::IndexEntry => self.now.before,
            _ => (self.now.link - self.link_in_holder()).max(0),
        }
    }

    /// Where in its record the link stands: a list's head is taken while the list has no members so far, then nexts.
    fn link_in_holder(&self) -> i64 {
        let now = self.now;
        let (members, head) = match self.link {
            Link::Variable => (now.count, variable_kind(now.kind).map(|kind| kind.head)),
            Link::Entry => (now.entry, entry_kind(now.kind).map(|kind| kind.head)),
            Link::Attribute => (now.count, Some(ATTRIBUTES)),
            Link::Index => (now.before, Some(INDEX)),
            Link::Unused => (now.before, Some(UNUSED)),
            Link::Gdr | Link::IndexEntry => (0, None),
        };
        head.filter(|_| members == 0).unwrap_or(NEXT)
    }

    /// The refusal of this number, of the holder of the link, unless the clause is met.
    fn demand(&self, met: bool, number: i32) -> Result<(), End> {
        demand(met, number, self.holder())
    }

    /// A field that the step needs: 20 past the end.
    fn needed(&self, offset: i64, what: &'static str) -> Result<i64, End> {
        field(self.file, offset).ok_or(End::PastEnd(what))
    }

    /// The link that is taken now.
    fn taken_link(&self) -> Result<i64, End> {
        self.needed(self.now.link, "link")
    }

    /// File offset of the GDR: where the CDR's link says.
    fn gdr(&self) -> Result<i64, End> {
        Ok(rules::target(self.needed(GDR_LINK, "CDR's link")?))
    }

    /// The kind of the variables whose list or index is walked.
    fn variable_kind(&self) -> Result<&'static VariableKind, End> {
        variable_kind(self.now.kind).ok_or(End::OutOfRange)
    }

    /// The kind of the entries whose list is walked.
    fn entry_kind(&self) -> Result<&'static EntryKind, End> {
        entry_kind(self.now.kind).ok_or(End::OutOfRange)
    }

    fn mark_at(&self, offset: i64) -> Option<u8> {
        usize::try_from(offset).ok().and_then(|at| self.marks.get(at)).copied()
    }

    /// The record that a link leads to: 8 for its offset, 8 for its type, 9.
    fn record(&self, link: i64, wanted_type: i64) -> Result<Record<'a>, End> {
        let judge = |found: Option<i64>| self.demand(found == Some(wanted_type), 8);
        self.record_of(link, judge)
    }

    /// The record that an index entry leads to: 8 for its offset, 8 for its type, 23, 9.
    fn named_record(&self, link: i64) -> Result<Record<'a>, End> {
        self.record_of(link, |found| match found {
            Some(record_type::VXR) => demand(!self.now.levels.are_all(), TOO_DEEP, link),
            found => self.demand(found == Some(record_type::VVR), 8),
        })
    }

    /// The record that a link leads to, its type being judged between its offset and 9.
    fn record_of(
        &self,
        link: i64,
        judge: impl Fn(Option<i64>) -> Result<(), End>,
    ) -> Result<Record<'a>, End> {
        self.demand(link >= CDR && link < length(self.file), 8)?;
        let mark = self.mark_at(link);
        self.demand(matches!(mark, Some(1 | 2)), 8)?;
        let record = self.record_start(link, "size and type")?;
        judge(record.record_type)?;
        self.demand(mark == Some(1), 9)?;
        Ok(record)
    }

    /// The record at an offset: 20 if its size and type do not lie in the file.
    fn record_start(&self, offset: i64, what: &'static str) -> Result<Record<'a>, End> {
        let has_type = |record: &Record| record.record_type.is_some();
        Record::at(self.file, offset).filter(has_type).ok_or(End::PastEnd(what))
    }

    /// The point at the head of one of the GDR's lists.
    fn head(&self, link: Link, kind: i64, at: i64) -> Point {
        Point::new(self.now.length, Phase::Walk(link), kind, at)
    }

    /// The CDR's link to the GDR; a zero one is no start.
    fn take_gdr(&self) -> Result<Taken, End> {
        let link = self.needed(GDR_LINK, "CDR's link")?;
        let gdr = self.record(link, record_type::GDR)?;
        let head = gdr.offset + R_VARIABLES.head;
        Ok((Some(gdr.offset), self.head(Link::Variable, R_VARIABLES.record_type, head)))
    }

    /// A VDR: 14 for Flags bit 2, its rule, its number; then its VXRhead.
    fn take_variable(&self) -> Result<Taken, End> {
        let kind = self.variable_kind()?;
        let link = self.taken_link()?;
        if link == 0 {
            return self.end_of_variables(kind);
        }
        let vdr = self.record(link, kind.record_type)?;
        demand(!rules::is_compressed(&vdr), 14, vdr.offset)?;
        let variable = judged(rules::variable(&vdr, kind, self.gdr()?), vdr.offset)?;
        demand(variable.number == self.now.count, 11, vdr.offset)?;
        let next = Point {
            phase: Phase::Walk(Link::Index),
            link: vdr.offset + INDEX,
            greatest: self.now.greatest.max(variable.max_rec + 1),
            owner: vdr.offset,
            ..*self.now
        };
        Ok((Some(vdr.offset), next))
    }

    /// The GDR's count, and rMaxRec for rVariables; then the next of the GDR's lists.
    fn end_of_variables(&self, kind: &VariableKind) -> Result<Taken, End> {
        let gdr = self.gdr()?;
        self.demand(self.needed(gdr + kind.count, "count of variables")? == self.now.count, 11)?;
        if let Some(at) = kind.greatest {
            self.demand(self.needed(gdr + at, "rMaxRec")? == self.now.greatest - 1, 11)?;
        }
        let next = if kind.record_type == record_type::RVDR {
            self.head(Link::Variable, Z_VARIABLES.record_type, gdr + Z_VARIABLES.head)
        } else {
            self.head(Link::Attribute, 0, gdr + ATTRIBUTES)
        };
        Ok((None, next))
    }

    /// A VXR of the top chain: its rule; then its used offsets, or its next if there are none. Below the top chain a next
    /// is zero.
    fn take_index(&self) -> Result<Taken, End> {
        let link = self.taken_link()?;
        if let Some(level) = self.now.levels.nearest() {
            self.demand(link == 0, 11)?;
            return self.go_up(level);
        }
        if link == 0 {
            return self.end_of_chain();
        }
        let vxr = self.record(link, record_type::VXR)?;
        let index = judged(rules::index(&vxr), vxr.offset)?;
        Ok((Some(vxr.offset), at_entry(self.now, &index, 0)))
    }

    /// Behind a lower record: the entry of the record above that follows the one that led down.
    fn go_up(&self, level: Level) -> Result<Taken, End> {
        let used = self.needed(level.record + 16, "used entries above")?;
        let above =
            Point { floor: level.last + 1, levels: self.now.levels.without_nearest(), ..*self.now };
        Ok((None, at_used(&above, level.record, used, level.next)))
    }

    /// VXRtail, then MaxRec; then the VDR's next.
    fn end_of_chain(&self) -> Result<Taken, End> {
        let vdr = self.now.owner;
        self.demand(self.needed(vdr + 24, "VXRtail")? == self.now.before, 11)?;
        self.demand(self.needed(vdr + 16, "MaxRec")? == -1 || self.now.covered, 12)?;
        let next = Point {
            count: self.now.count + 1,
            greatest: self.now.greatest,
            ..self.head(Link::Variable, self.now.kind, vdr + NEXT)
        };
        Ok((None, next))
    }

    /// A used offset of a VXR: its range, then the record it leads to, which holds values or is a lower VXR.
    fn take_index_entry(&self) -> Result<Taken, End> {
        let index = Index::at(self.file, self.now.before).ok_or(End::PastEnd("First"))?;
        let ceiling = self.now.levels.nearest().map(|level| level.last);
        let within = Bounds { floor: self.now.floor, ceiling };
        let entry = judged(index.entry(self.file, self.now.entry, within), self.holder())?;
        let named = self.named_record(entry.offset)?;
        if named.record_type == Some(record_type::VXR) {
            self.take_lower(&entry, &named)
        } else {
            self.take_values(&index, &entry, &named)
        }
    }

    /// A lower VXR: its rule, its next; then its used offsets, or its next if there are none.
    fn take_lower(&self, entry: &IndexEntry, vxr: &Record) -> Result<Taken, End> {
        let lower = judged(rules::index(vxr), vxr.offset)?;
        let next = judged(rules::next_index(vxr), vxr.offset)?;
        demand(next == 0, 11, vxr.offset)?;
        let above = Level { record: self.now.before, next: self.now.entry + 1, last: entry.last };
        let claimed =
            Point { floor: entry.first, levels: self.now.levels.with(above), ..*self.now };
        Ok((Some(vxr.offset), at_entry(&claimed, &lower, 0)))
    }

    /// A VVR, judged with the record bytes of the VDR; what is wrong with either is 10 of the VVR.
    fn take_values(&self, index: &Index, entry: &IndexEntry, vvr: &Record) -> Result<Taken, End> {
        let kind = self.variable_kind()?;
        demand(vvr.size >= 8, 10, vvr.offset)?;
        let vdr = Record::at(self.file, self.now.owner).ok_or(End::PastEnd("VDR's size"))?;
        let variable = judged(rules::variable(&vdr, kind, self.gdr()?), vvr.offset)?;
        judged(rules::values(vvr, entry, variable.record_bytes), vvr.offset)?;
        let claimed = Point {
            floor: entry.last + 1,
            covered: self.now.covered || entry.covers(variable.max_rec),
            ..*self.now
        };
        Ok((Some(vvr.offset), at_entry(&claimed, index, self.now.entry + 1)))
    }

    /// An ADR: its rule, its number; then its AgrEDR head.
    fn take_attribute(&self) -> Result<Taken, End> {
        let link = self.taken_link()?;
        if link == 0 {
            let gdr = self.gdr()?;
            self.demand(self.needed(gdr + 28, "NumAttr")? == self.now.count, 11)?;
            return Ok((None, self.head(Link::Unused, 0, gdr + UNUSED)));
        }
        let adr = self.record(link, record_type::ADR)?;
        let attribute = judged(rules::attribute(&adr), adr.offset)?;
        demand(attribute.number == self.now.count, 11, adr.offset)?;
        Ok((Some(adr.offset), self.entries(adr.offset, &GR_ENTRIES)))
    }

    /// The point at the head of one of an ADR's lists of entries.
    fn entries(&self, adr: i64, kind: &EntryKind) -> Point {
        let head = self.head(Link::Entry, kind.record_type, adr + kind.head);
        Point { count: self.now.count, owner: adr, ..head }
    }

    /// An AEDR: its rule, its attribute's number; then its next.
    fn take_entry(&self) -> Result<Taken, End> {
        let kind = self.entry_kind()?;
        let link = self.taken_link()?;
        if link == 0 {
            return self.end_of_entries(kind);
        }
        let aedr = self.record(link, kind.record_type)?;
        let entry = judged(rules::entry(&aedr), aedr.offset)?;
        let number = self.needed(self.now.owner + 20, "ADR's Num")?;
        demand(entry.attribute == number, 11, aedr.offset)?;
        let next = Point {
            link: aedr.offset + NEXT,
            entry: (self.now.entry + 1).min(MOST_ENTRIES),
            floor: self.now.floor.max(entry.number + 1),
            ..*self.now
        };
        Ok((Some(aedr.offset), next))
    }

    /// The ADR's count and maximum; then its zEntries, or its next.
    fn end_of_entries(&self, kind: &EntryKind) -> Result<Taken, End> {
        let adr = self.now.owner;
        self.demand(self.needed(adr + kind.count, "count of entries")? == self.now.entry, 11)?;
        let maximum = self.needed(adr + kind.maximum, "greatest entry number")?;
        self.demand(maximum == self.now.floor - 1, 11)?;
        let next = if kind.record_type == record_type::AGREDR {
            self.entries(adr, &Z_ENTRIES)
        } else {
            Point { count: self.now.count + 1, ..self.head(Link::Attribute, 0, adr + NEXT) }
        };
        Ok((None, next))
    }

    /// A listed UIR: its size, the previous one; then its next.
    fn take_unused(&self) -> Result<Taken, End> {
        let link = self.taken_link()?;
        if link == 0 {
            self.last_look()?;
            return Err(End::Accepted);
        }
        let uir = self.record(link, record_type::UIR)?;
        let previous = judged(rules::unused(&uir), uir.offset)?;
        demand(previous == self.now.before, 11, uir.offset)?;
        let next = Point { link: uir.offset + NEXT, before: uir.offset, ..*self.now };
        Ok((Some(uir.offset), next))
    }

    /// From record to record: 13 of the first in use, other than the CDR, that is unclaimed.
    fn last_look(&self) -> Result<(), End> {
        let mut offset = CDR;
        while offset != length(self.file) {
            let record = self.record_start(offset, "size and type, from record to record")?;
            let in_use = offset != CDR && record.record_type != Some(record_type::UIR);
            demand(!in_use || self.mark_at(offset) == Some(2), 13, offset)?;
            if !record.is_inside() {
                return Err(End::PastEnd("next record, from record to record"));
            }
            offset += record.size;
        }
        Ok(())
    }
}

/// The point before a VXR's entry of this number, or before its next if the entry is not in use.
fn at_entry(now: &Point, index: &Index, entry: i64) -> Point {
    at_used(now, index.offset, index.used, entry)
}

/// The same for the VXR at an offset with so many used entries.
fn at_used(now: &Point, vxr: i64, used: i64, entry: i64) -> Point {
    let here = Point { before: vxr, ..*now };
    if entry < used {
        Point { phase: Phase::Walk(Link::IndexEntry), link: 0, entry, ..here }
    } else {
        Point { phase: Phase::Walk(Link::Index), link: vxr + NEXT, entry: 0, ..here }
    }
}
