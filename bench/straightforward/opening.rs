//! Opening: refusals 1 to 7, without heap.

use crate::plain_sha256::Sha256;
use crate::rules::descriptor::{
    DIFI_OPENING, DIFI_SIZE, DPFS_LEVELS, DPFS_OPENING, DPFS_SIZE, ENTRY, IVFC_LEVELS, IVFC_OPENING, IVFC_SIZE,
    MOST_MASTER_ENTRIES, SELECTOR,
};
use crate::rules::header::{
    Kind, B_FIELDS, DIFF_OPENING, DISA_OPENING, FRONT, HEADER, HEADER_LENGTH, LARGEST_TABLE, LONGEST_IMAGE,
    SHORTEST_IMAGE,
};
use crate::rules::refusal::Refusal;

/// A run of bytes.
#[derive(Clone, Copy)]
pub struct Extent {
    pub offset: u64,
    pub size: u64,
}

impl Extent {
    fn at(bytes: &[u8], place: usize) -> Extent {
        Extent { offset: number(bytes, place), size: number(bytes, place + 8) }
    }

    /// Where it ends. A sum that would wrap is past the end of every image, so that it lies in none.
    fn end(self) -> u64 {
        self.offset.saturating_add(self.size)
    }

    pub fn lies_in(self, size: u64) -> bool {
        self.end() <= size
    }

    fn pair(self) -> Extent {
        Extent { offset: self.offset, size: self.size.saturating_mul(2) }
    }

    pub fn of(self, whole: &[u8]) -> &[u8] {
        &whole[self.offset as usize..self.end() as usize]
    }
}

/// Do they lie in something of this size, no two with a byte in common?
fn lie_apart(extents: &[Extent], size: u64) -> bool {
    extents.iter().enumerate().all(|(index, one)| {
        let apart = |other: &Extent| one.end() <= other.offset || other.end() <= one.offset;
        one.lies_in(size) && extents[index + 1..].iter().all(apart)
    })
}

fn number(bytes: &[u8], place: usize) -> u64 {
    u64::from_le_bytes(bytes[place..place + 8].try_into().unwrap())
}

fn short_number(bytes: &[u8], place: usize) -> u64 {
    u32::from_le_bytes(bytes[place..place + 4].try_into().unwrap()).into()
}

/// A level of either tree; of the DPFS tree's, one half.
#[derive(Clone, Copy)]
pub struct Level {
    pub extent: Extent,
    pub log: u64,
}

impl Level {
    fn at(bytes: &[u8], place: usize) -> Level {
        Level { extent: Extent::at(bytes, place), log: short_number(bytes, place + 16) }
    }

    fn blocks(self) -> u64 {
        self.extent.size.div_ceil(1 << self.log)
    }
}

/// What the header says.
pub struct Header {
    pub kind: Kind,
    pub active: Extent,
    pub inactive: Extent,
    count: usize,
    /// A's and B's; what the second one holds if there is no B is never read.
    descriptors: [Extent; 2],
    areas: [Extent; 2],
}

/// What the header and a descriptor say of one partition.
pub struct Partition {
    pub descriptor: Extent,
    pub area: Extent,
    pub master: Extent,
    pub selector: u64,
    pub external: Option<u64>,
    pub hash_levels: [Level; 4],
    /// The DPFS levels. Level 1's logarithm is not read.
    pub levels: [Level; 3],
}

pub struct Opened {
    pub header: Header,
    pub partitions: [Option<Partition>; 2],
}

pub fn open(image: &[u8], sha256: Sha256) -> Result<Opened, Refusal> {
    let header = read_header(image)?;
    let table = header.active.of(image);
    if sha256(table) != image[HEADER + header.kind.hash_place()..][..ENTRY as usize] {
        return Err(Refusal::TableHash);
    }
    let a = read_partition(table, &header, 0)?;
    let b = if header.count == 2 { Some(read_partition(table, &header, 1)?) } else { None };
    Ok(Opened { header, partitions: [Some(a), b] })
}

fn read_header(image: &[u8]) -> Result<Header, Refusal> {
    if !(SHORTEST_IMAGE..=LONGEST_IMAGE).contains(&image.len()) {
        return Err(Refusal::Length);
    }
    let bytes = &image[HEADER..HEADER + HEADER_LENGTH];
    let (kind, count, flag) = if bytes.starts_with(DISA_OPENING) {
        (Kind::Disa, short_number(bytes, 0x08), bytes[Kind::Disa.flag_place().0].into())
    } else if bytes.starts_with(DIFF_OPENING) {
        (Kind::Diff, 1, short_number(bytes, Kind::Diff.flag_place().0))
    } else {
        return Err(Refusal::Kind);
    };
    let leftovers = kind == Kind::Disa && count == 1 && B_FIELDS.iter().any(|place| number(bytes, *place) != 0);
    if !(1..=2).contains(&count) || flag > 1 || leftovers {
        return Err(Refusal::Selection);
    }
    let header = header_fields(bytes, kind, count as usize, flag);
    if header_places_hold(&header, image.len() as u64) {
        Ok(header)
    } else {
        Err(Refusal::HeaderPlaces)
    }
}

fn header_fields(bytes: &[u8], kind: Kind, count: usize, flag: u64) -> Header {
    let tables = if kind == Kind::Disa { 0x10 } else { 0x08 };
    let size = number(bytes, tables + 16);
    let [secondary, primary] = [tables, tables + 8].map(|place| Extent { offset: number(bytes, place), size });
    let (active, inactive) = if flag == 0 { (primary, secondary) } else { (secondary, primary) };
    let (descriptors, areas) = match kind {
        Kind::Disa => ([0x28, 0x38].map(|at| Extent::at(bytes, at)), [0x48, 0x58].map(|at| Extent::at(bytes, at))),
        Kind::Diff => ([Extent { offset: 0, size }; 2], [Extent::at(bytes, 0x20); 2]),
    };
    Header { kind, active, inactive, count, descriptors, areas }
}

fn header_places_hold(header: &Header, image_length: u64) -> bool {
    let front = Extent { offset: 0, size: FRONT as u64 };
    let areas = &header.areas[..header.count];
    let descriptors = &header.descriptors[..header.count];
    let in_image = [front, header.active, header.inactive, header.areas[0], header.areas[1]];
    (1..=LARGEST_TABLE as u64).contains(&header.active.size)
        && areas.iter().chain(descriptors).all(|extent| extent.size >= 1)
        && lie_apart(&in_image[..3 + header.count], image_length)
        && lie_apart(descriptors, header.active.size)
}

fn read_partition(table: &[u8], header: &Header, index: usize) -> Result<Partition, Refusal> {
    let (descriptor, area) = (header.descriptors[index], header.areas[index]);
    let bytes = descriptor.of(table);
    if descriptor.size < DIFI_SIZE as u64 {
        return Err(Refusal::DescriptorPlaces);
    }
    let [ivfc, dpfs, master] = [0x08, 0x18, 0x28].map(|at| Extent::at(bytes, at));
    let selector = bytes[SELECTOR].into();
    let entries = master.size / ENTRY as u64;
    let sizes = [ivfc.size, dpfs.size] == [IVFC_SIZE, DPFS_SIZE].map(|size| size as u64)
        && master.size % ENTRY as u64 == 0
        && (1..=MOST_MASTER_ENTRIES as u64).contains(&entries);
    // A piece that does not lie in the descriptor is not read, so what it holds is not judged.
    let form_holds = |piece: Extent, form: fn(&[u8]) -> bool| !piece.lies_in(descriptor.size) || form(piece.of(bytes));
    let same_master = || !ivfc.lies_in(descriptor.size) || number(ivfc.of(bytes), 0x08) == master.size;
    if !bytes.starts_with(DIFI_OPENING)
        || !sizes
        || selector > 1
        || !same_master()
        || !form_holds(ivfc, ivfc_form_holds)
        || !form_holds(dpfs, dpfs_form_holds)
    {
        return Err(Refusal::DescriptorForm);
    }
    let difi = Extent { offset: 0, size: DIFI_SIZE as u64 };
    if !lie_apart(&[difi, ivfc, dpfs, master], descriptor.size) {
        return Err(Refusal::DescriptorPlaces);
    }
    let external = (bytes[0x38] != 0).then(|| number(bytes, 0x3C));
    let mut hash_levels = IVFC_LEVELS.map(|at| Level::at(ivfc.of(bytes), at));
    let levels = DPFS_LEVELS.map(|at| Level::at(dpfs.of(bytes), at));
    // An external level 4 is read from the partition, so its offset in DPFS level 3 is not judged.
    hash_levels[3].extent.offset *= u64::from(external.is_none());
    let partition = Partition { descriptor, area, master, selector, external, hash_levels, levels };
    if levels_fit(&partition) {
        Ok(partition)
    } else {
        Err(Refusal::DescriptorPlaces)
    }
}

fn ivfc_form_holds(ivfc: &[u8]) -> bool {
    let levels = IVFC_LEVELS.map(|at| Level::at(ivfc, at));
    ivfc.starts_with(IVFC_OPENING)
        && levels.iter().all(|level| level.extent.size >= 1 && (5..=16).contains(&level.log))
        && levels[..3].iter().all(|level| level.extent.size % ENTRY as u64 == 0)
}

fn dpfs_form_holds(dpfs: &[u8]) -> bool {
    let levels = DPFS_LEVELS.map(|at| Level::at(dpfs, at));
    dpfs.starts_with(DPFS_OPENING)
        && levels.iter().all(|level| level.extent.size >= 1)
        && levels[..2].iter().all(|level| level.extent.size % 4 == 0)
        && (2..=16).contains(&levels[1].log)
        && (5..=16).contains(&levels[2].log)
}

/// Places, disjointness and enough entries and bits.
fn levels_fit(partition: &Partition) -> bool {
    let [level1, level2, level3] = partition.levels;
    let [hash1, hash2, hash3, data] = partition.hash_levels;
    let pairs = [level1.extent.pair(), level2.extent.pair(), level3.extent.pair()];
    let hashes = [hash1.extent, hash2.extent, hash3.extent];
    let [in_partition, in_level3] = match partition.external {
        Some(offset) => {
            let outside = Extent { offset, size: data.extent.size };
            let in_partition = [pairs[0], pairs[1], pairs[2], outside];
            [lie_apart(&in_partition, partition.area.size), lie_apart(&hashes, level3.extent.size)]
        }
        None => {
            let in_level3 = [hashes[0], hashes[1], hashes[2], data.extent];
            [lie_apart(&pairs, partition.area.size), lie_apart(&in_level3, level3.extent.size)]
        }
    };
    let entries = [partition.master.size, hash1.extent.size, hash2.extent.size, hash3.extent.size];
    in_partition
        && in_level3
        && 8 * level1.extent.size >= level2.blocks()
        && 8 * level2.extent.size >= level3.blocks()
        && entries.iter().zip(partition.hash_levels).all(|(size, level)| size / ENTRY as u64 >= level.blocks())
}
