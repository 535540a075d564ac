//! lister LETTER IMAGE in plain Rust, to measure the proved fuller listing (the program samples) against.
//! `compare.sh` builds and runs it.

use std::fmt;
use std::ops::Range;
use std::process::ExitCode;

const BLOCK_SIZE: usize = 16;
const SECTORS: usize = 40;
const DATA_BLOCKS: usize = 216;

const NSCP_AID: u16 = 0x4011;
const SERVICE_AID: u16 = 0x4012;
const SERVICES_TAG: u8 = 0xCF;
const RESERVED_NUMBER: u16 = 0x9999;

type Image = [u8; 256 * BLOCK_SIZE];

/// The bytes of some neighbouring blocks.
fn blocks(image: &Image, first: usize, count: usize) -> &[u8] {
    &image[BLOCK_SIZE * first..][..BLOCK_SIZE * count]
}

/// Why an input, a card or the data of one service is turned away.
#[derive(Clone, Copy)]
enum Refusal {
    Letter = 1,
    GeneralPurposeByte = 3,
    MadChecksum = 4,
    NscpSector = 5,
    NscpChecksum = 6,
    Item = 7,
    ServicesSector = 8,
    ServicesChecksum = 9,
    Slot = 10,
    ServiceNumber = 11,
    Frame = 13,
    DataChecksum = 14,
    Object = 15,
    Padding = 16,
    ImageSize = 28,
}

impl fmt::Display for Refusal {
    fn fmt(&self, f: &mut fmt::Formatter) -> fmt::Result {
        writeln!(f, "refused {}", *self as u8)
    }
}

fn ensure(condition: bool, refusal: Refusal) -> Result<(), Refusal> {
    condition.then_some(()).ok_or(refusal)
}

#[derive(Clone, Copy, Debug)]
enum Profile {
    A,
    B,
    C,
    D,
    E,
}

impl Profile {
    fn from_letter(letter: &str) -> Result<Self, Refusal> {
        match letter {
            "A" => Ok(Profile::A),
            "B" => Ok(Profile::B),
            "C" => Ok(Profile::C),
            "D" => Ok(Profile::D),
            "E" => Ok(Profile::E),
            _ => Err(Refusal::Letter),
        }
    }

    fn has(self, sector: usize) -> bool {
        match self {
            Profile::A => matches!(sector, 1..=15),
            Profile::B => matches!(sector, 1..=15 | 25..=31),
            Profile::C => matches!(sector, 1..=15 | 32..=34 | 36..=38),
            Profile::D => matches!(sector, 17..=39),
            Profile::E => matches!(sector, 1..=15 | 32 | 36..=38),
        }
    }

    /// Directories of the profile stand in its sectors of four blocks.
    fn has_small(self, sector: usize) -> bool {
        sector < 32 && self.has(sector)
    }
}

#[derive(Clone, Copy, PartialEq)]
struct Block(u8);

impl Block {
    fn from_rank(rank: usize) -> Self {
        let trailers = if rank < 96 {
            rank / 3
        } else {
            32 + (rank - 96) / 15
        };
        Block((rank + trailers) as u8)
    }

    /// How many data blocks stand below this one; `None` for a trailer.
    fn rank(self) -> Option<usize> {
        (!self.is_trailer()).then(|| usize::from(self.0) - self.sector())
    }

    fn sector(self) -> usize {
        match usize::from(self.0) {
            low @ 0..128 => low / 4,
            high => 32 + (high - 128) / 16,
        }
    }

    fn sector_size(self) -> u8 {
        if self.0 < 128 {
            4
        } else {
            16
        }
    }

    fn position(self) -> u8 {
        self.0 % self.sector_size()
    }

    fn is_trailer(self) -> bool {
        self.position() == self.sector_size() - 1
    }
}

/// The 8-bit checksum, of directories.
fn crc8(bytes: &[u8]) -> u8 {
    bytes.iter().fold(0xC7, |crc, &byte| {
        (0..8).fold(crc ^ byte, |crc, _| {
            (crc << 1) ^ if crc >> 7 == 1 { 0x1D } else { 0 }
        })
    })
}

/// The 16-bit checksum, of service data.
fn crc16(bytes: &[u8]) -> u16 {
    bytes.iter().fold(0xFFFF, |crc, &byte| {
        let crc = crc ^ u16::from(byte) << 8;
        (0..8).fold(crc, |crc, _| {
            (crc << 1) ^ if crc >> 15 == 1 { 0x1021 } else { 0 }
        })
    })
}

/// Whether a directory begins with the checksum of its other bytes.
fn is_sealed(directory: &[u8]) -> bool {
    directory[0] == crc8(&directory[1..])
}

/// An item of the NSCP directory: a tag, and the block or sector it names.
struct Item {
    tag: u8,
    block: Block,
}

impl Item {
    fn names_sector(&self) -> bool {
        matches!(self.tag, 0xC3 | 0xC4 | 0xC7 | 0xCE | 0xCF)
    }

    fn names(&self, block: Block) -> bool {
        self.block == block || self.names_sector() && self.block.sector() == block.sector()
    }

    fn is_well_formed(&self) -> bool {
        self.block.0 != 0
            && match self.tag {
                0xC0..=0xC2 | 0xC5 | 0xC6 => !self.block.is_trailer(),
                _ => self.names_sector() && self.block.position() == 0,
            }
    }
}

/// A service's number and its run: data blocks of consecutive ranks.
struct Slot {
    number: u16,
    start: Block,
    length: u8,
}

impl Slot {
    /// The ranks of the run; `None` if it has no blocks or leaves the card.
    fn ranks(&self) -> Option<Range<usize>> {
        let first = self.start.rank()?;
        let end = first + usize::from(self.length);
        (first < end && end <= DATA_BLOCKS).then_some(first..end)
    }

    /// The bytes of the run's blocks, one after another.
    fn bytes(&self, image: &Image) -> Vec<u8> {
        let mut bytes = Vec::with_capacity(BLOCK_SIZE * usize::from(self.length));
        for rank in self.ranks().into_iter().flatten() {
            bytes.extend_from_slice(blocks(image, Block::from_rank(rank).0.into(), 1));
        }
        bytes
    }
}

/// A card's application and NSCP directories.
struct Directories {
    profile: Profile,
    /// The identifier of each sector that the application directory lists.
    aids: [Option<u16>; SECTORS],
    nscp: usize,
    items: Vec<Item>,
}

impl Directories {
    fn read(image: &Image, profile: Profile) -> Result<Self, Refusal> {
        let aids = read_aids(image, profile)?;
        let mut sectors = (0..SECTORS).filter(|&sector| aids[sector] == Some(NSCP_AID));
        let nscp = match (sectors.next(), sectors.next()) {
            (Some(sector), None) if profile.has_small(sector) => sector,
            _ => return Err(Refusal::NscpSector),
        };
        let items = read_items(blocks(image, 4 * nscp, 3))?;
        Ok(Directories {
            profile,
            aids,
            nscp,
            items,
        })
    }

    /// Whether services may use a sector: it is listed as theirs, or not at all.
    fn allows_services(&self, sector: usize) -> bool {
        sector != self.nscp && self.aids[sector].is_none_or(|aid| aid == SERVICE_AID)
    }

    fn is_service_block(&self, block: Block) -> bool {
        self.profile.has(block.sector())
            && self.allows_services(block.sector())
            && !self.items.iter().any(|item| item.names(block))
    }

    /// The sector of the services directory, which no other item touches.
    fn services_sector(&self) -> Result<usize, Refusal> {
        let item = self.items.iter().find(|item| item.tag == SERVICES_TAG);
        let sector = item.ok_or(Refusal::ServicesSector)?.block.sector();
        let items_there = self
            .items
            .iter()
            .filter(|item| item.block.sector() == sector);
        let allowed = self.profile.has_small(sector) && self.allows_services(sector);
        ensure(allowed && items_there.count() == 1, Refusal::ServicesSector)?;
        Ok(sector)
    }
}

fn read_aids(image: &Image, profile: Profile) -> Result<[Option<u16>; SECTORS], Refusal> {
    let (trailer, purpose, mad, first_sector) = match profile {
        Profile::D => (67, 0xC2, blocks(image, 64, 3), 17),
        _ => (3, 0xC1, blocks(image, 1, 2), 1),
    };
    ensure(
        blocks(image, trailer, 1)[9] == purpose,
        Refusal::GeneralPurposeByte,
    )?;
    ensure(is_sealed(mad), Refusal::MadChecksum)?;
    let mut aids = [None; SECTORS];
    for (aid, entry) in aids[first_sector..].iter_mut().zip(mad[2..].as_chunks().0) {
        *aid = Some(u16::from_le_bytes(*entry));
    }
    Ok(aids)
}

fn read_items(nscp: &[u8]) -> Result<Vec<Item>, Refusal> {
    ensure(is_sealed(nscp), Refusal::NscpChecksum)?;
    ensure(nscp[1] == 0, Refusal::Item)?;
    let mut items: Vec<Item> = Vec::new();
    for &[tag, block] in nscp[2..].as_chunks().0 {
        if [tag, block] == [0, 0] {
            continue;
        }
        let item = Item {
            tag,
            block: Block(block),
        };
        let repeated = items.iter().any(|earlier| earlier.tag == tag);
        ensure(item.is_well_formed() && !repeated, Refusal::Item)?;
        items.push(item);
    }
    Ok(items)
}

/// Reads the used slots. Each takes its blocks, by rank, out of the free ones.
fn read_slots(services: &[u8], free: &mut [bool; DATA_BLOCKS]) -> Result<Vec<Slot>, Refusal> {
    ensure(is_sealed(services), Refusal::ServicesChecksum)?;
    ensure(services[1..4] == [0; 3], Refusal::Slot)?;
    let mut slots: Vec<Slot> = Vec::new();
    for &[high, low, start, length] in services[4..].as_chunks().0 {
        if [high, low, start, length] == [0; 4] {
            continue;
        }
        let number = u16::from_be_bytes([high, low]);
        let slot = Slot {
            number,
            start: Block(start),
            length,
        };
        let repeated = slots.iter().any(|earlier| earlier.number == number);
        ensure(number != 0 && !repeated, Refusal::Slot)?;
        let run = &mut free[slot.ranks().ok_or(Refusal::Slot)?];
        ensure(run.iter().all(|&free| free), Refusal::Slot)?;
        run.fill(false);
        slots.push(slot);
    }
    Ok(slots)
}

/// The data of a service: its outer tag, and how many objects are inside.
struct Frame {
    tag: u8,
    objects: usize,
}

impl Frame {
    fn parse(run: &[u8]) -> Result<Self, Refusal> {
        let [tag @ (0xE0 | 0x65), rest @ ..] = run else {
            return Err(Refusal::Frame);
        };
        let (length, rest) = split_length(rest).ok_or(Refusal::Frame)?;
        let (content, rest) = rest.split_at_checked(length).ok_or(Refusal::Frame)?;
        let [0xC0, 0x02, high, low, padding @ ..] = rest else {
            return Err(Refusal::Frame);
        };
        let covered = &run[..run.len() - padding.len() - 2];
        let checksum = u16::from_be_bytes([*high, *low]);
        ensure(crc16(covered) == checksum, Refusal::DataChecksum)?;
        let objects = count_objects(content).ok_or(Refusal::Object)?;
        ensure(padding.iter().all(|&byte| byte == 0), Refusal::Padding)?;
        Ok(Frame { tag: *tag, objects })
    }
}

/// A length, one byte up to 7F or 81 and one byte, and what follows it.
fn split_length(bytes: &[u8]) -> Option<(usize, &[u8])> {
    match bytes {
        [length @ 0..=0x7F, rest @ ..] | [0x81, length, rest @ ..] => {
            Some((usize::from(*length), rest))
        }
        _ => None,
    }
}

/// How many objects a content is made of; `None` if one is malformed.
fn count_objects(mut content: &[u8]) -> Option<usize> {
    let mut count = 0;
    while !content.is_empty() {
        content = skip_object(content)?;
        count += 1;
    }
    Some(count)
}

/// What follows the first object: a tag of one or two bytes, then a length that
/// counts a format byte and the data after it.
fn skip_object(content: &[u8]) -> Option<&[u8]> {
    let rest = match content {
        [0, ..] => return None,
        [tag, rest @ ..] if tag & 0x1F != 0x1F => rest,
        [_, 0..=0x7F, rest @ ..] => rest,
        _ => return None,
    };
    match split_length(rest)? {
        (0, _) => None,
        (length, rest) => rest.get(length..),
    }
}

/// An accepted card: its services, and how many service blocks are left.
struct Card {
    services: Vec<(Slot, Result<Frame, Refusal>)>,
    free: usize,
}

impl Card {
    fn read(image: &Image, profile: Profile) -> Result<Self, Refusal> {
        let directories = Directories::read(image, profile)?;
        let sector = directories.services_sector()?;
        let mut free: [bool; DATA_BLOCKS] =
            std::array::from_fn(|rank| directories.is_service_block(Block::from_rank(rank)));
        let slots = read_slots(blocks(image, 4 * sector, 3), &mut free)?;
        let services = slots.into_iter().map(|slot| {
            let frame = match slot.number {
                RESERVED_NUMBER => Err(Refusal::ServiceNumber),
                _ => Frame::parse(&slot.bytes(image)),
            };
            (slot, frame)
        });
        Ok(Card {
            services: services.collect(),
            free: free.iter().filter(|&&free| free).count(),
        })
    }
}

impl fmt::Display for Card {
    fn fmt(&self, f: &mut fmt::Formatter) -> fmt::Result {
        for (slot, frame) in &self.services {
            let (number, start, length) = (slot.number, slot.start.0, slot.length);
            write!(f, "{number:04X} {start:02X} {length:02X} ")?;
            match frame {
                Ok(frame) => writeln!(f, "{:02X} {}", frame.tag, frame.objects)?,
                Err(refusal) => refusal.fmt(f)?,
            }
        }
        writeln!(f, "free {}", self.free)
    }
}

/// The record of an image under a profile letter, and whether all is accepted.
fn list(letter: &str, bytes: &[u8]) -> Result<(String, bool), Refusal> {
    let image = bytes.try_into().map_err(|_| Refusal::ImageSize)?;
    let profile = Profile::from_letter(letter)?;
    Ok(match Card::read(image, profile) {
        Ok(card) => (format!("profile {profile:?}\n{card}"), true),
        Err(refusal) => (format!("profile {profile:?}\n{refusal}"), false),
    })
}

fn main() -> ExitCode {
    let args: Vec<String> = std::env::args().skip(1).collect();
    let [letter, path] = args.as_slice() else {
        eprintln!("usage: lister LETTER IMAGE");
        return ExitCode::FAILURE;
    };
    let bytes = match std::fs::read(path) {
        Ok(bytes) => bytes,
        Err(error) => {
            eprintln!("lister: cannot read {path}: {error}");
            return ExitCode::FAILURE;
        }
    };
    let (record, accepted) =
        list(letter, &bytes).unwrap_or_else(|refusal| (refusal.to_string(), false));
    print!("{record}");
    ExitCode::from(u8::from(!accepted))
}
