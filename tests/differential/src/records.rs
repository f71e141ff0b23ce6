//! Records with tags: the strict reading of lists and the writing of records, against the model.

use crate::held::{self, refused, Expected, Held};
use crate::inputs::{damaged, Random};
use collector_model::records::{read, step, write, Reading, Record};
use ghjalvestru::app::auth::{Owner, TaggedRecords};
use ghjalvestru::sys;
use ghjalvestru::Error;

/// A start of each kind, a byte with each tag, and what may stand in a number alone.
const LETTERS: [u8; 7] = [0xC0, 0xC1, 0x03, 0x41, 0x81, 0x00, 0xC2];
const LONGEST_OF_LETTERS: usize = 6;

/// Fewer rounds are meant to be quick: then three bytes are too many strings, and long lists too long.
const MANY_ROUNDS: u64 = 10_000;

/// What a buffer holds before a call.
const FILL: u8 = 0xA5;

/// The functions, each with its count.
struct Records {
    step: Held,
    count: Held,
    numbers: Held,
    listing: Held,
    algorithms: Held,
    write: Held,
    /// The Rust crate's iterator.
    iterator: Held,
    /// The older reading, of lists on which both have to agree.
    older: Held,
}

/// Holds all functions; prints a line for each.
pub fn all(seed: u64, rounds: u64) -> bool {
    println!("records: seed={seed} rounds={rounds}");
    let mut random = Random::new(seed);
    let mut records = Records {
        step: Held::new("tagged_step", true),
        count: Held::new("tagged_count", true),
        numbers: Held::new("tagged_numbers", true),
        listing: Held::new("tagged_listing", true),
        algorithms: Held::new("tagged_algorithms", false),
        write: Held::new("tagged_write", true),
        iterator: Held::new("Rust, records", true),
        older: Held::new("suite_numbers, known", false),
    };
    let many = rounds >= MANY_ROUNDS;
    records.each_short(if many { 3 } else { 2 });
    records.each_of_letters();
    for length in [0xFF, 0x100, 0xFFFF, 0x1_0000, 0x100_0001] {
        if many || length <= 0x1_0000 {
            records.long(length);
        }
    }
    for _ in 0..rounds / 4 {
        records.random(&mut random);
    }
    records.forms(&mut random);
    let Records {
        step,
        count,
        numbers,
        listing,
        algorithms,
        write,
        iterator,
        older,
    } = records;
    let all = [
        step, count, numbers, listing, algorithms, write, iterator, older,
    ];
    held::said("records", "the model's", &all)
}

/// Refusal 16 carries the place.
fn bad_record(place: usize) -> u64 {
    refused(16) + 256 * place as u64
}

impl Records {
    /// All strings of any bytes. Nearly all are refused, which is asked without a buffer for each.
    fn each_short(&mut self, longest: u32) {
        for length in 0..=longest {
            for number in 0..1u32 << (8 * length) {
                let bytes = number.to_be_bytes();
                self.short(&bytes[bytes.len() - length as usize..]);
            }
        }
    }

    fn short(&mut self, list: &[u8]) {
        let Reading { records, refused } = read(list);
        let (Some(place), []) = (refused, &records[..]) else {
            self.whole(list);
            return;
        };
        let expected = bad_record(place);
        let mut out = [FILL; 40];
        self.count.says(list, expected, sys::tagged_count(list));
        let said = sys::tagged_numbers(list, &mut out);
        self.numbers.says(list, expected, said);
        let said = sys::tagged_listing(list, &mut out);
        self.listing.says(list, expected, said);
        let said = sys::tagged_step(list, 0, &mut out);
        self.step.says(list, expected, said);
        if out != [FILL; 40] {
            self.step
                .differs(list, "nothing written", "a byte of the buffer");
        }
    }

    /// All strings of letters, with steps at all positions.
    fn each_of_letters(&mut self) {
        for length in 0..=LONGEST_OF_LETTERS {
            for number in 0..LETTERS.len().pow(length as u32) {
                let mut rest = number;
                let mut list = vec![0; length];
                for byte in &mut list {
                    *byte = LETTERS[rest % LETTERS.len()];
                    rest /= LETTERS.len();
                }
                self.whole(&list);
                for position in 0..=length + 1 {
                    self.step(&list, position);
                }
            }
        }
    }

    /// A record of this length, then another byte, so that a place has more than a byte.
    fn long(&mut self, length: usize) {
        let mut list = vec![0x7F; length];
        list[..6].copy_from_slice(&[0xC1, 0x80, 0xF2, 0x1B, 0x00, 0x3F]);
        list[length / 2..].fill(0xBF);
        self.whole(&list);
        list.push(0x40);
        self.whole(&list);
    }

    /// A sequence and damaged ones, with steps anywhere.
    fn random(&mut self, random: &mut Random) {
        let list = sequence(random);
        assert_eq!(read(&list).refused, None, "{list:02X?}");
        self.whole(&list);
        for list in damaged(&list, random) {
            self.whole(&list);
            for _ in 0..3 {
                self.step(&list, random.below(list.len() + 4));
            }
            self.step(&list, usize::MAX);
        }
        let list = known(random);
        self.whole(&list);
        let numbers = read(&list).records.iter().map(|it| it.number).collect();
        self.older.writes(&list, &Ok(numbers), sys::suite_numbers);
    }

    /// Everything that is said of a list, from its records' starts and from where these end.
    fn whole(&mut self, list: &[u8]) {
        let reading = read(list);
        let Reading { records, refused } = &reading;
        let number = refused.map_or(records.len() as u64, bad_record);
        self.count.says(list, number, sys::tagged_count(list));
        let expected = |bytes: Vec<u8>| refused.map_or(Ok(bytes), |place| Err(bad_record(place)));
        let numbers = records.iter().map(|it| it.number).collect();
        self.numbers
            .writes(list, &expected(numbers), sys::tagged_numbers);
        let listing = records.iter().flat_map(Record::listed).collect();
        self.listing
            .writes(list, &expected(listing), sys::tagged_listing);

        let mut position = 0;
        for record in records {
            self.is_at(list, position, &Ok(laid_out(record)));
            self.parts(list, record);
            position = record.end;
        }
        self.is_at(list, position, &expected(vec![]));

        let expected = expected_items(list, &reading);
        self.iterator
            .agrees(list, refused.is_some(), expected, items(list));
    }

    fn step(&mut self, list: &[u8], position: usize) {
        let expected = match step(list, position) {
            Ok(record) => Ok(record.iter().flat_map(laid_out).collect()),
            Err(place) => Err(bad_record(place)),
        };
        self.is_at(list, position, &expected);
    }

    fn is_at(&mut self, list: &[u8], position: usize, expected: &Expected) {
        self.step.writes(list, expected, |given, out| {
            sys::tagged_step(given, position, out)
        });
    }

    /// A record's algorithms, and the record written again: its bytes.
    fn parts(&mut self, list: &[u8], record: &Record) {
        let numbers = record.algorithms(list);
        let places = [record.integrity, record.confidentiality, record.end];
        for (numbers, places) in numbers.iter().zip(places.windows(2)) {
            let bytes = &list[places[0]..places[1]];
            self.algorithms
                .writes(bytes, &Ok(numbers.clone()), sys::tagged_algorithms);
        }
        let bytes = &list[record.start..record.end];
        let vendor = record.vendor.unwrap_or(0);
        let own = record.vendor.is_some().into();
        let [integrity, confidentiality] = &numbers;
        self.write.writes(bytes, &Ok(bytes.to_vec()), |_, out| {
            sys::tagged_write(
                own,
                vendor,
                record.number,
                record.authentication,
                integrity,
                confidentiality,
                out,
            )
        });
    }

    /// Every owner, with vendors and numbers on both sides of what fits.
    fn forms(&mut self, random: &mut Random) {
        for owner in 0..=u8::MAX {
            for vendor in [0, 1, 7154, 0xFF_FFFF, 0x100_0000, u32::MAX] {
                for _ in 0..20 {
                    self.form(owner, vendor, random);
                }
            }
        }
        for _ in 0..20_000 {
            let vendor = u32::from_le_bytes(random.array()) >> random.below(25);
            self.form(0, 0, random);
            self.form(1, vendor, random);
        }
    }

    fn form(&mut self, owner: u8, vendor: u32, random: &mut Random) {
        let number = random.byte();
        let authentication = around_six_bits(random);
        let [integrity, confidentiality] = [(); 2].map(|()| {
            (0..random.below(4))
                .map(|_| around_six_bits(random))
                .collect()
        });
        let (integrity, confidentiality): (Vec<u8>, Vec<u8>) = (integrity, confidentiality);
        let whose = match (owner, vendor) {
            (0, 0) => Ok(None),
            (1, vendor) => Ok(Some(vendor)),
            _ => Err(9),
        };
        let expected = whose
            .and_then(|vendor| write(vendor, number, authentication, &integrity, &confidentiality))
            .map_err(|refusal| refused(refusal.into()));
        let head = [
            &[owner],
            &vendor.to_le_bytes()[..],
            &[number, authentication],
        ]
        .concat();
        let given = [&head, &integrity, &confidentiality].map(|part| &part[..]);
        self.write.writes(&given.concat(), &expected, |_, out| {
            sys::tagged_write(
                owner,
                vendor,
                number,
                authentication,
                &integrity,
                &confidentiality,
                out,
            )
        });
    }
}

/// The 32 bytes of a record.
fn laid_out(record: &Record) -> Vec<u8> {
    let mut bytes = record.listed().to_vec();
    bytes.extend([record.authentication, 0, 0]);
    for place in [record.integrity, record.confidentiality, record.end] {
        bytes.extend((place as u64).to_le_bytes());
    }
    bytes
}

/// A record of the Rust crate's: its owner, its number, its authentication, its other algorithms; or the refusal.
type Item = Result<(Owner, u8, u8, [Vec<u8>; 2]), Error>;

fn items(list: &[u8]) -> Vec<Item> {
    let item = TaggedRecords::new(list).map(|item| {
        let it = item?;
        let algorithms = [it.integrity(), it.confidentiality()].map(|numbers| numbers.collect());
        Ok((it.owner, it.number, it.authentication, algorithms))
    });
    item.collect()
}

fn expected_items(list: &[u8], reading: &Reading) -> Vec<Item> {
    let record = |record: &Record| {
        let owner = record.vendor.map_or(Owner::Standard, Owner::Vendor);
        let algorithms = record.algorithms(list);
        Ok((owner, record.number, record.authentication, algorithms))
    };
    let refusal = reading.refused.map(|place| Err(Error::BadRecord(place)));
    reading.records.iter().map(record).chain(refusal).collect()
}

/// Most fit.
fn around_six_bits(random: &mut Random) -> u8 {
    match random.below(16) {
        0 => 63,
        1 => 64,
        2 => random.byte(),
        _ => random.byte() % 64,
    }
}

fn algorithms(random: &mut Random) -> Vec<u8> {
    let count = random.one_of(&[0, 1, 1, 1, 1, 2, 3, 9]);
    (0..count).map(|_| random.byte() % 64).collect()
}

/// Records of any kind, numbers that are starts among them; most lists are short.
fn sequence(random: &mut Random) -> Vec<u8> {
    let most = random.one_of(&[1, 2, 4, 4, 8, 60]);
    let mut list = Vec::new();
    for _ in 0..=random.below(most) {
        let [number, low, middle, high] = random.array();
        let number = random.one_of(&[number, number, number, 0xC0, 0xC1]);
        let vendor = u32::from_le_bytes([low, middle, high, 0]);
        let vendor = (random.below(3) == 0).then_some(vendor);
        let authentication = random.byte() % 64;
        let [integrity, confidentiality] = [algorithms(random), algorithms(random)];
        let bytes = write(vendor, number, authentication, &integrity, &confidentiality);
        list.extend(bytes.expect("its numbers fit"));
    }
    list
}

/// Standard records with numbers of the table and one number of each kind.
fn known(random: &mut Random) -> Vec<u8> {
    let mut list = Vec::new();
    for _ in 0..random.below(24) {
        let [number, a, i, c]: [u8; 4] = random.array();
        list.extend([0xC0, number % 20, a % 64, 64 + i % 64, 128 + c % 64]);
    }
    list
}
