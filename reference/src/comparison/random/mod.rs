//! Random sessions. A shadow drive follows along, so that pages and events fit the record they meet.

mod batches;

use crate::codes::{decryption, encryption, opening_key, scope, ALGORITHM};
use crate::comparison::numbers::Numbers;
use crate::comparison::page_builder::{random_damage, random_list, set_length, status_header, Edit, SetPage};
use crate::comparison::record_builder::{random_record, random_wrong_words, with_right_words};
use crate::comparison::session::{
    event, event_of, load, load_bytes, power_on, read, read_status, security_in, security_out, serves,
    vendor_release, write, Session,
};
use crate::record_bytes::{self, COUNTER_BYTES, NEXUS_BYTES, PLACE_BYTES, RECORD_BYTES};
use crate::sizes::{KEY_BYTES, NEXUSES, PLACES};
use crate::stream::{kind, Command, Drive};

/// So many of a hundred calls are batches.
const BATCHES: usize = 4;

/// Makes random sessions from a seed.
pub struct RandomSessions {
    numbers: Numbers,
    shadow: Drive,
    set_edits: Vec<Edit>,
    status_edits: Vec<Edit>,
}

impl RandomSessions {
    /// The sessions of a seed.
    pub fn new(seed: u64) -> Self {
        RandomSessions {
            numbers: Numbers::new(seed),
            shadow: Drive::new(),
            set_edits: Edit::of_set_page(),
            status_edits: Edit::of_status_page(),
        }
    }

    /// The next session, of a length up to the one named.
    pub fn session(&mut self, longest: usize) -> Session {
        let length = (3 + self.numbers.below(60)).min(longest.max(1));
        let mut commands = Vec::with_capacity(length);
        for at in 0..length {
            let command = match at {
                0 => self.start(),
                _ if self.numbers.percent(BATCHES) => self.batch(),
                _ => self.command(),
            };
            self.shadow.answer(&command);
            commands.push(command);
        }
        Session { name: "random".to_string(), commands }
    }

    /// So many commands from power-on, of those that come out of `fit`.
    pub fn commands(&mut self, count: usize, fit: impl Fn(Command) -> Option<Command>) -> Vec<Command> {
        self.shadow = Drive::new();
        self.next_commands(count, fit)
    }

    /// So many commands from where the shadow drive is, of those that come out of `fit`.
    fn next_commands(&mut self, count: usize, fit: impl Fn(Command) -> Option<Command>) -> Vec<Command> {
        let mut commands = Vec::with_capacity(count);
        while commands.len() < count {
            if let Some(command) = fit(self.command()) {
                self.shadow.answer(&command);
                commands.push(command);
            }
        }
        commands
    }

    /// Power-on, a well-formed record, or a damaged one.
    fn start(&mut self) -> Command {
        match self.numbers.below(10) {
            0..=3 => power_on(),
            4..=8 => load(&random_record(&mut self.numbers)),
            _ => load_bytes(self.damaged_record()),
        }
    }

    /// Any command.
    fn command(&mut self) -> Command {
        let nexus = self.nexus();
        let mut command = match self.numbers.below(115) {
            0..=41 => self.set_page(nexus),
            42..=53 => self.response_page(nexus),
            54..=69 => write(nexus, self.numbers.percent(70)),
            70..=73 => event(kind::DEMOUNT),
            74..=77 => event_of(kind::NEXUS_RESERVATION_LOSS, self.owner(nexus)),
            78..=80 => event(kind::DEVICE_RESERVATION_LOSS),
            81..=84 => event_of(kind::PREEMPT, nexus),
            85 => event(kind::MICROCODE),
            86..=88 => vendor_release(self.numbers.pick(&[0, 1, 2, 3, 4, 4, 5, 255, 256, 65535])),
            89 | 90 => event(kind::LOGICAL_UNIT_RESET),
            91..=94 => self.status_page(),
            95 => power_on(),
            96 => load_bytes(self.damaged_record()),
            97 | 98 => load(&random_record(&mut self.numbers)),
            99 => self.unknown_kind(),
            100..=102 => serves(self.numbers.pick(&[0, 0, 1, 1, 2, 2, 3, 3, 4, 4, 5, 6, 255, 256, 65535])),
            _ => self.read(nexus),
        };
        if self.numbers.percent(10) {
            self.fill_unread_fields(&mut command);
        }
        command
    }

    /// A kind of 14 to 252, with a length though no data follows.
    fn unknown_kind(&mut self) -> Command {
        let kind = if self.numbers.percent(50) { 14 } else { 14 + self.numbers.below(239) as u8 };
        Command { length: self.numbers.pick(&[0, 0, 1, 52, RECORD_BYTES as u16]), ..event(kind) }
    }

    /// A read, mostly of a kind there is and with no key or one around those the reader's set has.
    fn read(&mut self, nexus: u8) -> Command {
        let reader = usize::from(nexus) % NEXUSES;
        let count = self.shadow.controller().record.selected_set(reader).supplemental_count;
        let numbers = &mut self.numbers;
        let block_kind = match numbers.below(20) {
            0..=16 => numbers.pick(&[0, 1, 1, 2]),
            17 | 18 => numbers.pick(&[3, 4, 128, 254, 255]),
            _ => numbers.byte(),
        };
        let key = match numbers.below(10) {
            0..=2 => opening_key::NONE,
            3 | 4 => opening_key::MAIN,
            5..=7 => numbers.below(usize::from(count) + 1) as u8,
            8 => numbers.pick(&[count.wrapping_add(1), 4, 5, 128, 254]),
            _ => numbers.byte(),
        };
        read(nexus, block_kind, key)
    }

    /// Puts something into the fields the command doesn't have (the port stays 0).
    fn fill_unread_fields(&mut self, command: &mut Command) {
        let has_nexus = matches!(
            command.kind,
            kind::IN | kind::OUT | kind::WRITE | kind::READ | kind::NEXUS_RESERVATION_LOSS | kind::PREEMPT
        );
        if !has_nexus {
            command.nexus = self.numbers.byte();
        }
        let has_argument = matches!(
            command.kind,
            kind::IN
                | kind::OUT
                | kind::WRITE
                | kind::READ
                | kind::VENDOR_RELEASE
                | kind::BATCH
                | kind::SERVES
        );
        if !has_argument {
            command.argument = self.numbers.next() as u16;
        }
        if !matches!(command.kind, kind::IN | kind::OUT) {
            command.protocol = self.numbers.byte();
        }
        if command.kind != kind::IN && !Command::has_data(command.kind) {
            command.length = self.numbers.next() as u16;
        }
    }

    /// Mostly one of a few nexuses, so that they meet.
    fn nexus(&mut self) -> u8 {
        match self.numbers.below(100) {
            0..=79 => self.numbers.below(6) as u8,
            80..=97 => self.numbers.below(NEXUSES) as u8,
            _ => self.numbers.pick(&[16, 17, 127, 128, 255]),
        }
    }

    /// An owner of a used place half the time.
    fn owner(&mut self, nexus: u8) -> u8 {
        let place = self.numbers.below(PLACES);
        let set = &self.shadow.controller().record.places[place];
        if set.is_used() && self.numbers.percent(50) {
            set.owner
        } else {
            nexus
        }
    }

    /// Mostly protocol 20h.
    fn protocol(&mut self, command: Command) -> Command {
        if self.numbers.percent(4) {
            let protocol = self.numbers.pick(&[0, 1, 0x1F, 0x21, 0xA0, 0xFF]);
            return Command { protocol, ..command };
        }
        command
    }

    /// IN of any page.
    fn response_page(&mut self, nexus: u8) -> Command {
        let code = match self.numbers.below(10) {
            0..=5 => 0x0020,
            6 => 0x0000,
            7 => 0x0001,
            8 => 0x0012,
            _ => self.numbers.pick(&[0x0002, 0x0010, 0x0011, 0x0013, 0x0021, 0x0120, 0x2000, 0xFFFF]),
        };
        let size = self.numbers.below(90) as u16;
        let command = security_in(nexus, code, size);
        self.protocol(command)
    }

    /// OUT of a page, mostly in order.
    fn set_page(&mut self, nexus: u8) -> Command {
        let mut page = match self.numbers.below(10) {
            0..=6 => self.parameters(),
            7 | 8 => self.supplemental(nexus),
            _ => self.public(),
        };
        if self.numbers.percent(3) {
            let length = self.numbers.pick(&[0, 1, 31, 33, 64]);
            page.key = self.numbers.bytes(length);
        }
        let mut bytes = page.bytes();
        if page.scope == scope::PUBLIC && self.numbers.percent(50) {
            let length = 20 + self.numbers.below(110);
            bytes.resize(length, 0);
            let filling = self.numbers.bytes(length - 5);
            bytes[5..].copy_from_slice(&filling);
            bytes[4] |= self.numbers.byte() & 0x1F;
            set_length(&mut bytes);
        }
        if self.numbers.percent(20) {
            for _ in 0..1 + self.numbers.below(3) {
                random_damage(&mut bytes, &self.set_edits, 20 + page.key.len(), &mut self.numbers);
            }
        }
        let mut command = security_out(nexus, bytes);
        if self.numbers.percent(3) {
            command.argument = self.numbers.pick(&[0x0000, 0x0011, 0x0020, 0x1000, 0x0110, 0xFFFF]);
        }
        self.protocol(command)
    }

    /// A PUBLIC page of 20 bytes.
    fn public(&mut self) -> SetPage {
        let numbers = &mut self.numbers;
        let (ceem, decryption) = (numbers.below(4) as u8, numbers.below(4) as u8);
        SetPage { ceem, decryption, sdk: numbers.percent(50), ..SetPage::public(numbers.percent(50)) }
    }

    /// The parameters of a new set. Few have CEEM 10b or 11b with decryption DISABLE, since that is refused.
    fn parameters(&mut self) -> SetPage {
        let numbers = &mut self.numbers;
        let encryption = numbers.pick(&[0, 1, 2, 2, 2]);
        let decryption = numbers.below(4) as u8;
        let encrypts = encryption == encryption::ENCRYPT;
        let key = if encrypts || decryption >= 2 { numbers.bytes(KEY_BYTES) } else { Vec::new() };
        let ceems = if decryption == decryption::DISABLE && numbers.percent(75) { 2 } else { 4 };
        SetPage {
            scope: numbers.pick(&[scope::LOCAL, scope::LOCAL, scope::LOCAL, scope::ALL]),
            lock: numbers.percent(50),
            ceem: numbers.below(ceems) as u8,
            rdmc: if encrypts { numbers.pick(&[0, 2, 3, 3]) } else { numbers.below(4) as u8 },
            sdk: false,
            ckod: numbers.percent(50),
            ckorp: numbers.percent(50),
            ckorl: numbers.percent(50),
            encryption,
            decryption,
            algorithm: ALGORITHM,
            key,
            list: if encrypts { random_list(numbers) } else { Vec::new() },
        }
    }

    /// A supplemental key, mostly with the sender's scope and its set's mode.
    fn supplemental(&mut self, nexus: u8) -> SetPage {
        let record = &self.shadow.controller().record;
        let sender = usize::from(nexus) % NEXUSES;
        let mut scope = record.nexuses[sender].scope & 3;
        let mut decryption = record.selected_set(sender).decryption;
        if scope == scope::PUBLIC || self.numbers.percent(5) {
            scope = self.numbers.pick(&[scope::LOCAL, scope::ALL]);
        }
        if self.numbers.percent(10) {
            decryption = self.numbers.below(4) as u8;
        }
        let mut page = self.parameters();
        page.scope = scope;
        page.sdk = true;
        page.decryption = decryption;
        page.ceem = self.numbers.below(4) as u8;
        page.rdmc = self.numbers.below(4) as u8;
        page.encryption = self.numbers.byte();
        page.key = self.numbers.bytes(KEY_BYTES);
        page.list = Vec::new();
        page
    }

    /// A status page, mostly in order.
    fn status_page(&mut self) -> Command {
        let numbers = &mut self.numbers;
        let mut page = status_header();
        page[4] = numbers.pick(&[0, 1, 2]) << 5 | numbers.pick(&[0, 1, 2]);
        page[5] = numbers.below(3) as u8;
        page[6] = numbers.below(4) as u8;
        page[7] = numbers.below(2) as u8;
        page[8..12].copy_from_slice(&(numbers.next() as u32).to_be_bytes());
        page[12] = numbers.below(8) as u8;
        page.extend(random_list(numbers));
        set_length(&mut page);
        if numbers.percent(50) {
            for _ in 0..1 + numbers.below(2) {
                random_damage(&mut page, &self.status_edits, 24, numbers);
            }
        }
        read_status(page)
    }

    /// A well-formed record with wrong words, with a place copied to another, or with one to three bytes changed, mostly
    /// those of codes, owners, lengths and marks. Mostly the words are those that the scopes then say.
    fn damaged_record(&mut self) -> Vec<u8> {
        let numbers = &mut self.numbers;
        let mut record = random_record(numbers);
        if numbers.percent(15) {
            random_wrong_words(numbers, &mut record);
            return record_bytes::give(&record);
        }
        if numbers.percent(10) {
            let (from, to) = (1 + numbers.below(PLACES - 1), 1 + numbers.below(PLACES - 1));
            record.places[to] = record.places[from].clone();
            record.put_words_right();
            return record_bytes::give(&record);
        }
        let mut bytes = record_bytes::give(&record);
        for _ in 0..numbers.pick(&[1, 1, 1, 1, 2, 3]) {
            let at = match numbers.below(4) {
                0 | 1 => {
                    let place = numbers.pick(&[0, 0, 0, 1, 2, 3, 4]);
                    let field = numbers.pick(&[0, 0, 1, 1, 2, 3, 4, 9, 10, 13, 46, 175, 208]);
                    COUNTER_BYTES + place * PLACE_BYTES + field
                }
                2 => {
                    let nexuses = COUNTER_BYTES + PLACES * PLACE_BYTES;
                    nexuses + numbers.below(NEXUSES) * NEXUS_BYTES + numbers.pick(&[0, 0, 0, 1, 10, 11, 12])
                }
                _ => numbers.below(bytes.len()),
            };
            bytes[at] = match numbers.below(4) {
                0 => numbers.byte(),
                1 => bytes[at].wrapping_add(1),
                _ => numbers.pick(&[0, 0, 0, 1, 1, 2, 2, 3, 4, 5, 13, 16, 33, 255]),
            };
        }
        if numbers.percent(85) {
            bytes = with_right_words(bytes);
        }
        if numbers.percent(3) {
            let length = numbers.below(2 * bytes.len());
            bytes.resize(length, 0);
        }
        bytes
    }
}
