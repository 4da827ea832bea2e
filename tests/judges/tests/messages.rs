//! Messages as bytes: what the proved code reads and writes, held to a simple reader and writer.
use judges::draw::Draw;
use judges::messages::reader::{Reader, LENT};
use judges::messages::writer::{before, Writer, Written};
use judges::messages::{difference, drawn, hex, samples};
use judges::models::messages::{of_list, read, written, Body, Datagram};

/// So many datagrams at most are asked about at once.
const TOGETHER: usize = 4096;

/// Datagrams up to this length are damaged at every place.
const SMALL: usize = 100;

/// The kinds that are counted.
const KINDS: [&str; 7] = [
    "Get", "Set", "Reply", "Redirect", "Shard", "Delegate", "Ack",
];

/// Datagrams that wait to be compared, and what the ones before them were.
#[derive(Default)]
struct Judge {
    reader: Reader,
    waiting: Vec<Vec<u8>>,
    size: usize,
    accepted: [usize; KINDS.len()],
    refused: usize,
    entries: usize,
}

impl Judge {
    fn add(&mut self, bytes: Vec<u8>) {
        if self.waiting.len() == TOGETHER || LENT < self.size + bytes.len() {
            self.compare();
        }
        self.size += bytes.len();
        self.waiting.push(bytes);
    }

    /// Both readers make the same of every datagram that waits.
    fn compare(&mut self) {
        let waiting = std::mem::take(&mut self.waiting);
        self.size = 0;
        for (bytes, found) in waiting.iter().zip(self.reader.read(&waiting)) {
            let want = read(bytes);
            match found {
                Ok(found) if found == want => {}
                Ok(found) => panic!("{}: {}", difference(&found, &want), hex(bytes)),
                Err(fault) => panic!("an answer without sense, {fault}: {}", hex(bytes)),
            }
            self.count(bytes, &want);
        }
    }

    fn count(&mut self, bytes: &[u8], read: &Option<Datagram>) {
        let Some(datagram) = read else {
            self.refused += 1;
            return;
        };
        assert_eq!(written(datagram), bytes, "the simple writer and reader");
        self.accepted[kind(datagram)] += 1;
        if let Datagram::Message {
            body: Body::Delegate(_, _, list),
            ..
        } = datagram
        {
            self.entries += list.len();
        }
    }

    /// Compares what is left, and prints what there was.
    fn end(&mut self) {
        self.compare();
        self.reader.library.check_guards();
        let kinds = KINDS.iter().zip(self.accepted);
        let kinds: Vec<String> = kinds.map(|(kind, many)| format!("{many} {kind}")).collect();
        println!("{} accepted: {}", self.accepted(), kinds.join(", "));
        println!("{} refused, {} entries read", self.refused, self.entries);
    }

    fn accepted(&self) -> usize {
        self.accepted.iter().sum()
    }
}

/// Its place in KINDS.
fn kind(datagram: &Datagram) -> usize {
    match datagram {
        Datagram::Ack(_) => 6,
        Datagram::Message { body, .. } => match body {
            Body::Get(_) => 0,
            Body::Set(..) => 1,
            Body::Reply(..) => 2,
            Body::Redirect(..) => 3,
            Body::Shard(..) => 4,
            Body::Delegate(..) => 5,
        },
    }
}

/// The bytes that the document prints.
fn printed(text: &str) -> Vec<u8> {
    let digits: String = text.split_whitespace().collect();
    let byte = |at: usize| u8::from_str_radix(&digits[at..at + 2], 16).expect("two digits");
    (0..digits.len()).step_by(2).map(byte).collect()
}

#[test]
fn the_documents_datagrams() {
    let mut judge = Judge::default();
    let mut writer = Writer::default();
    for (name, text, datagram) in samples::worked() {
        let bytes = printed(text);
        assert_eq!(hex(&written(&datagram)), hex(&bytes), "written: {name}");
        assert_eq!(read(&bytes), Some(datagram.clone()), "read: {name}");
        judge.add(bytes.clone());
        let (answer, found) = writer.write(&datagram, bytes.len());
        assert_eq!(
            hex(&found),
            hex(&bytes),
            "written by the proved code: {name}"
        );
        assert_eq!(answer, Written::Bytes(bytes.len()), "{name}");
    }
    judge.end();
    assert_eq!(judge.accepted(), 4);
    let largest = of_list(&samples::list(61, 1023));
    assert_eq!(largest.len(), 63_387);
}

#[test]
fn good_datagrams_of_every_kind_and_size() {
    let mut judge = Judge::default();
    let mut many = 0;
    for datagram in samples::good().into_iter().chain(samples::long()) {
        let bytes = written(&datagram);
        let same = read(&bytes).as_ref() == Some(&datagram);
        assert!(same, "the simple reader and writer differ: {}", hex(&bytes));
        judge.add(bytes);
        many += 1;
    }
    judge.end();
    assert_eq!(judge.accepted(), many);
    assert!(judge.accepted.iter().all(|many| 4 <= *many));
}

#[test]
fn bad_datagrams() {
    let mut judge = Judge::default();
    let bad = samples::bad();
    let many = bad.len();
    for (fault, bytes) in bad {
        assert!(read(&bytes).is_none(), "{fault}: {}", hex(&bytes));
        judge.add(bytes);
    }
    judge.end();
    assert_eq!(judge.refused, many);
}

/// Every front, and every place with another byte and with another number, of the small good datagrams. Of the
/// others the fronts, and other numbers where the first fields are; of the long ones only few of each.
#[test]
fn truncated_and_damaged_datagrams() {
    let mut judge = Judge::default();
    for bytes in samples::good().iter().map(written) {
        let small = bytes.len() <= SMALL;
        samples::truncated(&bytes).for_each(|it| judge.add(it));
        if small {
            samples::damaged(&bytes).for_each(|it| judge.add(it));
        }
        let fields = if small { SMALL } else { 64 };
        samples::lying(&bytes, 0..fields).for_each(|it| judge.add(it));
    }
    for bytes in samples::long().iter().map(written) {
        judge.add(bytes[..bytes.len() - 1].to_vec());
        // The destination's length; and the list's count and the first value's length, if it is a Delegate to "a:1".
        for place in [9, 31, 47] {
            samples::lying(&bytes, place..place + 1).for_each(|it| judge.add(it));
        }
    }
    judge.end();
    assert!(50_000 < judge.accepted(), "{} accepted", judge.accepted());
    assert!(50_000 < judge.refused, "{} refused", judge.refused);
}

/// So many datagrams by the pseudo-random rule: of each ten two follow no rule, four are changed good ones, and four
/// say something.
#[test]
fn random_datagrams() {
    let good: Vec<Vec<u8>> = samples::good().iter().map(written).collect();
    let mut judge = Judge::default();
    let mut draw = Draw::new(1);
    for number in 0..100_000 {
        judge.add(match number % 10 {
            0 | 1 => drawn::bytes(&mut draw),
            2..=5 => {
                let which = draw.below(good.len());
                drawn::changed(&mut draw, &good[which])
            }
            _ => written(&drawn::datagram(&mut draw)),
        });
    }
    judge.end();
    assert!(30_000 < judge.accepted(), "{} accepted", judge.accepted());
    assert!(30_000 < judge.refused, "{} refused", judge.refused);
    assert!(judge.accepted.iter().all(|many| 1000 < *many));
}

/// Writes the datagram into so much room by the proved code, and holds the answer and the room to what should be
/// there.
fn check_write(writer: &mut Writer, datagram: &Datagram, room: usize) {
    let bytes = written(datagram);
    let (answer, found) = writer.write(datagram, room);
    let at = format!("room for {room} of {}: {}", bytes.len(), hex(&bytes));
    let mut want = before(room);
    match (read(&bytes).is_some(), bytes.len() <= room) {
        (true, true) => {
            want[..bytes.len()].copy_from_slice(&bytes);
            assert_eq!(answer, Written::Bytes(bytes.len()), "{at}");
        }
        (true, false) => assert_eq!(answer, Written::NoRoom, "{at}"),
        (false, true) => assert_eq!(answer, Written::Invalid, "{at}"),
        // Two reasons to refuse; any of them may be told.
        (false, false) => assert!(!matches!(answer, Written::Bytes(_)), "{at}"),
    }
    if let Some(place) = (0..room).find(|place| found[*place] != want[*place]) {
        let [found, want] = [found[place], want[place]];
        panic!("{answer:?}, byte {place} is {found:02x} instead of {want:02x}; {at}");
    }
}

/// Exactly enough room, more, and less; what is written is what both readers read.
#[test]
fn written_datagrams() {
    let (mut judge, mut writer) = (Judge::default(), Writer::default());
    let mut writes = 0;
    for datagram in samples::good().into_iter().chain(samples::long()) {
        let bytes = written(&datagram);
        let len = bytes.len();
        let rooms: Vec<usize> = match len {
            0..=SMALL => (0..len + 4).collect(),
            _ => vec![0, 1, 17, len / 2, len - 1, len, len + 1, len + 40],
        };
        writes += rooms.len();
        for room in rooms {
            check_write(&mut writer, &datagram, room);
        }
        judge.add(bytes);
    }
    writer.library.check_guards();
    judge.end();
    println!("{writes} written or refused");
    assert!(2000 < writes, "{writes} written or refused");
}

/// An address or a list that is too long and keys that do not rise are refused for that wherever there is room, and
/// nothing is written.
#[test]
fn datagrams_that_may_not_be_written() {
    let mut writer = Writer::default();
    for (_, datagram) in samples::unsendable() {
        let len = written(&datagram).len();
        let rooms = [0, 25, len - 1, len, len + 1, len + 100];
        for room in rooms {
            check_write(&mut writer, &datagram, room);
        }
    }
    writer.library.check_guards();
}

#[test]
fn random_datagrams_written() {
    let mut writer = Writer::default();
    let mut draw = Draw::new(2);
    let writes = 10_000;
    for _ in 0..writes {
        let datagram = drawn::datagram(&mut draw);
        let len = written(&datagram).len();
        let room = match draw.below(3) {
            0 => draw.below(len),
            1 => len,
            _ => len + draw.below(30),
        };
        check_write(&mut writer, &datagram, room);
    }
    writer.library.check_guards();
    println!("{writes} written or refused");
}
