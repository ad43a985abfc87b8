//! How values are spelled in the replay language: writers first, then the reader of a line.
use crate::records::*;
use crate::wrong::Wrong;

pub type Out = Vec<u8>;

/// Writes literals and values in turn: `put!(o, "ref=", num e.reference)`.
#[macro_export]
macro_rules! put {
    ($o:expr $(,)?) => {};
    ($o:expr, num $v:expr $(, $($rest:tt)*)?) => {{ $crate::text::num($o, u64::from($v)); $crate::put!($o $(, $($rest)*)?); }};
    ($o:expr, $f:ident $v:expr $(, $($rest:tt)*)?) => {{ $crate::text::$f($o, $v); $crate::put!($o $(, $($rest)*)?); }};
    ($o:expr, $s:literal $(, $($rest:tt)*)?) => {{ $o.extend_from_slice($s.as_bytes()); $crate::put!($o $(, $($rest)*)?); }};
}

pub fn num(o: &mut Out, mut n: u64) {
    let mut digits = [0u8; 20];
    let mut at = digits.len();
    loop {
        at -= 1;
        digits[at] = b'0' + (n % 10) as u8;
        n /= 10;
        if n == 0 {
            break;
        }
    }
    o.extend_from_slice(&digits[at..]);
}

pub fn signed(o: &mut Out, n: i32) {
    if n < 0 {
        o.push(b'-');
    }
    num(o, u64::from(n.unsigned_abs()));
}

pub fn flag(o: &mut Out, f: bool) {
    o.push(if f { b'1' } else { b'0' });
}

pub fn hex(o: &mut Out, bytes: &[u8]) {
    const DIGITS: &[u8; 16] = b"0123456789abcdef";
    for b in bytes {
        o.extend_from_slice(&[DIGITS[usize::from(b >> 4)], DIGITS[usize::from(b & 15)]]);
    }
}

pub fn shard(o: &mut Out, s: Shard) {
    put!(o, signed s.workchain, ":", hex &s.prefix.to_be_bytes());
}

pub fn key(o: &mut Out, k: Key) {
    put!(o, shard k.shard, ":", num k.seqno);
}

pub fn id(o: &mut Out, i: &Id) {
    put!(o, key i.key, ":", hex &i.root, ":", hex &i.file);
}

pub fn opt(o: &mut Out, n: Option<u32>) {
    match n {
        None => o.push(b'-'),
        Some(n) => num(o, u64::from(n)),
    }
}

pub fn bound(o: &mut Out, k: Option<Key>) {
    match k {
        None => o.push(b'-'),
        Some(k) => key(o, k),
    }
}

pub fn opt_id(o: &mut Out, i: Option<&Id>) {
    match i {
        None => o.push(b'-'),
        Some(i) => id(o, i),
    }
}

pub fn range(o: &mut Out, r: Option<(u32, u32)>) {
    match r {
        None => o.push(b'-'),
        Some((start, end)) => put!(o, num start, "..", num end),
    }
}

fn list<T>(o: &mut Out, items: &[T], one: impl Fn(&mut Out, &T)) {
    if items.is_empty() {
        o.push(b'-');
    }
    for (n, item) in items.iter().enumerate() {
        if n > 0 {
            o.push(b',');
        }
        one(o, item);
    }
}

pub fn ids(o: &mut Out, v: &[Id]) {
    list(o, v, id);
}

pub fn keys(o: &mut Out, v: &[Key]) {
    list(o, v, |o, k| key(o, *k));
}

pub fn top(o: &mut Out, t: &Top) {
    put!(o, num t.reference, "/", id &t.id, "/", flag t.updated);
}

pub fn tops(o: &mut Out, v: &[Top]) {
    list(o, v, top);
}

const STATUSES: [(Status, &str); 4] =
    [(Status::Collated, "Collated"), (Status::Validated, "Validated"), (Status::ValidationSkipped, "ValidationSkipped"), (Status::Synced, "Synced")];

pub fn status(o: &mut Out, s: Status) {
    let (_, name) = STATUSES.iter().find(|(status, _)| *status == s).expect("every status has a name");
    o.extend_from_slice(name.as_bytes());
}

pub fn kind(o: &mut Out, k: &Kind) {
    match *k {
        Kind::Collated { status: s, received_after, handle, weight, processed_to } => {
            put!(o, "kind=collated status=", status s, " received_after=", flag received_after);
            put!(o, " handle=", num handle, " weight=", num weight, " pta=", num processed_to);
        }
        Kind::Received { collated_after, additional } => {
            put!(o, "kind=received collated_after=", flag collated_after, " additional=", opt additional);
        }
    }
}

pub fn entry(o: &mut Out, e: &Entry) {
    put!(o, id &e.id, " ref=", num e.reference, " prev=", ids &e.prev, " top=", tops &e.tops);
    put!(o, " anchor=", opt e.anchor, " pay=", num e.payload, " ", kind &e.kind);
}

fn extracted(o: &mut Out, x: &Extracted) {
    put!(o, "blocks=", num x.blocks.len() as u64, " taken=", num x.taken, "\nmaster ", entry &x.master, "\n");
    for b in &x.blocks {
        put!(o, "block ", entry b, "\n");
    }
}

fn view_row(o: &mut Out, r: &ViewRow) {
    put!(o, id &r.id, " ref=", num r.reference, " pay=", num r.payload, "\n");
}

/// An answer, with its line ends.
pub fn answer(o: &mut Out, a: &Answer) {
    match a {
        Answer::Refused(n) => put!(o, "refused ", num * n, "\n"),
        Answer::Made => put!(o, "made\n"),
        Answer::Stored { received_and_collated, mismatch, last, range: r } => {
            put!(o, "stored received_and_collated=", flag * received_and_collated, " mismatch=", flag * mismatch);
            put!(o, " last=", opt_id last.as_ref(), " range=", range *r, "\n");
        }
        Answer::Synced => put!(o, "synced\n"),
        Answer::NoChange => put!(o, "no change\n"),
        Answer::Changed(s) => put!(o, "status ", status * s, "\n"),
        Answer::Popped { last, extracted: x } => put!(o, "extracted last=", flag *last, " ", extracted x),
        Answer::Extracted(x) => put!(o, "extracted ", extracted x),
        Answer::AlreadyExtracted => put!(o, "already extracted\n"),
        Answer::Found(v) => {
            put!(o, "found missing=", bound v.missing, "\nmaster ", view_row & v.master);
            for t in &v.tops {
                put!(o, "top ", view_row t);
            }
        }
        Answer::Nothing => put!(o, "nothing\n"),
        Answer::Rows(rows) => {
            put!(o, "rows ", num rows.len() as u64, "\n");
            for r in rows {
                put!(o, "row ", shard r.shard, " ", opt_id r.id.as_ref(), " prev=", ids &r.prev, "\n");
            }
        }
        Answer::Done => put!(o, "done\n"),
        Answer::Soundness(s) => o.extend_from_slice(if *s { b"sound\n" } else { b"unsound\n" }),
    }
}

fn group_tail(o: &mut Out, g: &Group) {
    put!(o, "mark=", opt g.mark, " boundary=", bound g.boundary);
}

fn entry_lines(o: &mut Out, g: &Group) {
    for e in &g.entries {
        put!(o, "entry ", entry e, "\n");
    }
}

/// The lines of `dump`.
pub fn dump(o: &mut Out, c: &Cache) {
    put!(o, "zerostate ", num c.zerostate, "\nmasters ", group_tail & c.masters, " range=", range c.range, "\n");
    entry_lines(o, &c.masters);
    for i in &c.ids {
        put!(o, "id ", id i, "\n");
    }
    for (s, g) in &c.shards {
        put!(o, "shard ", shard *s, " ", group_tail g, "\n");
        entry_lines(o, g);
    }
    put!(o, "end\n");
}

/// A request, as the line that makes it.
pub fn request(o: &mut Out, r: &Request) {
    match r {
        Request::New(z) => put!(o, "new ", num * z),
        Request::StoreCollated(c) => {
            put!(o, "store_collated ", id &c.id, " ref=", num c.reference, " prev=", ids &c.prev, " top=", tops &c.tops);
            put!(o, " anchor=", opt c.anchor, " pta=", num c.processed_to, " pay=", num c.payload);
        }
        Request::StoreReceived(r) => {
            put!(o, "store_received ", id & r.id, " mc=", id & r.reference, " prev=", ids & r.prev, " top=", tops & r.tops);
            put!(o, " anchor=", opt r.anchor, " pay=", num r.payload);
        }
        Request::Validation(i, v) => {
            put!(o, "validation ", id i);
            match v {
                Verdict::Complete { handle, weight } => put!(o, " complete ", num * handle, " ", num * weight),
                Verdict::Skipped => put!(o, " skipped"),
            }
        }
        Request::Pop(f) => put!(o, "pop ", num * f),
        Request::Sync(i) => put!(o, "sync ", id i),
        Request::Peek(f) => put!(o, "peek ", num * f),
        Request::TailIds(k) => put!(o, "tail_ids ", key * k),
        Request::Boundary(k) => put!(o, "boundary ", keys k),
        Request::Collect => put!(o, "collect"),
        Request::RemoveNext(k) => put!(o, "remove_next ", keys k),
        Request::Sound => put!(o, "sound"),
    }
    o.push(b'\n');
}

/// Reads one line from its start; an error names what was expected there.
pub struct Reader<'a> {
    rest: &'a [u8],
    wrong: Wrong,
}

pub type Read<T> = Result<T, &'static str>;

impl<'a> Reader<'a> {
    pub fn new(line: &'a [u8], wrong: Wrong) -> Self {
        Reader { rest: line, wrong }
    }
    pub fn is(&self, wrong: Wrong) -> bool {
        self.wrong == wrong
    }
    /// The bytes up to the next space; the space stays.
    pub fn word(&mut self) -> &'a str {
        let n = self.rest.iter().position(|b| *b == b' ').unwrap_or(self.rest.len());
        let (mut word, rest) = self.rest.split_at(n);
        self.rest = rest;
        if self.is(Wrong::NulEndsWord) {
            word = word.split(|b| *b == 0).next().unwrap_or(word);
        }
        std::str::from_utf8(word).unwrap_or("")
    }
    /// Takes the literal if it stands next.
    pub fn has(&mut self, literal: &str) -> bool {
        while self.is(Wrong::SpacesAreOne) && literal.starts_with(' ') && self.rest.starts_with(b"  ") {
            self.rest = &self.rest[1..];
        }
        match self.rest.strip_prefix(literal.as_bytes()) {
            None => false,
            Some(rest) => {
                self.rest = rest;
                true
            }
        }
    }
    pub fn expect(&mut self, literal: &'static str) -> Read<()> {
        if self.has(literal) { Ok(()) } else { Err(literal) }
    }
    pub fn end(&self) -> Read<()> {
        if self.rest.is_empty() || self.is(Wrong::RestIgnored) { Ok(()) } else { Err("end of line") }
    }
    pub fn u64(&mut self) -> Read<u64> {
        let _ = self.is(Wrong::PlusTaken) && self.has("+");
        let n = self.rest.iter().take_while(|b| b.is_ascii_digit()).count();
        let (digits, rest) = self.rest.split_at(n);
        if n == 0 || (n > 1 && digits[0] == b'0' && !self.is(Wrong::SpareZeros)) {
            return Err("number");
        }
        let mut value = 0u64;
        for d in digits {
            let next = value.checked_mul(10).and_then(|v| v.checked_add(u64::from(d - b'0')));
            value = if self.is(Wrong::LargestOf64) { next.unwrap_or(u64::MAX) } else { next.ok_or("number below 2^64")? };
        }
        self.rest = rest;
        Ok(value)
    }
    pub fn u32(&mut self) -> Read<u32> {
        let value = self.u64()?;
        if self.is(Wrong::LowBitsOf32) {
            return Ok(value as u32);
        }
        u32::try_from(value).map_err(|_| "number below 2^32")
    }
    pub fn flag(&mut self) -> Read<bool> {
        match self.u64()? {
            0 => Ok(false),
            1 => Ok(true),
            _ if self.is(Wrong::AnyFlag) => Ok(true),
            _ => Err("0 or 1"),
        }
    }
    fn signed(&mut self) -> Read<i32> {
        let negative = self.has("-");
        let n = i64::try_from(self.u64()?).map_err(|_| "workchain")?;
        if negative && n == 0 && !self.is(Wrong::MinusZero) {
            return Err("workchain");
        }
        if self.is(Wrong::WorkchainOfUnsigned) && !negative {
            return u32::try_from(n).map(|n| n as i32).map_err(|_| "workchain");
        }
        i32::try_from(if negative { -n } else { n }).map_err(|_| "workchain")
    }
    fn hex<const N: usize>(&mut self) -> Read<[u8; N]> {
        let wrong = self.wrong;
        let digit = |b: u8| match b {
            b'0'..=b'9' => Ok(b - b'0'),
            b'a'..=b'f' => Ok(b - b'a' + 10),
            b'A'..=b'F' if wrong == Wrong::UpperHex => Ok(b - b'A' + 10),
            _ => Err("hexadecimal digit"),
        };
        if self.rest.len() < 2 * N {
            return Err("hexadecimal digits");
        }
        let (text, rest) = self.rest.split_at(2 * N);
        let mut bytes = [0u8; N];
        for (byte, pair) in bytes.iter_mut().zip(text.chunks_exact(2)) {
            *byte = digit(pair[0])? << 4 | digit(pair[1])?;
        }
        self.rest = rest;
        Ok(bytes)
    }
    pub fn shard(&mut self) -> Read<Shard> {
        let workchain = self.signed()?;
        self.expect(":")?;
        Ok(Shard { workchain, prefix: u64::from_be_bytes(self.hex()?) })
    }
    pub fn key(&mut self) -> Read<Key> {
        let shard = self.shard()?;
        self.expect(":")?;
        Ok(Key { shard, seqno: self.u32()? })
    }
    pub fn id(&mut self) -> Read<Id> {
        let key = self.key()?;
        self.expect(":")?;
        let root = self.hex()?;
        self.expect(":")?;
        Ok(Id { key, root, file: self.hex()? })
    }
    /// `-` stands for absent; a negative workchain begins with it too.
    fn absent(&mut self) -> bool {
        let lone = self.rest.first() == Some(&b'-') && matches!(self.rest.get(1), None | Some(b' '));
        if lone {
            self.rest = &self.rest[1..];
        }
        lone || self.is(Wrong::EmptyIsAbsent) && matches!(self.rest.first(), None | Some(b' '))
    }
    pub fn opt(&mut self) -> Read<Option<u32>> {
        if self.absent() { Ok(None) } else { self.u32().map(Some) }
    }
    pub fn bound(&mut self) -> Read<Option<Key>> {
        if self.absent() { Ok(None) } else { self.key().map(Some) }
    }
    pub fn range(&mut self) -> Read<Option<(u32, u32)>> {
        if self.absent() {
            return Ok(None);
        }
        let start = self.u32()?;
        self.expect("..")?;
        Ok(Some((start, self.u32()?)))
    }
    fn list<T>(&mut self, one: impl Fn(&mut Self) -> Read<T>) -> Read<Vec<T>> {
        let mut items = vec![];
        if self.absent() {
            return Ok(items);
        }
        items.push(one(self)?);
        while self.has(",") {
            if self.is(Wrong::LastComma) && matches!(self.rest.first(), None | Some(b' ')) {
                break;
            }
            items.push(one(self)?);
        }
        Ok(items)
    }
    pub fn ids(&mut self) -> Read<Vec<Id>> {
        self.list(Self::id)
    }
    pub fn keys(&mut self) -> Read<Vec<Key>> {
        self.list(Self::key)
    }
    fn top(&mut self) -> Read<Top> {
        let reference = self.u32()?;
        self.expect("/")?;
        let id = self.id()?;
        self.expect("/")?;
        Ok(Top { reference, id, updated: self.flag()? })
    }
    pub fn tops(&mut self) -> Read<Vec<Top>> {
        self.list(Self::top)
    }
    fn status(&mut self) -> Read<Status> {
        STATUSES.iter().find(|(_, name)| self.has(name)).map(|(status, _)| *status).ok_or("status")
    }
    pub fn kind(&mut self) -> Read<Kind> {
        if self.has("kind=collated status=") {
            let status = self.status()?;
            self.expect(" received_after=")?;
            let received_after = self.flag()?;
            self.expect(" handle=")?;
            let handle = self.u64()?;
            self.expect(" weight=")?;
            let weight = self.u64()?;
            self.expect(" pta=")?;
            return Ok(Kind::Collated { status, received_after, handle, weight, processed_to: self.u32()? });
        }
        self.expect("kind=received collated_after=")?;
        let collated_after = self.flag()?;
        self.expect(" additional=")?;
        Ok(Kind::Received { collated_after, additional: self.opt()? })
    }
}
