//! The manual's answers as values.

/// An answer of docs/HEADSCRIPT.md.
///
/// It is read from a line by [`str::parse`], and its text is exactly that line, without its line
/// feed.
#[derive(Clone, Copy, Debug, PartialEq, Eq, Hash)]
pub enum Answer {
    /// `(ticket SEQ)`, of `deliver`: the number of the delivery.
    Ticket(u64),
    /// `(claimed EPOCH)`, of `claim`: the number of the claim.
    Claimed(u64),
    /// `(done)`, of `release`; of `(sheet)` too, since the sheet stands in its buffer.
    Done,
    /// `(settled OUTCOME)`, of `apply`.
    Settled(Outcome),
    /// `(view ..)`, of `snapshot`, `wait` and `resume`.
    View(View),
    /// `(parked)`, of `wait` and `resume`: the block is being prepared.
    Parked,
    /// `(completion END)`, of `completion`.
    Completion(End),
    /// `(link LINK)`, of `link`.
    Link(Link),
    /// `(report R)`, of `report`: that of the current head's own apply, if there is one.
    Report(Option<Report>),
    /// `(stats ..)`, of `stats`.
    Stats(Stats),
    /// `(heads ..)`, of `heads`.
    Heads(Heads),
    /// `(refused N ..)`, of any line.
    Refused(Refusal),
}

/// What an apply came to.
#[derive(Clone, Copy, Debug, PartialEq, Eq, Hash)]
pub enum Outcome {
    /// `(carried C)`: the block is ready, and so many values were carried over.
    Carried(u64),
    /// The block settled cold.
    Cold(Cold),
}

/// `(cold LINK SKIP)`: why a block settled cold.
#[derive(Clone, Copy, Debug, PartialEq, Eq, Hash)]
pub struct Cold {
    /// What was wrong with the link. [`Link::Linked`] is no fault, and stands here as `none`.
    pub link: Link,
    /// Why there was no list.
    pub skip: Skip,
}

/// What the link test found.
#[derive(Clone, Copy, Debug, PartialEq, Eq, Hash)]
pub enum Link {
    /// The block follows its parent.
    Linked,
    /// There is no parent.
    NoParent,
    /// The parent's number is not exactly one lower.
    NotConsecutive,
    /// The parent has no hash.
    HashUnknown,
    /// The parent's hash is another.
    HashMismatch,
}

/// Why there is no list, if there is none.
#[derive(Clone, Copy, Debug, PartialEq, Eq, Hash)]
pub enum Skip {
    /// There is one.
    None,
    /// The block has no hash, so it could not be asked for.
    NoHash,
    /// `(rpc N)`: the request failed; N is the host's number for the error text.
    Rpc(u64),
    /// `(decode N)`: what came could not be read; N is the host's number for the error text.
    Decode(u64),
}

/// `(view SOURCE HANDLE READINESS)`, with the settle number after the handle where the source has
/// one: what is there for a block.
#[derive(Clone, Copy, Debug, PartialEq, Eq, Hash)]
pub struct View {
    /// Where the handle comes from.
    pub source: Source,
    /// The host's number for the values.
    pub handle: u64,
    /// Whether the values are loaded.
    pub readiness: Readiness,
}

/// Where a view's handle comes from.
#[derive(Clone, Copy, Debug, PartialEq, Eq, Hash)]
pub enum Source {
    /// The block that settled last.
    Installed {
        /// The number of the delivery under which it settled.
        settle: u64,
    },
    /// The head, which is not settled yet.
    Provisional,
    /// The block that was installed before.
    Previous {
        /// The number of the delivery under which it settled.
        settle: u64,
    },
    /// The call's own handle came back.
    Spare,
}

/// Whether a block's values are loaded. Only [`Readiness::Ready`] means that they are.
#[derive(Clone, Copy, Debug, PartialEq, Eq, Hash)]
pub enum Readiness {
    /// They are loaded.
    Ready,
    /// The newest head, not settled yet.
    Unprepared,
    /// The head that the newest one replaced.
    Superseded,
    /// A block that was never delivered or is not kept any more.
    Undelivered,
    /// Only from `wait` and `resume`: nobody prepares the newest head now, or the preparation that
    /// was waited for was given up.
    Abandoned,
    /// The block settled cold.
    Cold(Cold),
}

/// How the attempt at the current head ended.
#[derive(Clone, Copy, Debug, PartialEq, Eq, Hash)]
pub enum End {
    /// It has not ended, or the block is not the current head.
    None,
    /// The head is settled.
    Settled,
    /// The claim was given up.
    Abandoned,
}

/// `(OUTCOME REPORT)`: what an apply came to, with the host's number for its report.
#[derive(Clone, Copy, Debug, PartialEq, Eq, Hash)]
pub struct Report {
    /// What the apply came to.
    pub outcome: Outcome,
    /// The host's number.
    pub number: u64,
}

/// The eight counters. A counter stays at 2^64 - 1.
#[derive(Clone, Copy, Debug, Default, PartialEq, Eq, Hash)]
pub struct Stats {
    /// Deliveries with a new ticket.
    pub delivered: u64,
    /// Deliveries of the current head again.
    pub repeated: u64,
    /// Heads replaced before they settled.
    pub superseded: u64,
    /// Applies that were accepted, ready or cold.
    pub settled: u64,
    /// Deliveries of the installed block with a new ticket.
    pub already_current: u64,
    /// Applies refused 11 or 12.
    pub discarded: u64,
    /// Views of a ready block.
    pub ready_views: u64,
    /// All other views.
    pub cold_views: u64,
}

/// The blocks that a driver holds.
#[derive(Clone, Copy, Debug, Default, PartialEq, Eq, Hash)]
pub struct Heads {
    /// The block delivered last.
    pub current: Option<Anchor>,
    /// The block that settled last.
    pub installed: Option<Anchor>,
    /// The one installed before it, where its values were carried over.
    pub previous: Option<Anchor>,
}

/// Why a line was refused. Nothing changed then, but for the counter
/// [`discarded`](Stats::discarded) with an apply refused 11 or 12.
///
/// Numbers 4 and 5 are none of these: they are returned by the library and come with no answer.
#[derive(Clone, Copy, Debug, PartialEq, Eq, Hash)]
pub enum Refusal {
    /// 1: the line is no call.
    NoCall,
    /// 2: the list's anchor has no hash and the skip is not `no-hash`, or the other way round.
    ListAtOdds,
    /// 3: the waiter number is above 15.
    NoSuchWaiter,
    /// 11: block or SEQ is not the current head's.
    Superseded {
        /// The current head, or the block that was named where there is none.
        head: Anchor,
    },
    /// 12: the list is for another block.
    Foreign {
        /// The list's anchor.
        list: Anchor,
        /// The head's.
        head: Anchor,
    },
    /// 13: the head is settled already.
    AlreadySettled,
    /// 14: somebody prepares this head already.
    InFlight,
    /// 15: the waiter number is in use.
    WaiterNotFree,
    /// 16: nobody waits under this number.
    WaiterFree,
}

impl Refusal {
    /// The manual's number.
    #[must_use]
    pub const fn number(&self) -> u64 {
        match self {
            Self::NoCall => 1,
            Self::ListAtOdds => 2,
            Self::NoSuchWaiter => 3,
            Self::Superseded { .. } => 11,
            Self::Foreign { .. } => 12,
            Self::AlreadySettled => 13,
            Self::InFlight => 14,
            Self::WaiterNotFree => 15,
            Self::WaiterFree => 16,
        }
    }
}

/// A block: its number, and its hash where it is known.
///
/// Two anchors are the same only if both are: block 7 without a hash and block 7 with one are two
/// blocks. Its text is `(NUMBER HASH)` or `(NUMBER none)`, as calls and answers have it, and
/// [`str::parse`] reads exactly that.
#[derive(Clone, Copy, Debug, PartialEq, Eq, Hash)]
pub struct Anchor {
    /// The block number.
    pub number: u64,
    /// The block's hash.
    pub hash: Option<Hash>,
}

/// A block hash, the first byte first. Its text is `0x` and 64 lowercase digits, and [`str::parse`]
/// reads exactly that: make a node's digits lowercase first.
#[derive(Clone, Copy, Default, PartialEq, Eq, Hash)]
pub struct Hash(pub [u8; 32]);
