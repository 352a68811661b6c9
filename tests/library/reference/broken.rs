//! Ways to make the reference wrong on purpose, to see that the trials notice: the paper's "Ways to be
//! wrong that pass a short trial", two more, and ways to mistake the exceptions list and its memory, names of
//! several words, contested letters, letter classes, the edit count, the limit of contexts and sheets.

use std::sync::OnceLock;

#[derive(Clone, Copy, PartialEq)]
pub enum Break {
    /// The loop of document 004: reading stops before the last letter.
    Early,
    /// The longest fitting rule is taken, not the first.
    Longest,
    /// Sets hold only patterns that are the whole string of their state.
    Inside,
    /// Reading moves on by target and right context.
    Onward,
    /// `last` is given back after a drop.
    GiveBack,
    /// The last fitting rule is taken.
    Later,
    /// The sum of a frame is one too many.
    Checksum,
    /// A listed name is read by the rules.
    Unlisted,
    /// A listed name counts the steps that the tables would take.
    ListedSteps,
    /// A listed name keeps its first phones.
    KeepPhones,
    /// No two states of a list are one.
    Unshared,
    /// A list may have one name and one state more.
    OneMore,
    /// The read-out has short names first.
    ShortFirst,
    /// 3F may stand in rules.
    SpaceInRules,
    /// No boundary stands before a word that follows a space.
    NoStart,
    /// No boundary stands after a word that a space follows.
    NoEnd,
    /// The place of refusal 3 is counted within its word.
    WordPlace,
    /// Refusals 4 and 5 are judged after each word, by what was said so far.
    WordRoom,
    /// A listed word is the last that is said.
    ListedEnds,
    /// The list is tried for words alone, not for a name of several.
    WordsAlone,
    /// The list is tried for the whole name alone.
    NameAlone,
    /// Tables are judged although every word is listed.
    TablesAlways,
    /// A word of no letters takes no steps.
    EmptyFree,
    /// A word is read before the passes of the next.
    LatePasses,
    /// Letters with exactly one rule count as contested.
    ExactlyOne,
    /// The walk counts the places in the word of the chosen one.
    OneWord,
    /// The walk counts the rules that fit, not the places that the sets share.
    FittingShared,
    /// The walk counts no places past the list.
    WithinList,
    /// The letters of what is listed count as contested.
    ListedContested,
    /// The contested letters of the last word alone are counted.
    LastWord,
    /// The rightmost symbol of a literal rule varies slowest.
    RightSlowest,
    /// The letters of a class descend in the literal rules.
    Descending,
    /// A class may stand in a target.
    ClassInTarget,
    /// A class may be set while a rule uses it.
    SetInUse,
    /// A rule may use a class that is undefined.
    Undefined,
    /// The limit of 512 counts numbered rules.
    NumberedLimit,
    /// The literal place is used as the place of the list.
    ListPlace,
    /// The classes of a file may stand in any order.
    AnyOrder,
    /// The masks of a ruleset handed in may have bits of no letter.
    AnyMask,
    /// The literal total and table of a ruleset handed in are not judged.
    AnyTable,
    /// The low word of the edit count stands first.
    LowFirst,
    /// Only the low word of the edit count is compared.
    LowWord,
    /// Tables with a higher edit count than the ruleset's are good.
    OlderOnly,
    /// The edit count is compared before the lengths of the tables are judged.
    StaleFirst,
    /// The edit count is compared after the passes.
    StaleLast,
    /// The edit count is compared although every word is listed.
    StaleAlways,
    /// Refusal 22 has the steps of the passes.
    StaleSteps,
    /// A refused edit counts.
    RefusedCounts,
    /// Setting a class counts.
    ClassCounts,
    /// A drop does not count.
    DropUncounted,
    /// A move that leaves the rule where it is does not count.
    IdleMove,
    /// The rules of a file count as additions.
    FileCounts,
    /// Refusal 23 comes before an edit's other refusals.
    SpentFirst,
    /// After the highest edit count comes 0.
    ComesRound,
    /// A left context of one symbol too many may be added.
    LongLeftAdded,
    /// A right one.
    LongRightAdded,
    /// A left context of one symbol too many may stand in a file.
    LongLeftRead,
    /// A right one.
    LongRightRead,
    /// A left context of one symbol too many may stand in a ruleset handed in.
    LongLeftHeld,
    /// A right one.
    LongRightHeld,
    /// In a file, # does not count among the symbols of a context.
    BoundaryUncounted,
    /// A context has one symbol less than it may have.
    ShortContexts,
    /// The words of a sheet share the left pass with the word before alone.
    SharedBefore,
    /// They share # alone.
    Unshareable,
    /// They do not share #.
    BoundaryUnshared,
    /// Equal words of a sheet share the right pass.
    EqualOnce,
    /// The listed words of a sheet count too.
    ListedPassed,
    /// The words of a sheet's refused names do not count.
    RefusedUnpassed,
    /// The replies of a sheet have their steps.
    SheetSteps,
    /// A name of a sheet that is refused with 4 takes all that is left.
    RefusedTakes,
    /// 16 of a sheet's later names is answered singly.
    LaterSingly,
    /// 22 of a sheet's names is answered singly.
    StaleSingly,
    /// The tables are judged for every sheet.
    SheetJudged,
    /// A sheet may have one name more.
    MoreNames,
    /// A sheet ends at a name that is cut short.
    CutLeft,
    /// 24 comes after 0 and 17.
    SheetLate,
    /// The memory to work in is judged before the ruleset and the list.
    WorkFirst,
    /// The memory to work in may hold anything.
    AnyBlank,
    /// All that is lent to work in must be zero.
    AllBlank,
    /// A sheet longer than any of sound names needs more to work in.
    LongSheet,
    /// A sheet with room for fewer replies is not refused.
    RepliesCut,
    /// Memory in which a free word is not 0 is no list.
    FreeWords,
    /// Memory that has all cells is a list, however short.
    ShortList,
    /// A successor that is not before its state does not matter.
    LaterSuccessor,
    /// Two states of a list may be alike.
    AlikeStates,
    /// A state may lead to no name.
    DeadState,
    /// A state need not be reached.
    UnreachedState,
    /// A name of no letters may be listed.
    EmptyListed,
    /// A listed name may have 65 letters.
    LongListed,
    /// The letter 00 may be listed.
    LetterZero,
    /// A listed name may have 65 phones or more.
    LongPhones,
    /// Listed phones may have 00 inside.
    ZeroPhone,
}

pub const BREAKS: [(&str, Break); 92] = [
    ("early", Break::Early),
    ("longest", Break::Longest),
    ("inside", Break::Inside),
    ("onward", Break::Onward),
    ("give-back", Break::GiveBack),
    ("later", Break::Later),
    ("checksum", Break::Checksum),
    ("unlisted", Break::Unlisted),
    ("listed-steps", Break::ListedSteps),
    ("keep-phones", Break::KeepPhones),
    ("unshared", Break::Unshared),
    ("one-more", Break::OneMore),
    ("short-first", Break::ShortFirst),
    ("space-in-rules", Break::SpaceInRules),
    ("no-start", Break::NoStart),
    ("no-end", Break::NoEnd),
    ("word-place", Break::WordPlace),
    ("word-room", Break::WordRoom),
    ("listed-ends", Break::ListedEnds),
    ("words-alone", Break::WordsAlone),
    ("name-alone", Break::NameAlone),
    ("tables-always", Break::TablesAlways),
    ("empty-free", Break::EmptyFree),
    ("late-passes", Break::LatePasses),
    ("exactly-one", Break::ExactlyOne),
    ("one-word", Break::OneWord),
    ("fitting-shared", Break::FittingShared),
    ("within-list", Break::WithinList),
    ("listed-contested", Break::ListedContested),
    ("last-word", Break::LastWord),
    ("right-slowest", Break::RightSlowest),
    ("descending", Break::Descending),
    ("class-in-target", Break::ClassInTarget),
    ("set-in-use", Break::SetInUse),
    ("undefined", Break::Undefined),
    ("numbered-limit", Break::NumberedLimit),
    ("list-place", Break::ListPlace),
    ("any-order", Break::AnyOrder),
    ("any-mask", Break::AnyMask),
    ("any-table", Break::AnyTable),
    ("low-first", Break::LowFirst),
    ("low-word", Break::LowWord),
    ("older-only", Break::OlderOnly),
    ("stale-first", Break::StaleFirst),
    ("stale-last", Break::StaleLast),
    ("stale-always", Break::StaleAlways),
    ("stale-steps", Break::StaleSteps),
    ("refused-counts", Break::RefusedCounts),
    ("class-counts", Break::ClassCounts),
    ("drop-uncounted", Break::DropUncounted),
    ("idle-move", Break::IdleMove),
    ("file-counts", Break::FileCounts),
    ("spent-first", Break::SpentFirst),
    ("comes-round", Break::ComesRound),
    ("long-left-added", Break::LongLeftAdded),
    ("long-right-added", Break::LongRightAdded),
    ("long-left-read", Break::LongLeftRead),
    ("long-right-read", Break::LongRightRead),
    ("long-left-held", Break::LongLeftHeld),
    ("long-right-held", Break::LongRightHeld),
    ("boundary-uncounted", Break::BoundaryUncounted),
    ("short-contexts", Break::ShortContexts),
    ("shared-before", Break::SharedBefore),
    ("unshareable", Break::Unshareable),
    ("boundary-unshared", Break::BoundaryUnshared),
    ("equal-once", Break::EqualOnce),
    ("listed-passed", Break::ListedPassed),
    ("refused-unpassed", Break::RefusedUnpassed),
    ("sheet-steps", Break::SheetSteps),
    ("refused-takes", Break::RefusedTakes),
    ("later-singly", Break::LaterSingly),
    ("stale-singly", Break::StaleSingly),
    ("sheet-judged", Break::SheetJudged),
    ("more-names", Break::MoreNames),
    ("cut-left", Break::CutLeft),
    ("sheet-late", Break::SheetLate),
    ("work-first", Break::WorkFirst),
    ("any-blank", Break::AnyBlank),
    ("all-blank", Break::AllBlank),
    ("long-sheet", Break::LongSheet),
    ("replies-cut", Break::RepliesCut),
    ("free-words", Break::FreeWords),
    ("short-list", Break::ShortList),
    ("later-successor", Break::LaterSuccessor),
    ("alike-states", Break::AlikeStates),
    ("dead-state", Break::DeadState),
    ("unreached-state", Break::UnreachedState),
    ("empty-listed", Break::EmptyListed),
    ("long-listed", Break::LongListed),
    ("letter-zero", Break::LetterZero),
    ("long-phones", Break::LongPhones),
    ("zero-phone", Break::ZeroPhone),
];

static CHOSEN: OnceLock<Break> = OnceLock::new();

pub fn choose(name: &str) -> bool {
    let found = BREAKS.iter().find(|(known, _)| *known == name);
    found.is_some_and(|(_, way)| CHOSEN.set(*way).is_ok())
}

/// Whether the reference is as it should be.
pub fn whole() -> bool {
    CHOSEN.get().is_none()
}

/// Whether the list's limits are tried: that takes long, and of all breaks only one shows there alone.
pub fn at_bounds() -> bool {
    matches!(CHOSEN.get(), None | Some(Break::OneMore))
}

pub fn broken(way: Break) -> bool {
    CHOSEN.get() == Some(&way)
}
