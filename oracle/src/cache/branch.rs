//! The ways that a call can go by document 01's rules, for counting how often each was taken.

macro_rules! branches {
    ($($name:ident $text:literal)*) => {
        #[derive(Debug, Clone, Copy, PartialEq, Eq, PartialOrd, Ord)]
        pub enum Branch {
            $($name,)*
        }

        impl Branch {
            pub const ALL: &[Self] = &[$(Self::$name,)*];

            pub fn text(self) -> &'static str {
                match self {
                    $(Self::$name => $text,)*
                }
            }
        }
    };
}

branches! {
    OfferTooLong "offer: longer than the entry size (6)"
    OfferEvictsForBytes "offer: evicts for bytes"
    OfferEvictsItself "offer: evicts its own template for bytes"
    OfferEvictsAll "offer: evicts all there is for bytes"
    OfferStillOver "offer: still over the total (21)"
    OfferPrunes "offer: drops expired bodies of the id, and others stay"
    OfferEmpties "offer: drops all bodies of the id, all being expired"
    OfferFull "offer: template full (20)"
    OfferFullAfterDrops "offer: template full (20) after evictions or pruning"
    OfferAppendsToNewest "offer: appends to the newest template"
    OfferPromotes "offer: appends to another template and promotes it"
    OfferAdds "offer: adds a template, there being room"
    OfferPrunesAll "offer: at the template limit, drops expired bodies everywhere"
    OfferEmptiesOthers "offer: at the template limit, empties templates and evicts none"
    OfferPrunesAndEvicts "offer: at the template limit, drops expired bodies and evicts yet"
    OfferEvictsForRoom "offer: at the template limit, evicts the least recent"
    OfferOfNothing "offer: accepts a body of no bytes"
    OfferFillsTotal "offer: accepted, and the total is at its maximum"
    OfferAfterYes "offer: accepted after a yes to the same"
    OfferAfterNo "offer: accepted after a no to the same"
    OfferKeepsChance "offer: refused with 6, and the chance stays"
    OfferEndsChance "offer: ends a chance"
    DrainUnknown "drain: id not held"
    DrainAll "drain: hands out all"
    DrainSome "drain: drops expired bodies and hands out the rest"
    DrainNone "drain: drops all, all being expired"
    DrainEndsChance "drain: ends a chance"
    PutBackNothing "put back: of 0"
    PutBackNothingInChance "put back: of 0, and the chance stays"
    PutBackAll "put back: all handed out"
    PutBackPart "put back: a part of those handed out"
    PutBackLater "put back: after calls that leave the chance"
    PutBackNoChance "put back: no chance (25)"
    PutBackEnded "put back: as handed out, and the chance has ended (25)"
    PutBackOther "put back: chance of another id (25)"
    PutBackTooMany "put back: more than handed out (25)"
    ResizeRefused "resize: refused (1 to 5)"
    ResizeKeepsChance "resize: refused, and the chance stays"
    ResizeEndsChance "resize: ends a chance"
    ResizeDropsNothing "resize: drops nothing"
    ResizeEvicts "resize: evicts down to the template limit"
    ResizeDropsLong "resize: drops bodies over the entry size"
    ResizeDropsOldest "resize: drops the oldest beyond the cap"
    ResizeEmpties "resize: empties a template"
    ResizeEvictsForBytes "resize: evicts for bytes"
    ClearNothing "clear: nothing held"
    ClearBodies "clear: bodies held"
    ClearEndsChance "clear: ends a chance"
    YesUnknown "would_accept: yes, id not held"
    YesHeld "would_accept: yes, below the cap"
    YesExpired "would_accept: yes, below the cap as bodies are expired"
    NoLength "would_accept: no, too long"
    NoCap "would_accept: no, at the cap"
    ReadBody "read handed-out: a body"
    ReadNone "read handed-out: no such body (27)"
    OpenRefused "open: refused (1 to 5)"
    Opened "open: accepted"
    ClockBefore "a clock reading before that of a body whose age counts"
    AgeIsTtl "an age equal to the TTL"
}
