//! The classes of random sections, and the turns that they take.

/// The classes of random sections.
#[derive(Clone, Copy, Debug, PartialEq)]
pub enum Class {
    /// Four or five slots and mostly one call a trial: generation upon generation.
    Quick,
    /// Few slots and dimensions.
    Small,
    /// Up to 16 dimensions, any size.
    Wide,
    /// 160 slots.
    Big,
    /// A slot's trial is held back until 64 extras are given.
    Extras,
    /// No continuous dimension.
    Discrete,
    /// A history of thousands of entries.
    Long,
    /// Left off early: in discovery, or in the first generation.
    Short,
    /// CR is a unit that the first closing draws.
    Rate,
    /// Dimensions on which one way of rounding parts from another.
    Rounding,
    /// Midpoint, and mutants with entries on the bounds and beyond them.
    Beyond,
    /// Bounds as large as they may be, F = 2, and kept files with entries past them: mutants are as large as they may be.
    Extreme,
    /// Ladders, alone or beside other kinds.
    Ladders,
    /// Refused calls between the others.
    Refusals,
}

impl Class {
    pub fn name(self) -> &'static str {
        match self {
            Class::Quick => "generation upon generation",
            Class::Small => "few slots and dimensions",
            Class::Wide => "up to 16 dimensions",
            Class::Big => "160 slots",
            Class::Extras => "64 extras",
            Class::Discrete => "choices alone",
            Class::Long => "long history",
            Class::Short => "left off early",
            Class::Rate => "CR met by a unit",
            Class::Rounding => "rounding at its edges",
            Class::Beyond => "midpoint, entries on the bounds and beyond them",
            Class::Extreme => "mutants as large as they may be",
            Class::Ladders => "ladders, alone or beside other kinds",
            Class::Refusals => "refused calls between the others",
        }
    }
}

/// The classes in turn. Those whose generations close soonest come most often.
pub const TURNS: [Class; 37] = [
    Class::Quick,
    Class::Wide,
    Class::Ladders,
    Class::Quick,
    Class::Beyond,
    Class::Small,
    Class::Quick,
    Class::Extreme,
    Class::Extras,
    Class::Quick,
    Class::Refusals,
    Class::Quick,
    Class::Rate,
    Class::Ladders,
    Class::Quick,
    Class::Rounding,
    Class::Discrete,
    Class::Quick,
    Class::Small,
    Class::Quick,
    Class::Rounding,
    Class::Beyond,
    Class::Ladders,
    Class::Long,
    Class::Extreme,
    Class::Quick,
    Class::Short,
    Class::Quick,
    Class::Ladders,
    Class::Rate,
    Class::Small,
    Class::Refusals,
    Class::Rate,
    Class::Extreme,
    Class::Extras,
    Class::Big,
    Class::Short,
];
