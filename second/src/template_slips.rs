//! Wrong programs for script templates, each with one slip, to see that the comparison finds them.

use crate::message::{read_length, LONG};
use crate::refusal::Refusal;
use crate::templates::{written, Object, Reading, Rules, RULES};

#[derive(Clone, Copy, PartialEq, Eq)]
pub enum Slip {
    /// Five levels are read and written.
    FiveLevels,
    /// 33 objects are read and written.
    ManyObjects,
    /// An identifier may stand second in its template.
    SecondIdentifier,
    /// An identifier of five bytes is good, and one of four is not.
    FiveBytes,
    /// Any length is read after 81.
    LowAfter81,
    /// An object may end past its holder, where the input goes on.
    PastHolder,
    /// A template of 256 bytes is written.
    Template256,
    /// The level is looked at ahead of the object.
    LevelFirst,
    /// The count is looked at ahead of the level.
    CountBeforeLevel,
    /// The fault is told of the holder of the object at fault.
    HolderAtFault,
    /// The writer writes what fits before it refuses with 3.
    WritesBefore3,
    /// The writer looks at the first 32 objects alone, and where there are more refuses with 18.
    FirstAlone,
    /// An object without data may have any place.
    EmptyAnywhere,
}

pub const SLIPS: [(&str, Slip); 13] = [
    ("five-levels", Slip::FiveLevels),
    ("33-objects", Slip::ManyObjects),
    ("second-identifier", Slip::SecondIdentifier),
    ("five-bytes", Slip::FiveBytes),
    ("low-after-81", Slip::LowAfter81),
    ("past-holder", Slip::PastHolder),
    ("template-256", Slip::Template256),
    ("level-first", Slip::LevelFirst),
    ("count-before-level", Slip::CountBeforeLevel),
    ("holder-at-fault", Slip::HolderAtFault),
    ("writes-before-3", Slip::WritesBefore3),
    ("first-alone", Slip::FirstAlone),
    ("empty-anywhere", Slip::EmptyAnywhere),
];

fn low_after_81(bytes: &[u8]) -> Option<(usize, usize)> {
    match *bytes {
        [LONG, length, ..] => Some((length.into(), 2)),
        _ => read_length(bytes),
    }
}

impl Slip {
    pub fn rules(self) -> Rules {
        let [bad, deep, many] = RULES.order;
        match self {
            Slip::FiveLevels => Rules { levels: 5, ..RULES },
            Slip::ManyObjects => Rules { objects: 33, ..RULES },
            Slip::SecondIdentifier => Rules { ahead: 1, ..RULES },
            Slip::FiveBytes => Rules { identifier: 5, ..RULES },
            Slip::LowAfter81 => Rules { read_length: low_after_81, ..RULES },
            Slip::PastHolder => Rules { ends_in_holder: false, ..RULES },
            Slip::Template256 => Rules { largest: 256, ..RULES },
            Slip::LevelFirst => Rules { order: [deep, bad, many], ..RULES },
            Slip::CountBeforeLevel => Rules { order: [bad, many, deep], ..RULES },
            Slip::HolderAtFault | Slip::WritesBefore3 | Slip::FirstAlone | Slip::EmptyAnywhere => RULES,
        }
    }

    /// The place of a fault as this slip tells it.
    pub fn misplace(self, reading: &mut Reading) {
        if let (Slip::HolderAtFault, Some((_, place))) = (self, reading.fault.as_mut()) {
            let holds = |from: usize, length: usize| from <= *place && *place < from + length;
            let holder = reading.objects.iter().rev().find(|object| !object.is_data() && holds(object.place as usize, object.length.into()));
            if let Some(holder) = holder {
                *place = holder.place as usize - if holder.length < 128 { 2 } else { 3 };
            }
        }
    }

    /// The bytes of objects as this slip has them.
    pub fn written(self, objects: &[Object], source: &[u8]) -> Result<Vec<u8>, Refusal> {
        match self {
            Slip::FirstAlone if objects.len() > RULES.objects => written(&objects[..RULES.objects], source, &RULES).and(Err(Refusal::TooMany)),
            Slip::EmptyAnywhere => {
                let moved = |object: &Object| if object.length == 0 { Object { place: 0, ..*object } } else { *object };
                written(&objects.iter().map(moved).collect::<Vec<Object>>(), source, &RULES)
            }
            _ => written(objects, source, &self.rules()),
        }
    }

    /// What this slip leaves in a buffer that is too small.
    pub fn spill(self, bytes: &[u8], buffer: &mut [u8], place: u64) {
        let from = usize::try_from(place).ok().and_then(|place| buffer.get_mut(place..));
        if let (Slip::WritesBefore3, Some(room)) = (self, from) {
            room.iter_mut().zip(bytes).for_each(|(place, &byte)| *place = byte);
        }
    }
}

#[cfg(test)]
mod tests {
    use super::*;
    use crate::slips::named;

    #[test]
    fn each_slip_answers_otherwise() {
        let cases = [
            ("five-levels", "read e108e106e10471028600 140 4"),
            ("33-objects", "read 28x71007100710071007100 140 4"),
            ("second-identifier", "read 710986009f180401020304 140 4"),
            ("five-bytes", "read 71089f18050102030405 140 4"),
            ("low-after-81", "read 718100 140 4"),
            ("past-holder", "read 710286017200 140 4"),
            ("template-256", "write 0071000100000000000000860002007d0000000000860002007f00000000 SOURCE 200 0 4"),
            ("level-first", "read e108e106e10471028601 140 4"),
            ("count-before-level", "read 28xe108e106e10471028600 140 4"),
            ("holder-at-fault", "read 71028601 140 4"),
            ("writes-before-3", "write 00710001000000000000 - 1 0 4"),
            ("first-alone", "write OUTER129x - 0 0 4"),
            ("empty-anywhere", "write 0071000100000000000000860002000000000001 - 4 0 4"),
        ];
        assert_eq!(cases.len(), SLIPS.len());
        for (name, line) in cases {
            let line = line.replace("28x", &"7100".repeat(28)).replace("SOURCE", &"5a".repeat(255));
            let line = line.replace("OUTER129x", &("00e10001000000000000".to_string() + &"00710002000000000000".repeat(129)));
            let case = crate::template_cases::Case::of_line(&line).expect("a case");
            assert_ne!(case.answer(None), case.answer(named(&SLIPS, name)), "{name}");
        }
        assert!(named(&SLIPS, "none").is_none());
    }
}
