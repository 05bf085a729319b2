//! The 73 bytes of a drawing, put together device by device and cable by cable.
use crate::{Refusal, CRANE_AT, DRAWING_BYTES};

const MOST_DEVICES: usize = 10;
const MOST_CABLES: usize = 20;
const KINDS_AT: usize = 2;
const CABLES_AT: usize = 12;
const CABLE_BYTES: usize = 3;

/// A drawing under work. What its 73 bytes cannot hold, and what no accepted drawing has, is refused at once, by the same
/// reasons as the calls give; whether cables lead from each device to every other is for the calls to say. One device alone is a
/// drawing. It is a sheet of crane 0 until another is given.
///
/// ```
/// use holvreiz::{Drawing, Refusal};
///
/// let mut drawing = Drawing::new();
/// let contactor = drawing.device(1)?;
/// let drive = drawing.device(3)?;
/// drawing.cable(contactor, drive, 1)?;
/// assert_eq!(drawing.cable(drive, contactor, 2), Err(Refusal::CablePair));
/// drawing.crane(17);
///
/// let mut code = [0; holvreiz::CODE_BYTES];
/// let length = holvreiz::code(&drawing.bytes(), &mut code)?;
/// assert_eq!(code[..length], [0, 1, 1, 1, 3]);
/// # Ok::<(), Refusal>(())
/// ```
#[derive(Clone, Copy, Debug, PartialEq, Eq)]
pub struct Drawing {
    bytes: [u8; DRAWING_BYTES],
}

impl Drawing {
    /// No device yet, and crane 0.
    pub fn new() -> Drawing {
        Drawing {
            bytes: [0; DRAWING_BYTES],
        }
    }

    fn devices(&self) -> usize {
        usize::from(self.bytes[0])
    }

    fn cables(&self) -> usize {
        usize::from(self.bytes[1])
    }

    /// One device more, of this kind, and its number, from 0 on. [`Refusal::DeviceCount`] for an eleventh.
    pub fn device(&mut self, kind: u8) -> Result<usize, Refusal> {
        let number = self.devices();
        if number == MOST_DEVICES {
            return Err(Refusal::DeviceCount);
        }
        self.bytes[0] += 1;
        self.bytes[KINDS_AT + number] = kind;
        Ok(number)
    }

    /// One cable more, of this kind, between two devices. [`Refusal::CableCount`] for a twenty-first, [`Refusal::CableEnd`] for a
    /// device that is not there, [`Refusal::CableLoop`] for one device twice, [`Refusal::CablePair`] for a pair that is joined.
    pub fn cable(&mut self, one: usize, other: usize, kind: u8) -> Result<(), Refusal> {
        let number = self.cables();
        if number == MOST_CABLES {
            return Err(Refusal::CableCount);
        }
        if self.devices() <= one || self.devices() <= other {
            return Err(Refusal::CableEnd);
        }
        if one == other {
            return Err(Refusal::CableLoop);
        }
        let ends = [one as u8, other as u8];
        let earlier = self.bytes[CABLES_AT..][..CABLE_BYTES * number].chunks(CABLE_BYTES);
        for cable in earlier {
            if cable[..2] == ends || cable[..2] == [ends[1], ends[0]] {
                return Err(Refusal::CablePair);
            }
        }
        let record = [ends[0], ends[1], kind];
        self.bytes[CABLES_AT + CABLE_BYTES * number..][..CABLE_BYTES].copy_from_slice(&record);
        self.bytes[1] += 1;
        Ok(())
    }

    /// The crane that the drawing is a sheet of. A catalogue and the check of a list count the sheets of one crane once; the other calls do not look
    /// at it.
    pub fn crane(&mut self, number: u8) {
        self.bytes[CRANE_AT] = number;
    }

    /// The drawing's record.
    pub fn bytes(&self) -> [u8; DRAWING_BYTES] {
        self.bytes
    }
}

impl Default for Drawing {
    fn default() -> Drawing {
        Drawing::new()
    }
}

#[cfg(test)]
mod tests {
    use super::*;

    /// Ten devices of kind 1 in a row.
    fn row() -> Drawing {
        let mut drawing = Drawing::new();
        for number in 0..MOST_DEVICES {
            assert_eq!(drawing.device(1), Ok(number));
        }
        for number in 1..MOST_DEVICES {
            drawing
                .cable(number - 1, number, 5)
                .expect("two of ten devices");
        }
        drawing
    }

    #[test]
    fn what_does_not_fit_is_refused_and_changes_nothing() {
        let mut drawing = row();
        assert_eq!(drawing.device(1), Err(Refusal::DeviceCount));
        assert_eq!(drawing.cable(0, 10, 5), Err(Refusal::CableEnd));
        assert_eq!(drawing.cable(3, 3, 5), Err(Refusal::CableLoop));
        assert_eq!(drawing.cable(4, 3, 9), Err(Refusal::CablePair));
        assert_eq!(drawing, row());
        for other in 2..MOST_DEVICES {
            drawing.cable(0, other, 5).expect("a pair not joined yet");
        }
        for other in [3, 4, 5] {
            drawing.cable(1, other, 5).expect("a pair not joined yet");
        }
        assert_eq!(drawing.cables(), MOST_CABLES);
        assert_eq!(drawing.cable(1, 6, 5), Err(Refusal::CableCount));
        assert_eq!(crate::same(&drawing.bytes(), &drawing.bytes()), Ok(true));
    }

    #[test]
    fn the_crane_is_the_last_byte_and_the_calls_ignore_it() {
        let mut drawing = row();
        assert_eq!(drawing.bytes()[CRANE_AT..], [0]);
        for crane in [1, 255] {
            drawing.crane(crane);
            assert_eq!(drawing.bytes()[CRANE_AT..], [crane]);
            assert_eq!(drawing.bytes()[..CRANE_AT], row().bytes()[..CRANE_AT]);
            assert_eq!(crate::same(&drawing.bytes(), &row().bytes()), Ok(true));
        }
        drawing.crane(0);
        assert_eq!(drawing, row());
    }

    #[test]
    fn two_parts_are_for_the_calls_to_refuse() {
        let mut drawing = Drawing::new();
        for kind in 1..=4 {
            drawing.device(kind).expect("four of ten devices");
        }
        drawing.cable(0, 1, 5).expect("two devices");
        drawing.cable(2, 3, 5).expect("two devices");
        assert_eq!(
            crate::code(&drawing.bytes(), &mut [0; 10]),
            Err(Refusal::NotConnected)
        );
    }
}
