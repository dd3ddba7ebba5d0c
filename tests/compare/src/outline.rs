//! Where the lists stand in a flat frame.

use std::convert::Infallible;

use boundary::{Frame, List};
use reference::{Element, Fields, Null, Text, content};

/// Shape and list, for every list of a frame that was read.
pub fn lists(frame: &Frame) -> Vec<(u8, List)> {
    let outline = Outline { frame, next: 2, lists: Vec::new() };
    let Ok(lists) = content(frame[0] as u16, frame[1] as u16, outline);
    lists
}

struct Outline<'a> {
    frame: &'a Frame,
    next: usize,
    lists: Vec<(u8, List)>,
}

impl Outline<'_> {
    fn skip(&mut self, slots: usize) -> Result<(), Infallible> {
        self.next += slots;
        Ok(())
    }
}

impl Fields for Outline<'_> {
    type Stop = Infallible;
    type Output = Vec<(u8, List)>;

    fn u8(&mut self) -> Result<(), Infallible> {
        self.skip(1)
    }

    fn u16(&mut self) -> Result<(), Infallible> {
        self.skip(1)
    }

    fn u32(&mut self) -> Result<(), Infallible> {
        self.skip(1)
    }

    fn u64(&mut self) -> Result<(), Infallible> {
        self.skip(1)
    }

    fn i64(&mut self) -> Result<(), Infallible> {
        self.skip(1)
    }

    fn active(&mut self) -> Result<(), Infallible> {
        self.skip(1)
    }

    fn text(&mut self, _: Text) -> Result<(), Infallible> {
        self.skip(2)
    }

    fn bytes(&mut self, _: Null) -> Result<(), Infallible> {
        self.skip(2)
    }

    fn offset(&mut self, _: bool) -> Result<(), Infallible> {
        self.skip(2)
    }

    fn list<E: Element>(&mut self) -> Result<(), Infallible> {
        let [count, place, length] = [0, 1, 2].map(|i| self.frame[self.next + i]);
        self.lists.push((E::SHAPE, List { count, place, length }));
        self.skip(3)
    }

    fn chunk(&mut self) -> Result<(), Infallible> {
        self.skip(14)
    }

    fn unknown_key(&mut self) -> Infallible {
        unreachable!("the frame was read")
    }

    fn unknown_version(&mut self) -> Infallible {
        unreachable!("the frame was read")
    }

    fn finish(self) -> Result<Vec<(u8, List)>, Infallible> {
        Ok(self.lists)
    }
}
