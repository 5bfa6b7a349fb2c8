//! K5: a running record of depth, frame and the frame's base; its groups by port as K10 has them.

use super::formula::{frame_base, group_exists, port_group_call, Group, PortGroup};
use super::netlist::{Netlist, FIRST_PORT, MAX_DEPTH};
use super::refusal::{require, Refusal, DEPTH, NO_SUCH_GROUP, WRONG_BASE};

/// As it is handed in: nothing of it is tested before a call does.
#[derive(Clone, Copy, Debug, Default, PartialEq, Eq)]
pub struct Position {
    pub depth: u32,
    pub frame: u32,
    pub base: u32,
}

/// A group of the position's frame, or the property of its depth.
#[derive(Clone, Copy, Debug, PartialEq, Eq)]
pub enum FrameGroup {
    Wires,
    /// The pair of this frame j with the position's frame.
    Pair(u32),
    Closing,
    Property,
}

/// B of a frame, which is at most 255.
fn base(netlist: &Netlist, frame: u32) -> u32 {
    frame_base(netlist, frame) as u32
}

/// Frame 0: the record's tests, then 7.
pub fn start(netlist: &Netlist, depth: u32) -> Result<Position, Refusal> {
    netlist.check()?;
    require(depth <= MAX_DEPTH, DEPTH, 0)?;
    let base = base(netlist, 0);
    Ok(Position {
        depth,
        frame: 0,
        base,
    })
}

impl Position {
    /// The record's tests, 7, 8 where the frame is over k or `exists` is false, then 16.
    fn check(&self, netlist: &Netlist, exists: bool) -> Result<(), Refusal> {
        netlist.check()?;
        require(self.depth <= MAX_DEPTH, DEPTH, 0)?;
        require(self.frame <= self.depth && exists, NO_SUCH_GROUP, 0)?;
        require(self.base == base(netlist, self.frame), WRONG_BASE, 0)
    }

    /// One frame on; past k it is 8. A refusal leaves the position as it was.
    pub fn on(&mut self, netlist: &Netlist) -> Result<(), Refusal> {
        self.check(netlist, self.frame < self.depth)?;
        self.frame += 1;
        self.base = base(netlist, self.frame);
        Ok(())
    }

    /// Back to frame 0. A refusal leaves the position as it was.
    pub fn back(&mut self, netlist: &Netlist) -> Result<(), Refusal> {
        self.check(netlist, true)?;
        self.frame = 0;
        self.base = base(netlist, 0);
        Ok(())
    }

    /// The group by frame number.
    pub fn numbered(&self, group: FrameGroup) -> Group {
        match group {
            FrameGroup::Wires => Group::Wires(self.frame),
            FrameGroup::Pair(j) => Group::Pair(j, self.frame),
            FrameGroup::Closing => Group::Closing(self.frame),
            FrameGroup::Property => Group::Property,
        }
    }

    /// A group of the first port through the position, with a lent slice of `room` numbers: the record's
    /// tests, 7, 8, 16, 9.
    pub fn group(
        &self,
        netlist: &Netlist,
        group: FrameGroup,
        room: usize,
    ) -> Result<Vec<i32>, Refusal> {
        self.port_group(netlist, FIRST_PORT, group, room)
    }

    /// The same for a port; one that the netlist does not have is 8.
    pub fn port_group(
        &self,
        netlist: &Netlist,
        port: u32,
        group: FrameGroup,
        room: usize,
    ) -> Result<Vec<i32>, Refusal> {
        let group = self.numbered(group);
        let asked = PortGroup { port, group };
        let exists = group_exists(netlist, self.depth, asked);
        self.check(netlist, exists)?;
        port_group_call(netlist, self.depth, asked, room)
    }
}
