//! A call as data: what goes in, and how much room is lent.

use crate::joined::Joined;
use crate::pair::Pair;

/// The room of a lent buffer, told by the length of the answer.
#[derive(Clone, Copy, Debug)]
pub enum Room {
    Right,
    OneShort,
    Empty,
    Longer(usize),
    Bytes(usize),
}

impl Room {
    pub fn bytes(self, answer: usize) -> usize {
        match self {
            Room::Right => answer,
            Room::OneShort => answer.saturating_sub(1),
            Room::Empty => 0,
            Room::Longer(more) => answer + more,
            Room::Bytes(count) => count,
        }
    }
}

#[derive(Clone, Debug)]
pub enum Call {
    Check {
        list: Vec<u8>,
    },
    View {
        list: Vec<u8>,
        chunk_len: u64,
        out: Room,
    },
    Find {
        view: Vec<u8>,
        segments: u64,
        position: u64,
    },
    Tidy {
        list: Vec<u8>,
        out: Room,
    },
    ReadPlan {
        list: Vec<u8>,
        index: u64,
        chunk_len: u64,
        block_size: u64,
        start: u64,
        count: u64,
        out: Room,
    },
    FilePlan {
        file: Joined,
        block_size: u64,
        start: u64,
        count: u64,
        out: Room,
    },
    NextPiece {
        list: Vec<u8>,
        index: u64,
        chunk_len: u64,
        block_size: u64,
        start: u64,
        count: u64,
        at: u64,
    },
    NextFilePiece {
        file: Joined,
        block_size: u64,
        start: u64,
        count: u64,
        at: u64,
    },
    JudgePlan {
        file: Joined,
        block_size: u64,
        start: u64,
        count: u64,
        plan: Vec<u8>,
    },
    Compact {
        list: Vec<u8>,
        index: u64,
        block_size: u64,
        k: u64,
        new_id: u64,
        plan: Room,
        new_list: Room,
    },
    Added {
        pair: Pair,
    },
    WriteObjectName {
        id: u64,
        block: u64,
        length: u64,
        out: Room,
    },
    WriteFullName {
        volume: Vec<u8>,
        id: u64,
        block: u64,
        length: u64,
        out: Room,
    },
    ReadObjectName {
        name: Vec<u8>,
    },
    ReadFullName {
        name: Vec<u8>,
    },
    WriteRedisKey {
        inode: u64,
        index: u64,
        out: Room,
    },
    WriteTkvKey {
        inode: u64,
        index: u64,
        out: Room,
    },
    ReadRedisKey {
        key: Vec<u8>,
    },
    ReadTkvKey {
        key: Vec<u8>,
    },
}

impl Call {
    /// The list of a call that takes one and no other.
    pub fn list(&self) -> Option<&[u8]> {
        match self {
            Call::Check { list }
            | Call::View { list, .. }
            | Call::Tidy { list, .. }
            | Call::ReadPlan { list, .. }
            | Call::NextPiece { list, .. }
            | Call::Compact { list, .. } => Some(list),
            _ => None,
        }
    }

    pub fn name(&self) -> &'static str {
        match self {
            Call::Check { .. } => "check",
            Call::View { .. } => "view",
            Call::Find { .. } => "find",
            Call::Tidy { .. } => "tidy",
            Call::ReadPlan { .. } => "read_plan",
            Call::FilePlan { .. } => "file_plan",
            Call::NextPiece { .. } => "next_piece",
            Call::NextFilePiece { .. } => "next_file_piece",
            Call::JudgePlan { .. } => "judge_plan",
            Call::Compact { .. } => "compact",
            Call::Added { .. } => "added",
            Call::WriteObjectName { .. } => "write_object_name",
            Call::WriteFullName { .. } => "write_full_name",
            Call::ReadObjectName { .. } => "read_object_name",
            Call::ReadFullName { .. } => "read_full_name",
            Call::WriteRedisKey { .. } => "write_redis_key",
            Call::WriteTkvKey { .. } => "write_tkv_key",
            Call::ReadRedisKey { .. } => "read_redis_key",
            Call::ReadTkvKey { .. } => "read_tkv_key",
        }
    }
}
