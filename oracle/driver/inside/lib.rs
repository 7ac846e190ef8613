//! The driver's way to what the upstream crate keeps to itself, under the upstream names.

pub use crate::element::Element;
pub use crate::error::Result;
pub use crate::format::inside as format;

pub mod header {
    pub use crate::header::{
        build_slot_bytes, crc32, parse_slot, HeaderSlot, SlotData, V2_DATA_START, V2_SLOT_LEN,
    };
}

pub mod qio {
    pub use crate::qio::{DataRing, DataRingMut, QueueFileInner};
}

/// A new file as upstream lays it.
pub mod factory {
    use std::fs::File;

    use crate::error::Result;

    pub fn init_v2_file(file: &mut File) -> Result<()> {
        crate::factory::init_v2_file(file)
    }
}

/// A queue opened, made, read and written.
pub mod queue {
    use std::mem;

    use crate::element::Element;
    use crate::error::Result;
    use crate::format::{read_v2_open_state, FormatState, V2ElementHeader, V2Format, V2OpenState};
    use crate::header::{HeaderSlot, SlotData};
    use crate::qio::QueueFileInner;
    use crate::{Iter, QueueFile};

    /// Where an iteration stands.
    #[derive(Clone, Copy, Debug, PartialEq)]
    pub struct Cursor {
        pub index: usize,
        pub pos: u64,
    }

    /// The steps of `open_v2` in their order, but for the last, which lengthens the file.
    pub fn open(
        inner: QueueFileInner,
        real_file_len: u64,
        capacity: u64,
        overwrite_on_remove: bool,
    ) -> Result<QueueFile> {
        let open_state = read_v2_open_state(&inner, real_file_len)?;
        let mut queue =
            QueueFile::build_v2_queue_file(inner, open_state, capacity, overwrite_on_remove);
        queue.initialize_v2_endpoints(open_state.slot)?;
        Ok(queue)
    }

    /// The queue that opening would make of this slot, had it found these endpoints.
    pub fn with_endpoints(
        inner: QueueFileInner,
        active_slot: HeaderSlot,
        slot: SlotData,
        [first, last]: [Element; 2],
        (capacity, overwrite_on_remove): (u64, bool),
    ) -> QueueFile {
        let open_state = V2OpenState { active_slot, slot, elem_cnt: slot.element_count as usize };
        let mut queue =
            QueueFile::build_v2_queue_file(inner, open_state, capacity, overwrite_on_remove);
        (queue.first, queue.last) = (first, last);
        queue
    }

    /// The file back out of a queue that is done with.
    pub fn into_inner(mut queue: QueueFile) -> QueueFileInner {
        let spent = QueueFileInner {
            file: None,
            file_len: 0,
            expected_seek: 0,
            last_seek: None,
            transfer_buf: Box::default(),
            sync_writes: false,
            deferred_sync_phase: None,
        };
        mem::replace(&mut queue.inner, spent)
    }

    /// The set capacity as upstream keeps it.
    pub fn capacity(queue: &QueueFile) -> u64 {
        queue.capacity
    }

    pub fn sync_header(queue: &mut QueueFile) -> Result<()> {
        queue.sync_header()
    }

    pub fn expand_if_necessary(queue: &mut QueueFile, data_len: u64) -> Result<()> {
        queue.expand_if_necessary(data_len)
    }

    pub fn compute_expanded_len(current_len: u64, remaining_bytes: u64, data_len: u64) -> u64 {
        QueueFile::compute_expanded_len(current_len, remaining_bytes, data_len)
    }

    pub fn endpoints(queue: &QueueFile) -> [Element; 2] {
        [queue.first, queue.last]
    }

    /// What the format keeps of the elected slot; every queue here is of the format that has one.
    pub fn v2_format(queue: &QueueFile) -> V2Format {
        match queue.format {
            FormatState::V2(format) => format,
            FormatState::Legacy | FormatState::V1 => unreachable!("a queue of another format"),
        }
    }

    pub fn recover_v2_head(
        queue: &QueueFile,
        last_logical_pos: u64,
        last_seq: u64,
        elem_cnt: usize,
    ) -> Result<Element> {
        queue.recover_v2_head(last_logical_pos, last_seq, elem_cnt)
    }

    /// As `Iter::current_element`, which keeps the error to itself and drops the backlink. That the
    /// length is within the capacity, which it asks last, holds of every header that is valid.
    pub fn current_element(queue: &QueueFile, cursor: Cursor) -> Result<Option<V2ElementHeader>> {
        if cursor.index >= queue.elem_cnt {
            return Ok(None);
        }
        queue.format.validate_v2_element_header(&queue.ring(), cursor.pos).map(Some)
    }

    pub fn read_payload(queue: &QueueFile, elem: &Element, buf: &mut [u8]) -> Result<()> {
        queue.read_payload(elem, buf)
    }

    /// As `Iter::advance`, for an element of this length.
    pub fn advance(queue: &QueueFile, cursor: Cursor, len: usize) -> Cursor {
        let pos = queue.ring().add(cursor.pos, queue.elem_span(len));
        Cursor { index: cursor.index + 1, pos }
    }

    /// What the upstream iterator itself yields at this cursor, and its cursor after it.
    pub fn next(queue: &QueueFile, cursor: Cursor) -> (Option<Vec<u8>>, Cursor) {
        let mut iter = Iter {
            queue_file: queue,
            buffer: Vec::new(),
            next_elem_index: cursor.index,
            next_elem_pos: cursor.pos,
        };
        let yielded = iter.next();
        (yielded, Cursor { index: iter.next_elem_index, pos: iter.next_elem_pos })
    }
}
