//! The proved C calls, as include/bim.h declares them; build.rs names the archive that they are linked from.
//!
//! SAFETY, of every call below: the archive's functions are proved safe for all arguments of their types, with no
//! `requires`; a slice passes as its pointer and its length, and no two of them overlap.

use peer::calls::{BitCalls, Calls, MessageCalls, Reading, ReportCalls, Setting, ShelfCalls, Writing};
use peer::lent::Coding;
use std::cell::Cell;

extern "C" {
    fn bim_check_table(table: *const u8, table_len: usize, area: *mut u8, area_len: usize) -> u32;
    fn bim_read(
        table: *const u8,
        table_len: usize,
        party: u32,
        root_name: u32,
        root_type: u32,
        payload: *const u8,
        payload_len: usize,
        events: *mut u8,
        events_len: usize,
        texts: *mut u8,
        texts_len: usize,
        area: *mut u8,
        area_len: usize,
    ) -> u32;
    fn bim_bits_fixed(
        bytes: *const u8,
        bytes_len: usize,
        place: u32,
        width: u32,
        area: *mut u8,
        area_len: usize,
    ) -> u32;
    fn bim_bits_vlu5(bytes: *const u8, bytes_len: usize, place: u32, area: *mut u8, area_len: usize) -> u32;
    fn bim_bits_vlu8(bytes: *const u8, bytes_len: usize, place: u32, area: *mut u8, area_len: usize) -> u32;
    fn bim_bits_left(bytes: *const u8, bytes_len: usize, place: u32) -> u32;
    fn bim_write(
        table: *const u8,
        table_len: usize,
        party: u32,
        root_name: u32,
        root_type: u32,
        mode: u32,
        events: *const u8,
        events_len: usize,
        texts: *const u8,
        texts_len: usize,
        payload: *mut u8,
        payload_len: usize,
        area: *mut u8,
        area_len: usize,
    ) -> u32;
    fn bim_write_lengths(
        table: *const u8,
        table_len: usize,
        party: u32,
        root_name: u32,
        root_type: u32,
        events: *const u8,
        events_len: usize,
        texts: *const u8,
        texts_len: usize,
        payload: *mut u8,
        payload_len: usize,
        area: *mut u8,
        area_len: usize,
    ) -> u32;
    fn bim_set_held(
        table: *mut u8,
        table_len: usize,
        party: u32,
        of_type: u32,
        mark: u32,
        area: *mut u8,
        area_len: usize,
    ) -> u32;
    fn bim_init_read(
        message: *const u8,
        message_len: usize,
        codecs: *mut u8,
        codecs_len: usize,
        init: *mut u8,
        init_len: usize,
    ) -> u32;
    fn bim_init_write(
        init: *const u8,
        init_len: usize,
        codecs: *const u8,
        codecs_len: usize,
        given: *const u8,
        given_len: usize,
        message: *mut u8,
        message_len: usize,
        area: *mut u8,
        area_len: usize,
    ) -> u32;
    fn bim_shelf_write(
        records: *const u8,
        records_len: usize,
        file: *mut u8,
        file_len: usize,
        area: *mut u8,
        area_len: usize,
    ) -> u32;
    fn bim_shelf_read(
        file: *const u8,
        file_len: usize,
        records: *mut u8,
        records_len: usize,
        area: *mut u8,
        area_len: usize,
    ) -> u32;
    fn bim_report_add(
        table: *const u8,
        table_len: usize,
        party: u32,
        root_name: u32,
        root_type: u32,
        payload: *const u8,
        payload_len: usize,
        report: *mut u8,
        report_len: usize,
    ) -> u32;
    fn bim_shelf_salvage(
        file: *const u8,
        file_len: usize,
        fresh: *mut u8,
        fresh_len: usize,
        dropped: *mut u8,
        dropped_len: usize,
        area: *mut u8,
        area_len: usize,
    ) -> u32;
}

/// The proved library.
#[derive(Default)]
pub struct Library {
    /// Whether the next empty slice passes as a null pointer, as C hosts do; every other one does.
    null: Cell<bool>,
}

impl Library {
    fn given(&self, slice: &[u8]) -> *const u8 {
        if slice.is_empty() && self.null.replace(!self.null.get()) {
            return std::ptr::null();
        }
        slice.as_ptr()
    }

    fn lent(&self, slice: &mut [u8]) -> *mut u8 {
        if slice.is_empty() && self.null.replace(!self.null.get()) {
            return std::ptr::null_mut();
        }
        slice.as_mut_ptr()
    }
}

impl Calls for Library {
    fn check_table(&self, table: &[u8], area: &mut [u8]) -> u32 {
        unsafe { bim_check_table(self.given(table), table.len(), self.lent(area), area.len()) }
    }

    fn read(&self, lent: Reading<'_>) -> u32 {
        let Reading { table, party, root, payload, events, texts, area } = lent;
        unsafe {
            bim_read(
                self.given(table),
                table.len(),
                party,
                root.0,
                root.1,
                self.given(payload),
                payload.len(),
                self.lent(events),
                events.len(),
                self.lent(texts),
                texts.len(),
                self.lent(area),
                area.len(),
            )
        }
    }

    fn write(&self, mode: u32, lent: Writing<'_>) -> u32 {
        let Writing { table, party, root, events, texts, payload, area } = lent;
        unsafe {
            bim_write(
                self.given(table),
                table.len(),
                party,
                root.0,
                root.1,
                mode,
                self.given(events),
                events.len(),
                self.given(texts),
                texts.len(),
                self.lent(payload),
                payload.len(),
                self.lent(area),
                area.len(),
            )
        }
    }

    fn write_lengths(&self, lent: Writing<'_>) -> u32 {
        let Writing { table, party, root, events, texts, payload, area } = lent;
        unsafe {
            bim_write_lengths(
                self.given(table),
                table.len(),
                party,
                root.0,
                root.1,
                self.given(events),
                events.len(),
                self.given(texts),
                texts.len(),
                self.lent(payload),
                payload.len(),
                self.lent(area),
                area.len(),
            )
        }
    }

    fn set_held(&self, lent: Setting<'_>) -> u32 {
        let Setting { table, party, of_type, mark, area } = lent;
        unsafe { bim_set_held(self.lent(table), table.len(), party, of_type, mark, self.lent(area), area.len()) }
    }
}

impl BitCalls for Library {
    fn read(&self, bytes: &[u8], place: u32, coding: Coding, area: &mut [u8]) -> u32 {
        let (given, lent) = (self.given(bytes), self.lent(area));
        unsafe {
            match coding {
                Coding::Fixed(width) => bim_bits_fixed(given, bytes.len(), place, width, lent, area.len()),
                Coding::Five => bim_bits_vlu5(given, bytes.len(), place, lent, area.len()),
                Coding::Eight => bim_bits_vlu8(given, bytes.len(), place, lent, area.len()),
            }
        }
    }

    fn left(&self, bytes: &[u8], place: u32) -> u32 {
        unsafe { bim_bits_left(self.given(bytes), bytes.len(), place) }
    }
}

impl MessageCalls for Library {
    fn init_read(&self, message: &[u8], codecs: &mut [u8], init: &mut [u8]) -> u32 {
        unsafe {
            bim_init_read(
                self.given(message),
                message.len(),
                self.lent(codecs),
                codecs.len(),
                self.lent(init),
                init.len(),
            )
        }
    }

    fn init_write(&self, init: &[u8], codecs: &[u8], given: &[u8], message: &mut [u8], area: &mut [u8]) -> u32 {
        unsafe {
            bim_init_write(
                self.given(init),
                init.len(),
                self.given(codecs),
                codecs.len(),
                self.given(given),
                given.len(),
                self.lent(message),
                message.len(),
                self.lent(area),
                area.len(),
            )
        }
    }
}

impl ShelfCalls for Library {
    fn shelf_write(&self, records: &[u8], file: &mut [u8], area: &mut [u8]) -> u32 {
        let (given, made, lent) = (self.given(records), self.lent(file), self.lent(area));
        unsafe { bim_shelf_write(given, records.len(), made, file.len(), lent, area.len()) }
    }

    fn shelf_read(&self, file: &[u8], records: &mut [u8], area: &mut [u8]) -> u32 {
        let (given, made, lent) = (self.given(file), self.lent(records), self.lent(area));
        unsafe { bim_shelf_read(given, file.len(), made, records.len(), lent, area.len()) }
    }

    fn shelf_salvage(&self, file: &[u8], fresh: &mut [u8], dropped: &mut [u8], area: &mut [u8]) -> u32 {
        let (given, made, list, lent) = (self.given(file), self.lent(fresh), self.lent(dropped), self.lent(area));
        unsafe { bim_shelf_salvage(given, file.len(), made, fresh.len(), list, dropped.len(), lent, area.len()) }
    }
}

impl ReportCalls for Library {
    fn report_add(&self, table: &[u8], party: u32, root: (u32, u32), payload: &[u8], report: &mut [u8]) -> u32 {
        let (tables, payloads, lent) = (self.given(table), self.given(payload), self.lent(report));
        let (name, of_type) = root;
        unsafe {
            bim_report_add(tables, table.len(), party, name, of_type, payloads, payload.len(), lent, report.len())
        }
    }
}
