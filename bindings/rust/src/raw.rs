//! The functions of bindings/c/ambiguity.h, and what they return.

use crate::TripleRecord;

#[repr(C)]
pub struct TableReply {
    pub cause: u64,
    pub at: u64,
    pub states: u64,
}

#[repr(C)]
pub struct MoveReply {
    pub moved: u64,
    pub number: u64,
}

#[repr(C)]
pub struct StepReply {
    pub cause: u64,
    pub at: u64,
    pub kind: u64,
    pub layer: u64,
    pub left: u64,
    pub right: u64,
    pub on_left: MoveReply,
    pub on_right: MoveReply,
}

#[repr(C)]
pub struct CheckReply {
    pub cause: u64,
    pub at: u64,
}

#[repr(C)]
pub struct SearchReply {
    pub cause: u64,
    pub at: u64,
    pub verdict: u64,
    pub count: u64,
    pub looked: u64,
}

#[repr(C)]
pub struct RoomReply {
    pub cause: u64,
    pub at: u64,
    pub states: u64,
    pub certificate: u64,
    pub entries: u64,
    pub moves: u64,
}

#[repr(C)]
pub struct ReadReply {
    pub cause: u64,
    pub at: u64,
    pub terminals: u64,
    pub nonterminals: u64,
    pub entries: u64,
    pub states: u64,
}

#[repr(C)]
pub struct WriteReply {
    pub cause: u64,
    pub at: u64,
    pub length: u64,
}

#[repr(C)]
pub struct LengthReply {
    pub cause: u64,
    pub at: u64,
    pub length: u64,
}

#[repr(C)]
pub struct ReportReply {
    pub cause: u64,
    pub at: u64,
    pub length: u64,
}

#[repr(C)]
pub struct ReadBackReply {
    pub cause: u64,
    pub at: u64,
    pub part: u64,
    pub left: u64,
    pub right: u64,
}

#[repr(C)]
pub struct PartReply {
    pub text: u64,
    pub start: u64,
    pub length: u64,
}

#[repr(C)]
pub struct TreesReply {
    pub cause: u64,
    pub at: u64,
    pub found: u64,
    pub count: u64,
}

#[repr(C)]
pub struct TreesRoomReply {
    pub cause: u64,
    pub at: u64,
    pub entries: u64,
}

#[repr(C)]
pub struct DraftReply {
    pub cause: u64,
    pub at: u64,
}

#[repr(C)]
pub struct DraftCountsReply {
    pub cause: u64,
    pub at: u64,
    pub terminals: u64,
    pub nonterminals: u64,
    pub rules: u64,
    pub entries: u64,
    pub states: u64,
}

#[repr(C)]
pub struct DraftTableReply {
    pub cause: u64,
    pub at: u64,
    pub start: u64,
    pub entries: u64,
}

#[repr(C)]
pub struct PlanReply {
    pub cause: u64,
    pub at: u64,
    pub found: u64,
    pub count: u64,
}

extern "C" {
    pub fn ambiguity_check_table(t: usize, n: usize, table: *const u16, table_entries: usize) -> TableReply;

    pub fn ambiguity_nth_step(
        t: usize,
        n: usize,
        table: *const u16,
        table_entries: usize,
        callers: usize,
        layer: usize,
        left: usize,
        right: usize,
        nth: usize,
    ) -> StepReply;

    pub fn ambiguity_check_certificate(
        t: usize,
        n: usize,
        table: *const u16,
        table_entries: usize,
        callers: usize,
        certificate: *const u8,
        certificate_bytes: usize,
    ) -> CheckReply;

    pub fn ambiguity_check_witness(
        t: usize,
        n: usize,
        table: *const u16,
        table_entries: usize,
        callers: usize,
        row: *const u32,
        row_entries: usize,
    ) -> CheckReply;

    pub fn ambiguity_check_witness_records(
        t: usize,
        n: usize,
        table: *const u16,
        table_entries: usize,
        callers: usize,
        records: *const TripleRecord,
        records_entries: usize,
    ) -> CheckReply;

    pub fn ambiguity_search_room(t: usize, n: usize, table: *const u16, table_entries: usize, callers: usize) -> RoomReply;

    pub fn ambiguity_search(
        t: usize,
        n: usize,
        table: *const u16,
        table_entries: usize,
        callers: usize,
        certificate: *mut u8,
        certificate_bytes: usize,
        queue: *mut u32,
        queue_entries: usize,
        parents: *mut u32,
        parents_entries: usize,
        witness: *mut u32,
        witness_entries: usize,
    ) -> SearchReply;

    pub fn ambiguity_read_text(
        text: *const u8,
        text_bytes: usize,
        table: *mut u16,
        table_entries: usize,
        starts: *mut u32,
        starts_entries: usize,
        lengths: *mut u32,
        lengths_entries: usize,
    ) -> ReadReply;

    pub fn ambiguity_written_length(
        t: usize,
        n: usize,
        table: *const u16,
        table_entries: usize,
        names: *const u8,
        names_bytes: usize,
        starts: *const u32,
        starts_entries: usize,
        lengths: *const u32,
        lengths_entries: usize,
    ) -> LengthReply;

    pub fn ambiguity_write_text(
        t: usize,
        n: usize,
        table: *const u16,
        table_entries: usize,
        names: *const u8,
        names_bytes: usize,
        starts: *const u32,
        starts_entries: usize,
        lengths: *const u32,
        lengths_entries: usize,
        out: *mut u8,
        out_bytes: usize,
    ) -> WriteReply;

    pub fn ambiguity_report(text: *const u8, text_bytes: usize, out: *mut u8, out_bytes: usize) -> ReportReply;

    pub fn ambiguity_read_back(
        text: *const u8,
        text_bytes: usize,
        lines: *const u8,
        lines_bytes: usize,
        left: *mut u32,
        left_entries: usize,
        right: *mut u32,
        right_entries: usize,
    ) -> ReadBackReply;

    pub fn ambiguity_join_texts(
        robot: *const u8,
        robot_bytes: usize,
        module: *const u8,
        module_bytes: usize,
        table: *mut u16,
        table_entries: usize,
    ) -> ReadReply;

    pub fn ambiguity_joined_name(
        robot: *const u8,
        robot_bytes: usize,
        module: *const u8,
        module_bytes: usize,
        symbol: usize,
    ) -> PartReply;

    pub fn ambiguity_write_joined(
        robot: *const u8,
        robot_bytes: usize,
        module: *const u8,
        module_bytes: usize,
        out: *mut u8,
        out_bytes: usize,
    ) -> WriteReply;

    pub fn ambiguity_trees_room(t: usize, n: usize, table: *const u16, table_entries: usize) -> TreesRoomReply;

    pub fn ambiguity_find_trees(
        t: usize,
        n: usize,
        table: *const u16,
        table_entries: usize,
        row: *const u16,
        row_entries: usize,
        work: *mut u32,
        work_entries: usize,
        list: *mut u16,
        list_entries: usize,
    ) -> TreesReply;

    pub fn ambiguity_draft_room() -> usize;

    pub fn ambiguity_new_draft(
        t: usize,
        n: usize,
        table: *const u16,
        table_entries: usize,
        draft: *mut u16,
        draft_entries: usize,
    ) -> DraftReply;

    pub fn ambiguity_add_rule(draft: *mut u16, draft_entries: usize, rule: *const u16, rule_entries: usize) -> DraftReply;

    pub fn ambiguity_withdraw_rule(draft: *mut u16, draft_entries: usize, number: usize) -> DraftReply;

    pub fn ambiguity_set_mark(draft: *mut u16, draft_entries: usize, mark: usize) -> DraftReply;

    pub fn ambiguity_return_to_mark(draft: *mut u16, draft_entries: usize, mark: usize) -> DraftReply;

    pub fn ambiguity_draft_counts(draft: *const u16, draft_entries: usize) -> DraftCountsReply;

    pub fn ambiguity_draft_table(draft: *const u16, draft_entries: usize) -> DraftTableReply;

    pub fn ambiguity_read_plan(
        row: *const u16,
        row_entries: usize,
        work: *mut u32,
        work_entries: usize,
        list: *mut u16,
        list_entries: usize,
    ) -> PlanReply;

    pub fn ambiguity_plan_room() -> usize;

    pub fn ambiguity_plan_certificate_byte(place: usize) -> u8;
}
