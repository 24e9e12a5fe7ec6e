//! The entries as the archive has them. What a caller owes is in include/birnsket.h.

/// HUB_VERSION of the header that these declarations follow.
pub const HUB_VERSION: u32 = 0x040000;

/// Results: number and record 0 and the fields named where the call is done, else a refusal's number and record
/// and zeros.
macro_rules! results {
    ($($name:ident { $($field:ident),* })+) => {
        $(
            #[repr(C)]
            #[derive(Clone, Copy, Debug, PartialEq, Eq)]
            pub struct $name {
                pub number: u32,
                pub record: u32,
                $(pub $field: u32,)*
            }
        )+
    };
}

results! {
    HubValidateResult { records }
    HubClimbResult { label, boundary }
    HubSheetResult {}
    HubStepResult {}
    HubRunResult { ins, outs, opens }
    HubCopyResult { copied }
    HubMovesResult { done, no_capability, inactive, unfit }
    HubCheckResult {}
    HubJoinResult {}
    HubMakeResult { bits }
    HubVerdictResult { verdict, label }
    HubExposedResult { exposed }
    HubRowResult { offset, length }
    HubScreenResult { verdict, label, bits, ins, outs, opens, records }
}

/// First byte of a slice that is only read; its length in bytes follows.
type Bytes = *const u8;
/// First byte of a slice that is written; its length in bytes follows.
type BytesMut = *mut u8;

extern "C" {
    pub fn hub_version() -> u32;
    pub fn hub_validate(it: Bytes, it_len: usize) -> HubValidateResult;
    pub fn hub_climb(
        it: Bytes,
        it_len: usize,
        policy: Bytes,
        policy_len: usize,
        number: u16,
    ) -> HubClimbResult;
    pub fn hub_sheet(
        it: Bytes,
        it_len: usize,
        table: Bytes,
        table_len: usize,
        sheet: BytesMut,
        sheet_len: usize,
    ) -> HubSheetResult;
    pub fn hub_step(it: BytesMut, it_len: usize, actor: u16, partner: u16) -> HubStepResult;
    pub fn hub_run(
        it: BytesMut,
        it_len: usize,
        script: Bytes,
        script_len: usize,
        answers: BytesMut,
        answers_len: usize,
    ) -> HubRunResult;
    pub fn hub_copy(it: BytesMut, it_len: usize, number: u16) -> HubCopyResult;
    pub fn hub_moves(it: Bytes, it_len: usize, list: BytesMut, list_len: usize) -> HubMovesResult;
    pub fn hub_check(
        it: Bytes,
        it_len: usize,
        policy: Bytes,
        policy_len: usize,
        table: Bytes,
        table_len: usize,
    ) -> HubCheckResult;
    pub fn hub_join(
        first: Bytes,
        first_len: usize,
        second: Bytes,
        second_len: usize,
        third: Bytes,
        third_len: usize,
        fourth: Bytes,
        fourth_len: usize,
        policy: Bytes,
        policy_len: usize,
        table: Bytes,
        table_len: usize,
        joined: BytesMut,
        joined_len: usize,
    ) -> HubJoinResult;
    pub fn hub_make(
        it: Bytes,
        it_len: usize,
        policy: Bytes,
        policy_len: usize,
        table: BytesMut,
        table_len: usize,
    ) -> HubMakeResult;
    pub fn hub_verdict(
        it: Bytes,
        it_len: usize,
        policy: Bytes,
        policy_len: usize,
        table: Bytes,
        table_len: usize,
    ) -> HubVerdictResult;
    pub fn hub_exposed(
        it: Bytes,
        it_len: usize,
        policy: Bytes,
        policy_len: usize,
        table: Bytes,
        table_len: usize,
    ) -> HubExposedResult;
    pub fn hub_row(table: Bytes, table_len: usize, label: u8) -> HubRowResult;
    pub fn hub_screen(
        it: BytesMut,
        it_len: usize,
        policy: Bytes,
        policy_len: usize,
        script: Bytes,
        script_len: usize,
        answers: BytesMut,
        answers_len: usize,
    ) -> HubScreenResult;
}
