//! The two sides, the keeper's static library and the plain C, as one set of functions over slices.

/// `keeper_result` of keeper.h.
#[repr(C)]
#[derive(Clone, Copy, PartialEq, Debug)]
pub struct KeeperResult {
    pub number: u64,
    pub blocks: u64,
}

/// `keeper_verdict` of keeper.h.
#[repr(C)]
#[derive(Clone, Copy, PartialEq, Debug, Default)]
pub struct Verdict {
    pub keeper: u64,
    pub log: u64,
    pub position: u64,
    pub kind: u64,
    pub reference: u64,
}

type In = *const u8;
type Out = *mut u8;
type Num = *mut u64;
type SurveyAdvance = unsafe extern "C" fn(Out, usize, u64, u64, u64, In, usize, In, usize, Num, Num) -> KeeperResult;
type SurveyLookup = unsafe extern "C" fn(In, usize, u64, u64, u64, In, usize, Out, usize, Num) -> KeeperResult;
type Verify = unsafe extern "C" fn(In, usize, In, usize, In, usize, u64, u64, u64, *mut Verdict) -> KeeperResult;
type VerifyEnd = unsafe extern "C" fn(In, usize, In, usize, In, usize, u64, u64, *mut Verdict) -> KeeperResult;
type Certify =
    unsafe extern "C" fn(u64, u64, In, usize, In, usize, u64, u64, In, usize, Num, *mut u32) -> KeeperResult;
type Contradiction = unsafe extern "C" fn(u64, u64, In, usize, In, usize, *mut u8, Num, Num) -> KeeperResult;
type ReceiptSentence = unsafe extern "C" fn(u8, *const Verdict, Out, usize) -> u8;
type CertificateSentence = unsafe extern "C" fn(u8, u64, u32, Out, usize) -> u8;
type Compare =
    unsafe extern "C" fn(In, usize, u64, In, usize, In, usize, u64, In, usize, Out, usize, *mut u8) -> KeeperResult;

pub struct Side {
    pub name: &'static str,
    hash: unsafe extern "C" fn(In, usize, Out, usize) -> KeeperResult,
    tag: unsafe extern "C" fn(In, usize, In, usize, Out, usize) -> KeeperResult,
    format: unsafe extern "C" fn(Out, usize, u64, u64, u64, In, usize, *const u64, usize) -> KeeperResult,
    check: unsafe extern "C" fn(In, usize) -> u8,
    free: unsafe extern "C" fn(In, usize, Num) -> u8,
    carry: unsafe extern "C" fn(In, usize, Out, usize) -> KeeperResult,
    append: unsafe extern "C" fn(Out, usize, u64, In, usize, Num, Num) -> KeeperResult,
    advance: unsafe extern "C" fn(Out, usize, u64, u64, In, usize, In, usize, Num, Num) -> KeeperResult,
    truncate: unsafe extern "C" fn(Out, usize, u64, u64, Num, Num) -> KeeperResult,
    lookup: unsafe extern "C" fn(In, usize, u64, u64, In, usize, Out, usize, Num) -> KeeperResult,
    end: unsafe extern "C" fn(In, usize, u64, In, usize, Out, usize) -> KeeperResult,
    pack: unsafe extern "C" fn(u64, u64, Num) -> u8,
    split: unsafe extern "C" fn(u64, Num, Num) -> u8,
    survey_advance: SurveyAdvance,
    survey_lookup: SurveyLookup,
    survey_close: unsafe extern "C" fn(Out, usize, u64, u64, In, usize, Num, Num) -> KeeperResult,
    verify_lookup: Verify,
    verify_end: VerifyEnd,
    certify: Certify,
    contradiction: Contradiction,
    receipt_sentence: ReceiptSentence,
    certificate_sentence: CertificateSentence,
    compare: Compare,
}

macro_rules! side {
    ($side:ident, $label:expr, $hash:ident, $tag:ident, $format:ident, $check:ident, $free:ident, $carry:ident,
     $append:ident, $advance:ident, $truncate:ident, $lookup:ident, $end:ident, $pack:ident, $split:ident,
     $survey_advance:ident, $survey_lookup:ident, $survey_close:ident, $verify_lookup:ident, $verify_end:ident,
     $certify:ident, $contradiction:ident, $receipt_sentence:ident, $certificate_sentence:ident, $compare:ident) => {
        extern "C" {
            fn $hash(message: In, message_bytes: usize, digest: Out, digest_bytes: usize) -> KeeperResult;
            fn $tag(key: In, key_bytes: usize, text: In, text_bytes: usize, tag: Out, tag_bytes: usize) -> KeeperResult;
            fn $format(
                t: Out, t_bytes: usize, logs: u64, slots: u64, keeper: u64, key: In, key_bytes: usize,
                reserves: *const u64, reserve_count: usize,
            ) -> KeeperResult;
            fn $check(t: In, t_bytes: usize) -> u8;
            fn $free(t: In, t_bytes: usize, free: Num) -> u8;
            fn $carry(old: In, old_bytes: usize, t: Out, t_bytes: usize) -> KeeperResult;
            fn $append(
                t: Out, t_bytes: usize, log: u64, value: In, value_bytes: usize, low: Num, high: Num,
            ) -> KeeperResult;
            fn $advance(
                t: Out, t_bytes: usize, log: u64, position: u64, digest: In, digest_bytes: usize, value: In,
                value_bytes: usize, low: Num, high: Num,
            ) -> KeeperResult;
            fn $truncate(t: Out, t_bytes: usize, log: u64, position: u64, low: Num, high: Num) -> KeeperResult;
            fn $lookup(
                t: In, t_bytes: usize, log: u64, position: u64, nonce: In, nonce_bytes: usize, receipt: Out,
                receipt_bytes: usize, examined: Num,
            ) -> KeeperResult;
            fn $end(
                t: In, t_bytes: usize, log: u64, nonce: In, nonce_bytes: usize, receipt: Out, receipt_bytes: usize,
            ) -> KeeperResult;
            fn $pack(survey: u64, reading: u64, position: Num) -> u8;
            fn $split(position: u64, survey: Num, reading: Num) -> u8;
            fn $survey_advance(
                t: Out, t_bytes: usize, log: u64, survey: u64, reading: u64, digest: In, digest_bytes: usize, value: In,
                value_bytes: usize, low: Num, high: Num,
            ) -> KeeperResult;
            fn $survey_lookup(
                t: In, t_bytes: usize, log: u64, survey: u64, reading: u64, nonce: In, nonce_bytes: usize, receipt: Out,
                receipt_bytes: usize, examined: Num,
            ) -> KeeperResult;
            fn $survey_close(
                t: Out, t_bytes: usize, log: u64, survey: u64, value: In, value_bytes: usize, low: Num, high: Num,
            ) -> KeeperResult;
            fn $verify_lookup(
                key: In, key_bytes: usize, receipt: In, receipt_bytes: usize, nonce: In, nonce_bytes: usize,
                keeper: u64, log: u64, position: u64, verdict: *mut Verdict,
            ) -> KeeperResult;
            fn $verify_end(
                key: In, key_bytes: usize, receipt: In, receipt_bytes: usize, nonce: In, nonce_bytes: usize,
                keeper: u64, log: u64, verdict: *mut Verdict,
            ) -> KeeperResult;
            fn $certify(
                members: u64, needed: u64, roster: In, roster_bytes: usize, nonce: In, nonce_bytes: usize, log: u64,
                position: u64, certificate: In, certificate_bytes: usize, place: Num, mask: *mut u32,
            ) -> KeeperResult;
            fn $contradiction(
                members: u64, needed: u64, roster: In, roster_bytes: usize, receipts: In, receipts_bytes: usize,
                found: *mut u8, first: Num, second: Num,
            ) -> KeeperResult;
            fn $receipt_sentence(number: u8, verdict: *const Verdict, sentence: Out, sentence_bytes: usize) -> u8;
            fn $certificate_sentence(number: u8, place: u64, mask: u32, sentence: Out, sentence_bytes: usize) -> u8;
            fn $compare(
                start1: In, start1_bytes: usize, first1: u64, values1: In, values1_bytes: usize, start2: In,
                start2_bytes: usize, first2: u64, values2: In, values2_bytes: usize, collision: Out,
                collision_bytes: usize, verdict: *mut u8,
            ) -> KeeperResult;
        }
        pub static $side: Side = Side {
            name: $label,
            hash: $hash,
            tag: $tag,
            format: $format,
            check: $check,
            free: $free,
            carry: $carry,
            append: $append,
            advance: $advance,
            truncate: $truncate,
            lookup: $lookup,
            end: $end,
            pack: $pack,
            split: $split,
            survey_advance: $survey_advance,
            survey_lookup: $survey_lookup,
            survey_close: $survey_close,
            verify_lookup: $verify_lookup,
            verify_end: $verify_end,
            certify: $certify,
            contradiction: $contradiction,
            receipt_sentence: $receipt_sentence,
            certificate_sentence: $certificate_sentence,
            compare: $compare,
        };
    };
}

side!(
    KEEPER, "keeper", keeper_hash, keeper_tag, keeper_format, keeper_check, keeper_free, keeper_carry, keeper_append,
    keeper_advance, keeper_truncate, keeper_lookup, keeper_end, keeper_pack, keeper_split, keeper_survey_advance,
    keeper_survey_lookup, keeper_survey_close, keeper_verify_lookup, keeper_verify_end, keeper_certify,
    keeper_contradiction, keeper_receipt_sentence, keeper_certificate_sentence, keeper_compare
);
side!(
    PLAIN, "plain C", plain_hash, plain_tag, plain_format, plain_check, plain_free, plain_carry, plain_append,
    plain_advance, plain_truncate, plain_lookup, plain_end, plain_pack, plain_split, plain_survey_advance,
    plain_survey_lookup, plain_survey_close, plain_verify_lookup, plain_verify_end, plain_certify,
    plain_contradiction, plain_receipt_sentence, plain_certificate_sentence, plain_compare
);

// What keeper.h asks holds of slices and references: pointers that are not null, bytes that can be read or written, and
// nothing written that overlaps something else.
impl Side {
    pub fn hash(&self, message: &[u8], digest: &mut [u8]) -> KeeperResult {
        unsafe { (self.hash)(message.as_ptr(), message.len(), digest.as_mut_ptr(), digest.len()) }
    }

    pub fn tag(&self, key: &[u8], text: &[u8], tag: &mut [u8]) -> KeeperResult {
        unsafe {
            (self.tag)(key.as_ptr(), key.len(), text.as_ptr(), text.len(), tag.as_mut_ptr(), tag.len())
        }
    }

    pub fn format(
        &self, table: &mut [u8], logs: u64, slots: u64, keeper: u64, key: &[u8], reserves: &[u64],
    ) -> KeeperResult {
        unsafe {
            (self.format)(
                table.as_mut_ptr(), table.len(), logs, slots, keeper, key.as_ptr(), key.len(), reserves.as_ptr(),
                reserves.len(),
            )
        }
    }

    pub fn check(&self, table: &[u8]) -> u8 {
        unsafe { (self.check)(table.as_ptr(), table.len()) }
    }

    pub fn free(&self, table: &[u8], free: &mut u64) -> u8 {
        unsafe { (self.free)(table.as_ptr(), table.len(), free) }
    }

    pub fn carry(&self, old: &[u8], table: &mut [u8]) -> KeeperResult {
        unsafe { (self.carry)(old.as_ptr(), old.len(), table.as_mut_ptr(), table.len()) }
    }

    pub fn append(&self, table: &mut [u8], log: u64, value: &[u8], low: &mut u64, high: &mut u64) -> KeeperResult {
        unsafe { (self.append)(table.as_mut_ptr(), table.len(), log, value.as_ptr(), value.len(), low, high) }
    }

    pub fn advance(
        &self, table: &mut [u8], log: u64, position: u64, digest: &[u8], value: &[u8], low: &mut u64, high: &mut u64,
    ) -> KeeperResult {
        unsafe {
            (self.advance)(
                table.as_mut_ptr(), table.len(), log, position, digest.as_ptr(), digest.len(), value.as_ptr(),
                value.len(), low, high,
            )
        }
    }

    pub fn truncate(&self, table: &mut [u8], log: u64, position: u64, low: &mut u64, high: &mut u64) -> KeeperResult {
        unsafe { (self.truncate)(table.as_mut_ptr(), table.len(), log, position, low, high) }
    }

    pub fn lookup(
        &self, table: &[u8], log: u64, position: u64, nonce: &[u8], receipt: &mut [u8], examined: &mut u64,
    ) -> KeeperResult {
        unsafe {
            (self.lookup)(
                table.as_ptr(), table.len(), log, position, nonce.as_ptr(), nonce.len(), receipt.as_mut_ptr(),
                receipt.len(), examined,
            )
        }
    }

    pub fn end(&self, table: &[u8], log: u64, nonce: &[u8], receipt: &mut [u8]) -> KeeperResult {
        unsafe {
            (self.end)(
                table.as_ptr(), table.len(), log, nonce.as_ptr(), nonce.len(), receipt.as_mut_ptr(), receipt.len(),
            )
        }
    }

    pub fn pack(&self, survey: u64, reading: u64, position: &mut u64) -> u8 {
        unsafe { (self.pack)(survey, reading, position) }
    }

    pub fn split(&self, position: u64, survey: &mut u64, reading: &mut u64) -> u8 {
        unsafe { (self.split)(position, survey, reading) }
    }

    pub fn survey_advance(
        &self, table: &mut [u8], log: u64, at: (u64, u64), digest: &[u8], value: &[u8], low: &mut u64, high: &mut u64,
    ) -> KeeperResult {
        unsafe {
            (self.survey_advance)(
                table.as_mut_ptr(), table.len(), log, at.0, at.1, digest.as_ptr(), digest.len(), value.as_ptr(),
                value.len(), low, high,
            )
        }
    }

    pub fn survey_lookup(
        &self, table: &[u8], log: u64, at: (u64, u64), nonce: &[u8], receipt: &mut [u8], examined: &mut u64,
    ) -> KeeperResult {
        unsafe {
            (self.survey_lookup)(
                table.as_ptr(), table.len(), log, at.0, at.1, nonce.as_ptr(), nonce.len(), receipt.as_mut_ptr(),
                receipt.len(), examined,
            )
        }
    }

    pub fn survey_close(
        &self, table: &mut [u8], log: u64, survey: u64, value: &[u8], low: &mut u64, high: &mut u64,
    ) -> KeeperResult {
        unsafe {
            (self.survey_close)(table.as_mut_ptr(), table.len(), log, survey, value.as_ptr(), value.len(), low, high)
        }
    }

    /// The question for a position, or without one for the log's end.
    pub fn verify(
        &self, key: &[u8], receipt: &[u8], nonce: &[u8], keeper: u64, log: u64, position: Option<u64>,
        verdict: &mut Verdict,
    ) -> KeeperResult {
        unsafe {
            match position {
                Some(n) => (self.verify_lookup)(
                    key.as_ptr(), key.len(), receipt.as_ptr(), receipt.len(), nonce.as_ptr(), nonce.len(), keeper, log,
                    n, verdict,
                ),
                None => (self.verify_end)(
                    key.as_ptr(), key.len(), receipt.as_ptr(), receipt.len(), nonce.as_ptr(), nonce.len(), keeper, log,
                    verdict,
                ),
            }
        }
    }

    pub fn certify(
        &self, profile: (u64, u64), roster: &[u8], nonce: &[u8], log: u64, position: u64, certificate: &[u8],
        place: &mut u64, mask: &mut u32,
    ) -> KeeperResult {
        unsafe {
            (self.certify)(
                profile.0, profile.1, roster.as_ptr(), roster.len(), nonce.as_ptr(), nonce.len(), log, position,
                certificate.as_ptr(), certificate.len(), place, mask,
            )
        }
    }

    pub fn contradiction(
        &self, profile: (u64, u64), roster: &[u8], receipts: &[u8], found: &mut u8, first: &mut u64, second: &mut u64,
    ) -> KeeperResult {
        unsafe {
            (self.contradiction)(
                profile.0, profile.1, roster.as_ptr(), roster.len(), receipts.as_ptr(), receipts.len(), found, first,
                second,
            )
        }
    }

    pub fn receipt_sentence(&self, number: u8, verdict: &Verdict, sentence: &mut [u8]) -> u8 {
        unsafe { (self.receipt_sentence)(number, verdict, sentence.as_mut_ptr(), sentence.len()) }
    }

    pub fn certificate_sentence(&self, number: u8, place: u64, mask: u32, sentence: &mut [u8]) -> u8 {
        unsafe { (self.certificate_sentence)(number, place, mask, sentence.as_mut_ptr(), sentence.len()) }
    }

    pub fn compare(&self, run1: &Run, run2: &Run, collision: &mut [u8], verdict: &mut u8) -> KeeperResult {
        unsafe {
            (self.compare)(
                run1.start.as_ptr(), run1.start.len(), run1.first, run1.values.as_ptr(), run1.values.len(),
                run2.start.as_ptr(), run2.start.len(), run2.first, run2.values.as_ptr(), run2.values.len(),
                collision.as_mut_ptr(), collision.len(), verdict,
            )
        }
    }
}

#[derive(Clone)]
pub struct Run {
    pub start: Vec<u8>,
    pub first: u64,
    pub values: Vec<u8>,
}

/// Numbers at random, the same for the same seed (splitmix64).
pub struct Random(pub u64);

impl Random {
    pub fn next(&mut self) -> u64 {
        self.0 = self.0.wrapping_add(0x9e3779b97f4a7c15);
        let z = (self.0 ^ (self.0 >> 30)).wrapping_mul(0xbf58476d1ce4e5b9);
        let z = (z ^ (z >> 27)).wrapping_mul(0x94d049bb133111eb);
        z ^ (z >> 31)
    }

    /// Below n, which is not 0.
    pub fn below(&mut self, n: u64) -> u64 {
        self.next() % n
    }

    /// True once in n times.
    pub fn once_in(&mut self, n: u64) -> bool {
        self.below(n) == 0
    }

    pub fn pick<T: Copy>(&mut self, from: &[T]) -> T {
        from[self.below(from.len() as u64) as usize]
    }

    pub fn bytes(&mut self, n: usize) -> Vec<u8> {
        let mut v = Vec::with_capacity(n + 8);
        while v.len() < n {
            v.extend_from_slice(&self.next().to_le_bytes());
        }
        v.truncate(n);
        v
    }
}
