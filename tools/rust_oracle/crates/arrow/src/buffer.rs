//! Shared buffers. A `BooleanBuffer` keeps the bits above its length zero.

use std::ops::Deref;
use std::sync::Arc;

#[derive(Debug, Clone)]
pub struct ScalarBuffer<T>(Arc<Vec<T>>);

impl<T> Deref for ScalarBuffer<T> {
    type Target = [T];
    #[inline]
    fn deref(&self) -> &[T] {
        self.0.as_slice()
    }
}

impl<T> From<Vec<T>> for ScalarBuffer<T> {
    #[inline]
    fn from(v: Vec<T>) -> Self {
        ScalarBuffer(Arc::new(v))
    }
}

#[inline]
pub(crate) fn words_for(bits: usize) -> usize {
    bits.div_ceil(64)
}

#[derive(Debug, Clone)]
pub struct BooleanBuffer {
    words: Arc<Vec<u64>>,
    len: usize,
}

impl BooleanBuffer {
    /// Bits from `words`; those above `len` are cleared.
    pub fn new(mut words: Vec<u64>, len: usize) -> Self {
        debug_assert_eq!(words.len(), words_for(len));
        if len % 64 != 0
            && let Some(last) = words.last_mut()
        {
            *last &= (1u64 << (len % 64)) - 1;
        }
        BooleanBuffer {
            words: Arc::new(words),
            len,
        }
    }
    pub fn new_set(len: usize) -> Self {
        Self::new(vec![u64::MAX; words_for(len)], len)
    }
    pub fn new_unset(len: usize) -> Self {
        Self::new(vec![0; words_for(len)], len)
    }
    /// 64 answers to a word, as arrow's `collect_bool`.
    #[inline]
    pub fn collect_bool(len: usize, mut f: impl FnMut(usize) -> bool) -> Self {
        let mut words = Vec::with_capacity(words_for(len));
        let whole = len / 64;
        for w in 0..whole {
            let mut packed = 0u64;
            for b in 0..64 {
                packed |= (f(w * 64 + b) as u64) << b;
            }
            words.push(packed);
        }
        let rest = len % 64;
        if rest != 0 {
            let mut packed = 0u64;
            for b in 0..rest {
                packed |= (f(whole * 64 + b) as u64) << b;
            }
            words.push(packed);
        }
        BooleanBuffer {
            words: Arc::new(words),
            len,
        }
    }
    #[inline]
    pub fn len(&self) -> usize {
        self.len
    }
    #[inline]
    pub fn words(&self) -> &[u64] {
        &self.words
    }
    #[inline]
    pub fn value(&self, i: usize) -> bool {
        assert!(i < self.len);
        unsafe { self.value_unchecked(i) }
    }
    /// # Safety
    /// `i < len`
    #[inline]
    pub unsafe fn value_unchecked(&self, i: usize) -> bool {
        unsafe { (*self.words.get_unchecked(i / 64) >> (i % 64)) & 1 != 0 }
    }
    pub fn count_set_bits(&self) -> usize {
        self.words.iter().map(|w| w.count_ones() as usize).sum()
    }
    pub fn any_set(&self) -> bool {
        self.words.iter().any(|w| *w != 0)
    }
    pub fn not(&self) -> Self {
        Self::new(self.words.iter().map(|w| !w).collect(), self.len)
    }
    pub fn and(&self, o: &Self) -> Self {
        self.zip_words(o, |a, b| a & b)
    }
    pub fn zip_words(&self, o: &Self, f: impl Fn(u64, u64) -> u64) -> Self {
        assert_eq!(self.len, o.len);
        Self::new(
            self.words
                .iter()
                .zip(o.words.iter())
                .map(|(a, b)| f(*a, *b))
                .collect(),
            self.len,
        )
    }
    /// All of `set_indices`, whose number is known.
    pub fn set_places(&self, count: usize) -> Vec<usize> {
        let mut out: Vec<usize> = Vec::with_capacity(count);
        let free = &mut out.spare_capacity_mut()[..count];
        let mut n = 0;
        for (w, word) in self.words.iter().enumerate() {
            let mut word = *word;
            while word != 0 {
                free[n].write(w * 64 + word.trailing_zeros() as usize);
                n += 1;
                word &= word - 1;
            }
        }
        // the first n places are written
        unsafe { out.set_len(n) };
        out
    }
    pub fn set_indices(&self) -> SetIndices<'_> {
        SetIndices {
            words: &self.words,
            at: 0,
            word: self.words.first().copied().unwrap_or(0),
        }
    }
    pub fn set_slices(&self) -> SetSlices<'_> {
        SetSlices { buf: self, at: 0 }
    }
    /// The first place at or after `from` whose bit is `bit`, or the length.
    fn next(&self, from: usize, bit: bool) -> usize {
        if from >= self.len {
            return self.len;
        }
        let flip = if bit { 0 } else { u64::MAX };
        let mut w = from / 64;
        let mut word = (self.words[w] ^ flip) & (u64::MAX << (from % 64));
        while word == 0 {
            w += 1;
            if w == self.words.len() {
                return self.len;
            }
            word = self.words[w] ^ flip;
        }
        (w * 64 + word.trailing_zeros() as usize).min(self.len)
    }
}

pub struct SetIndices<'a> {
    words: &'a [u64],
    at: usize,
    word: u64,
}

impl Iterator for SetIndices<'_> {
    type Item = usize;
    #[inline]
    fn next(&mut self) -> Option<usize> {
        while self.word == 0 {
            self.at += 1;
            self.word = *self.words.get(self.at)?;
        }
        let i = self.at * 64 + self.word.trailing_zeros() as usize;
        self.word &= self.word - 1;
        Some(i)
    }
}

pub struct SetSlices<'a> {
    buf: &'a BooleanBuffer,
    at: usize,
}

impl Iterator for SetSlices<'_> {
    type Item = (usize, usize);
    #[inline]
    fn next(&mut self) -> Option<(usize, usize)> {
        let start = self.buf.next(self.at, true);
        if start == self.buf.len {
            return None;
        }
        let end = self.buf.next(start, false);
        self.at = end;
        Some((start, end))
    }
}

/// Builds bits one after the other.
pub struct BitBuilder {
    words: Vec<u64>,
    len: usize,
}

impl BitBuilder {
    pub fn with_capacity(bits: usize) -> Self {
        BitBuilder {
            words: Vec::with_capacity(words_for(bits)),
            len: 0,
        }
    }
    #[inline]
    pub fn push(&mut self, b: bool) {
        if self.len % 64 == 0 {
            self.words.push(b as u64);
        } else {
            let w = self.len / 64;
            self.words[w] |= (b as u64) << (self.len % 64);
        }
        self.len += 1;
    }
    /// The bits `start..end` of `src`, a word at a time.
    pub fn push_range(&mut self, src: &BooleanBuffer, start: usize, end: usize) {
        let mut at = start;
        while at < end {
            let n = (end - at).min(64);
            let w = at / 64;
            let s = at % 64;
            let mut word = src.words[w] >> s;
            if s != 0 && s + n > 64 {
                word |= src.words[w + 1] << (64 - s);
            }
            if n < 64 {
                word &= (1u64 << n) - 1;
            }
            let d = self.len % 64;
            if d == 0 {
                self.words.push(word);
            } else {
                *self.words.last_mut().unwrap() |= word << d;
                if d + n > 64 {
                    self.words.push(word >> (64 - d));
                }
            }
            self.len += n;
            at += n;
        }
    }
    pub fn finish(self) -> BooleanBuffer {
        BooleanBuffer {
            words: Arc::new(self.words),
            len: self.len,
        }
    }
}

/// Set bits are valid entries.
#[derive(Debug, Clone)]
pub struct NullBuffer {
    bits: BooleanBuffer,
    null_count: usize,
}

impl NullBuffer {
    pub fn new(bits: BooleanBuffer) -> Self {
        let null_count = bits.len() - bits.count_set_bits();
        NullBuffer { bits, null_count }
    }
    pub fn new_null(len: usize) -> Self {
        NullBuffer {
            bits: BooleanBuffer::new_unset(len),
            null_count: len,
        }
    }
    pub fn union(a: Option<&NullBuffer>, b: Option<&NullBuffer>) -> Option<NullBuffer> {
        match (a, b) {
            (Some(a), Some(b)) => Some(NullBuffer::new(a.bits.and(&b.bits))),
            (Some(a), None) | (None, Some(a)) => Some(a.clone()),
            (None, None) => None,
        }
    }
    pub fn inner(&self) -> &BooleanBuffer {
        &self.bits
    }
    #[inline]
    pub fn len(&self) -> usize {
        self.bits.len()
    }
    #[inline]
    pub fn null_count(&self) -> usize {
        self.null_count
    }
    #[inline]
    pub fn is_valid(&self, i: usize) -> bool {
        self.bits.value(i)
    }
    #[inline]
    pub fn is_null(&self, i: usize) -> bool {
        !self.is_valid(i)
    }
}
