//! Values as words, as the program `calls` reads and writes them: a float is its bits, a size two words, the low one first.

use glamx::{Pose3, Vec3};

/// Words of a call, or of an answer, in which all NaNs are one value.
pub struct Words<'a> {
    pub words: &'a mut Vec<u32>,
    pub one_nan: bool,
}

impl Words<'_> {
    fn push(&mut self, word: u32) {
        self.words.push(word);
    }
}

pub trait Put {
    fn put(&self, words: &mut Words);
}

/// Whether two values are the same words, all NaNs one.
pub fn same(a: &impl Put, b: &impl Put) -> bool {
    answer_words(a) == answer_words(b)
}

fn answer_words(value: &impl Put) -> Vec<u32> {
    let mut words = Vec::new();
    value.put(&mut Words {
        words: &mut words,
        one_nan: true,
    });
    words
}

/// All NaNs are one value.
pub fn bits(x: f32) -> u32 {
    if x.is_nan() {
        0x7FC0_0000
    } else {
        x.to_bits()
    }
}

impl Put for f32 {
    fn put(&self, words: &mut Words) {
        let word = if words.one_nan {
            bits(*self)
        } else {
            self.to_bits()
        };
        words.push(word);
    }
}

impl Put for u32 {
    fn put(&self, words: &mut Words) {
        words.push(*self);
    }
}

impl Put for bool {
    fn put(&self, words: &mut Words) {
        words.push(u32::from(*self));
    }
}

impl Put for u8 {
    fn put(&self, words: &mut Words) {
        words.push(u32::from(*self));
    }
}

impl Put for usize {
    fn put(&self, words: &mut Words) {
        let size = *self as u64;
        words.push(size as u32);
        words.push((size >> 32) as u32);
    }
}

impl Put for () {
    fn put(&self, _: &mut Words) {}
}

impl<T: Put> Put for &T {
    fn put(&self, words: &mut Words) {
        (*self).put(words);
    }
}

/// What the list holds, without its length.
impl<T: Put> Put for [T] {
    fn put(&self, words: &mut Words) {
        for part in self {
            part.put(words);
        }
    }
}

impl<T: Put, const N: usize> Put for [T; N] {
    fn put(&self, words: &mut Words) {
        self[..].put(words);
    }
}

impl<T: Put> Put for Vec<T> {
    fn put(&self, words: &mut Words) {
        self[..].put(words);
    }
}

macro_rules! put_tuples {
    ($(($($part:ident)*))*) => {
        $(impl<$($part: Put),*> Put for ($($part,)*) {
            fn put(&self, words: &mut Words) {
                #[allow(non_snake_case)]
                let ($($part,)*) = self;
                $($part.put(words);)*
            }
        })*
    };
}

put_tuples! { (A B) (A B C) (A B C D) (A B C D E) (A B C D E F) (A B C D E F G) }

impl Put for Vec3 {
    fn put(&self, words: &mut Words) {
        [self.x, self.y, self.z].put(words);
    }
}

impl Put for Pose3 {
    fn put(&self, words: &mut Words) {
        let r = self.rotation;
        ([r.x, r.y, r.z, r.w], self.translation).put(words);
    }
}

/// Lists that a call lends: for each its place among the words of the arguments and its length, and then what they hold.
pub struct Lists {
    /// Words of the arguments before the lists.
    before: usize,
    heads: Vec<[usize; 2]>,
    content: Vec<u32>,
}

impl Lists {
    pub fn after(before: usize) -> Self {
        Self {
            before,
            heads: Vec::new(),
            content: Vec::new(),
        }
    }

    pub fn and<T: Put>(mut self, list: &[T]) -> Self {
        self.heads.push([self.content.len(), list.len()]);
        list.put(&mut Words {
            words: &mut self.content,
            one_nan: false,
        });
        self
    }
}

impl Put for Lists {
    fn put(&self, words: &mut Words) {
        let first = self.before + 2 * self.heads.len();
        for [place, length] in &self.heads {
            [(first + place) as u32, *length as u32].put(words);
        }
        words.words.extend(&self.content);
    }
}
