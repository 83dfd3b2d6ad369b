//! The four stores as the port borrows them: seven lists, filled with a pattern before each run; and for the plain walk an eighth, the fifth store.

use crate::random::Random;
use crate::words::{Lists, Put, Words};
use glamx::Vec3;
use parry3d::query::epa::{Contents, FaceRecord, Rooms};

/// Numbers that no run writes by chance, each place its own.
const PATTERN_ID: usize = 0x5A5A_0000_0000;
const PATTERN_BITS: u32 = 0x6B00_0000;
const PATTERN_FLAG: u8 = 7;

/// How the silhouette is walked; the plain walk borrows one store more.
#[derive(Copy, Clone, PartialEq)]
pub enum Walk {
    Recursive,
    Plain,
}

#[derive(Clone)]
pub struct Stores {
    vertices: Vec<f32>,
    ids: Vec<usize>,
    floats: Vec<f32>,
    deleted: Vec<u8>,
    edges: Vec<usize>,
    heap_ids: Vec<usize>,
    heap_keys: Vec<f32>,
    /// None where the walk is the recursive one, which has no pending questions.
    pending: Option<Vec<usize>>,
}

fn ids(count: usize) -> Vec<usize> {
    (0..count).map(|i| PATTERN_ID + i).collect()
}

fn floats(count: usize) -> Vec<f32> {
    (0..count)
        .map(|i| f32::from_bits(PATTERN_BITS + i as u32))
        .collect()
}

/// The lengths of lists of which the shortest holds `room` entries: one has no more, and a part of an entry at most.
fn lengths<const N: usize>(random: &mut Random, room: usize, sizes: [usize; N]) -> [usize; N] {
    let shortest = random.below(N);
    let mut list = 0;
    sizes.map(|size| {
        let more = if list == shortest { 0 } else { random.below(3) };
        list += 1;
        (room + more) * size + random.below(size)
    })
}

impl Stores {
    /// Stores for so many entries, of lists whose lengths differ.
    pub fn lent(random: &mut Random, rooms: Rooms, walk: Walk) -> Self {
        let [of_vertices] = lengths(random, rooms.vertices, [9]);
        let [of_ids, of_floats, of_deleted] = lengths(random, rooms.faces, [6, 6, 1]);
        let [of_edges] = lengths(random, rooms.edges, [2]);
        let [of_heap_ids, of_heap_keys] = lengths(random, rooms.heap, [1, 1]);
        let pending = match walk {
            Walk::Recursive => None,
            Walk::Plain => {
                let [of_pending] = lengths(random, rooms.pending, [2]);
                Some(ids(of_pending))
            }
        };
        Self {
            vertices: floats(of_vertices),
            ids: ids(of_ids),
            floats: floats(of_floats),
            deleted: vec![PATTERN_FLAG; of_deleted],
            edges: ids(of_edges),
            heap_ids: ids(of_heap_ids),
            heap_keys: floats(of_heap_keys),
            pending,
        }
    }

    /// After so many words of arguments.
    pub fn lists(&self, before: usize) -> Lists {
        let lists = Lists::after(before).and(&self.vertices);
        let lists = lists.and(&self.ids).and(&self.floats).and(&self.deleted);
        let lists = lists.and(&self.edges);
        let lists = lists.and(&self.heap_ids).and(&self.heap_keys);
        match &self.pending {
            Some(pending) => lists.and(pending),
            None => lists,
        }
    }

    /// The stores after a run: its entries; zeros where there was one and is none; and the rest as it was.
    pub fn write(&mut self, contents: &Contents) {
        for (i, vertex) in contents.vertices.iter().enumerate() {
            let vectors = [vertex.point, vertex.orig1, vertex.orig2];
            write_vectors(&mut self.vertices[9 * i..], &vectors);
        }
        for (i, face) in contents.faces.iter().enumerate() {
            self.write_face(i, face);
        }
        write_pairs(
            &mut self.edges,
            &contents.silhouette,
            contents.most_silhouette,
        );
        if let Some(pending) = &mut self.pending {
            write_pairs(pending, &contents.pending, contents.most_pending);
        }
        for i in 0..contents.most_heap {
            let (face, key) = contents.heap.get(i).copied().unwrap_or_default();
            self.heap_ids[i] = face;
            self.heap_keys[i] = key;
        }
    }

    fn write_face(&mut self, i: usize, face: &FaceRecord) {
        self.ids[6 * i..6 * i + 3].copy_from_slice(&face.pts);
        self.ids[6 * i + 3..6 * i + 6].copy_from_slice(&face.adj);
        let [x, y, z] = face.bcoords;
        write_vectors(
            &mut self.floats[6 * i..],
            &[face.normal, Vec3::new(x, y, z)],
        );
        self.deleted[i] = u8::from(face.deleted);
    }
}

/// What the lists hold, one after another.
impl Put for Stores {
    fn put(&self, words: &mut Words) {
        (&self.vertices, &self.ids, &self.floats, &self.deleted).put(words);
        (&self.edges, &self.heap_ids, &self.heap_keys).put(words);
        self.pending.iter().for_each(|pending| pending.put(words));
    }
}

/// Of so many places ever used those held, and zeros in the others.
fn write_pairs(list: &mut [usize], held: &[(usize, usize)], used: usize) {
    for i in 0..used {
        let (face, corner) = held.get(i).copied().unwrap_or_default();
        list[2 * i..2 * i + 2].copy_from_slice(&[face, corner]);
    }
}

fn write_vectors(place: &mut [f32], vectors: &[Vec3]) {
    let numbers = vectors.iter().flat_map(|v| [v.x, v.y, v.z]);
    for (to, from) in place.iter_mut().zip(numbers) {
        *to = from;
    }
}
