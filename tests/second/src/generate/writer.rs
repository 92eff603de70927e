//! Writes records of every kind as bytes; it tests nothing, so that bad files can be written too.

#[derive(Clone, Default, Debug)]
pub struct Writer {
    pub bytes: Vec<u8>,
}

impl Writer {
    pub fn new() -> Writer {
        Writer::default()
    }

    pub fn put(&mut self, record: &[u8]) -> &mut Writer {
        self.bytes.extend_from_slice(record);
        self
    }

    pub fn name(&mut self, n: u8, mask: u8) -> &mut Writer {
        self.put(&[1, n, mask])
    }

    pub fn label(&mut self, l: u8, kind: u8, flag: u8) -> &mut Writer {
        self.put(&[2, l, kind, flag])
    }

    pub fn forbid(&mut self, l: u8) -> &mut Writer {
        self.put(&[3, l])
    }

    pub fn function(&mut self, l: u8, this: u8, formals: [u8; 6]) -> &mut Writer {
        self.put(&[4, l, this]).put(&formals)
    }

    pub fn variable(&mut self, v: u8, owner: u8, name: u8) -> &mut Writer {
        self.put(&[5, v, owner, name])
    }

    pub fn grant(&mut self, v: u8) -> &mut Writer {
        self.put(&[6, v])
    }

    pub fn property(&mut self, l: u8, n: u8, x: u8) -> &mut Writer {
        self.put(&[7, l, n, x])
    }

    pub fn held(&mut self, v: u8, l: u8) -> &mut Writer {
        self.put(&[8, v, l])
    }

    pub fn profile(&mut self, c: u8) -> &mut Writer {
        self.put(&[9, c])
    }

    pub fn copy(&mut self, k: u8, y: u8, source: u8) -> &mut Writer {
        self.put(&[16, k, y, source])
    }

    pub fn load(&mut self, k: u8, y: u8, object: u8, key: u8, w: u8) -> &mut Writer {
        self.put(&[17, k, y, object, key, w])
    }

    pub fn store(&mut self, k: u8, object: u8, key: u8, value: u8) -> &mut Writer {
        self.put(&[18, k, object, key, value])
    }

    pub fn make(&mut self, k: u8, y: u8, l: u8) -> &mut Writer {
        self.put(&[19, k, y, l])
    }

    pub fn make_function(&mut self, k: u8, y: u8, l: u8, q: u8) -> &mut Writer {
        self.put(&[20, k, y, l, q])
    }

    pub fn call(&mut self, k: u8, y: u8, callee: u8, this: u8, args: [u8; 6]) -> &mut Writer {
        self.put(&[21, k, y, callee, this]).put(&args)
    }

    pub fn new_object(&mut self, k: u8, y: u8, callee: u8, t: u8, l: u8, args: [u8; 6]) -> &mut Writer {
        self.put(&[22, k, y, callee, t, l]).put(&args)
    }

    pub fn give_back(&mut self, k: u8, value: u8) -> &mut Writer {
        self.put(&[23, k, value])
    }

    pub fn throw(&mut self, k: u8, value: u8) -> &mut Writer {
        self.put(&[24, k, value])
    }

    pub fn catch(&mut self, k: u8, y: u8) -> &mut Writer {
        self.put(&[25, k, y])
    }

    pub fn prim(&mut self, k: u8, object: u8) -> &mut Writer {
        self.put(&[26, k, object])
    }

    /// Fills up to exactly `length` bytes with statements that say nothing, where 3 or 4 or at least 6 are missing.
    pub fn fill(&mut self, length: usize) {
        loop {
            match length.saturating_sub(self.bytes.len()) {
                0..=2 => return,
                4 | 8 | 5 | 7 => self.copy(0, 0, 0),
                _ => self.throw(0, 0),
            };
        }
    }
}
