//! Stands in for GridWriter, which is not in the original's text: a picture cut into tiles, of which those that a region touches can be
//! written. A tile here is a block: block b covers columns 768·b onward, over the picture's whole height.
use std::marker::PhantomData;

/// The region's image, row after row. The original writes one tile by one thread, and tiles do not overlap.
pub struct GridWriter<'a> {
    out: *mut u16,
    width: u32,
    height: u32,
    origin: (u32, u32),
    tile_width: u32,
    lent: PhantomData<&'a mut [u16]>,
}

unsafe impl Sync for GridWriter<'_> {}
unsafe impl Send for GridWriter<'_> {}

/// The part of a tile that lies in the region. `skip_x` and `skip_y` are the tile's columns and rows before it.
pub struct Tile<'a> {
    first: *mut u16,
    stride: usize,
    width: u32,
    height: u32,
    pub skip_x: u32,
    pub skip_y: u32,
    lent: PhantomData<&'a mut [u16]>,
}

impl<'a> GridWriter<'a> {
    #[allow(clippy::too_many_arguments)]
    pub fn new(
        out: &'a mut [u16],
        width: u32,
        height: u32,
        samples: u32,
        origin: (u32, u32),
        tile_width: u32,
        tile_height: u32,
        image_width: u32,
        image_height: u32,
    ) -> Option<Self> {
        let fits = out.len() >= width as usize * height as usize && origin.0 + width <= image_width && origin.1 + height <= image_height;
        if !fits || samples != 1 || tile_height != image_height {
            return None;
        }
        Some(GridWriter { out: out.as_mut_ptr(), width, height, origin, tile_width, lent: PhantomData })
    }

    pub fn claim(&self, column: u32, row: u32) -> Option<Tile<'a>> {
        let (x, y) = self.origin;
        let left = column * self.tile_width;
        let from = left.max(x);
        let to = (left + self.tile_width).min(x + self.width);
        if row != 0 || from >= to {
            return None;
        }
        Some(Tile {
            first: unsafe { self.out.add((from - x) as usize) },
            stride: self.width as usize,
            width: to - from,
            height: self.height,
            skip_x: from - left,
            skip_y: y,
            lent: PhantomData,
        })
    }
}

impl Tile<'_> {
    pub fn size(&self) -> (usize, usize) {
        (self.width as usize, self.height as usize)
    }

    pub fn row(&mut self, y: usize) -> &mut [u16] {
        assert!(y < self.height as usize);
        unsafe { std::slice::from_raw_parts_mut(self.first.add(y * self.stride), self.width as usize) }
    }
}
