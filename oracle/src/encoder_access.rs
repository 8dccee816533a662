// Appended to the copy of encoder.rs that is compiled.

impl SequenceEncoder {
    /// Puts the encoder where it stands after an earlier unit of its sequence: the next
    /// picture has this number, and the unit before it had this length.
    pub fn continue_sequence(&mut self, picture_number: u32, previous_length: u32) {
        self.picture_number = picture_number;
        self.prev_unit_len = previous_length;
        self.in_sequence = true;
    }

    /// The quantised numbers of each slice's components, before any cut, where the slices have
    /// these indices.
    pub fn quantised(&self, pic: &PictureInput, indices: &[u64]) -> Result<Vec<[Vec<i64>; 3]>> {
        let cp = self.seq.coding_parameters;
        let tp = &self.base_tp;
        let luma = (cp.luma_width, cp.luma_height, cp.luma_depth);
        let colour = (cp.color_diff_width, cp.color_diff_height, cp.color_diff_depth);
        let component = |samples, (width, height, depth)| {
            let plane = transform::pad_component(samples, width, height, depth, tp);
            transform::dwt(&plane, width, height, tp)
        };
        let y = component(pic.y, luma)?;
        let [c1, c2] = [component(pic.c1, colour)?, component(pic.c2, colour)?];
        let mut coder = SliceCoder::new(tp, self.cfg.kind, [&y, &c1, &c2]);
        let slices = (0..).zip(indices).map(|(k, &index)| {
            let slice = coder.quantise(k % tp.slices_x, k / tp.slices_x, index);
            coder.commit(&slice);
            slice.comps
        });
        Ok(slices.collect())
    }
}
