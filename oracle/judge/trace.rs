{
    // This stands inside the loop, so it may look at private fields; it changes nothing.
    impl crate::probe::View for Memory {
        fn counter(&self) -> usize {
            self.id_counter
        }
        fn depth(&self) -> usize {
            self.stack.len()
        }
        fn frame(&self, index: usize) -> (usize, usize, Option<&Var>) {
            let frame = &self.stack[index];
            (frame.id, frame.return_address, frame.return_place.as_ref())
        }
        fn allocations(&self, index: usize) -> usize {
            self.stack[index].allocations.len()
        }
        fn bytes(&self, index: usize, allocation: usize) -> &[u8] {
            &self.stack[index].allocations[allocation].inner
        }
        fn pointers(&self) -> usize {
            self.pointers.len()
        }
        fn pointer(&self, number: usize) -> crate::probe::Held {
            match &self.pointers[number] {
                Pointer::Global(p) => crate::probe::Held::Constant(p.ptr as usize),
                Pointer::Local(p) => crate::probe::Held::Local([
                    p.stack_index,
                    p.stack_id,
                    p.allocation_index,
                    p.allocation_offset,
                ]),
            }
        }
    }
    crate::probe::before(program_counter, &vars, mem, instruction)
}
