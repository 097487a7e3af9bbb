// The entries of the evaluator as C functions: link target/staticlib/libembed.a, which `bindings/library` writes, for x86-64 Linux.
//
// A slice is a pointer and a count of its elements; a count of 0 goes with any pointer that is aligned and not null.
// Every length is tested: no call reaches past what it was lent. Slices that are written must not overlap any other.
// Each function returns 0, or the number of a refusal. A refused call leaves all that it was lent as it stood, except `answer`;
// a run that a refused instruction stops keeps the steps done before it. A call that takes an answer sets all its words,
// to 0 where there is nothing to say; a wrong count of registers or answer changes nothing at all.
#ifndef LIR_H
#define LIR_H

#include <stddef.h>
#include <stdint.h>

#ifdef __cplusplus
extern "C" {
#endif

// How many elements each slice of a machine has. Where registers or answer have another count, the call is refused with 10.
enum {
    LIR_REGISTERS = 5,      // running, next, counter, depth, pointers
    LIR_ANSWER = 4,         // ended, tag, bits, count
    LIR_STORE = 32768,      // bytes
    LIR_FRAMES = 260,       // 65 records: id, return place, return variable + 1 or 0, allocations in the frames below
    LIR_BOUNDS = 513,       // where each allocation starts in the store, and then how many bytes are live
    LIR_POINTERS = 20480,   // 4,096 records: kind (0 local, 1 constant), index, id, allocation, offset
    LIR_VARIABLES = 512     // 256 records: tag and bits, 0 and 0 for unset
};

// What the words must be. lir_fresh asks for the lengths alone. Every other call that takes a machine looks at its image first, if it
// takes one, and is refused with 10 unless each table has exactly its length, the words keep these rules, and the state that they show is
// sound; no more is asked.
//   registers   running is 0, for idle, or 1
//   frames      the last word is 0 in record 0, and in no record less than in the one before, up to record number `depth`, whose last
//               word is the number of all live allocations
//   bounds      word 0 is 0, and no word is less than the one before, up to the word after the last live allocation's, which is at most 32,768
//   pointers    kind is 0 or 1; where it is 1, index is the constant's number, and id, allocation and offset are 0
//   variables   tag and bits are 0 and 0, or a kind's tag and bits of that kind. 1 is Bool, 2 U8, 3 U16, 4 U32, 5 U64, 6 I8, 7 I16, 8 I32,
//               9 I64, 10 F32, 11 F64, 12 Char, 13 Asn of 32 bits, 14 Pointer of 64. A Bool's bits are 0 or 1, a Char's a scalar value,
//               and any other's are below 2 to the power of its width
// The store holds any bytes. What lies above the depth, the live allocations and the pointers given out is free and means nothing.
// A state is sound if its depth is 1 to 64, and 1 where it is idle; frame 0 has id 0, ids rise up the stack and lie below the counter, and
// that is at most 4,294,967,295; live allocations are at most 512 and have at most 32,768 bytes, pointers are at most 4,096; next and return
// places are at most 4,096 and return variables below 256; and stored Chars are scalar values.

// The words of an answer.
enum {
    LIR_ENDED = 0,          // 1 after the last Return
    LIR_TAG = 1,            // the returned value's tag, 0 for none
    LIR_BITS = 2,
    LIR_COUNT = 3           // a run's steps, the new pointer's number or bytes written; where an image is refused, the place
};

// The refusals: of an image, of an entry, of an instruction, of room.
enum {
    LIR_DONE = 0,
    LIR_BYTES_RUN_OUT = 1,          // bytes run out, in a number before its tenth
    LIR_MALFORMED = 2,              // number malformed
    LIR_UNKNOWN = 3,                // unknown tag, flag, opcode or version, or a value too large for its width or kind
    LIR_OVER_LIMIT = 4,             // a count, size or running total over its limit
    LIR_BEYOND_COUNT = 5,           // a variable, label, constant or function beyond its count
    LIR_LEFT_OVER = 6,              // bytes left over
    LIR_NOT_SOUND = 10,             // state not sound
    LIR_RUNNING = 11,               // start on a running machine
    LIR_IDLE = 12,                  // run on an idle one
    LIR_NO_FUNCTION = 13,           // no such function
    LIR_WRONG_ARGUMENTS = 14,       // wrong number of arguments
    LIR_NOT_SCALAR = 15,            // a Char that is no scalar value
    LIR_NO_INSTRUCTION = 20,        // no instruction at this place
    LIR_NEVER_SET = 21,             // variable never set
    LIR_WRONG_KINDS = 22,           // wrong kinds for the instruction
    LIR_OUTSIDE_WIDTH = 23,         // integer result outside its width
    LIR_ZERO_DIVISOR = 24,          // integer division by zero
    LIR_NOT_GIVEN_OUT = 25,         // pointer number not given out
    LIR_THROUGH_CONSTANT = 26,      // write or offset through a constant pointer
    LIR_FRAME_GONE = 27,            // frame index not on the stack, or its id differs
    LIR_NO_ALLOCATION = 28,         // no such allocation in that frame
    LIR_BEYOND_LENGTH = 29,         // offset + size beyond the length
    LIR_MISALIGNED = 30,            // size does not divide offset; size 0 divides only 0
    LIR_NOT_BOOL = 31,              // Bool read from a byte above 1
    LIR_NO_RETURN_PLACE = 32,       // value returned where the call had no place
    LIR_OFFSET_TOO_LARGE = 33,      // offset sum above 2^64 - 1
    LIR_BYTES_EXCEED_SIZE = 34,     // Initialize bytes exceed its size
    LIR_FRAMES_FULL = 35,           // 64 frames stand, root included
    LIR_IDS_SPENT = 36,             // id counter is 4,294,967,295
    LIR_ALLOCATIONS_FULL = 37,      // 512 live allocations
    LIR_BYTES_FULL = 38,            // live bytes plus the request exceed 32,768
    LIR_POINTERS_FULL = 39,         // 4,096 pointers given out
    LIR_NO_CONSTANT = 40,           // constant not in this image
    LIR_SHORT_TABLE = 41,           // list table shorter than the pointers
    LIR_SHORT_BUFFER = 42           // image writer's buffer too short
};

// A machine's slices, each a pointer and a count: those that a call may change, and those that it only reads.
#define LIR_MACHINE                                                              \
    uint64_t *registers, size_t registers_count,                                 \
    uint64_t *answer, size_t answer_count,                                       \
    uint8_t *store, size_t store_count,                                          \
    uint64_t *frames, size_t frames_count,                                       \
    uint64_t *bounds, size_t bounds_count,                                       \
    uint64_t *pointers, size_t pointers_count

#define LIR_READ_TABLES                                                          \
    const uint64_t *frames, size_t frames_count,                                 \
    const uint64_t *bounds, size_t bounds_count,                                 \
    const uint64_t *pointers, size_t pointers_count,                             \
    const uint64_t *variables, size_t variables_count

// Fresh memory: idle, a root frame, nothing given out and no variable set.
uint64_t lir_fresh(LIR_MACHINE, uint64_t *variables, size_t variables_count);

// A function begins on an idle machine, with a context and arguments as tags and bits, one of each for an argument. A tag and bits
// that are no value, and bits that are missing, are 15.
uint64_t lir_start(const uint8_t *image, size_t image_count, uint64_t function, uint64_t context_tag, uint64_t context_bits,
                   const uint64_t *tags, size_t tags_count, const uint64_t *bits, size_t bits_count,
                   LIR_MACHINE, uint64_t *variables, size_t variables_count);

// One step.
uint64_t lir_step(const uint8_t *image, size_t image_count, LIR_MACHINE, uint64_t *variables, size_t variables_count);

// Steps until the budget is spent, the run returns, or an instruction is refused.
uint64_t lir_run(const uint8_t *image, size_t image_count, uint32_t budget, LIR_MACHINE, uint64_t *variables, size_t variables_count);

// A new allocation of zeros in the top frame; answer[LIR_COUNT] is its pointer's number.
uint64_t lir_allocate(size_t size, LIR_MACHINE, const uint64_t *variables, size_t variables_count);

// Bytes written through a pointer.
uint64_t lir_write(size_t pointer, const uint8_t *bytes, size_t bytes_count, const uint64_t *registers, size_t registers_count,
                   uint8_t *store, size_t store_count, LIR_READ_TABLES);

// As many bytes as the buffer holds, read through a pointer.
uint64_t lir_read(const uint8_t *image, size_t image_count, size_t pointer, uint8_t *bytes, size_t bytes_count,
                  const uint64_t *registers, size_t registers_count, uint64_t *answer, size_t answer_count,
                  const uint8_t *store, size_t store_count, LIR_READ_TABLES);

// The live list: of each pointer given out 1 or 0 for live or not, its frame's index, allocation and offset.
uint64_t lir_list(const uint64_t *registers, size_t registers_count, const uint8_t *store, size_t store_count, LIR_READ_TABLES,
                  uint64_t *live, size_t live_count, uint64_t *frame, size_t frame_count,
                  uint64_t *allocation, size_t allocation_count, uint64_t *offset, size_t offset_count);

// An image through its program back to bytes; answer[LIR_COUNT] is how many.
uint64_t lir_write_image(const uint8_t *image, size_t image_count, uint8_t *out, size_t out_count, uint64_t *answer, size_t answer_count);

#ifdef __cplusplus
}
#endif

#endif
