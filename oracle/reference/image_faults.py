"""Plants faults in image.py, one at a time, and counts the lines of image_cases.txt whose answer then differs."""

import os

from image_cases import HERE, expand

FAULTS = [
    ("a number that is not the shortest is taken", "shortest = group == 0 or byte != 0", "shortest = True"),
    ("the place is that of the byte where the input stopped", "raise Refused(OUT_OF_BYTES, start)\n            byte", "raise Refused(OUT_OF_BYTES, start + group)\n            byte"),
    ("instructions are counted a block, not over all", "count = self.up_to(INSTRUCTIONS - total)", "count = self.up_to(INSTRUCTIONS)"),
    ("constant bytes are counted a constant, not over all", "self.up_to(CONSTANT_BYTES - total)", "self.up_to(CONSTANT_BYTES)"),
    ("a number of ten bytes may wrap", "if not shortest or value > 2**64 - 1:", "value %= 2**64\n                if not shortest:"),
    ("bytes left over are ignored", "if self.at < len(self.image):", "if False:"),
    ("a type of tag 13 is taken", "n not in (CHAR, ASN)", "n != CHAR"),
    ("a surrogate is a Char", "bits <= 0xD7FF or 0xE000 <= bits <= 0x10FFFF", "bits <= 0x10FFFF"),
    ("a constant item may have parameters", "0 if kind == 1 else PARAMETERS", "PARAMETERS"),
    ("a constant item may lack its flag", "n == 1 if kind == 1 else n <= 1", "n <= 1"),
    ("over-long is refused after the fields", "if len(self.image) > IMAGE_LIMIT:", "if False:"),
    ("a beyond-count number is 3", "OVER_LIMIT, BEYOND_COUNT, LEFT_OVER = 1, 2, 3, 4, 5, 6", "OVER_LIMIT, BEYOND_COUNT, LEFT_OVER = 1, 2, 3, 4, 3, 6"),
    ("257 variables", "VARIABLES, CONSTANTS, FUNCTIONS, BLOCKS = 256", "VARIABLES, CONSTANTS, FUNCTIONS, BLOCKS = 257"),
    ("65 constants", "BLOCKS = 256, 64, 64", "BLOCKS = 256, 65, 64"),
    ("65 functions", "BLOCKS = 256, 64, 64", "BLOCKS = 256, 64, 65"),
    ("513 blocks", "64, 64, 512", "64, 64, 513"),
    ("8,193 constant bytes", "8192, 4096", "8193, 4096"),
    ("4,097 instructions", "8192, 4096", "8192, 4097"),
    ("17 parameters", "BRANCHES = 16, 16, 16, 64", "BRANCHES = 17, 16, 16, 64"),
    ("17 slots", "BRANCHES = 16, 16, 16, 64", "BRANCHES = 16, 17, 16, 64"),
    ("17 arguments", "BRANCHES = 16, 16, 16, 64", "BRANCHES = 16, 16, 17, 64"),
    ("65 branches", "BRANCHES = 16, 16, 16, 64", "BRANCHES = 16, 16, 16, 65"),
    ("a size of 32,769", "SIZE, INITIAL_BYTES = 32768, 256", "SIZE, INITIAL_BYTES = 32769, 256"),
    ("257 initial bytes", "SIZE, INITIAL_BYTES = 32768, 256", "SIZE, INITIAL_BYTES = 32768, 257"),
    ("an image of 32,769 bytes", "IMAGE_LIMIT = 32768", "IMAGE_LIMIT = 32769"),
    ("a u32 field of 2^32", "n < 1 << 32", "n <= 1 << 32"),
    ("integer comparison 10", "n <= 9", "n <= 10"),
    ("float comparison 6", "n <= 5", "n <= 6"),
    ("the place of refused bits is the tag", "return (tag, self.known(lambda bits: fits(tag, bits)))",
     "at = self.at - 1\n        bits = self.number()\n        if not fits(tag, bits):\n            raise Refused(UNKNOWN, at)\n        return (tag, bits)"),
]


def main():
    with open(os.path.join(HERE, "image.py"), encoding="utf-8") as source:
        good = source.read()
    with open(os.path.join(HERE, "image_cases.txt"), encoding="ascii") as lines:
        cases = [line.split() for line in lines]
    cases = [(expand(text), (int(number), int(place))) for text, number, place in cases]
    for name, old, new in [("no fault", "", "")] + FAULTS:
        assert old in good, name
        module = {}
        exec(good.replace(old, new, 1) if old else good, module)
        differ = sum(module["answer"](whole) != told for whole, told in cases)
        print(f"{differ:6} of {len(cases)} lines differ: {name}")


if __name__ == "__main__":
    main()
