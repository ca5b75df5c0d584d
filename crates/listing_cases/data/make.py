#!/usr/bin/env python3
"""Writes the cases of the listing: the files beside this program, and ../args and ../stdout.

    crates/listing_cases/data/make.py

A case is told by its contents: a version, a byte order, entries and tensors, and at times what is
wrong with it. Its file is written from them, and so is the text that a listing of it must be, by
the rules of the format: README.md says which. No file is read here, and no reader is asked.
"""

from pathlib import Path

# Types of values, and the bytes of a scalar of each.
U8, I8, U16, I16, U32, I32, F32, BOOL, STRING, ARRAY, U64, I64, F64 = range(13)
WIDTHS = {U8: 1, I8: 1, U16: 2, I16: 2, U32: 4, I32: 4, F32: 4, BOOL: 1, U64: 8, I64: 8, F64: 8}
INTEGERS = {U8, I8, U16, I16, U32, I32, U64, I64}

# Byte orders: whether numbers are big-endian, and the magic in front of them. Other tools keep the
# magic of a little-endian file in front of a big-endian one of version 3; that is BIG.
LITTLE, BIG, BIG_MAGIC = (False, b"GGUF"), (True, b"GGUF"), (True, b"FUGG")

# The bytes of a block of each kind; a kind that is not here is none.
TYPE_SIZES = {
    0: 4, 1: 2, 2: 18, 3: 20, 6: 22, 7: 24, 8: 34, 9: 36, 10: 84, 11: 110, 12: 144, 13: 176,
    14: 210, 15: 292, 16: 66, 17: 74, 18: 98, 19: 50, 20: 18, 21: 110, 22: 82, 23: 136, 24: 1,
    25: 2, 26: 4, 27: 8, 28: 8, 29: 56, 30: 2, 31: 0, 32: 0, 33: 0, 34: 54, 35: 66, 36: 0, 37: 0,
    38: 0, 39: 17,
}  # fmt: skip

# The kinds with one number in a block, and those with 32. The others have 256.
BLOCKS_OF_1 = {0, 1, 24, 25, 26, 27, 28, 30}
BLOCKS_OF_32 = {2, 3, 6, 7, 8, 9, 20, 39}

# The largest number of 64 bits, and the longest string.
GREATEST = 2**64 - 1
LONGEST = 2**30

# The largest offset that alignment 32 leaves.
LAST_OFFSET = 2**64 - 32


def block_size(kind):
    """The numbers in a block of a kind."""
    return 1 if kind in BLOCKS_OF_1 else 32 if kind in BLOCKS_OF_32 else 256


def is_whole(kind, lengths):
    """Whether the first length is whole blocks. A kind without bytes is not asked for that."""
    first = lengths[0] if lengths else 1
    return TYPE_SIZES[kind] == 0 or first % block_size(kind) == 0


def product(lengths):
    """The product of lengths, taken from the left; nothing where one on the way passes 64 bits."""
    result = 1
    for length in lengths:
        result *= length
        if result > GREATEST:
            return None
    return result


def alignment_of(entries):
    """The alignment that entries say: the last `general.alignment` where it is usable, else 32."""
    said = [(kind, value) for key, kind, value in entries if key == b"general.alignment"]
    if said:
        kind, value = said[-1]
        if kind in INTEGERS and value > 0 and value % 8 == 0:
            return value
    return 32


class File:
    """A file as it is written, and what is told of it: its contents, or what is wrong with it.

    A function that writes a field answers the field's place.
    """

    def __init__(self, version=3, order=LITTLE):
        self.version, (self.big, self.magic) = version, order
        self.bytes, self.entries, self.tensors = b"", [], []
        # The place of each tensor's offset, with the offset.
        self.offsets = []
        self.total, self.answer = 0, None

    # Fields

    def raw(self, bytes):
        place = len(self.bytes)
        self.bytes += bytes
        return place

    def number(self, width, value):
        order = "big" if self.big else "little"
        return self.raw((value % 2 ** (8 * width)).to_bytes(width, order))

    def size(self, value):
        return self.number(4 if self.version == 1 else 8, value)

    def string(self, text):
        """A string. Its place is that of its size."""
        place = self.size(len(text))
        self.raw(text)
        return place

    # What stands in a header

    def start(self, tensors, entries):
        """The magic, the version and both counts. The places are those of the counts."""
        self.raw(self.magic)
        self.number(4, self.version)
        return self.size(tensors), self.size(entries)

    def key_and_type(self, key, kind):
        """The front of an entry. The place is that of its type."""
        self.string(key)
        return self.number(4, kind)

    def item(self, kind, value):
        """A value, or an item of an array. An array is its item type and its items."""
        if kind == STRING:
            return self.string(value)
        if kind != ARRAY:
            return self.number(WIDTHS[kind], value)
        item_type, items = value
        place = self.array_start(item_type, len(items))
        for item in items:
            self.item(item_type, item)
        return place

    def array_start(self, kind, count):
        """The front of an array. The place is that of its item type."""
        place = self.number(4, kind)
        self.size(count)
        return place

    def arrays_in_one_another(self, depth):
        """The fronts of so many arrays, each the only item of the one before."""
        return [self.array_start(ARRAY, 1) for _ in range(depth)]

    def entry(self, key, kind, value):
        """A whole entry."""
        self.key_and_type(key, kind)
        self.item(kind, value)
        self.entries.append((key, kind, value))

    def name_and_dimensions(self, name, dimensions):
        """The front of a tensor record. The place is that of its dimension count."""
        self.string(name)
        return self.number(4, dimensions)

    def tensor(self, name, kind, lengths, offset):
        """A whole tensor record. Where a rule refuses it, the answer of the file is that.

        Whether its offset is aligned is not asked before the header's end.
        """
        place = len(self.bytes)
        self.name_and_dimensions(name, len(lengths))
        for length in lengths:
            self.number(8, length)
        kind_place = self.number(4, kind)
        self.offsets.append((self.number(8, offset), offset))
        numbers = product(lengths)
        if kind not in TYPE_SIZES:
            self.refused(11, kind_place)
        elif not is_whole(kind, lengths):
            self.refused(17, place)
        elif numbers is None:
            self.refused(13, place)
        elif numbers * TYPE_SIZES[kind] > GREATEST:
            self.refused(14, place)
        elif self.total + numbers > GREATEST:
            self.refused(15, place)
        else:
            self.total += numbers
            size, rest = divmod(numbers * TYPE_SIZES[kind], block_size(kind))
            assert rest == 0, (kind, lengths)
            self.tensors.append((name, kind, lengths, offset, size))

    # What a listing of it says

    def refused(self, number, place):
        """The file is refused, unless something before this refused it already."""
        if self.answer is None:
            self.answer = b"refused %d %d\n" % (number, place)

    def cut(self, place, left):
        """Cuts the field at a place, its last so far, to so many bytes: it is not wholly there."""
        self.bytes = self.bytes[: place + left]
        self.refused(1, place)

    def missing(self):
        """Nothing follows, and a field should."""
        self.refused(1, len(self.bytes))

    def ended(self):
        """The header ends here: the text of its contents, unless it was refused.

        All entries and tensors are known now, so this is where offsets are held against the
        alignment, in the order of the file.
        """
        end, unit = len(self.bytes), alignment_of(self.entries)
        for place, offset in self.offsets:
            if offset % unit != 0:
                self.refused(16, place)
        if self.answer is None:
            self.listed(end, unit)

    def listed(self, end, unit):
        """The header is accepted. It ends here, and this is its alignment."""
        data = (end + unit - 1) // unit * unit
        counts = len(self.entries), len(self.tensors)
        order = b"BE" if self.big else b"LE"
        first = b"gguf v%d %b kv %d tensors %d align %d data %d\n"
        self.answer = first % (self.version, order, *counts, unit, data)
        last = {key: kind for key, kind, value in self.entries}
        for key in sorted(last):
            self.answer += b"key %b %d\n" % (key, last[key])
        for name, kind, lengths, offset, size in self.tensors:
            shape = b"x".join(b"%d" % length for length in lengths) or b"-"
            self.answer += b"%b %d %b %d %d\n" % (name, kind, shape, offset, size)


# Every case, by its name and in the order in which the program lists them.
CASES = {}


def check_names():
    """A case is refused as its name says. All but the faults are listed where it says nothing."""
    for name, file in CASES.items():
        if name.startswith("refused_"):
            number = int(name.split("_")[1])
            assert file.answer.startswith(b"refused %d " % number), name
        elif not name.startswith("fault_"):
            assert file.answer.startswith(b"gguf v"), name


def new(name, version=3, order=LITTLE):
    CASES[name] = File(version, order)
    return CASES[name]


def whole(name, entries=(), tensors=(), version=3, order=LITTLE, after=b""):
    """A header of these contents, with their counts, and bytes after it."""
    file = new(name, version, order)
    file.start(len(tensors), len(entries))
    for entry in entries:
        file.entry(*entry)
    for tensor in tensors:
        file.tensor(*tensor)
    file.ended()
    file.raw(after)


def front(name, tensors=0, entries=0, version=3):
    """A file that is going to be wrong after its counts."""
    file = new(name, version)
    file.start(tensors, entries)
    return file


def a_and_b(a, b):
    """The tensors a and b, at these offsets."""
    return [(b"a", 0, [5], a), (b"b", 1, [3], b)]


A_AND_B = a_and_b(0, 32)


def alignment_entries(*alignments):
    """An entry `general.alignment` for each of these."""
    return [(b"general.alignment", U32, alignment) for alignment in alignments]


def small_headers():
    whole("empty_v1", version=1)
    whole("empty_v2", version=2)
    whole("empty_v3")
    whole("empty_big_end", order=BIG)
    whole("empty_big_end_magic", order=BIG_MAGIC)
    whole("two_tensors_v1", tensors=A_AND_B, version=1)
    whole("two_tensors_v2", tensors=A_AND_B, version=2)
    whole("two_tensors_v3", tensors=A_AND_B)
    whole("two_tensors_big_end", tensors=A_AND_B, order=BIG)
    whole("two_tensors_big_end_magic", tensors=A_AND_B, order=BIG_MAGIC)
    whole("two_tensors_v1_big_end_magic", tensors=A_AND_B, version=1, order=BIG_MAGIC)
    whole("two_tensors_v2_big_end_magic", tensors=A_AND_B, version=2, order=BIG_MAGIC)
    whole("data_after_the_header", tensors=A_AND_B, after=bytes(range(50)))


def keys():
    whole("keys_out_of_order", [
        (b"b", U32, 1),
        (b"a", U8, 1),
        (b"", STRING, b"none"),
        (b"ab", U16, 3),
        (b"b", BOOL, 1),
        (b"B", I32, -1),
        ("é".encode(), F64, 0),
        (b"a", U64, 9),
        (b"a!", I8, -2),
    ])  # fmt: skip
    scalars = [(b"same", kind, 0) for kind in WIDTHS]
    whole("one_key_many_times", [*scalars, (b"same", ARRAY, (U8, []))], version=1)


def types():
    names = [bytes([ord("a") + kind]) for kind in range(13)]
    values = {STRING: b"text", ARRAY: (U32, [1, 2, 3]), U64: 2**63, I64: -1}
    whole("every_type", [(names[kind], kind, values.get(kind, 0)) for kind in range(13)])
    values = {STRING: b"", ARRAY: (U16, [258]), U64: 258, I64: -2, F64: 7}
    entries = [(names[kind], kind, values.get(kind, 1)) for kind in range(13)]
    whole("every_type_big_end", entries, order=BIG)
    whole("every_type_big_end_magic", entries, order=BIG_MAGIC)
    arrays = [(b"arrays.%d" % kind, ARRAY, (kind, [1, 1, 1])) for kind in WIDTHS]
    arrays.append((b"arrays.8", ARRAY, (STRING, [b"x", b"", b"yz"])))
    arrays.append((b"arrays.9", ARRAY, (ARRAY, [])))
    arrays.append((b"tokenizer.list", ARRAY, (STRING, [b"t0", b"t1", b"t2", b"t3", b"t4"])))
    whole("arrays", arrays, version=2)


def arrays_in_arrays():
    numbers = (ARRAY, [(U8, [1, 2]), (U8, [3])])
    mixed = (ARRAY, [(STRING, [b"x", b"", b"yz"]), (F64, []), (I16, [-1, 2]), (ARRAY, [])])
    third = (ARRAY, [(U32, [7, 8]), (STRING, [b"deep"]), (ARRAY, [])])
    fourth = (ARRAY, [(ARRAY, [third, (ARRAY, [])]), (ARRAY, []), (BOOL, [1])])
    entries = [
        (b"lists", ARRAY, numbers),
        (b"lists.mixed", ARRAY, mixed),
        (b"lists.four_deep", ARRAY, fourth),
        (b"tokenizer.lists", ARRAY, (ARRAY, [(U8, [n] * n) for n in range(5)])),
        (b"u8", U8, 7),
    ]
    whole("arrays_in_arrays", entries, A_AND_B)
    whole("arrays_in_arrays_v1", entries, A_AND_B, version=1)
    whole("arrays_in_arrays_big_end", entries, A_AND_B, order=BIG)
    whole("arrays_in_arrays_big_end_magic", entries, A_AND_B, version=2, order=BIG_MAGIC)
    # In the fourth array an item type of arrays is none too many where there are no items.
    fourth = (ARRAY, [(ARRAY, [(ARRAY, [(ARRAY, [])])])])
    whole("arrays_in_arrays_fourth_of_none", [(b"k", ARRAY, fourth)])


def alignments():
    whole("alignment_64", alignment_entries(64), a_and_b(0, 64))
    # No power of 2.
    whole("alignment_24", alignment_entries(24), a_and_b(24, 120))
    unusable = [(b"general.alignment", U32, 64), (b"general.alignment", U64, 12)]
    whole("last_alignment_unusable", unusable)
    # Offsets go by the last entry too.
    whole("last_alignment_unusable_offset_32", unusable, A_AND_B)
    whole("last_alignment_8", alignment_entries(64, 8), a_and_b(0, 40))


def shapes():
    whole("shapes", tensors=[
        (b"none", 0, [], 0),
        (b"one", 1, [7], 32),
        (b"two", 2, [32, 3], 64),
        (b"three", 12, [256, 2, 3], 2**40),
        (b"four", 30, [2, 3, 4, 5], 96),
        (b"empty", 0, [0, 2**32, 2**32], 0),
        (b"ones", 24, [1, 1, 1, 1], 0),
        (b"largest", 0, [2**62 - 1], LAST_OFFSET),
    ])  # fmt: skip


def blocks():
    kinds = [(b"k%d" % kind, kind) for kind in sorted(TYPE_SIZES)]
    whole("every_kind", tensors=[(name, kind, [512], 0) for name, kind in kinds])
    one_block = [(name, kind, [block_size(kind)], 0) for name, kind in kinds]
    whole("one_block_of_every_kind", tensors=one_block)
    whole("bf16", tensors=[(b"t", 30, [256], 0)])
    whole("first_length_0", tensors=[(b"t", 2, [0], 0), (b"u", 12, [0, 33], 0)])
    # No whole blocks, and no bytes either.
    without_bytes = [(name, kind, [33], 0) for name, kind in kinds if TYPE_SIZES[kind] == 0]
    whole("partial_of_no_bytes", tensors=[*without_bytes, (b"none", 31, [], 0)])


def names():
    odd_keys = [(b"a b", U8, 0), (b"line\nbreak\xff\x00", I8, 0)]
    odd_names = [(b"", 0, [1], 0), (b"x\ty\n", 0, [1], 0), (b"\xff\xfe", 1, [2], 32)]
    whole("names_as_they_are", odd_keys, odd_names)


def full_tables():
    falling = [(b"%02x" % i, i % 8, 0) for i in reversed(range(256))]
    longer = [(key + b"+", kind, value) for key, kind, value in falling]
    whole("entries_512", longer + falling, version=1)
    rising = [(b"%d" % (i % 10), i % 2, [], 32 * i) for i in range(512)]
    whole("tensors_512", tensors=rising, version=1)


def cut_off():
    file = new("refused_1_nothing")
    file.missing()
    file = new("refused_1_in_the_magic")
    file.cut(file.raw(b"GGUF"), 3)
    # More tensors than rows: that is not looked at before both counts are there.
    file = new("refused_1_in_the_second_count")
    tensors, entries = file.start(600, 0)
    file.cut(entries, 7)
    file = new("refused_1_in_a_big_end_version", order=BIG)
    file.start(0, 0)
    file.cut(len(b"GGUF"), 3)
    file = new("refused_1_in_the_first_count_big_end", order=BIG)
    tensors, entries = file.start(0, 0)
    file.cut(tensors, 7)
    file = front("refused_1_in_the_last_offset", tensors=2)
    file.tensor(*A_AND_B[0])
    file.tensor(*A_AND_B[1])
    file.cut(len(file.bytes) - 8, 7)
    # The longest string is not too long, but it is not there.
    file = front("refused_1_string_of_2_30", entries=1)
    file.key_and_type(b"key", STRING)
    file.size(LONGEST)
    file.cut(file.raw(b"abc"), 3)


def no_such_format():
    for letter, magic in zip("abcd", [0x67676D6C, 0x67676D66, 0x67676A74, 0x67676C61]):
        file = new("refused_2_" + letter)
        file.refused(2, file.number(4, magic))
    file = new("refused_3")
    file.refused(3, file.raw(b"GGUf"))
    file.raw(bytes(20))
    for version in [0, 4]:
        file = new("refused_4_version_%d" % version, version)
        file.start(0, 0)
        file.refused(4, len(b"GGUF"))
    # Behind this magic big-endian numbers are there in version 3 alone, and behind the other one
    # there are no others.
    for version in [0, 1, 2, 4]:
        file = new("refused_4_big_end_version_%d" % version, version, BIG)
        file.start(0, 0)
        file.refused(4, len(b"GGUF"))
    file = new("refused_4_little_end_behind_the_other_magic", order=(False, b"FUGG"))
    file.start(0, 0)
    file.refused(4, len(b"FUGG"))


def too_many():
    file = new("refused_6_entries_513", version=1)
    tensors, entries = file.start(0, 513)
    file.refused(6, entries)
    file = new("refused_6_entries_513_v3")
    tensors, entries = file.start(0, 513)
    file.refused(6, entries)
    # Both are too many: the tensors are looked at first.
    file = new("refused_6_tensors_513")
    tensors, entries = file.start(513, 513)
    file.refused(6, tensors)


def wrong_entries():
    file = front("refused_7_key", entries=1)
    file.refused(7, file.size(LONGEST + 1))
    file = front("refused_7_name", tensors=1, version=1)
    file.refused(7, file.size(LONGEST + 1))
    file = front("refused_8_value", entries=1)
    file.refused(8, file.key_and_type(b"k", 13))
    file = front("refused_8_item", entries=1)
    file.key_and_type(b"k", ARRAY)
    file.refused(8, file.number(4, 13))


def wrong_arrays_in_arrays():
    for name, version in [("refused_9", 3), ("refused_9_v1", 1)]:
        file = front(name, entries=1, version=version)
        file.key_and_type(b"k", ARRAY)
        file.refused(9, file.arrays_in_one_another(4)[3])
        file.item(ARRAY, (U8, [1]))
    # The fifth need not be there, and nothing behind the fourth's count is looked at.
    file = front("refused_9_nothing_behind_it", entries=1)
    file.key_and_type(b"tokenizer.k", ARRAY)
    file.refused(9, file.arrays_in_one_another(4)[3])
    file = front("refused_9_a_thousand_arrays", entries=1)
    file.key_and_type(b"k", ARRAY)
    file.refused(9, file.arrays_in_one_another(1000)[3])
    file.item(ARRAY, (U8, []))
    # Inside as outside: each at its own field, also behind items that a cap does not keep.
    file = front("refused_8_third_array", entries=1)
    file.key_and_type(b"k", ARRAY)
    file.arrays_in_one_another(2)
    file.refused(8, file.array_start(13, 0))
    file = front("refused_7_third_array", entries=1)
    file.key_and_type(b"k", ARRAY)
    file.arrays_in_one_another(2)
    file.array_start(STRING, 2)
    file.string(b"x")
    file.refused(7, file.size(LONGEST + 1))
    file = front("refused_1_third_array", entries=1)
    file.key_and_type(b"k", ARRAY)
    file.arrays_in_one_another(2)
    file.array_start(U16, 2)
    file.number(2, 1)
    file.cut(file.number(2, 1), 1)
    file = front("refused_1_count_of_the_third_array", entries=1, version=1)
    file.key_and_type(b"k", ARRAY)
    file.arrays_in_one_another(2)
    file.number(4, U16)
    file.cut(file.size(2), 3)
    file = front("refused_1_fifth_list_of_a_tokenizer", entries=1)
    file.key_and_type(b"tokenizer.k", ARRAY)
    file.array_start(ARRAY, 5)
    for items in [[], [1], [], [2, 3]]:
        file.item(ARRAY, (U8, items))
    file.missing()
    file = front("refused_1_arrays_of_2_64_less_1", entries=1)
    file.key_and_type(b"k", ARRAY)
    file.array_start(ARRAY, GREATEST)
    file.item(ARRAY, (U8, [1]))
    file.missing()


def wrong_tensors():
    file = front("refused_10", tensors=1)
    file.refused(10, file.name_and_dimensions(b"t", 5))
    # These are refused by the rule that they break, as `tensor` finds it.
    for name, tensors in {
        "refused_11_kind_4": [(b"t", 4, [1], 0)],
        "refused_11_kind_40": [(b"t", 40, [], 0)],
        "refused_11_kind_41": [(b"t", 41, [], 0)],
        "refused_13": [(b"t", 0, [2**32, 2**32, 0], 0)],
        "refused_14": [(b"t", 0, [2**62], 0)],
        "refused_15": [(b"u", 24, [2**63], 0), (b"t", 24, [2**63], 0)],
        "refused_17": [(b"t", 2, [33], 0)],
        "refused_17_no_dimensions": [(b"t", 2, [], 0)],
        "refused_17_product_of_whole_blocks": [(b"t", 2, [16, 2], 0)],
        "refused_17_before_13": [(b"t", 2, [33, 2**32, 2**32], 0)],
        "refused_17_before_15": [(b"u", 24, [GREATEST], 0), (b"t", 39, [31], 0)],
    }.items():
        whole(name, tensors=tensors)


def misaligned():
    """An offset that is not a multiple of the alignment, alone and before other faults."""
    whole("refused_16", tensors=a_and_b(0, 33))
    whole("refused_16_v1", tensors=a_and_b(0, 33), version=1)
    whole("refused_16_big_end", tensors=a_and_b(0, 33), order=BIG)
    whole("refused_16_big_end_magic", tensors=a_and_b(0, 33), order=BIG_MAGIC)
    whole("refused_16_first_of_two", tensors=a_and_b(8, 33))
    whole("refused_16_of_length_0", tensors=[(b"t", 0, [0], 33)])
    whole("refused_16_of_no_bytes", tensors=[(b"t", 31, [256], 33)])
    whole("refused_16_greatest", tensors=a_and_b(0, GREATEST))
    whole("refused_16_alignment_24", alignment_entries(24), A_AND_B)
    whole("refused_16_last_alignment_64", alignment_entries(8, 64), a_and_b(0, 8))
    whole("refused_16_last_alignment_unusable", alignment_entries(8, 12), a_and_b(0, 8))
    # Something else is wrong with the second, or it is not all there: that comes before.
    first = (b"a", 0, [5], 33)
    whole("refused_11_before_16", tensors=[first, (b"b", 40, [3], 33)])
    whole("refused_15_before_16", tensors=[first, (b"b", 24, [GREATEST], 33)])
    whole("refused_17_before_16", tensors=[first, (b"b", 2, [33], 33)])
    file = front("refused_1_before_16", tensors=2)
    file.tensor(*first)
    file.tensor(b"b", 1, [3], 33)
    file.cut(len(file.bytes) - 8, 7)


# Faults that other readers of the format had: docs/FAULTS.md says what each class is.

# So many records of any size that is a multiple of 8 take, in 64 bits, the bytes of one record.
WRAPPING_COUNT = 2**61 + 1


def faults_of_counts():
    file = new("fault_entry_count_that_wraps_an_allocation")
    tensors, entries = file.start(0, WRAPPING_COUNT)
    file.refused(6, entries)
    file.entry(b"k", U8, 1)
    file = front("fault_entry_count_with_nothing_behind_it", entries=512)
    file.missing()
    file = new("fault_tensor_count_that_wraps_an_allocation")
    tensors, entries = file.start(WRAPPING_COUNT, 0)
    file.refused(6, tensors)
    file.tensor(*A_AND_B[0])
    file = front("fault_tensor_count_with_nothing_behind_it", tensors=512)
    file.missing()


def faults_of_strings():
    file = front("fault_key_of_2_64_less_1_bytes", entries=1)
    file.refused(7, file.size(GREATEST))
    file.raw(b"k")
    file = front("fault_string_of_2_64_less_1_bytes", entries=1)
    file.key_and_type(b"k", STRING)
    file.refused(7, file.size(GREATEST))
    file.raw(b"text")
    file = front("fault_item_of_2_64_less_1_bytes", entries=1)
    file.key_and_type(b"k", ARRAY)
    file.array_start(STRING, 1)
    file.refused(7, file.size(GREATEST))
    file.raw(b"text")
    file = front("fault_name_of_2_64_less_1_bytes", tensors=1)
    file.refused(7, file.size(GREATEST))
    file.raw(b"t")
    # In version 1 a size has 32 bits.
    file = front("fault_key_of_2_32_less_1_bytes_v1", entries=1, version=1)
    file.refused(7, file.size(2**32 - 1))
    file.raw(b"k")


def faults_of_arrays():
    # One item is there, and by a product that wraps it would be all of them.
    for name, key, kind, count, items in [
        ("fault_array_count_that_wraps_an_allocation", b"k", U64, WRAPPING_COUNT, [1]),
        ("fault_string_array_count_that_wraps_an_allocation", b"k", STRING, WRAPPING_COUNT, [b"x"]),
        ("fault_array_count_of_2_64_less_1", b"tokenizer.x", U8, GREATEST, [1, 2, 3]),
    ]:
        file = front(name, entries=1)
        file.key_and_type(key, ARRAY)
        file.array_start(kind, count)
        for item in items:
            file.item(kind, item)
        file.missing()
    # Of 2^61 items of 8 bytes, which would wrap to no bytes, one is there and half of the next.
    file = front("fault_array_count_that_wraps_to_0", entries=1)
    file.key_and_type(b"k", ARRAY)
    file.array_start(U64, 2**61)
    file.item(U64, 1)
    file.cut(file.item(U64, 2), 4)
    # Its items begin at 49, so it would end at 24, where its own entry begins.
    file = front("fault_array_that_wraps_to_its_own_entry", entries=512)
    file.key_and_type(b"k", ARRAY)
    file.array_start(U8, 2**64 - 25)
    file.item(U8, 1)
    file.missing()
    # The array inside another would have the 4 bytes that are there.
    file = front("fault_inner_array_count_that_wraps", entries=1, version=2)
    file.key_and_type(b"k", ARRAY)
    file.array_start(ARRAY, 1)
    file.array_start(F32, 2**62 + 1)
    file.item(F32, 1)
    file.missing()


def faults_of_shapes():
    # 3 times this is 2^64 + 2.
    third = (2**64 + 2) // 3
    whole("fault_lengths_whose_product_wraps", tensors=[(b"t", 0, [third, 3], 0)])
    whole("fault_lengths_whose_product_wraps_to_0", tensors=[(b"t", 0, [2**32, 2**32], 0)])
    whole("fault_size_that_wraps", tensors=[(b"t", 0, [2**62 + 1], 0)])
    halves = [(b"t", 24, [2**63], 0), (b"u", 24, [2**63 + 1], 0)]
    whole("fault_total_of_lengths_that_wraps", tensors=halves)
    for name, dimensions in [
        ("fault_five_dimensions", 5),
        ("fault_dimension_count_of_2_32_less_1", 2**32 - 1),
    ]:
        file = front(name, tensors=1)
        file.refused(10, file.name_and_dimensions(b"t", dimensions))
        for length in range(1, 6):
            file.number(8, length)
        file.number(4, 0)
        file.number(8, 0)


def faults_of_sums():
    # The offsets are aligned, and the sizes fit one by one. The range check refuses both.
    sizes = [(b"t", 0, [2**62 - 1], 0), (b"u", 0, [2], 0)]
    whole("fault_sizes_whose_sum_wraps", tensors=sizes)
    whole("fault_offset_and_size_whose_sum_wraps", tensors=[(b"t", 0, [9], LAST_OFFSET)])


def faults_of_alignments():
    whole("fault_alignment_of_0", alignment_entries(0), A_AND_B)
    whole("fault_alignment_below_0", [(b"general.alignment", I64, -64)], A_AND_B)
    # It leaves two offsets.
    most = 2**64 - 8
    whole("fault_alignment_of_2_64_less_8", [(b"general.alignment", U64, most)], a_and_b(0, most))


def faults_of_tables():
    file = front("fault_value_type_beyond_a_table", entries=1)
    file.refused(8, file.key_and_type(b"k", 2**32 - 1))
    file.raw(bytes(8))
    file = front("fault_item_type_beyond_a_table", entries=1)
    file.key_and_type(b"k", ARRAY)
    file.refused(8, file.array_start(2**31, 1))
    file.raw(bytes(8))
    whole("fault_kind_beyond_a_table", tensors=[(b"t", 2**32 - 1, [1], 0)])
    whole("fault_kind_below_0_if_signed", tensors=[(b"t", 2**31, [1], 0)])
    whole("fault_kind_taken_out_of_a_table", tensors=[(b"t", 5, [32], 0)])


def main():
    small_headers()
    keys()
    types()
    arrays_in_arrays()
    alignments()
    shapes()
    blocks()
    names()
    full_tables()
    cut_off()
    no_such_format()
    too_many()
    wrong_entries()
    wrong_arrays_in_arrays()
    wrong_tensors()
    misaligned()
    faults_of_counts()
    faults_of_strings()
    faults_of_arrays()
    faults_of_shapes()
    faults_of_sums()
    faults_of_alignments()
    faults_of_tables()
    check_names()
    data = Path(__file__).resolve().parent
    for name, file in CASES.items():
        (data / name).write_bytes(file.bytes)
    text = b"".join(b"== %b\n%b" % (name.encode(), file.answer) for name, file in CASES.items())
    (data.parent / "args").write_text("".join(name + "\n" for name in CASES))
    (data.parent / "stdout").write_bytes(text)


main()
