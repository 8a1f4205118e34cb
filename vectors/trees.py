"""Random sheets whose expressions mostly succeed.

An expression is grown towards a wanted type and shape; now and then an operand
of another kind, an extreme number or a reference to a refused entry slips in.
"""

import fold
import pools
import scalars
import sheets
import slots
import writer
from pools import MATRICES, SCALAR, VECTORS, mixed, tame, value
from scalars import ABSTRACT_FLOAT, ABSTRACT_INT, BOOL, FORMATS, INTEGERS, U32


class Grower:
    """Grows the entries of one sheet, knowing what the earlier ones gave."""

    def __init__(self, rng):
        self.rng = rng
        self.data = b""
        self.results = bytearray()
        self.known = []

    def allowed(self, stage):
        """The earlier entries that an entry of a stage may name."""
        return [n for n, entry in enumerate(sheets.read(self.data)) if entry.level <= stage]

    def add(self, piece):
        """Adds a record and works it out."""
        self.data += piece
        self.results += bytes(slots.SIZE)
        fold.evaluate(self.data, self.results)
        found = slots.value_of(fold.slot_at(self.results, len(self.known)))
        self.known.append(found and (found.ty, (found.cols, found.rows)))

    def add_setting(self):
        ty = self.rng.choice(sheets.SETTING_TYPES)
        self.add(writer.setting(ty, mixed(self.rng, ty)))

    def add_entry(self, stage, depth):
        """Adds an expression towards a type and shape drawn by chance."""
        self.stage, self.free = stage, self.allowed(stage)
        ty, shape = self.wanted()
        body = self.node(ty, shape, depth)
        if len(body) < 2000:
            self.add(writer.record(stage, body))

    def wanted(self):
        """The type and shape of an earlier entry, or others by chance."""
        found = [self.known[n] for n in self.free if self.known[n]]
        if found and self.rng.randrange(3):
            return self.rng.choice(found)
        shape = self.rng.choice((SCALAR, SCALAR, self.rng.choice(VECTORS), self.rng.choice(MATRICES)))
        return self.rng.choice(pools.types_for(shape)), shape

    def node(self, ty, shape, depth):
        """A node that most likely gives the type and shape."""
        if self.rng.randrange(30) == 0:
            ty = self.rng.choice(pools.types_for(shape))
        if depth <= 1 or self.rng.randrange(5) == 0:
            return self.leaf(ty, shape)
        if shape in MATRICES:
            return self.matrix_node(ty, shape, depth - 1)
        if ty == BOOL:
            return self.bool_node(shape, depth - 1)
        return self.number_node(ty, shape, depth - 1)

    def leaf(self, ty, shape):
        """A reference to an entry of that kind if there is one, or a value."""
        fitting = [n for n in self.free if self.known[n] == (ty, shape)]
        if self.free and self.rng.randrange(12) == 0:
            return writer.reference(self.rng.choice(self.free))
        if fitting and self.rng.randrange(4):
            return writer.reference(self.rng.choice(fitting))
        return writer.literal(value(self.rng, ty, shape, mixed if self.rng.randrange(4) == 0 else tame))

    def bool_node(self, shape, depth):
        """`!`, logic on Bool or a comparison."""
        choice = self.rng.randrange(4)
        if choice == 0:
            return writer.unary(scalars.NOT, self.node(BOOL, shape, depth))
        if choice == 1:
            ops = (scalars.BIT_OR, scalars.BIT_AND) if shape != SCALAR else (1, 2, 14, 15)
            return writer.binary(self.rng.choice(ops), self.node(BOOL, shape, depth), self.node(BOOL, shape, depth))
        ty = self.rng.randrange(1, 7)
        op = self.rng.choice(scalars.COMPARISONS)
        return writer.binary(op, self.node(ty, shape, depth), self.other(ty, shape, depth))

    def other(self, ty, shape, depth):
        """An operand of the type or of one that converts to it."""
        if self.rng.randrange(5):
            return self.node(ty, shape, depth)
        source = ABSTRACT_FLOAT if ty in FORMATS and self.rng.randrange(2) else ABSTRACT_INT
        return self.leaf(source, shape)

    def number_node(self, ty, shape, depth):
        """Negation, arithmetic, bits or shifts on numbers."""
        choice = self.rng.randrange(8)
        if choice == 0 and ty != U32:
            return writer.unary(scalars.NEG, self.node(ty, shape, depth))
        if ty in INTEGERS and choice == 1:
            return writer.unary(scalars.BITNOT, self.node(ty, shape, depth))
        if ty in INTEGERS and choice == 2:
            op = self.rng.choice(scalars.BITS)
            return writer.binary(op, self.node(ty, shape, depth), self.other(ty, shape, depth))
        if ty in INTEGERS and choice == 3:
            count = self.rng.choice((U32, U32, ABSTRACT_INT))
            return writer.binary(self.rng.choice(scalars.SHIFTS), self.node(ty, shape, depth), self.leaf(count, shape))
        return self.arithmetic_node(ty, shape, depth)

    def arithmetic_node(self, ty, shape, depth):
        """Arithmetic on two operands of the shape or one and a scalar."""
        op = self.rng.choice(scalars.ARITHMETIC)
        shapes = [shape, shape]
        if self.rng.randrange(3) == 0:
            shapes[self.rng.randrange(2)] = SCALAR
        if ty in FORMATS and shape in VECTORS and self.rng.randrange(4) == 0:
            inner = self.rng.choice((2, 3, 4))
            return writer.binary(scalars.MUL, self.node(ty, (inner, shape[1]), depth), self.node(ty, (1, inner), depth))
        left = self.node(ty, shapes[0], depth)
        return writer.binary(op, left, self.other(ty, shapes[1], depth))

    def matrix_node(self, ty, shape, depth):
        """A sum, a product or a scaled matrix."""
        choice = self.rng.randrange(3)
        if choice == 0:
            op = self.rng.choice((scalars.ADD, scalars.SUB))
            return writer.binary(op, self.node(ty, shape, depth), self.node(ty, shape, depth))
        if choice == 1:
            pair = [self.node(ty, SCALAR, depth), self.node(ty, shape, depth)]
            self.rng.shuffle(pair)
            return writer.binary(scalars.MUL, *pair)
        inner = self.rng.choice((2, 3, 4))
        left = self.node(ty, (inner, shape[1]), depth)
        return writer.binary(scalars.MUL, left, self.node(ty, (shape[0], inner), depth))


def random_sheet(rng, entries, depth=4, settings=4):
    """A sheet with some entries, about one in `settings` being a setting."""
    grower = Grower(rng)
    while len(grower.known) < entries:
        if rng.randrange(settings) == 0:
            grower.add_setting()
        else:
            grower.add_entry(rng.choice((0, 1, 1, 2, 2)), rng.randrange(1, depth + 1))
    return grower.data
