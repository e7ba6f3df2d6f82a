"""Normal forms of expressions and comparisons, by which a condition of a text is found among the tests of a question.

Forms are those of docs/flow.md ("Forms"): sums of products of cells modulo 2 to the width. In problem files a product of
two expressions that are not numbers is a cell. A form is also printed, with minus signs and signed comparisons.
"""

from typing import Mapping, NamedTuple, Optional, Union

from .tokens import CONVERSIONS, Condition, Expression, Unreadable

# A cell is ("variable", name), ("call", name, forms), ("conversion", word, form) or ("product", form, form).
Cell = tuple
MOST_PARTS = 4096


class Form(NamedTuple):
    """A number plus products of cells with factors, modulo 2 to the width. An opaque value has width 0 and one cell."""

    width: int
    number: int
    parts: tuple[tuple[tuple[Cell, ...], int], ...]


class Comparison(NamedTuple):
    """`==` or `<` of two forms; for `==` their order says nothing."""

    relation: str
    left: Form
    right: Form


class Sorts(NamedTuple):
    """The widths of variables, and those of the parameters and the result of functions. An opaque sort has width 0."""

    variables: Mapping[str, int]
    functions: Mapping[str, tuple[tuple[int, ...], int]]
    multiplies_out: bool


def number(value: int, width: int) -> Form:
    return Form(width, value % 2 ** width if width else value, ())


def of_cell(cell: Cell, width: int) -> Form:
    return Form(width, 0, (((cell,), 1),))


def cell_of(form: Form) -> Optional[Cell]:
    """The cell that this form is, if it is one."""
    if form.number == 0 and len(form.parts) == 1 and form.parts[0][1] == 1 and len(form.parts[0][0]) == 1:
        return form.parts[0][0][0]
    return None


def collected(width: int, constant: int, parts: list[tuple[tuple[Cell, ...], int]]) -> Form:
    sums: dict[tuple[Cell, ...], int] = {}
    for cells, factor in parts:
        sums[cells] = (sums.get(cells, 0) + factor) % 2 ** width
    return Form(width, constant % 2 ** width, tuple(sorted(((cells, factor) for cells, factor in sums.items() if factor), key=repr)))


def plus(left: Form, right: Form, factor: int = 1) -> Form:
    """The left form and a multiple of the right one."""
    more = [(cells, factor * times) for cells, times in right.parts]
    return collected(left.width, left.number + factor * right.number, [*left.parts, *more])


def times(left: Form, right: Form, multiplies_out: bool) -> Form:
    for one, other in ((left, right), (right, left)):
        if not one.parts:
            return plus(number(0, left.width), other, one.number)
    if not multiplies_out:
        return of_cell(("product", left, right), left.width)
    if (len(left.parts) + 1) * (len(right.parts) + 1) > MOST_PARTS:
        raise Unreadable("a product that is too large")
    parts = [(tuple(sorted((*cells, *more), key=repr)), factor * again)
             for cells, factor in (*left.parts, ((), left.number)) for more, again in (*right.parts, ((), right.number))]
    constant = sum(factor for cells, factor in parts if not cells)
    return collected(left.width, constant, [(cells, factor) for cells, factor in parts if cells])


def converted(word: str, form: Form) -> Form:
    """`u32(form)`, `s32(form)` and so on."""
    width = int(word[1:])
    if not form.parts:
        value = form.number - (2 ** form.width if word[0] == "s" and form.number >= 2 ** (form.width - 1) else 0)
        return number(value, width)
    if width == form.width:
        return form
    return cut(form, width) if width < form.width else widened(word, form)


def cut(form: Form, width: int) -> Form:
    """A form modulo 2 to a smaller width: sums and products of cut cells."""
    whole = number(form.number, width)
    for cells, factor in form.parts:
        product = number(1, width)
        for cell in cells:
            product = times(product, cut_cell(cell, form.width, width), True)
        whole = plus(whole, product, factor)
    return whole


def cut_cell(cell: Cell, before: int, width: int) -> Form:
    if cell[0] == "conversion":
        inner = cell[2]
        return converted(("u" if inner.width >= width else cell[1][0]) + str(width), inner)
    return of_cell(("conversion", f"u{width}", of_cell(cell, before)), width)


def widened(word: str, form: Form) -> Form:
    """A conversion to more bits is a cell; of two in a row that keep all bits one is left."""
    cell = cell_of(form)
    if cell and cell[0] == "conversion" and cell[2].width < form.width:
        inner_word = cell[1][0]
        if word[0] == inner_word or inner_word == "u":
            return widened(inner_word + word[1:], cell[2])
    return of_cell(("conversion", word, form), int(word[1:]))


def rebuilt(form: Form, numbers: Mapping[Cell, "Form"]) -> Form:
    """A form with numbers in the place of some cells, also in the arguments of calls."""
    if form.width == 0:
        cell = cell_of(form)
        return rebuilt_cell(cell, 0, numbers) if cell else form
    whole = number(form.number, form.width)
    for cells, factor in form.parts:
        product = number(1, form.width)
        for cell in cells:
            product = times(product, rebuilt_cell(cell, form.width, numbers), True)
        whole = plus(whole, product, factor)
    return whole


def rebuilt_cell(cell: Cell, width: int, numbers: Mapping[Cell, "Form"]) -> Form:
    if cell in numbers:
        return numbers[cell]
    if cell[0] == "call":
        return of_cell(("call", cell[1], tuple(rebuilt(form, numbers) for form in cell[2])), width)
    if cell[0] == "conversion":
        return converted(cell[1], rebuilt(cell[2], numbers))
    if cell[0] == "product":
        return times(rebuilt(cell[1], numbers), rebuilt(cell[2], numbers), False)
    return of_cell(cell, width)


# Expressions

def width_of(expression: Expression, sorts: Sorts) -> Optional[int]:
    """The width of the first name or conversion that is in no argument and under no conversion."""
    if expression.kind == "name":
        return sorts.variables.get(expression.text)
    if expression.kind == "call":
        if expression.text in CONVERSIONS:
            return int(expression.text[1:])
        return sorts.functions[expression.text][1] if expression.text in sorts.functions else None
    return next((width for width in (width_of(part, sorts) for part in expression.parts) if width is not None), None)


def form_of(expression: Expression, width: int, values: Mapping[str, Form], sorts: Sorts) -> Form:
    """The form of an expression where a value of this width is wanted, over the values of the variables."""
    if expression.kind == "number":
        return number(int(expression.text), width)
    if expression.kind == "name":
        if expression.text not in sorts.variables:
            raise Unreadable(f"a name {expression.text!r}")
        return values.get(expression.text) or of_cell(("variable", expression.text), sorts.variables[expression.text])
    if expression.kind == "call":
        return form_of_call(expression, values, sorts)
    left, right = (form_of(part, width, values, sorts) for part in expression.parts)
    if expression.text == "*":
        return times(left, right, sorts.multiplies_out)
    return plus(left, right, 1 if expression.text == "+" else -1)


def form_of_call(expression: Expression, values: Mapping[str, Form], sorts: Sorts) -> Form:
    if expression.text in CONVERSIONS:
        inner = expression.parts[0]
        width = width_of(inner, sorts)
        return converted(expression.text, form_of(inner, 64 if width is None else width, values, sorts))
    if expression.text not in sorts.functions:
        raise Unreadable(f"a function {expression.text!r}")
    widths, width = sorts.functions[expression.text]
    arguments = tuple(form_of(part, wanted, values, sorts) for part, wanted in zip(expression.parts, widths))
    return of_cell(("call", expression.text, arguments), width)


# Comparisons

def comparison_of(condition: Condition, values: Mapping[str, Form], sorts: Sorts,
                  default: int = 64) -> tuple[Union[Comparison, bool], bool]:
    """A comparison in its normal form, or its truth, and whether it is to be taken as it is and not as the opposite."""
    left, right = condition.operands
    width = next((it for it in (width_of(left, sorts), width_of(right, sorts)) if it is not None), default)
    forms = [form_of(operand, width, values, sorts) for operand in (left, right)]
    relation = condition.text
    if relation[0] == "s":
        half = number(2 ** (width - 1), width)
        forms = [plus(form, half) for form in forms]
        relation = {"slt": "<", "sle": "<=", "sgt": ">", "sge": ">="}[relation]
    if relation in (">", "<="):
        forms.reverse()
    found = equality(*forms) if relation in ("==", "!=") else order(*forms)
    positive = relation in ("==", "<", ">")
    return (found[0], found[1] == positive)


def narrowed(left: Form, right: Form, keeps_order: bool) -> Optional[tuple[Form, Form]]:
    """Both forms before a conversion to more bits that both have, or that one has and the other is a number it can give."""
    one, other = widening_of(left), widening_of(right)
    if keeps_order and "s" in (one or ("",))[0] + (other or ("",))[0]:
        return None
    if one and other:
        return (one[1], other[1]) if one[0] == other[0] and one[1].width == other[1].width else None
    if one:
        return with_number(one, right)
    swapped = with_number(other, left) if other else None
    return (swapped[1], swapped[0]) if swapped else None


def widening_of(form: Form) -> Optional[tuple[str, Form]]:
    """The letter of a conversion to more bits, and the form before it."""
    cell = cell_of(form)
    if cell and cell[0] == "conversion" and cell[2].width < form.width:
        return cell[1][0], cell[2]
    return None


def with_number(widening: tuple[str, Form], form: Form) -> Optional[tuple[Form, Form]]:
    """The form before a conversion, and the number of its bits whose conversion is the other form."""
    letter, small = widening
    before = number(form.number, small.width)
    return (small, before) if not form.parts and converted(f"{letter}{form.width}", before) == form else None


def equality(left: Form, right: Form) -> tuple[Union[Comparison, bool], bool]:
    if left == right:
        return True, True
    small = narrowed(left, right, False)
    if small:
        return equality(*small)
    if left.width == 0:
        return Comparison("==", *sorted((left, right), key=repr)), True
    difference, opposite = plus(left, right, -1), plus(right, left, -1)
    if not difference.parts:
        return difference.number == 0, True
    return Comparison("==", min(difference, opposite, key=repr), number(0, left.width)), True


def order(left: Form, right: Form) -> tuple[Union[Comparison, bool], bool]:
    if not left.parts and not right.parts:
        return left.number < right.number, True
    if left == right or right == number(0, right.width) or left == number(-1, left.width):
        return False, True
    small = narrowed(left, right, True)
    if small:
        return order(*small)
    if not left.parts:
        found, positive = order(right, number(left.number + 1, left.width))
        return found, not positive
    if right == number(1, right.width):
        return equality(left, number(0, left.width))
    return Comparison("<", left, right), True


# Printing

def form_text(form: Form) -> str:
    """A form with a minus sign before what is above half of the numbers. A form that is only a number has none."""
    if not form.parts:
        return str(form.number)
    half, shown = 2 ** (form.width - 1) if form.width else 1, []
    for cells, factor in form.parts:
        negative = form.width > 0 and factor > half
        size = 2 ** form.width - factor if negative else factor
        shown.append((negative, ("" if size == 1 else f"{size}*") + "*".join(cell_text(cell) for cell in cells)))
    if form.number:
        negative = form.number > half
        shown.append((negative, str(2 ** form.width - form.number if negative else form.number)))
    shown.sort(key=lambda part: part[0])
    first = ("0 - " if shown[0][0] else "") + shown[0][1]
    return first + "".join((" - " if negative else " + ") + part for negative, part in shown[1:])


def cell_text(cell: Cell) -> str:
    if cell[0] == "variable":
        return cell[1]
    if cell[0] == "product":
        return f"({form_text(cell[1])})*({form_text(cell[2])})"
    inner = cell[2] if cell[0] == "call" else (cell[2],)
    return f"{cell[1]}({', '.join(form_text(form) for form in inner)})"


def comparison_text(comparison: Comparison, is_true: bool, has_signed: bool) -> str:
    """A comparison or its opposite. Where the text has signed comparisons, it is printed as one if that is shorter."""
    left, right = comparison.left, comparison.right
    if comparison.relation == "==":
        if left.width:
            left, right = balanced(left)
        return f"{form_text(left)} {'==' if is_true else '!='} {form_text(right)}"
    half = number(2 ** (left.width - 1), left.width)
    shifted = plus(left, half), plus(right, half)
    if has_signed and sum(map(weight, shifted)) < sum(map(weight, (left, right))):
        return f"{'slt' if is_true else 'sge'}({signed_text(shifted[0])}, {signed_text(shifted[1])})"
    return f"{form_text(left)} {'<' if is_true else '>='} {form_text(right)}"


def weight(form: Form) -> int:
    """How long the number of a form is, read with a sign."""
    return len(str(min(form.number, 2 ** form.width - form.number)))


def signed_text(form: Form) -> str:
    if not form.parts and form.number >= 2 ** (form.width - 1):
        return str(form.number - 2 ** form.width)
    return form_text(form)


def balanced(form: Form) -> tuple[Form, Form]:
    """The two sides of `form == 0` without a minus sign; a number is on the right."""
    half = 2 ** (form.width - 1)
    kept = [(cells, factor) for cells, factor in form.parts if factor <= half]
    moved = [(cells, -factor) for cells, factor in form.parts if factor > half]
    constant = form.number if form.number < half else 0
    sides = (collected(form.width, constant, kept), collected(form.width, 0 if constant else -form.number, moved))
    return sides if sides[0].parts and not (sides[0].number and sides[1].parts) else (sides[1], sides[0])


