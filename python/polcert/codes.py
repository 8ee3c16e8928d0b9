"""The codes of polcert's refusals: what each means and how to mend it. docs/REFUSALS.md has the same sentences."""
from typing import Dict, NamedTuple


class Code(NamedTuple):
    """The sentence of a code, and what to do."""

    meaning: str
    mend: str


CODES: Dict[str, Code] = {
    "M1": Code("these bytes are no name, number or sign", "see K1 to K3, of which one follows"),
    "M2": Code("the number is not one of a model", "see N2 to N4, of which one follows"),
    "M3": Code("something precedes the first item's word", "remove it, or make it a comment with `#`"),
    "M4": Code("no form of the item continues like this", "compare the item with the tables of FORMAT"),
    "M5": Code("the line, or the start item, appears for the second time", "keep one of them"),
    "M6": Code("a line of the preamble, or the start item, comes too late", "move it up, before all entries"),
    "M7": Code("a line of the preamble is missing before this place", "add the line: `discount`, `values`, `states` or `actions`"),
    "M8": Code("no count from 1 to 10,000 (of actions to 1,000), no names, or one name too many", "give a count or names"),
    "M9": Code("the name appears for the second time in its line", "give the elements different names"),
    "M10": Code("no element of this kind has this name", "write the name as in its line, or the number"),
    "M11": Code("no element has so large a number", "use a number below the count: numbers begin at 0"),
    "M12": Code("too few or too many numbers", "write one for each column of a row, each cell of a matrix, or each state of a start"),
    "M13": Code("a probability is below 0 or above 1", "write a number from 0 to 1, and see that its row still sums to one"),
    "M14": Code("the word `reset` is not read", "run `polcert-mend`, which writes the start's row into T; or write the row that is meant"),
    "M15": Code("the discount is below 0 or above 1", "write a number from 0 to 1, both included"),
    "M16": Code("the model passes a limit of cells", "use a smaller model, or fewer cells above 0"),
    "M17": Code("a row does not sum to one exactly", "run `polcert-mend`; or correct the last number of the row, or write `uniform`"),
    "M18": Code("the start does not sum to one exactly", "run `polcert-mend`; or correct the last number of the start"),
    "M19": Code("no state is left to start in", "include at least one state, or exclude fewer"),
    "M20": Code("the text has more than 4,294,967,296 bytes", "use a smaller model"),
    "K1": Code(
        "a byte that begins no name, number or sign, such as a comma, a quote, `/` or a letter outside of ASCII",
        "remove it, write a fraction in decimals, or make it a comment with `#`"
    ),
    "K2": Code("a name or a number of more than 400 bytes", "use a shorter one"),
    "K3": Code("a letter, `_` or a point directly after a number", "write a blank between, or a name that begins with a letter"),
    "K4": Code("the text has more than 4,294,967,296 bytes", "use a smaller file"),
    "N2": Code("an exponent of more than 400 in size", "write the number in digits"),
    "N3": Code("a number beyond 10,000,000 in size", "scale all rewards, and the vectors, down by the same factor"),
    "N4": Code(
        "a non-zero digit after the sixth decimal place",
        "run `polcert-mend`; or write six decimals, and see that the row still sums to one"
    ),
    "G1": Code("these bytes are no name, number or sign", "see K1 to K4, of which one follows"),
    "G2": Code("not a number of digits only, nor `-` or `X` for a missing successor", "write a number, or a `-` with a blank after it"),
    "G3": Code("not the number of the next node", "number the nodes 0, 1, 2, .. in order; or remove a successor too many before it"),
    "G4": Code("the model has no such action", "use a number below the count of actions"),
    "G5": Code("a successor is no node of the file", "add the node, or write `-`"),
    "G6": Code("the text ends inside a node", "add the missing action or successors: one for each observation"),
    "G7": Code("the text has no node", "write at least one"),
    "G8": Code("there are more than 10,000 nodes", "use a smaller graph"),
    "V1": Code("these bytes are no name, number or sign", "see K1 to K4, of which one follows"),
    "V2": Code("the number is not one of a vector", "see N2 and N3, of which one follows"),
    "V3": Code(
        "not an action of digits only, or not a number; `nan` and `inf` are none",
        "write a number; if a solver wrote this, its evaluation went wrong"
    ),
    "V4": Code("the action is not the one of the vector's node", "write the vectors in the order of the graph's nodes"),
    "V5": Code("the text ends inside a vector", "add the missing numbers: one for each state"),
    "V6": Code("there are more, or fewer, vectors than nodes", "write one vector for each node; or remove a number too many before this"),
    "B1": Code("these bytes are no name, number or sign", "see K1 to K4, of which one follows"),
    "B2": Code("the number is no weight or value", "see N2 and N3, of which one follows. N3 is a weight above 1, too"),
    "B3": Code(
        "not a number in digits only, a weight, a value or a name of a point; or a `-` for none directly before a numeral",
        "write weights without a sign, and a blank after `-`"
    ),
    "B4": Code("not the number of the next point", "number the points 0, 1, 2, .. in order; or remove a name too many before it"),
    "B5": Code("the weights sum to nothing, or to more than 1, after they are rounded down", "divide them by their sum"),
    "B6": Code("a named point is no point of the file", "add the point, or write `-`"),
    "B7": Code("the text ends inside a point", "add the missing numbers and names"),
    "B8": Code("there are more than 10,000 points", "use fewer"),
    "L1": Code("the discount is 1 and this pair is short, so no constant helps", "use vectors that fit, or a discount below 1"),
    "L2": Code(
        "lowered by the least constant, a value would be below -10,000,000",
        "scale rewards and vectors down, or evaluate the graph again"
    ),
    "L3": Code("an observation can come that has no successor", "give the node a successor"),
    "U1": Code("the discount is 1 and this pair is long, so no constant helps", "use vectors that fit, or a discount below 1"),
    "U2": Code(
        "raised by the least constant, a value would be above 10,000,000",
        "scale rewards and vectors down, or evaluate the graph again"
    ),
    "U3": Code("an observation can come that has no successor", "give the node a successor"),
    "C1": Code(
        "the model has a table of more than 16,777,216 cells and is not printed",
        "use `check`, `lower` and `raise`, which print no model"
    ),
}
