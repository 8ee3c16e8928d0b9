"""XML as the readers of policies and models take it: no entities, and each refusal with its place."""
from typing import Dict, List
from xml.parsers import expat

from polcert.tokens import FileError, Source, quoted

# Elements of XML are nested in no more than so many others.
_MOST_DEPTH = 100


def is_xml(source: Source) -> bool:
    return source.text.lstrip(b"\xef\xbb\xbf \t\r\n").startswith(b"<")


class XmlParser:
    """Calls `begin` and `end` for the elements of a text, which are given what stands between them. `what` names the text in refusals."""

    def __init__(self, source: Source, what: str) -> None:
        self.source, self._what, self._depth = source, what, 0
        self.text: List[str] = []
        self._parser = expat.ParserCreate()
        self._parser.buffer_text = True
        self._parser.EntityDeclHandler = self._refuse_entity
        self._parser.StartElementHandler = self._begin
        self._parser.EndElementHandler = self._end
        self._parser.CharacterDataHandler = self.text.append

    @property
    def byte(self) -> int:
        """Where the parser is."""
        return max(0, self._parser.CurrentByteIndex)

    def fault(self, byte: int, why: str) -> FileError:
        return FileError(self.source, "", byte, why)

    def parse(self) -> None:
        """Raises FileError."""
        try:
            self._parser.Parse(self.source.text, True)
        except expat.ExpatError as fault:
            byte, why = max(0, self._parser.ErrorByteIndex), expat.ErrorString(fault.code)
            raise self.fault(byte, f"this is no XML: {why}") from None
        except (LookupError, ValueError) as fault:
            raise self.fault(self.byte, f"the encoding that this XML names is not read: {fault}") from None

    def begin(self, name: str, attributes: Dict[str, str]) -> None:
        """An element begins."""
        raise NotImplementedError

    def end(self, name: str, text: str) -> None:
        """An element ends; `text` stands before its end."""
        raise NotImplementedError

    def _refuse_entity(self, name: str, *_: object) -> None:
        raise self.fault(self.byte, f"no entity is read, and {quoted(name)} is declared here")

    def _begin(self, name: str, attributes: Dict[str, str]) -> None:
        self.text.clear()
        self._depth += 1
        if self._depth > _MOST_DEPTH:
            raise self.fault(self.byte, f"elements are nested more than {_MOST_DEPTH} deep, which no {self._what} is")
        self.begin(name, attributes)

    def _end(self, name: str) -> None:
        text = "".join(self.text)
        self.text.clear()
        self._depth -= 1
        self.end(name, text)


class Element:
    """An element of a text: its attributes, its children, the text before its end, and its first byte."""

    __slots__ = "source", "name", "attributes", "byte", "children", "text"

    def __init__(self, source: Source, name: str, attributes: Dict[str, str], byte: int) -> None:
        self.source, self.name, self.attributes, self.byte = source, name, attributes, byte
        self.children: List[Element] = []
        self.text = ""

    def fault(self, why: str) -> FileError:
        return FileError(self.source, "", self.byte, why)

    def all(self, *names: str) -> List["Element"]:
        """The children of these names, if there are no others. Raises FileError."""
        for child in self.children:
            if child.name not in names:
                raise child.fault(f"{tag(child.name)} is not read inside of {tag(self.name)}")
        return self.children

    def one(self, name: str) -> "Element":
        """The only child of a name."""
        found = [child for child in self.children if child.name == name]
        if len(found) != 1:
            where = found[1] if found else self
            raise where.fault(f"expected one {tag(name)} inside of {tag(self.name)}, found {len(found) or 'none'}")
        return found[0]

    def attribute(self, name: str) -> str:
        if name not in self.attributes:
            raise self.fault(f"{tag(self.name)} has no attribute `{name}`")
        return self.attributes[name]


def tag(name: str) -> str:
    return quoted(f"<{name}>")


class _TreeBuilder(XmlParser):
    def __init__(self, source: Source, what: str) -> None:
        super().__init__(source, what)
        self.top = Element(source, "", {}, 0)
        self.open = [self.top]

    def begin(self, name: str, attributes: Dict[str, str]) -> None:
        element = Element(self.source, name, attributes, self.byte)
        self.open[-1].children.append(element)
        self.open.append(element)

    def end(self, name: str, text: str) -> None:
        self.open.pop().text = text


def read_tree(source: Source, what: str) -> Element:
    """The first element of a text with all in it. Raises FileError."""
    builder = _TreeBuilder(source, what)
    builder.parse()
    return builder.top.children[0]
