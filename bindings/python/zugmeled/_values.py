"""The data of values as objects of Python, and back, by the conversions of the standard module winreg."""

from typing import Any, List, Tuple, Union

from . import _library as c

REG_NONE = c.NONE
REG_SZ = c.SZ
REG_EXPAND_SZ = c.EXPAND_SZ
REG_BINARY = c.BINARY
REG_DWORD = c.DWORD
REG_DWORD_BIG_ENDIAN = c.DWORD_BIG_ENDIAN
REG_LINK = c.LINK
REG_MULTI_SZ = c.MULTI_SZ
REG_RESOURCE_LIST = c.RESOURCE_LIST
REG_FULL_RESOURCE_DESCRIPTOR = c.FULL_RESOURCE_DESCRIPTOR
REG_RESOURCE_REQUIREMENTS_LIST = c.RESOURCE_REQUIREMENTS_LIST
REG_QWORD = c.QWORD

#: What a value's data is read as.
Value = Union[int, str, List[str], bytes, None]

# Size of a number's data, in bytes, by its type.
_NUMBERS = {REG_DWORD: 4, REG_QWORD: 8}


def to_data(value: Any, kind: int) -> bytes:
    """The data of a value of a type. None is 0, the empty text, no texts or no bytes.

    ValueError where a number, a text or a list of texts is due and something else is given; OverflowError where a number doesn't fit;
    TypeError where bytes are due and something else is given.
    """
    if kind in _NUMBERS:
        return _number_data(value, _NUMBERS[kind])
    if kind in (REG_SZ, REG_EXPAND_SZ):
        return _text_data(_checked(value, str, ""))
    if kind == REG_MULTI_SZ:
        return b"".join(_text_data(_checked(text, str)) for text in _checked(value, list, [])) + b"\0\0"
    return _bytes_data(value)


def from_data(data: bytes, kind: int) -> Value:
    """What the data of a value of a type is read as. It never fails: data that is no text is read as far as it goes."""
    if kind in _NUMBERS:
        return int.from_bytes(data[: _NUMBERS[kind]], "little")
    if kind in (REG_SZ, REG_EXPAND_SZ):
        return _text(data).split("\0", 1)[0]
    if kind == REG_MULTI_SZ:
        return _texts(_text(data))
    return data or None


def kind_for(value: Any) -> Tuple[int, Any]:
    """The type that an object of Python is stored as where none is told, and the object. TypeError where it has none."""
    if isinstance(value, str):
        return REG_SZ, value
    if isinstance(value, int):
        return (REG_DWORD if value < 1 << 32 else REG_QWORD), value
    if isinstance(value, (list, tuple)):
        return REG_MULTI_SZ, list(value)
    return REG_BINARY, value


def _checked(value: Any, expected: type, default: Any = None) -> Any:
    if value is None and default is not None:
        return default
    if not isinstance(value, expected):
        raise ValueError("Could not convert the data to the specified type.")
    return value


def _number_data(value: Any, size: int) -> bytes:
    number = _checked(value, int, 0)
    if number < 0:
        raise OverflowError("can't convert negative value to unsigned int")
    return int(number).to_bytes(size, "little")


def _text_data(text: str) -> bytes:
    return (text + "\0").encode("utf-16-le", "surrogatepass")


def _bytes_data(value: Any) -> bytes:
    if value is None:
        return b""
    try:
        view = memoryview(value)
    except TypeError:
        raise TypeError(f"Objects of type '{type(value).__name__}' can not be used as binary registry values") from None
    return view.tobytes()


def _text(data: bytes) -> str:
    # A last odd byte is no character.
    whole = data[: len(data) // 2 * 2]
    return whole.decode("utf-16-le", "surrogatepass")


def _texts(text: str) -> List[str]:
    """The texts of several. Each ends by a zero and one more ends them all, but data of other programs may lack either."""
    if text.endswith("\0"):
        text = text[:-1]
    texts = text.split("\0")
    if not texts[-1]:
        texts.pop()
    return texts
