"""How values become bytes that fit a line, and back."""
import base64
import json
from typing import Any, Protocol, TypeVar, Union

Text = Union[str, bytes]
"""A key, or a value without a codec: text is sent as UTF-8."""

Given = TypeVar("Given")
"""What a client stores."""

Told = TypeVar("Told")
"""What a client returns for it."""

_Given = TypeVar("_Given", contravariant=True)
_Told = TypeVar("_Told", covariant=True)


class Codec(Protocol[_Given, _Told]):
    """Writes values as bytes without line ends (bytes 10 and 13), and reads them."""

    def encode(self, value: _Given) -> bytes:
        """The bytes to store."""

    def decode(self, stored: bytes) -> _Told:
        """The value. Raises ValueError for bytes that `encode` does not write."""


def _bytes_of(value: Text) -> bytes:
    if isinstance(value, str):
        return value.encode()
    try:
        return bytes(memoryview(value))
    except TypeError:
        kind = type(value).__name__
        raise TypeError(f"a value is bytes or text, not {kind}: give the client a codec") from None


class Raw:
    """Bytes as they are."""

    def encode(self, value: Text) -> bytes:
        return _bytes_of(value)

    def decode(self, stored: bytes) -> bytes:
        return stored


class Base64:
    """Any bytes, line ends too, in a third more space."""

    def encode(self, value: Text) -> bytes:
        return base64.b64encode(_bytes_of(value))

    def decode(self, stored: bytes) -> bytes:
        return base64.b64decode(stored, validate=True)


class Json:
    """What JSON has: texts, numbers, lists, dictionaries with keys of text, True, False and None.
    A stored None looks like a miss, unless `get` is given a default."""

    def encode(self, value: Any) -> bytes:
        return json.dumps(value, separators=(",", ":")).encode("ascii")

    def decode(self, stored: bytes) -> Any:
        return json.loads(stored)


RAW: Codec[Text, bytes] = Raw()
"""Bytes as they are, without line ends: what clients do without a codec."""

BASE64: Codec[Text, bytes] = Base64()
"""Any bytes, line ends too, in a third more space."""

JSON: Codec[Any, Any] = Json()
"""Values of JSON. A stored None looks like a miss, unless `get` is given a default."""
