"""A server's place and a client's settings in one text."""
import urllib.parse
from typing import Any, Callable, Dict

_SETTINGS: Dict[str, Callable[[str], Any]] = {
    "connections": int,
    "connect_seconds": float,
    "reply_seconds": float,
    "wait_seconds": float,
}
"""What may stand behind the `?`, and how it is read."""


def arguments_of(url: str) -> Dict[str, Any]:
    """The arguments of a `Client` that a URL names: `bivrang://HOST:PORT`, of which either may be
    left out, or `bivrang:///PATH/OF/SOCKET`; behind a `?` its settings, joined by `&`. Raises
    ValueError."""
    try:
        parts = urllib.parse.urlsplit(url)
        port = parts.port
        told = urllib.parse.parse_qsl(parts.query, strict_parsing=bool(parts.query))
        arguments = {name: _SETTINGS[name](text) for name, text in told}
    except KeyError as name:
        known = ", ".join(_SETTINGS)
        raise ValueError(f"{url!r} has a setting {name}; there are {known}") from None
    except ValueError as error:
        raise ValueError(f"{url!r}: {error}") from None
    path = urllib.parse.unquote(parts.path) if parts.path != "/" else ""
    has_more = "@" in parts.netloc or parts.fragment or path and parts.netloc
    if not url.startswith("bivrang://") or has_more:
        raise ValueError(f"{url!r} is neither bivrang://HOST:PORT nor bivrang:///PATH")
    if path or parts.hostname:
        arguments["host"] = path or parts.hostname
    if port is not None:
        arguments["port"] = port
    return arguments


def arguments_of_place(text: str) -> Dict[str, Any]:
    """The arguments of a `Client` that a text names: a URL, `HOST:PORT`, `HOST`, `:PORT`,
    `[IPV6]:PORT`, or the path of a Unix socket, from `/` on. Raises ValueError."""
    if text.startswith("/"):
        return {"host": text}
    return arguments_of(text if "://" in text else f"bivrang://{text}")
