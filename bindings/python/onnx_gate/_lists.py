"""Operator lists in document 01's format."""

from collections.abc import Iterable

from ._values import Bytes, copied, whole

_LONGEST_DOMAIN = 0xFFFF - 8
_HIGHEST = 2**32 - 1


def operators(entries: Iterable[tuple[str | Bytes, int, int]]) -> bytes:
    """The operator list that allows (domain, lowest, highest) for each entry."""
    rest, met = bytearray(b"\x01"), set()
    for named, lowest, highest in entries:
        domain = _domain(named)
        lowest = whole(lowest, "the lowest version", 1, _HIGHEST)
        highest = whole(highest, "the highest version", lowest, _HIGHEST)
        if (domain or b"ai.onnx") in met:
            raise ValueError(f"{domain!r} stands twice (the empty domain is ai.onnx)")
        met.add(domain or b"ai.onnx")
        rest += (len(domain) + 8).to_bytes(2, "big") + domain + lowest.to_bytes(4, "big") + highest.to_bytes(4, "big")
    return len(rest).to_bytes(4, "big") + rest


def _domain(named: str | Bytes) -> bytes:
    domain = str.encode(named) if isinstance(named, str) else copied(named)
    if len(domain) > _LONGEST_DOMAIN:
        raise ValueError(f"a domain has {len(domain)} bytes, and may have {_LONGEST_DOMAIN}")
    return domain
