"""What a client of etcd calls: the JSON gateway of one member, each request once."""

from __future__ import annotations

import base64
import contextlib
import http.client
import json
from typing import Any

from processes import HOST

TIME_OUT = 0.15
INVALID_ARGUMENT = 3


class NotDone(Exception):
    """The call had no effect, for certain: nothing was sent, or etcd took the request no further because it has no right form."""


class NotKnown(Exception):
    """Whether and when the call takes effect is open."""


class Gateway:
    """A connection to one member. After a fault the next request makes a new one, so that no late answer is taken for another's."""

    def __init__(self, port: int, time_out: float = TIME_OUT) -> None:
        self._connection = http.client.HTTPConnection(HOST, port, timeout=time_out)

    def __enter__(self) -> Gateway:
        return self

    def __exit__(self, *fault: object) -> None:
        self._connection.close()

    def put(self, key: str, value: str) -> None:
        """Writes a value to a key."""
        self._call("put", {"key": _coded(key), "value": _coded(value)})

    def compare_and_set(self, key: str, expected: str | None, value: str) -> bool:
        """Writes a value if the key holds what is expected, or nothing where that is None; gives whether it wrote."""
        compared = {"target": "VERSION", "version": 0} if expected is None else {"target": "VALUE", "value": _coded(expected)}
        written = {"request_put": {"key": _coded(key), "value": _coded(value)}}
        answer = self._call("txn", {"compare": [{"key": _coded(key), "result": "EQUAL", **compared}], "success": [written]})
        return bool(answer.get("succeeded", False))

    def delete(self, key: str) -> int:
        """Deletes a key; gives how many keys that deleted."""
        return int(self._call("deleterange", {"key": _coded(key)}).get("deleted", 0))

    def get(self, key: str, is_serializable: bool) -> str | None:
        """Reads a key; none where it holds nothing. A serializable read is answered by the member alone, from what it has."""
        found = self._call("range", {"key": _coded(key), "serializable": is_serializable}).get("kvs")
        return base64.b64decode(found[0]["value"]).decode() if found else None

    def _call(self, word: str, request: dict[str, Any]) -> dict[str, Any]:
        """Makes a request. Raises NotDone or NotKnown."""
        try:
            if self._connection.sock is None:
                self._connection.connect()
        except OSError as fault:
            raise NotDone(f"not sent: {fault}") from fault
        try:
            self._connection.request("POST", f"/v3/kv/{word}", json.dumps(request), {"Content-Type": "application/json"})
            with self._connection.getresponse() as response:
                status, text = response.status, response.read()
        except (OSError, http.client.HTTPException) as fault:
            self._connection.close()
            raise NotKnown(repr(fault)) from fault
        return _answer_of(status, text)


def _coded(text: str) -> str:
    """A text as the gateway takes keys and values."""
    return base64.b64encode(text.encode()).decode()


def _answer_of(status: int, text: bytes) -> dict[str, Any]:
    """What a response answers. Raises NotDone where a member says that the request has no right form, and NotKnown for other faults."""
    answer: dict[str, Any] = {}
    with contextlib.suppress(ValueError):
        answer = json.loads(text)
    if status == http.client.OK and answer:
        return answer
    is_certain = status == http.client.BAD_REQUEST and answer.get("code") == INVALID_ARGUMENT
    raise (NotDone if is_certain else NotKnown)(f"{status} {text.decode(errors='replace')}")
