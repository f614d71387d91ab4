"""Which requests a page's server answers: those of its own page only.

A page of another site can send requests to a server on loopback. Three checks keep it out:

- The name in Host must be one of this server, so a foreign name that was made to lead here is refused.
- Origin, if a browser sends one, must be this server; a WebSocket needs one.
- A server that isn't bound to loopback is reached only below a secret path.
"""

import hmac
import ipaddress
import secrets
import socket
from collections.abc import Mapping
from dataclasses import dataclass
from urllib.parse import urlsplit

LOOPBACK = "127.0.0.1"
TOKEN_BYTES = 16
POLICY = (
    "default-src 'none'; script-src 'self'; style-src 'self' 'unsafe-inline'; img-src 'self' data: blob:;"
    " connect-src 'self' {socket}; base-uri 'none'; form-action 'none'; frame-ancestors 'none'"
)


def is_loopback(address: str) -> bool:
    """Whether an address can be reached only from this machine."""
    try:
        return ipaddress.ip_address(address).is_loopback
    except ValueError:
        return address == "localhost"


def is_any(address: str) -> bool:
    """Whether an address stands for all of this machine."""
    return address in ("", "0.0.0.0", "::")


def is_literal(host: str) -> bool:
    """Whether a host is a number, which no name server has changed."""
    try:
        ipaddress.ip_address(host)
    except ValueError:
        return False
    return True


def bracketed(host: str) -> str:
    """Returns a host as an address of the web has it: IPv6 in brackets."""
    return f"[{host}]" if ":" in host else host


@dataclass(frozen=True)
class Door:
    """The address of a server, and the secret path below which it answers, empty on loopback."""

    address: str
    port: int
    token: str

    @classmethod
    def of(cls, address: str, port: int) -> "Door":
        """Returns the door of a server, with a new secret if others can reach it."""
        return cls(address, port, "" if is_loopback(address) else secrets.token_urlsafe(TOKEN_BYTES))

    @property
    def url(self) -> str:
        """Returns the address of the page."""
        host = socket.gethostname() if is_any(self.address) else self.address
        return f"http://{bracketed(host)}:{self.port}/" + (f"{self.token}/" if self.token else "")

    def is_own_host(self, host: str) -> bool:
        """Whether Host names this server."""
        try:
            parts = urlsplit(f"//{host}")
            name, port = parts.hostname or "", parts.port
        except ValueError:
            return False
        if port != self.port or parts.username is not None or parts.path:
            return False
        if is_any(self.address):
            return is_literal(name) or name in {"localhost", socket.gethostname().lower(), socket.getfqdn().lower()}
        own = {self.address.lower()} | ({"localhost"} if is_loopback(self.address) else set())
        return name in own

    def is_own_origin(self, headers: Mapping[str, str], is_needed: bool) -> bool:
        """Whether a request comes from this server's page, or from no page unless that is needed."""
        origin = headers.get("Origin")
        if origin is None:
            return not is_needed and headers.get("Sec-Fetch-Site", "none") in ("none", "same-origin")
        return origin == f"http://{headers.get('Host', '')}"

    def is_token(self, token: str) -> bool:
        """Whether a path begins with the secret."""
        return hmac.compare_digest(token.encode(), self.token.encode())

    def policy(self, host: str) -> str:
        """Returns the page's Content-Security-Policy, which lets it reach only this server."""
        return POLICY.format(socket=f"ws://{host}")
